/* Writes a plan image from a readable text: standard input to standard output.

     # the rest of a line behind a # is left out
     modulus 4
     process 0: 0 1
     node 0 counter 0 increment 0
     edge 0 1 tokens 0

   Processes and nodes stand in the order of their numbers, edges in the order
   they get in the image. Only the text is checked here. Whether the plan is
   any good is the plan check's to say, so a wrong plan has an image too. */
#include <ctype.h>
#include <stdint.h>
#include <stdio.h>
#include <stdlib.h>
#include <string.h>

#include "tamsklor.h"

enum { LONGEST_LINE = 512 };

static const unsigned long most_16_bits = 65535, most_32_bits = 4294967295;

/* The plan as the text gives it. */
static struct {
    unsigned long modulus;
    unsigned long processes, nodes, ordered, edges, counters;
    unsigned long length[TAMSKLOR_PROCESSES];
    unsigned long order[TAMSKLOR_NODES];
    unsigned long counter[TAMSKLOR_NODES], increment[TAMSKLOR_NODES];
    unsigned long source[TAMSKLOR_EDGES], destination[TAMSKLOR_EDGES];
    unsigned long tokens[TAMSKLOR_EDGES];
} plan;

static unsigned long line_number;

/* Ends with what is wrong in the present line. */
static void stop(const char *what)
{
    fprintf(stderr, "plan_text: line %lu: %s\n", line_number, what);
    exit(1);
}

/* Moves behind blanks. */
static void skip_blanks(const char **text)
{
    while (isspace((unsigned char)**text))
        ++*text;
}

/* The next number, at most `most`; moves behind it. */
static unsigned long number(const char **text, unsigned long most)
{
    unsigned long value = 0;
    skip_blanks(text);
    if (!isdigit((unsigned char)**text))
        stop("a number is missing");
    for (; isdigit((unsigned char)**text); ++*text) {
        unsigned long digit = (unsigned long)(**text - '0');
        if (value > (most - digit) / 10)
            stop("a number is too large for the image");
        value = value * 10 + digit;
    }
    return value;
}

/* Moves behind a word if it comes next. */
static int is_next(const char **text, const char *word)
{
    size_t length = strlen(word);
    skip_blanks(text);
    if (strncmp(*text, word, length) != 0)
        return 0;
    *text += length;
    return 1;
}

/* The number behind a word that has to come next. */
static unsigned long number_of(const char **text, const char *word)
{
    if (!is_next(text, word))
        stop("a word is missing or unknown");
    return number(text, most_16_bits);
}

/* The number of a process or node: the next one, and there is room for it. */
static void expect_next(const char **text, unsigned long next,
                        unsigned long most)
{
    if (next == most)
        stop("there are too many of them");
    if (number(text, most_16_bits) != next)
        stop("it does not have the next number");
}

/* "process 0: 0 1": its nodes in firing order. */
static void take_process(const char **text)
{
    unsigned long process = plan.processes;
    expect_next(text, process, TAMSKLOR_PROCESSES);
    if (!is_next(text, ":"))
        stop("a : is missing");
    for (skip_blanks(text); **text != '\0'; skip_blanks(text)) {
        if (plan.ordered == TAMSKLOR_NODES)
            stop("there are too many of them");
        plan.order[plan.ordered++] = number(text, most_16_bits);
        plan.length[process]++;
    }
    plan.processes++;
}

/* "node 0 counter 0 increment 1". */
static void take_node(const char **text)
{
    unsigned long node = plan.nodes;
    expect_next(text, node, TAMSKLOR_NODES);
    plan.counter[node] = number_of(text, "counter");
    plan.increment[node] = number_of(text, "increment");
    if (plan.counter[node] >= plan.counters)
        plan.counters = plan.counter[node] + 1;
    plan.nodes++;
}

/* "edge 0 1 tokens 0". */
static void take_edge(const char **text)
{
    unsigned long edge = plan.edges;
    if (edge == TAMSKLOR_EDGES)
        stop("there are too many of them");
    plan.source[edge] = number(text, most_16_bits);
    plan.destination[edge] = number(text, most_16_bits);
    plan.tokens[edge] = number_of(text, "tokens");
    plan.edges++;
}

/* One line of the text. */
static void take_line(const char *text)
{
    if (is_next(&text, "modulus"))
        plan.modulus = number(&text, most_32_bits);
    else if (is_next(&text, "process"))
        take_process(&text);
    else if (is_next(&text, "node"))
        take_node(&text);
    else if (is_next(&text, "edge"))
        take_edge(&text);
    skip_blanks(&text);
    if (*text != '\0')
        stop("a word is missing or unknown");
}

/* The whole text. */
static void take_text(FILE *file)
{
    char line[LONGEST_LINE];
    while (fgets(line, sizeof line, file) != NULL) {
        line_number++;
        if (strchr(line, '\n') == NULL && !feof(file))
            stop("the line is too long");
        line[strcspn(line, "#")] = '\0';
        take_line(line);
    }
    if (ferror(file))
        stop("cannot read");
    if (plan.counters > most_16_bits)
        stop("there are too many counters");
}

/* Writes a number of two bytes, the low one first. */
static void put_16(unsigned long value)
{
    putchar((int)(value & 255));
    putchar((int)(value >> 8 & 255));
}

/* Writes a number of four bytes, the low ones first. */
static void put_32(unsigned long value)
{
    put_16(value & 65535);
    put_16(value >> 16);
}

/* The header; the tables follow it in their order without gaps. */
static void put_header(void)
{
    unsigned long lengths = TAMSKLOR_HEADER_BYTES;
    unsigned long order = lengths + 2 * plan.processes;
    unsigned long nodes = order + 2 * plan.nodes;
    unsigned long edges = nodes + 4 * plan.nodes;
    put_16(1);
    put_16(plan.nodes);
    put_16(plan.processes);
    put_16(plan.edges);
    put_16(plan.counters);
    put_16(0);
    put_32(plan.modulus);
    put_32(lengths);
    put_32(order);
    put_32(nodes);
    put_32(edges);
    put_32(edges + 6 * plan.edges);
}

/* The four tables. */
static void put_tables(void)
{
    for (unsigned long p = 0; p < plan.processes; p++)
        put_16(plan.length[p]);
    for (unsigned long i = 0; i < plan.nodes; i++)
        put_16(plan.order[i]);
    for (unsigned long node = 0; node < plan.nodes; node++) {
        put_16(plan.counter[node]);
        put_16(plan.increment[node]);
    }
    for (unsigned long edge = 0; edge < plan.edges; edge++) {
        put_16(plan.source[edge]);
        put_16(plan.destination[edge]);
        put_16(plan.tokens[edge]);
    }
}

int main(void)
{
    take_text(stdin);
    if (plan.ordered != plan.nodes)
        stop("the processes have more or fewer nodes than there are");
    put_header();
    put_tables();
    return fflush(stdout) == 0 ? 0 : 1;
}
