/* compare A B: two programs' answers to one stream, case by case; with
   --states in front, answers of `states`. Prints how often each number was
   met and how many cases differed; fails on a difference or where a number
   was met too rarely. */
#include <stdio.h>
#include <string.h>

enum { SHOWN = 10, LINE = 128 };

struct side {
    FILE *file;
    int has_line;
    char line[LINE];
};

static unsigned long cases, accepted, too_long, cut, differed;
static unsigned long plan_refused[17], call_refused[28];
static unsigned long opened, found, waited, fired, tokens_read;
static int of_states; /* the answers are those of `states` */

/* Goes on to the next line. */
static void advance(struct side *side)
{
    side->has_line = fgets(side->line, LINE, side->file) != NULL;
}

/* Whether a side stands at a case's first line or at its end. */
static int at_case(const struct side *side)
{
    return !side->has_line || strncmp(side->line, "case ", 5) == 0;
}

/* Counts a call's answer, a word and a number. */
static void count_call(const char *answer)
{
    unsigned value;
    char word[LINE];
    if (sscanf(answer, "%127s %u", word, &value) != 2)
        return;
    opened += strcmp(word, "opened") == 0;
    found += strcmp(word, "found") == 0;
    waited += strcmp(word, "wait") == 0;
    fired += strcmp(word, "fired") == 0;
    tokens_read += strcmp(word, "tokens") == 0;
    if (strcmp(word, "refused") == 0 && value < 28)
        call_refused[value]++;
}

/* Counts any line of a case. */
static void count_line(const char *line)
{
    unsigned number;
    if (of_states)
        count_call(line);
    else if (sscanf(line, "refused %u", &number) == 1 && number < 17)
        plan_refused[number]++;
    else if (strncmp(line, "plan ", 5) == 0)
        accepted++;
    else if (strcmp(line, "too long\n") == 0)
        too_long++;
    else if (strcmp(line, "cut\n") == 0)
        cut++;
    else if (strchr(line, ' ') != NULL)
        count_call(strchr(line, ' '));
}

/* Compares the lines of one case on both sides. */
static void compare_case(struct side *a, struct side *b)
{
    char name[LINE];
    int same = a->has_line && b->has_line && strcmp(a->line, b->line) == 0;
    strcpy(name, a->has_line ? a->line : b->line);
    advance(a);
    advance(b);
    while (!at_case(a) || !at_case(b)) {
        int equal =
            !at_case(a) && !at_case(b) && strcmp(a->line, b->line) == 0;
        if (!equal && same && differed < SHOWN)
            printf("  DIFFERS: %s    first:  %s    second: %s", name,
                   at_case(a) ? "(end)\n" : a->line,
                   at_case(b) ? "(end)\n" : b->line);
        same = same && equal;
        if (!at_case(a)) {
            count_line(a->line);
            advance(a);
        }
        if (!at_case(b))
            advance(b);
    }
    cases++;
    differed += !same;
}

/* Prints one count; whether it is below the floor. */
static int below_floor(const char *what, unsigned number, unsigned long count,
                       unsigned long floor)
{
    printf("%s %u: met %lu%s\n", what, number, count,
           count < floor ? "  TOO FEW" : "");
    return count < floor;
}

/* Prints the counts of plans; how many are below their floor. */
static int show_plans(unsigned long floor)
{
    int few = 0;
    printf("accepted %lu, too long %lu, cut %lu\n", accepted, too_long, cut);
    for (unsigned number = 1; number <= 16; number++)
        few += below_floor("plan refused", number, plan_refused[number], floor);
    few += accepted < cases / 5;
    few += too_long < cases / 10000;
    few += cut < floor;
    return few;
}

/* Prints the counts of calls; how many are below their floor. */
static int show_calls(unsigned long floor)
{
    int few = 0;
    printf("opened %lu, found %lu, wait %lu, fired %lu, tokens read %lu\n",
           opened, found, waited, fired, tokens_read);
    for (unsigned number = 20; number <= 27; number++)
        if (of_states || (number != 25 && number != 27))
            few += below_floor("call refused", number, call_refused[number],
                               floor);
    few += opened < cases / 2;
    few += found < cases / 4;
    few += waited < cases / 10;
    few += fired < cases / 2;
    few += of_states && tokens_read < cases / 4;
    return few;
}

/* Opens a file of answers and reads its first line. */
static int begin_side(struct side *side, const char *name)
{
    side->file = fopen(name, "r");
    if (side->file == NULL) {
        fprintf(stderr, "compare: cannot read %s\n", name);
        return 0;
    }
    advance(side);
    return 1;
}

int main(int arguments, char **argument)
{
    struct side a, b;
    int few = 0;
    of_states = arguments == 4 && strcmp(argument[1], "--states") == 0;
    if (arguments != 3 + of_states) {
        fprintf(stderr, "usage: compare [--states] FIRST SECOND\n");
        return 2;
    }
    if (!begin_side(&a, argument[1 + of_states]) ||
        !begin_side(&b, argument[2 + of_states]))
        return 2;
    while (a.has_line || b.has_line)
        compare_case(&a, &b);
    if (!of_states)
        few += show_plans(cases / 100);
    few += show_calls(cases / 100) + (cases == 0);
    printf("compare: %lu cases, %lu differed, %d counts below their floor\n",
           cases, differed, few);
    return differed == 0 && few == 0 ? 0 : 1;
}
