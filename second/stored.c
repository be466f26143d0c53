/* stored: the stream of cases that is stored beside the program `crosscheck`:
   01's plans and other cases by hand, then generated ones. The same bytes at
   each run; `stream` answers it. */
#include <stdio.h>
#include <string.h>

#include "cases.h"
#include "hand.h"

enum { GENERATED = 400, SEED = 20240229 };

static struct input_case stored;

/* Writes the case as it stands. */
static void write_case(void)
{
    unsigned char length[4];
    put_little(length, (uint32_t)stored.length, 4);
    fwrite(length, 1, 4, stdout);
    fwrite(stored.bytes, 1, stored.length, stdout);
}

/* Begins a case with a sketch's image. */
static void start(const struct sketch *sketch)
{
    struct picture picture;
    sketch_picture(sketch, &picture);
    memcpy(stored.bytes, picture.bytes, picture.length);
    stored.length = picture.length;
}

/* Begins a case with plan P's image. */
static void start_p(void)
{
    struct sketch s;
    hand_plan_p(&s);
    start(&s);
}

/* Writes a case that is a sketch's image alone. */
static void write_plan(const struct sketch *sketch)
{
    start(sketch);
    write_case();
}

/* Adds a call. */
static void add_call(uint32_t code, uint32_t process, uint32_t edge)
{
    unsigned char *at = stored.bytes + stored.length;
    put_little(at, code, 1);
    put_little(at + 1, process, 1);
    put_little(at + 2, edge, 2);
    stored.length += 4;
}

/* Fills the case up to a length with one byte. */
static void fill_to(size_t length, int byte)
{
    memset(stored.bytes + stored.length, byte, length - stored.length);
    stored.length = length;
}

/* The calls of 01's run of plan P. */
static void add_calls_of_p(void)
{
    add_call(0, 0, 0);
    add_call(1, 0, 4);
    add_call(2, 0, 0);
    add_call(0, 0, 0);
    add_call(2, 0, 0);
    add_call(0, 1, 0);
    add_call(1, 1, 2);
    add_call(1, 1, 2);
    add_call(2, 1, 0);
}

/* Rounds of a process that has one node with one edge to look at. */
static void add_rounds(uint32_t rounds, uint32_t process, uint32_t edge)
{
    for (uint32_t i = 0; i < rounds; i++) {
        add_call(0, process, 0);
        add_call(1, process, edge);
        add_call(2, process, 0);
    }
}

/* "P accepted. P with N 3. P without 3-0. P with 1-2 repeated." */
static void plan_p(void)
{
    struct sketch s;
    start_p();
    add_calls_of_p();
    write_case();
    hand_plan_p(&s);
    write_plan(&s);
    s.modulus = 3;
    write_plan(&s);
    hand_plan_p(&s);
    sketch_drop_edge(&s, 4);
    write_plan(&s);
    hand_plan(&s, "0 1|2 3", "0-1:0 1-0:1 1-2:0 1-2:0 2-3:0 3-0:3 3-2:1",
              "0 0 1 1", "0 1 0 1", 4);
    write_plan(&s);
}

/* "One node ...: accepted. Increment 0 there." */
static void one_node(void)
{
    struct sketch s;
    hand_plan(&s, "0", "0-0:1", "0", "1", 1);
    start(&s);
    for (int i = 0; i < 2; i++) {
        add_call(0, 0, 0);
        add_call(2, 0, 0);
    }
    write_case();
    s.increment[0] = 0;
    write_plan(&s);
}

/* "P with increments 0,2,0,2: N 7; N 6; N 8". The last is the plan of 01 that
   is not starred; 01's calls are made on it. */
static void plan_p_by_twos(void)
{
    struct sketch s;
    hand_plan_p(&s);
    s.increment[1] = s.increment[3] = 2;
    s.modulus = 7;
    write_plan(&s);
    s.modulus = 6;
    write_plan(&s);
    s.modulus = 8;
    write_plan(&s);
    start(&s);
    add_calls_of_p();
    write_case();
}

/* "P with an added edge 0-0:0", and with a token there. */
static void plan_p_self_loop(void)
{
    struct sketch s;
    hand_plan_p(&s);
    sketch_add_edge(&s, 0, 0, 0);
    write_plan(&s);
    s.edge[0].tokens = 1;
    write_plan(&s);
}

/* "Ring: ... N 3; N 4", run until its counters have gone round. */
static void ring(void)
{
    struct sketch s;
    hand_plan(&s, "0|1|2", "0-0:1 0-1:1 1-1:1 1-2:1 2-0:1 2-2:1", "0 1 2",
              "1 1 1", 3);
    write_plan(&s);
    s.modulus = 4;
    start(&s);
    for (int i = 0; i < 10; i++) {
        add_rounds(2, 0, 4);
        add_rounds(1, 1, 1);
        add_rounds(1, 2, 3);
    }
    write_case();
}

/* "P with all increments 1 and N 8: fresh, open 1, look 1,2 waits". */
static void plan_p_all_ones(void)
{
    struct sketch s;
    hand_plan_p(&s);
    s.increment[0] = s.increment[2] = 1;
    s.modulus = 8;
    start(&s);
    add_call(0, 1, 0);
    add_call(1, 1, 2);
    write_case();
    start(&s);
    add_calls_of_p();
    write_case();
}

/* Calls that are refused; the lower byte of an edge comes first. */
static void odd_calls(void)
{
    start_p();
    add_call(3, 200, 0);
    add_call(255, 0, 0);
    add_call(0, 64, 0);
    add_call(2, 255, 0);
    add_call(1, 1, 2);
    add_call(2, 1, 0);
    add_call(0, 1, 65535);
    add_call(0, 1, 0);
    add_call(2, 1, 0);
    add_call(1, 1, 2);
    add_call(1, 1, 0x0200);
    add_call(1, 1, 0x0202);
    write_case();
}

/* No byte, 35 bytes, and one to three bytes left over. */
static void short_and_cut(void)
{
    stored.length = 0;
    write_case();
    start_p();
    stored.length = 35;
    write_case();
    for (size_t rest = 1; rest <= 3; rest++) {
        start_p();
        add_call(0, 0, 0);
        fill_to(stored.length + rest, 0);
        write_case();
    }
}

/* "the whole input where T is missing, below 36 or beyond the input". */
static void total_field(void)
{
    static const uint32_t totals[] = {0, 35, 36, 99, 100, 101, 102, 65636};
    for (size_t i = 0; i < sizeof totals / sizeof totals[0]; i++) {
        start_p();
        fill_to(stored.length + 1, 0);
        put_little(stored.bytes + 32, totals[i], 4);
        write_case();
    }
}

/* Both sides of "at most 65,536 bytes". */
static void long_inputs(void)
{
    for (size_t length = 65536; length <= 65538; length++) {
        start_p();
        fill_to(length, 9);
        write_case();
    }
}

/* The generator's cases. */
static void generated(void)
{
    struct random random;
    random.state = SEED;
    for (unsigned long i = 0; i < GENERATED; i++) {
        draw_case(&random, i, &stored);
        write_case();
    }
}

int main(void)
{
    plan_p();
    one_node();
    plan_p_by_twos();
    plan_p_self_loop();
    ring();
    plan_p_all_ones();
    odd_calls();
    short_and_cut();
    total_field();
    long_inputs();
    generated();
    return fflush(stdout) == 0 && !ferror(stdout) ? 0 : 2;
}
