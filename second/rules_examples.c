/* The worked examples of document 000 that 01 can express. */
#include <string.h>

#include "check.h"
#include "hand.h"

/* Accepted at its least modulus, refused with 16 one Q below. */
static void expect_least(const char *what, struct sketch *s,
                         uint32_t round_sum, uint32_t least)
{
    s->modulus = least;
    expect_accepted(what, s, round_sum, least);
    s->modulus = least - round_sum;
    check(hand_read(s).number == 16, what, hand_read(s).number);
    s->modulus = least;
}

/* Starts a plan of so many processes of equal length, nodes in order. */
static void start_processes(struct sketch *s, uint32_t processes,
                            uint32_t length)
{
    memset(s, 0, sizeof *s);
    s->processes = processes;
    s->nodes = processes * length;
    for (uint32_t p = 0; p < processes; p++)
        s->length[p] = length;
    for (uint32_t node = 0; node < s->nodes; node++) {
        uint32_t last = (node + 1) % length == 0;
        s->order[node] = node;
        sketch_add_edge(s, node, last ? node + 1 - length : node + 1, last);
    }
}

/* 3.4: producer and consumer with B buffers need N > B. */
static void producer_consumer(void)
{
    struct sketch s;
    hand_plan_p(&s);
    for (uint32_t buffers = 1; buffers <= 1000; buffers++) {
        s.edge[4].tokens = buffers;
        s.modulus = buffers + 1;
        if (buffers <= 20 || buffers % 199 == 0 || buffers == 1000)
            expect_least("producer and consumer", &s, 1, buffers + 1);
    }
}

/* 2, graph (5): one producer, two consumers, three buffers. */
static void two_consumers(void)
{
    struct sketch s;
    hand_plan(&s, "0 1|2 3|4 5",
              "0-1:0 1-0:1 1-2:0 1-4:0 2-3:0 3-0:3 3-2:1 4-5:0 5-0:3 5-4:1",
              "0 0 1 1 2 2", "0 1 0 1 0 1", 4);
    expect_least("one producer, two consumers", &s, 1, 4);
}

/* 2, graph (6): two producers with pools of three and two buffers. */
static void two_producers(void)
{
    struct sketch s;
    hand_plan(&s, "0 1|2 3|4 5",
              "0-1:0 1-0:1 1-4:0 2-3:0 3-2:1 3-4:0 4-5:0 5-0:3 5-2:2 5-4:1",
              "0 0 1 1 2 2", "0 1 0 1 0 1", 4);
    expect_least("two producers, one consumer", &s, 1, 4);
}

/* 3.5, Barrier1: first nodes signal every other head's second node. */
static void barrier_each(struct sketch *s, uint32_t heads)
{
    start_processes(s, heads, 2);
    s->counters = heads;
    for (uint32_t a = 0; a < heads; a++) {
        s->counter[2 * a] = s->counter[2 * a + 1] = a;
        s->increment[2 * a] = 1;
        for (uint32_t b = 0; b < heads; b++)
            if (a != b)
                sketch_add_edge(s, 2 * a, 2 * b + 1, 0);
    }
}

/* 3.5, Barrier2: every head reports to the middle node of head 0. */
static void barrier_middle(struct sketch *s, uint32_t heads)
{
    memset(s, 0, sizeof *s);
    s->processes = s->counters = heads;
    s->nodes = 2 * heads + 1;
    for (uint32_t node = 0; node < s->nodes; node++)
        s->order[node] = node;
    s->length[0] = 3;
    sketch_add_edge(s, 0, 1, 0);
    sketch_add_edge(s, 1, 2, 0);
    sketch_add_edge(s, 2, 0, 1);
    s->increment[1] = 1;
    for (uint32_t h = 1; h < heads; h++) {
        s->length[h] = 2;
        s->counter[2 * h + 1] = s->counter[2 * h + 2] = h;
        s->increment[2 * h + 1] = 1;
        sketch_add_edge(s, 2 * h + 1, 2 * h + 2, 0);
        sketch_add_edge(s, 2 * h + 2, 2 * h + 1, 1);
        sketch_add_edge(s, 2 * h + 1, 1, 0);
        sketch_add_edge(s, 1, 2 * h + 2, 0);
    }
}

/* 3.5, Barrier3: (7) unrolled once, two counters a head. */
static void barrier_unrolled(struct sketch *s, uint32_t heads)
{
    start_processes(s, heads, 4);
    s->counters = 2 * heads;
    for (uint32_t a = 0; a < heads; a++) {
        s->counter[4 * a] = s->counter[4 * a + 1] = 2 * a;
        s->counter[4 * a + 2] = s->counter[4 * a + 3] = 2 * a + 1;
        s->increment[4 * a] = s->increment[4 * a + 2] = 1;
        for (uint32_t b = 0; b < heads; b++)
            if (a != b) {
                sketch_add_edge(s, 4 * a, 4 * b + 1, 0);
                sketch_add_edge(s, 4 * a + 2, 4 * b + 3, 0);
            }
    }
}

/* The three barriers for 2 to 15 heads: least 3, 2 and 2. */
static void barriers(void)
{
    struct sketch s;
    for (uint32_t heads = 2; heads <= 15; heads++) {
        barrier_each(&s, heads);
        expect_least("barrier by each head", &s, 1, 3);
        barrier_middle(&s, heads);
        expect_least("barrier by a middle head", &s, 1, 2);
        barrier_unrolled(&s, heads);
        expect_least("barrier unrolled", &s, 1, 2);
        check(s.edges == 4 * heads + 2 * heads * (heads - 1), "its edges", 0);
    }
}

/* 3.5, figure 10: a with b and c with d, then a with c and b with d; three
   nodes a process, the first two signal. */
static void composite_graph(struct sketch *s)
{
    static const uint32_t partner[2][4] = {{1, 0, 3, 2}, {2, 3, 0, 1}};
    start_processes(s, 4, 3);
    for (uint32_t stage = 0; stage < 2; stage++)
        for (uint32_t p = 0; p < 4; p++)
            sketch_add_edge(s, 3 * p + stage, 3 * partner[stage][p] + stage + 1,
                            0);
}

/* One counter a process: Q 2, least 6; one a signalling node: Q 1, least 3. */
static void composite_barrier(void)
{
    struct sketch s;
    composite_graph(&s);
    s.counters = 4;
    for (uint32_t node = 0; node < 12; node++) {
        s.counter[node] = node / 3;
        s.increment[node] = node % 3 < 2;
    }
    expect_least("composite, one counter a process", &s, 2, 6);
    s.counters = 8;
    for (uint32_t node = 0; node < 12; node++)
        s.counter[node] = 2 * (node / 3) + (node % 3 == 1);
    expect_least("composite, one counter a signal", &s, 1, 3);
}

void rules_examples(void)
{
    producer_consumer();
    two_consumers();
    two_producers();
    barriers();
    composite_barrier();
}
