/* Every clause of 01's table, with places worked out by hand. */
#include <string.h>

#include "check.h"
#include "hand.h"

/* P's image with one number overwritten. */
static void expect_changed(const char *what, size_t at, uint32_t value,
                           size_t width, uint32_t number, uint32_t place)
{
    struct sketch s;
    struct picture picture;
    hand_plan_p(&s);
    sketch_picture(&s, &picture);
    put_little(picture.bytes + at, value, width);
    expect_bytes_refused(what, picture.bytes, picture.length, number, place);
}

/* 1 and 2. */
static void header_start(void)
{
    struct sketch s;
    struct picture picture;
    hand_plan_p(&s);
    sketch_picture(&s, &picture);
    for (size_t length = 0; length < 36; length++)
        expect_bytes_refused("short image", picture.bytes, length, 1, 0);
    expect_bytes_refused("just a header", picture.bytes, 36, 4, 0);
    expect_bytes_refused("no image at all", NULL, 0, 1, 0);
    expect_changed("format 0", 0, 0, 2, 2, 0);
    expect_changed("format 2", 0, 2, 2, 2, 0);
    expect_changed("format 257", 0, 257, 2, 2, 0);
    expect_changed("byte 10", 10, 1, 1, 2, 0);
    expect_changed("byte 11", 11, 128, 1, 2, 0);
}

/* 3: each count alone, with all else as in P. */
static void header_counts(void)
{
    static const size_t at[] = {2, 4, 6, 8};
    static const uint32_t top[] = {64, 64, 512, 64};
    for (size_t i = 0; i < 4; i++) {
        expect_changed("count 0", at[i], 0, 2, 3, 0);
        expect_changed("count above", at[i], top[i] + 1, 2, 3, 0);
        expect_changed("count 65,535", at[i], 65535, 2, 3, 0);
        if (at[i] != 8)
            expect_changed("count at its bound", at[i], top[i], 2, 4, 0);
    }
    expect_changed("64 counters", 8, 64, 2, 12, 2);
    expect_changed("N 0", 12, 0, 4, 3, 0);
    expect_changed("N above", 12, 2000000001, 4, 3, 0);
    expect_changed("N at the top", 12, UINT32_MAX, 4, 3, 0);
}

/* 3's good side: N 2,000,000,000. */
static void highest_modulus(void)
{
    struct sketch s;
    hand_plan_p(&s);
    s.modulus = 2000000000;
    expect_accepted("N 2,000,000,000", &s, 1, 4);
    s.modulus = 2000000001;
    expect_refused("N 2,000,000,001", &s, 3, 0);
}

/* 4: each field, one off and 65,536 off, and the image's length. */
static void header_sizes(void)
{
    static const uint32_t right[] = {36, 40, 48, 64, 100};
    struct sketch s;
    struct picture picture;
    for (size_t i = 0; i < 5; i++) {
        expect_changed("offset less", 16 + 4 * i, right[i] - 1, 4, 4, 0);
        expect_changed("offset more", 16 + 4 * i, right[i] + 1, 4, 4, 0);
        expect_changed("offset far", 16 + 4 * i, right[i] + 65536, 4, 4, 0);
    }
    hand_plan_p(&s);
    sketch_picture(&s, &picture);
    picture.bytes[100] = 0;
    expect_bytes_refused("one byte less", picture.bytes, 99, 4, 0);
    expect_bytes_refused("one byte more", picture.bytes, 101, 4, 0);
}

/* 5: lowest length 0; else the number of processes. */
static void lengths(void)
{
    struct sketch s;
    expect_changed("lengths 0,4", 36, 0x00040000, 4, 5, 0);
    expect_changed("lengths 4,0", 36, 4, 4, 5, 1);
    expect_changed("lengths 5,0", 36, 5, 4, 5, 1);
    expect_changed("lengths 0,0", 36, 0, 4, 5, 0);
    expect_changed("lengths 2,1", 36, 0x00010002, 4, 5, 2);
    expect_changed("lengths 2,3", 36, 0x00030002, 4, 5, 2);
    expect_changed("lengths 65535,5", 36, 0x0005FFFF, 4, 5, 2);
    hand_plan(&s, "0|", "0-0:1", "0", "1", 1);
    expect_refused("more processes than nodes, 1,0", &s, 5, 1);
    s.length[1] = 1;
    expect_refused("more processes than nodes, 1,1", &s, 5, 2);
}

/* 6 and 7. */
static void order_and_nodes(void)
{
    expect_changed("order entry 4", 44, 4, 2, 6, 2);
    expect_changed("order entry 65,535", 40, 65535, 2, 6, 0);
    expect_changed("node seen before", 46, 0, 2, 6, 3);
    expect_changed("node seen next", 40, 1, 2, 6, 1);
    expect_changed("counter 2 of 2", 48 + 4 * 1, 2, 2, 7, 1);
    expect_changed("increment 256", 48 + 4 * 3 + 2, 256, 2, 7, 3);
    expect_changed("increment 255", 48 + 4 * 3 + 2, 255, 2, 12, 1);
}

/* 8: "The comparison is with the entry directly before, on the raw numbers". */
static void edges(void)
{
    struct sketch s;
    expect_changed("source 4", 64 + 6 * 5, 4, 2, 8, 5);
    expect_changed("source 4 early", 64 + 6 * 1, 4, 2, 8, 1);
    expect_changed("target 4", 64 + 6 * 2 + 2, 4, 2, 8, 2);
    expect_changed("1,001 tokens", 64 + 6 * 4 + 4, 1001, 2, 8, 4);
    expect_changed("1,000 tokens", 64 + 6 * 4 + 4, 1000, 2, 16, 2);
    expect_changed("target of the one before", 64 + 6 * 5 + 2, 0, 2, 8, 5);
    hand_plan(&s, "0 1|2 3", "1-0:1 0-1:0 1-2:0 2-3:0 3-0:3 3-2:1", "0 0 1 1",
              "0 1 0 1", 4);
    expect_refused("first two edges changed over", &s, 8, 1);
    hand_plan_p(&s);
    s.edge[4].tokens = 1000;
    s.modulus = 1001;
    expect_accepted("1,000 tokens with room", &s, 1, 1001);
}

/* 9: the place is in the whole firing order. */
static void process_edges(void)
{
    struct sketch s;
    hand_plan_p(&s);
    sketch_drop_edge(&s, 3);
    expect_refused("2-3 missing", &s, 9, 2);
    expect_changed("3-2 with 2 tokens", 64 + 6 * 5 + 4, 2, 2, 9, 3);
    expect_changed("3-2 without a token", 64 + 6 * 5 + 4, 0, 2, 9, 3);
    expect_changed("0-1 with a token", 64 + 4, 1, 2, 9, 0);
    hand_plan(&s, "1|0", "0-0:1 1-1:0", "0 1", "1 1", 1);
    expect_refused("1-1 without a token, first in order", &s, 9, 0);
    hand_plan(&s, "1|0", "0-0:2 1-1:1", "0 1", "1 1", 1);
    expect_refused("0-0 with 2 tokens, second in order", &s, 9, 1);
}

/* 10, 11 and 12: C1 for all nodes, C2, C3 with unused counters. */
static void counters(void)
{
    struct sketch s;
    hand_plan_p(&s);
    s.counter[2] = 0;
    expect_refused("C1, by a node with increment 0", &s, 10, 0);
    hand_plan_p(&s);
    s.counter[1] = 1;
    expect_refused("C1, by a node that counts", &s, 10, 1);
    hand_plan_p(&s);
    s.increment[1] = 0;
    expect_refused("C2, edge without tokens", &s, 11, 1);
    hand_plan_p(&s);
    s.increment[3] = 0;
    expect_refused("C2, edge with tokens", &s, 11, 3);
    hand_plan_p(&s);
    s.increment[3] = 2;
    expect_refused("C3, counter 1 differs", &s, 12, 1);
    hand_plan_p(&s);
    s.counters = 3;
    expect_refused("C3, last counter of no node", &s, 12, 2);
    for (uint32_t node = 0; node < 4; node++)
        s.counter[node]++;
    expect_refused("C3, counter 0 of no node", &s, 12, 0);
    hand_plan_p(&s);
    s.counter[1] = s.counter[3] = 2;
    s.counters = 4;
    expect_refused("C1 before C3", &s, 10, 2);
}

/* 13: the lowest node on any cycle without tokens. */
static void empty_cycles(void)
{
    struct sketch s;
    hand_plan(&s, "0 1 2 3", "0-1:0 1-2:0 2-1:0 2-3:0 3-0:1", "0 0 0 0",
              "1 0 0 0", 1);
    expect_refused("chord 2-1:0", &s, 13, 1);
    s.edge[2].tokens = 1;
    expect_accepted("chord 2-1:1", &s, 1, 1);
    hand_plan(&s, "3 2 1 0", "0-3:1 1-0:0 1-1:0 2-1:0 2-2:0 3-2:0", "0 0 0 0",
              "1 0 0 0", 1);
    expect_refused("two loops, lowest of both", &s, 13, 1);
    hand_plan_p(&s);
    s.edge[4].tokens = 0;
    expect_refused("all of P on an empty cycle", &s, 13, 0);
    hand_plan(&s, "0|2 1|3", "0-0:1 1-2:1 1-3:0 2-1:0 3-2:0 3-3:1", "0 1 1 2",
              "2 1 1 2", 2);
    expect_refused("an empty cycle across processes", &s, 13, 1);
}

/* 14, 15 and 16 in their order. */
static void modulus(void)
{
    struct sketch s;
    hand_plan(&s, "0|1", "0-0:1 0-1:0 1-1:1", "0 1", "2 2", 1);
    expect_refused("no route back, and N no multiple", &s, 14, 1);
    hand_plan(&s, "0|1|2", "0-0:1 0-1:0 0-2:0 1-1:1 1-2:4 2-2:1", "0 1 2",
              "1 1 1", 9);
    expect_refused("three without a route back", &s, 14, 1);
    hand_plan(&s, "0|1", "0-0:1 0-1:0 1-0:2 1-1:1", "0 1", "2 2", 3);
    expect_refused("N no multiple and too small", &s, 15, 0);
    s.modulus = 1;
    expect_refused("N below Q", &s, 15, 0);
    s.modulus = 4;
    expect_refused("N at the bound", &s, 16, 1);
    s.modulus = 6;
    expect_accepted("N above the bound", &s, 2, 6);
    hand_plan(&s, "0|1|2", "0-0:1 0-1:0 1-0:1 1-1:1 1-2:0 2-1:9 2-2:1", "0 1 2",
              "1 1 1", 1);
    expect_refused("lowest edge, not the tightest", &s, 16, 1);
    s.modulus = 2;
    expect_refused("only the second pair", &s, 16, 4);
    s.modulus = 10;
    expect_accepted("both pairs", &s, 1, 10);
}

/* Q and the least modulus where nothing synchronises, and in parts. */
static void quiet_plans(void)
{
    struct sketch s;
    hand_plan(&s, "0|1", "0-0:1 1-1:1", "0 1", "7 7", 21);
    expect_accepted("two parts", &s, 7, 7);
    hand_plan(&s, "0 1", "0-0:4 0-1:0 1-0:1 1-1:1000", "0 0", "255 255", 510);
    expect_accepted("chords only", &s, 510, 510);
    hand_plan(&s, "0 1|2", "0-1:0 0-2:0 1-0:1 2-0:5 2-1:0 2-2:1", "0 0 1",
              "1 0 1", 2);
    expect_refused("0-2 by its emptiest route, not the shortest", &s, 16, 3);
    s.modulus = 6;
    expect_accepted("routes by process edges", &s, 1, 6);
}

void rules_clauses(void)
{
    header_start();
    header_counts();
    highest_modulus();
    header_sizes();
    lengths();
    order_and_nodes();
    edges();
    process_edges();
    counters();
    empty_cycles();
    modulus();
    quiet_plans();
}
