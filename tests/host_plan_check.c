/* tamsklor_plan_check, as the host in C calls it, against the second program:
   drawn images on both sides of every bound, cut ones, each byte of the header
   with each value, random bytes, and 01's own plans with 01's answers. */
#include <stddef.h>
#include <stdio.h>
#include <stdlib.h>
#include <string.h>

#include "check.h"
#include "damage.h"
#include "draw.h"
#include "guarded.h"
#include "hand.h"
#include "second.h"
#include "tamsklor.h"

enum {
    NUMBERS = 17,      /* 0 is accepted */
    PLACES = 600,      /* more than any table has */
    MOST_WAYS = 16,    /* in which one number's line is broken */
    PREFIXES = 41,     /* lengths 0 to 40 */
    RANDOM_BYTES = 4000
};

/* "a #[repr(C)] struct of three u32": three numbers without gaps. */
typedef char verdict_has_12_bytes[sizeof(TamsklorVerdict) == 12 ? 1 : -1];
typedef char number_is_first[offsetof(TamsklorVerdict, number) == 0 ? 1 : -1];
typedef char place_is_second[offsetof(TamsklorVerdict, place) == 4 ? 1 : -1];
typedef char least_is_third[offsetof(TamsklorVerdict, least) == 8 ? 1 : -1];

static unsigned long inputs, different_inputs;
static unsigned long met[NUMBERS];               /* answers by number */
static uint8_t place_met[NUMBERS][PLACES];       /* places it was given at */
static unsigned long beside[NUMBERS];            /* good sides of its bound */
static unsigned long by_way[NUMBERS][MOST_WAYS]; /* ways it was broken in */

/* Whether two verdicts are the same. */
static int same(TamsklorVerdict a, TamsklorVerdict b)
{
    return a.number == b.number && a.place == b.place && a.least == b.least;
}

/* The second program's answer as a verdict. */
static TamsklorVerdict second_verdict(const uint8_t *image, size_t length)
{
    struct second_reading reading = second_read(image, length);
    TamsklorVerdict verdict;
    verdict.number = reading.number;
    verdict.place = reading.place;
    verdict.least = reading.least;
    return verdict;
}

/* Counts an answer; a number or place beyond 01's is a difference. */
static void count(TamsklorVerdict verdict)
{
    int known = verdict.number < NUMBERS && verdict.place < PLACES;
    check(known, "number and place in range", inputs);
    if (!known)
        return;
    met[verdict.number]++;
    place_met[verdict.number][verdict.place] = 1;
}

/* A copy in memory of exactly this length. */
static uint8_t *exact_copy(const uint8_t *bytes, size_t length)
{
    uint8_t *copy = calloc(1, length);
    if (copy == NULL && length > 0) {
        perror("calloc");
        exit(2);
    }
    if (length > 0)
        memcpy(copy, bytes, length);
    return copy;
}

/* One image: the plan check in three places against the second program. */
static TamsklorVerdict compare(const uint8_t *bytes, size_t length)
{
    uint8_t *copy = exact_copy(bytes, length);
    TamsklorVerdict expected = second_verdict(copy, length);
    TamsklorVerdict got = tamsklor_plan_check(copy, length);
    int all_same = same(got, expected);
    check(all_same, "tamsklor_plan_check and the second program", inputs);
    check(length == 0 || memcmp(copy, bytes, length) == 0,
          "image as it was", inputs);
    check(
        same(got, tamsklor_plan_check(guarded_to_end(bytes, length), length)),
        "the same at the end of a page", inputs);
    check(same(got,
               tamsklor_plan_check(guarded_from_start(bytes, length), length)),
          "the same at the start of a page", inputs);
    different_inputs += !all_same;
    count(got);
    inputs++;
    free(copy);
    return got;
}

/* Compares an answer with what the generator aimed at. */
static void compare_aim(TamsklorVerdict got, struct aim aim)
{
    check(got.number == aim.number, "number aimed at", inputs - 1);
    if (aim.place_known)
        check(got.place == aim.place, "place aimed at", inputs - 1);
}

/* Both sides of one bound. */
static void try_damage(struct random *random, uint32_t number, uint32_t way,
                       uint32_t most_nodes)
{
    static struct damaged damaged;
    TamsklorVerdict before;
    damage_plan(random, number, way, most_nodes, &damaged);
    before = compare(damaged.before.bytes, damaged.before.length);
    compare_aim(before, damaged.before_aim);
    beside[number] += before.number != number;
    compare_aim(compare(damaged.after.bytes, damaged.after.length),
                damaged.after_aim);
    by_way[number][way]++;
}

/* Every way of every number; at least ten tries a round for each. */
static void try_damages(struct random *random, unsigned long rounds)
{
    for (unsigned long round = 0; round < rounds; round++)
        for (uint32_t number = 1; number <= 16; number++)
            for (uint32_t i = 0; i < 10; i++)
                try_damage(random, number, i % damage_ways(number),
                           random_one_in(random, 2) ? 64 : 7);
}

/* A valid plan, and images in which several numbers may apply. */
static void try_others(struct random *random, unsigned long rounds)
{
    static struct sketch sketch;
    static struct picture picture;
    for (unsigned long round = 0; round < rounds; round++) {
        struct wish wish = {0};
        TamsklorVerdict got;
        wish.most_nodes = round % 4 == 3 ? 64 : 7;
        draw_plan(random, &wish, &sketch);
        sketch_picture(&sketch, &picture);
        got = compare(picture.bytes, picture.length);
        check(got.number == 0 && got.least == drawn_least(&sketch),
              "valid plan with the least drawn", inputs - 1);
        for (uint32_t i = 0; i < 4; i++) {
            random_picture(random, wish.most_nodes, &picture);
            compare(picture.bytes, picture.length);
        }
    }
}

/* Random bytes of any length, half of them behind a header that passes 2. */
static void try_random_bytes(struct random *random, unsigned long rounds)
{
    static const uint8_t start[12] = {1, 0, 1, 0, 1, 0, 1, 0, 1, 0, 0, 0};
    static uint8_t bytes[RANDOM_BYTES];
    for (unsigned long round = 0; round < rounds; round++) {
        size_t length = random_below(random, RANDOM_BYTES);
        for (size_t i = 0; i < length; i++)
            bytes[i] = (uint8_t)random_below(random, 256);
        if (round % 2 == 1 && length >= sizeof start)
            memcpy(bytes, start, sizeof start);
        compare(bytes, length);
    }
}

/* Every prefix of length 0 to 40. */
static void try_prefixes(const struct picture *picture)
{
    for (size_t length = 0; length < PREFIXES; length++) {
        TamsklorVerdict got = compare(picture->bytes, length);
        check(got.number == (length < 36 ? 1 : 4) && got.place == 0,
              "a prefix is 1 or 4", inputs - 1);
    }
}

/* Each byte of the header set to each of its values. */
static void try_header_bytes(const struct picture *picture)
{
    static struct picture changed;
    for (size_t at = 0; at < 36; at++)
        for (uint32_t value = 0; value < 256; value++) {
            changed = *picture;
            changed.bytes[at] = (uint8_t)value;
            compare(changed.bytes, changed.length);
        }
}

/* Plans to cut and to change: P, one node, and one at the bounds of nodes and
   edges. */
static void try_headers(struct random *random)
{
    static struct sketch sketch;
    static struct picture picture;
    struct wish wish = {0};
    hand_plan_p(&sketch);
    sketch_picture(&sketch, &picture);
    try_prefixes(&picture);
    try_header_bytes(&picture);
    hand_plan(&sketch, "0", "0-0:1", "0", "1", 1);
    sketch_picture(&sketch, &picture);
    try_prefixes(&picture);
    try_header_bytes(&picture);
    wish.nodes = 64;
    wish.edges = 512;
    wish.parts = 1;
    draw_plan(random, &wish, &sketch);
    sketch_picture(&sketch, &picture);
    check(picture.length == TAMSKLOR_HEADER_BYTES + 2 * sketch.processes +
                                6 * TAMSKLOR_NODES + 6 * TAMSKLOR_EDGES,
          "a plan at the bounds", inputs);
    try_prefixes(&picture);
    try_header_bytes(&picture);
}

/* No bytes at all, with and without an address. */
static void try_empty(void)
{
    static const TamsklorVerdict cut = {TAMSKLOR_PLAN_HEADER_CUT, 0, 0};
    static const uint8_t byte = 1;
    check(same(tamsklor_plan_check(NULL, 0), cut), "NULL and 0 bytes", inputs);
    check(same(tamsklor_plan_check(&byte, 0), cut), "0 bytes", inputs);
}

/* A plan of 01 and the answer that 01 gives. */
static void expect(const struct sketch *sketch, uint32_t number,
                   uint32_t place, uint32_t least)
{
    static struct picture picture;
    TamsklorVerdict expected;
    expected.number = number;
    expected.place = place;
    expected.least = least;
    sketch_picture(sketch, &picture);
    check(same(compare(picture.bytes, picture.length), expected),
          "a plan of 01", inputs - 1);
}

/* P with increments for nodes 1 and 3, and N. */
static void plan_p_with(struct sketch *sketch, uint32_t increment,
                        uint32_t modulus)
{
    hand_plan_p(sketch);
    sketch->increment[1] = sketch->increment[3] = increment;
    sketch->modulus = modulus;
}

/* "Plans on each side of a bound": P and its neighbours. */
static void try_plan_p(struct sketch *sketch)
{
    plan_p_with(sketch, 1, 4);
    expect(sketch, TAMSKLOR_PLAN_ACCEPTED, 0, 4);
    plan_p_with(sketch, 1, 3);
    expect(sketch, TAMSKLOR_PLAN_MODULUS_TOO_SMALL, 2, 0);
    plan_p_with(sketch, 1, 4);
    sketch_drop_edge(sketch, 4);
    expect(sketch, TAMSKLOR_PLAN_NO_ROUTE_BACK, 2, 0);
    hand_plan(sketch, "0 1|2 3", "0-1:0 1-0:1 1-2:0 1-2:0 2-3:0 3-0:3 3-2:1",
              "0 0 1 1", "0 1 0 1", 4);
    expect(sketch, TAMSKLOR_PLAN_EDGE_WRONG, 3, 0);
    plan_p_with(sketch, 2, 7);
    expect(sketch, TAMSKLOR_PLAN_MODULUS_NO_MULTIPLE, 0, 0);
    plan_p_with(sketch, 2, 6);
    expect(sketch, TAMSKLOR_PLAN_MODULUS_TOO_SMALL, 2, 0);
    plan_p_with(sketch, 2, 8);
    expect(sketch, TAMSKLOR_PLAN_ACCEPTED, 0, 8);
    plan_p_with(sketch, 1, 4);
    sketch_add_edge(sketch, 0, 0, 0);
    expect(sketch, TAMSKLOR_PLAN_CYCLE_WITHOUT_TOKENS, 0, 0);
}

/* "Plans on each side of a bound": one node, and the ring. */
static void try_small_plans(struct sketch *sketch)
{
    static const char ring[] = "0-0:1 0-1:1 1-1:1 1-2:1 2-0:1 2-2:1";
    hand_plan(sketch, "0", "0-0:1", "0", "1", 1);
    expect(sketch, TAMSKLOR_PLAN_ACCEPTED, 0, 1);
    hand_plan(sketch, "0", "0-0:1", "0", "0", 1);
    expect(sketch, TAMSKLOR_PLAN_SUM_WRONG, 0, 0);
    hand_plan(sketch, "0|1|2", ring, "0 1 2", "1 1 1", 3);
    expect(sketch, TAMSKLOR_PLAN_MODULUS_TOO_SMALL, 1, 0);
    hand_plan(sketch, "0|1|2", ring, "0 1 2", "1 1 1", 4);
    expect(sketch, TAMSKLOR_PLAN_ACCEPTED, 0, 4);
}

/* How many different places a number was given at. */
static unsigned long places(uint32_t number)
{
    unsigned long found = 0;
    for (uint32_t place = 0; place < PLACES; place++)
        found += place_met[number][place];
    return found;
}

/* One number's counts, held against their floors. */
static void show_number(uint32_t number, unsigned long rounds)
{
    int at_places = number >= 5 && number != 15;
    unsigned long least_way = by_way[number][0];
    for (uint32_t way = 1; way < damage_ways(number); way++)
        if (by_way[number][way] < least_way)
            least_way = by_way[number][way];
    printf("number %2u: met %5lu, good side %4lu, in %2u ways of at least "
           "%3lu, at %3lu places\n",
           (unsigned)number, met[number], beside[number],
           (unsigned)damage_ways(number), least_way, places(number));
    check_floor("met", met[number], 10 * rounds);
    check_floor("good side", beside[number], 10 * rounds);
    check_floor("each way", least_way, rounds);
    check_floor("places", places(number), at_places ? 10 : 1);
}

/* Prints the counts and holds them against their floors. */
static void show_counts(unsigned long rounds)
{
    printf("inputs %lu, accepted %lu, differed %lu\n", inputs, met[0],
           different_inputs);
    check_floor("inputs", inputs, 20000 + 3 * (PREFIXES + 36 * 256));
    check_floor("accepted", met[0], 100 * rounds);
    for (uint32_t number = 1; number <= 16; number++)
        show_number(number, rounds);
}

int main(int arguments, char **argument)
{
    static struct sketch sketch;
    unsigned long seed = 1, rounds = 40;
    struct random random;
    check_arguments(arguments, argument, &seed, &rounds);
    random.state = seed;
    guarded_begin();
    check(guarded_works(), "reads past an edge are seen", 0);
    try_empty();
    try_plan_p(&sketch);
    try_small_plans(&sketch);
    try_damages(&random, rounds);
    try_others(&random, 40 * rounds);
    try_random_bytes(&random, 20 * rounds);
    try_headers(&random);
    show_counts(rounds);
    return check_end("host_plan_check");
}
