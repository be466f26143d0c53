/* The reader against 01's table put down as plain definitions, and against
   what the generator aimed at: every number on both sides of its bound. */
#include <stdio.h>
#include <string.h>

#include "check.h"
#include "damage.h"
#include "declared.h"
#include "draw.h"

static unsigned long inputs;
static unsigned long met[17];        /* answers by number; 0 is accepted */
static unsigned long beside[17];     /* good sides of this number's bound */
static unsigned long by_way[17][16]; /* ways in which it was broken */
static uint8_t place_met[17][600];   /* places it was given at */
static unsigned long at_nodes[65];   /* accepted plans by their nodes */

/* Compares one image's answers; gives the definitions' one. */
static struct declared_answer compare_image(const struct picture *picture)
{
    static struct second_plan expected_plan;
    struct declared_answer expected =
        declared_read(picture->bytes, picture->length, &expected_plan);
    struct second_reading got = second_read(picture->bytes, picture->length);
    check(got.number == expected.number, "number", inputs);
    check(got.place == expected.place, "place", inputs);
    check(got.round_sum == expected.round_sum, "Q", inputs);
    check(got.modulus == expected.modulus, "N", inputs);
    check(got.least == expected.least, "least modulus", inputs);
    check(memcmp(&got.plan, &expected_plan, sizeof expected_plan) == 0,
          "plan beside the answer", inputs);
    met[expected.number]++;
    place_met[expected.number][expected.place] = 1;
    if (expected.number == 0)
        at_nodes[expected_plan.nodes]++;
    inputs++;
    return expected;
}

/* Compares the definitions' answer with what the generator aimed at. */
static void compare_aim(struct declared_answer answer, struct aim aim)
{
    check(answer.number == aim.number, "number aimed at", inputs);
    if (aim.place_known)
        check(answer.place == aim.place, "place aimed at", inputs);
}

/* Both sides of one bound. */
static void try_damage(struct random *random, uint32_t number, uint32_t way,
                       uint32_t most_nodes)
{
    static struct damaged damaged;
    struct declared_answer before;
    damage_plan(random, number, way, most_nodes, &damaged);
    before = compare_image(&damaged.before);
    compare_aim(before, damaged.before_aim);
    beside[number] += before.number != number;
    compare_aim(compare_image(&damaged.after), damaged.after_aim);
    by_way[number][way]++;
}

/* Every way of every number, on small plans and on any; at least ten tries
   a round for each number. */
static void try_damages(struct random *random, unsigned long rounds)
{
    for (unsigned long round = 0; round < rounds; round++)
        for (uint32_t number = 1; number <= 16; number++)
            for (uint32_t i = 0; i < 10; i++)
                try_damage(random, number, i % damage_ways(number),
                           random_one_in(random, 2) ? 64 : 7);
}

/* Valid plans and whatever comes. */
static void try_others(struct random *random, unsigned long rounds)
{
    struct sketch sketch;
    struct picture picture;
    for (unsigned long round = 0; round < rounds; round++) {
        struct wish wish = {0};
        struct declared_answer answer;
        wish.most_nodes = round % 4 == 3 ? 64 : 7;
        draw_plan(random, &wish, &sketch);
        sketch_picture(&sketch, &picture);
        answer = compare_image(&picture);
        check(answer.number == 0, "valid plan accepted", inputs);
        check(answer.least == drawn_least(&sketch), "least drawn", inputs);
        for (uint32_t i = 0; i < 4; i++) {
            random_picture(random, round % 4 == 3 ? 64 : 7, &picture);
            compare_image(&picture);
        }
    }
}

/* How many different places a number was given at. */
static unsigned long places(uint32_t number)
{
    unsigned long count = 0;
    for (uint32_t place = 0; place < 600; place++)
        count += place_met[number][place];
    return count;
}

/* Prints the counts and holds them against their floors. */
static void show_counts(unsigned long rounds)
{
    unsigned long sizes = 0;
    for (uint32_t nodes = 1; nodes <= 64; nodes++)
        sizes += at_nodes[nodes] > 0;
    printf("inputs %lu, accepted %lu, of %lu different node counts\n", inputs,
           met[0], sizes);
    check_floor("accepted", met[0], 100 * rounds);
    check_floor("node counts of accepted plans", sizes, rounds < 10 ? 20 : 50);
    for (uint32_t number = 1; number <= 16; number++) {
        int at_places = number >= 5 && number != 15;
        printf("number %2u: met %lu, good side %lu, ways %u, places %lu\n",
               (unsigned)number, met[number], beside[number],
               (unsigned)damage_ways(number), places(number));
        check_floor("met", met[number], 10 * rounds);
        check_floor("good side", beside[number], 10 * rounds);
        check_floor("places", places(number),
                    !at_places ? 1 : rounds < 20 ? rounds : 20);
        for (uint32_t way = 0; way < damage_ways(number); way++)
            check_floor("way", by_way[number][way], rounds);
    }
}

int main(int arguments, char **argument)
{
    unsigned long seed = 1, rounds = 24;
    struct random random;
    check_arguments(arguments, argument, &seed, &rounds);
    random.state = seed;
    try_damages(&random, rounds);
    try_others(&random, 40 * rounds);
    show_counts(rounds);
    return check_end("test_declared");
}
