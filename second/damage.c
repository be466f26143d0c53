#include "damage.h"

#include <string.h>

#include "attempt.h"

void attempt_draw(struct attempt *a, struct wish wish)
{
    wish.most_nodes = a->most_nodes;
    if (wish.nodes == 0 && random_one_in(a->random, 2))
        wish.nodes = random_between(a->random, 1, a->most_nodes);
    draw_plan(a->random, &wish, &a->sketch);
    sketch_processes(&a->sketch, a->process_of, a->first);
}

void attempt_keep(struct attempt *a)
{
    sketch_picture(&a->sketch, &a->out->before);
    memset(&a->out->before_aim, 0, sizeof a->out->before_aim);
    a->out->before_aim.place_known = 1;
}

void attempt_start(struct attempt *a)
{
    struct wish wish = {0};
    attempt_draw(a, wish);
    attempt_keep(a);
}

int attempt_aim(struct attempt *a, uint32_t number, uint32_t place)
{
    a->out->after_aim.number = number;
    a->out->after_aim.place = place;
    a->out->after_aim.place_known = 1;
    return 1;
}

int attempt_finish(struct attempt *a, uint32_t number, uint32_t place)
{
    sketch_picture(&a->sketch, &a->out->after);
    return attempt_aim(a, number, place);
}

uint32_t attempt_below(struct attempt *a, uint32_t end)
{
    return random_below(a->random, end);
}

static const struct {
    uint32_t ways;
    int (*attempt)(struct attempt *);
} damages[17] = {
    {0, 0},         {2, damage_1},  {4, damage_2},  {10, damage_3},
    {8, damage_4},  {6, damage_5},  {3, damage_6},  {4, damage_7},
    {9, damage_8},  {4, damage_9},  {2, damage_10}, {2, damage_11},
    {5, damage_12}, {3, damage_13}, {3, damage_14}, {4, damage_15},
    {2, damage_16}};

uint32_t damage_ways(uint32_t number)
{
    return damages[number].ways;
}

void damage_plan(struct random *random, uint32_t number, uint32_t way,
                 uint32_t most_nodes, struct damaged *damaged)
{
    struct attempt attempt;
    attempt.random = random;
    attempt.way = way;
    attempt.most_nodes = most_nodes;
    attempt.out = damaged;
    while (!damages[number].attempt(&attempt))
        continue;
}

/* Small numbers mostly, large ones now and then. */
static uint32_t odd_number(struct random *random, uint32_t near)
{
    return random_one_in(random, 12) ? random_below(random, 65536)
                                     : random_below(random, near + 1);
}

/* A sketch whose tables hold anything. */
static void random_tables(struct random *random, struct sketch *sketch)
{
    memset(sketch, 0, sizeof *sketch);
    sketch->nodes = random_between(random, 1, 6);
    sketch->processes = random_between(random, 1, 3);
    sketch->edges = random_between(random, 1, 9);
    sketch->counters = random_between(random, 1, 3);
    sketch->modulus = random_between(random, 1, 20);
    for (uint32_t i = 0; i < 8; i++) {
        sketch->length[i] = odd_number(random, sketch->nodes);
        sketch->order[i] = i;
        if (random_one_in(random, 8))
            sketch->order[i] = odd_number(random, sketch->nodes);
        sketch->counter[i] = odd_number(random, sketch->counters - 1);
        sketch->increment[i] = odd_number(random, 2);
    }
    if (!random_one_in(random, 4) && sketch->nodes >= sketch->processes) {
        for (uint32_t p = 1; p < sketch->processes; p++)
            sketch->length[p] = 1;
        sketch->length[0] = sketch->nodes - sketch->processes + 1;
    }
    for (uint32_t i = 0; i < sketch->edges; i++) {
        sketch->edge[i].source = i / 2;
        sketch->edge[i].target = odd_number(random, sketch->nodes - 1);
        sketch->edge[i].tokens = odd_number(random, 2);
    }
}

/* Some bytes overwritten, mostly behind the header, mostly small ones. */
static void scatter_bytes(struct random *random, struct picture *picture)
{
    for (uint32_t i = random_between(random, 1, 3); i > 0; i--) {
        uint32_t low = random_one_in(random, 4) ? 0 : 36;
        uint32_t at =
            random_between(random, low, (uint32_t)picture->length - 1);
        picture->bytes[at] = (uint8_t)random_below(
            random, random_one_in(random, 3) ? 256 : 8);
    }
}

/* An image with one line of the table broken on purpose, 5 or above. */
static void damaged_picture(struct random *random, uint32_t most_nodes,
                            struct picture *picture)
{
    static struct damaged damaged;
    uint32_t number = random_between(random, 5, 16);
    uint32_t way = random_below(random, damage_ways(number));
    damage_plan(random, number, way, most_nodes, &damaged);
    *picture = damaged.after;
}

void random_picture(struct random *random, uint32_t most_nodes,
                    struct picture *picture)
{
    struct sketch sketch;
    struct wish wish = {0};
    uint32_t style = random_below(random, 4);
    wish.most_nodes = most_nodes;
    if (style == 0) {
        picture->length = random_below(random, 120);
        for (size_t i = 0; i < picture->length; i++)
            picture->bytes[i] = (uint8_t)random_below(random, 256);
    } else if (style == 1) {
        random_tables(random, &sketch);
        sketch_picture(&sketch, picture);
    } else if (style == 2) {
        draw_plan(random, &wish, &sketch);
        sketch_picture(&sketch, picture);
        scatter_bytes(random, picture);
    } else {
        damaged_picture(random, most_nodes, picture);
        scatter_bytes(random, picture);
    }
}
