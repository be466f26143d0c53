#include "plans.h"

#include <string.h>

#include "draw.h"

/* One process that fires from the highest node down: each round of a row
   carries a route one node further, so there are as many sweeps as nodes. */
static void draw_slow(const struct shape *shape, struct random *random,
                      struct sketch *sketch)
{
    memset(sketch, 0, sizeof *sketch);
    sketch->nodes = shape->nodes;
    sketch->processes = sketch->counters = sketch->modulus = 1;
    sketch->length[0] = shape->nodes;
    sketch->increment[0] = 1;
    for (uint32_t i = 0; i < shape->nodes; i++) {
        uint32_t node = shape->nodes - 1 - i;
        sketch->order[i] = node;
        sketch_add_edge(sketch, node, node > 0 ? node - 1 : shape->nodes - 1,
                        node == 0);
    }
    while (sketch->edges < shape->edges) {
        uint32_t low = random_below(random, shape->nodes);
        uint32_t high = random_below(random, shape->nodes);
        if (low < high)
            sketch_add_edge(sketch, low, high,
                            random_between(random, 2, 1000));
    }
}

static void draw_mixed(const struct shape *shape, struct random *random,
                       struct sketch *sketch)
{
    struct wish wish = {0};
    wish.nodes = shape->nodes;
    wish.processes = shape->processes;
    wish.edges = shape->edges;
    wish.parts = shape->parts;
    wish.most_tokens = shape->most_tokens;
    do
        draw_plan(random, &wish, sketch);
    while (sketch->edges != shape->edges);
}

void draw_shape(const struct shape *shape, struct random *random,
                struct sketch *sketch)
{
    if (shape->slow)
        draw_slow(shape, random, sketch);
    else
        draw_mixed(shape, random, sketch);
}
