/* Draws valid plans of many shapes, reproducible from a seed. */
#ifndef DRAW_H
#define DRAW_H

#include "random.h"
#include "sketch.h"

enum counter_style {
    COUNTERS_ANY,
    COUNTERS_ONE_A_NODE,
    COUNTERS_ONE_A_PROCESS
};
enum modulus_style { MODULUS_ANY, MODULUS_LEAST, MODULUS_MORE, MODULUS_TOP };

/* What a drawn plan must have; 0 leaves it open. */
struct wish {
    uint32_t most_nodes; /* at most this many */
    uint32_t nodes;
    uint32_t processes;
    uint32_t edges;      /* as many as this, where they fit */
    uint32_t most_tokens;
    uint32_t sum;        /* Q, where it fits */
    uint32_t parts;
    enum counter_style counters;
    enum modulus_style modulus;
};

/* A plan that document 01 accepts. */
void draw_plan(struct random *random, const struct wish *wish,
               struct sketch *sketch);

/* Q times (fullest loop + 1), or Q where no edge synchronises. */
uint32_t drawn_least(const struct sketch *sketch);

/* Tokens on the emptiest loop through each edge, or SKETCH_NO_ROUTE. */
void drawn_loops(const struct sketch *sketch, int64_t *loop);

/* Sets N to the least modulus, some multiple above, or the highest one. */
void draw_modulus(struct random *random, enum modulus_style style,
                  struct sketch *sketch);

#endif
