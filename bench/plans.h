/* The plans to measure with, drawn by the second program's generator. */
#ifndef PLANS_H
#define PLANS_H

#include "random.h"
#include "sketch.h"

struct shape {
    const char *name;
    uint32_t nodes, processes, edges, parts;
    uint32_t most_tokens; /* 0: up to 1,000 */
    int slow; /* the firing order runs against the edge table */
};

/* A plan of a shape, with exactly its counts. */
void draw_shape(const struct shape *shape, struct random *random,
                struct sketch *sketch);

#endif
