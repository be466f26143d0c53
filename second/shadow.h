/* Lamport's marked graph with the calls of document 01 on top: an edge to be
   seen is found when the marked graph has a token there (000, MGFGSpec). No
   counter is used anywhere. */
#ifndef SHADOW_H
#define SHADOW_H

#include "second.h"
#include "sketch.h"

struct shadow {
    const struct sketch *sketch;
    uint32_t process_of[SKETCH_NODES];
    uint32_t first[SKETCH_NODES];
    uint64_t tokens[SKETCH_EDGES];
    uint64_t fired[SKETCH_NODES];
    uint32_t position[SKETCH_NODES];
    int open[SKETCH_NODES];
    int to_see[SKETCH_NODES][SKETCH_EDGES];
};

/* The starting marking, everything closed. */
void shadow_begin(const struct sketch *sketch, struct shadow *shadow);

/* "A node may fire when each in-edge holds a token." */
int shadow_may_fire(const struct shadow *shadow, uint32_t node);

/* The node a process fires next. */
uint32_t shadow_next(const struct shadow *shadow, uint32_t process);

/* How many edges a process has still to see. */
uint32_t shadow_left(const struct shadow *shadow, uint32_t process);

/* One call and the answer it must get. */
struct second_answer shadow_call(struct shadow *shadow, uint32_t code,
                                 uint32_t process, uint32_t edge);

#endif
