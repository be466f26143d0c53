/* A plan as drawn by the generator and the tests, with room beyond 01's
   bounds, and its image. Shares nothing with the second program itself. */
#ifndef SKETCH_H
#define SKETCH_H

#include <stddef.h>
#include <stdint.h>

enum { SKETCH_NODES = 80, SKETCH_EDGES = 600, PICTURE_BYTES = 8192 };

#define SKETCH_NO_ROUTE INT64_MAX

struct sketch_edge {
    uint32_t source;
    uint32_t target;
    uint32_t tokens;
};

struct sketch {
    uint32_t nodes;
    uint32_t processes;
    uint32_t edges;
    uint32_t counters;
    uint32_t modulus;
    uint32_t length[SKETCH_NODES];
    uint32_t order[SKETCH_NODES];
    uint32_t counter[SKETCH_NODES];
    uint32_t increment[SKETCH_NODES];
    struct sketch_edge edge[SKETCH_EDGES];
};

/* The bytes of a plan image. */
struct picture {
    size_t length;
    uint8_t bytes[PICTURE_BYTES];
};

/* Writes an unsigned little-endian number of so many bytes. */
void put_little(uint8_t *bytes, uint32_t value, size_t width);

/* The image of a sketch as it stands, right or wrong. */
void sketch_picture(const struct sketch *sketch, struct picture *picture);

/* The number of the edge with these ends, or -1. */
int sketch_find_edge(const struct sketch *sketch, uint32_t source,
                     uint32_t target);

/* Adds an edge at its sorted place; its number, or -1 if already there. */
int sketch_add_edge(struct sketch *sketch, uint32_t source, uint32_t target,
                    uint32_t tokens);

/* Takes an edge out. */
void sketch_drop_edge(struct sketch *sketch, uint32_t edge);

/* For each node its process; for each process its first order position. */
void sketch_processes(const struct sketch *sketch, uint32_t *process_of,
                      uint32_t *first);

/* Whether an edge's ends are in different processes. */
int sketch_synchronising(const struct sketch *sketch,
                         const uint32_t *process_of, uint32_t edge);

/* Tokens on the emptiest route from a node to every node (relaxation). */
void sketch_routes_from(const struct sketch *sketch, uint32_t from,
                        int64_t *tokens);

/* The increments of a counter, added up. */
uint32_t sketch_sum(const struct sketch *sketch, uint32_t counter);

#endif
