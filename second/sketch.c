#include "sketch.h"

#include <string.h>

void put_little(uint8_t *bytes, uint32_t value, size_t width)
{
    for (size_t i = 0; i < width; i++, value >>= 8)
        bytes[i] = (uint8_t)(value & 255);
}

/* Adds a number to the end of a picture. */
static void append(struct picture *picture, uint32_t value, size_t width)
{
    put_little(picture->bytes + picture->length, value, width);
    picture->length += width;
}

/* The header with offsets and total as the counts give them. */
static void append_header(const struct sketch *sketch, struct picture *picture)
{
    uint32_t lengths = 36;
    uint32_t order = lengths + 2 * sketch->processes;
    uint32_t nodes = order + 2 * sketch->nodes;
    uint32_t edges = nodes + 4 * sketch->nodes;
    append(picture, 1, 2);
    append(picture, sketch->nodes, 2);
    append(picture, sketch->processes, 2);
    append(picture, sketch->edges, 2);
    append(picture, sketch->counters, 2);
    append(picture, 0, 2);
    append(picture, sketch->modulus, 4);
    append(picture, lengths, 4);
    append(picture, order, 4);
    append(picture, nodes, 4);
    append(picture, edges, 4);
    append(picture, edges + 6 * sketch->edges, 4);
}

void sketch_picture(const struct sketch *sketch, struct picture *picture)
{
    picture->length = 0;
    append_header(sketch, picture);
    for (uint32_t i = 0; i < sketch->processes; i++)
        append(picture, sketch->length[i], 2);
    for (uint32_t i = 0; i < sketch->nodes; i++)
        append(picture, sketch->order[i], 2);
    for (uint32_t i = 0; i < sketch->nodes; i++) {
        append(picture, sketch->counter[i], 2);
        append(picture, sketch->increment[i], 2);
    }
    for (uint32_t i = 0; i < sketch->edges; i++) {
        append(picture, sketch->edge[i].source, 2);
        append(picture, sketch->edge[i].target, 2);
        append(picture, sketch->edge[i].tokens, 2);
    }
}

int sketch_find_edge(const struct sketch *sketch, uint32_t source,
                     uint32_t target)
{
    for (uint32_t i = 0; i < sketch->edges; i++)
        if (sketch->edge[i].source == source &&
            sketch->edge[i].target == target)
            return (int)i;
    return -1;
}

int sketch_add_edge(struct sketch *sketch, uint32_t source, uint32_t target,
                    uint32_t tokens)
{
    uint32_t at = 0;
    struct sketch_edge added = {source, target, tokens};
    if (sketch_find_edge(sketch, source, target) >= 0 ||
        sketch->edges >= SKETCH_EDGES)
        return -1;
    while (at < sketch->edges &&
           (sketch->edge[at].source < source ||
            (sketch->edge[at].source == source &&
             sketch->edge[at].target < target)))
        at++;
    memmove(&sketch->edge[at + 1], &sketch->edge[at],
            (sketch->edges - at) * sizeof sketch->edge[0]);
    sketch->edge[at] = added;
    sketch->edges++;
    return (int)at;
}

void sketch_drop_edge(struct sketch *sketch, uint32_t edge)
{
    memmove(&sketch->edge[edge], &sketch->edge[edge + 1],
            (sketch->edges - edge - 1) * sizeof sketch->edge[0]);
    sketch->edges--;
}

void sketch_processes(const struct sketch *sketch, uint32_t *process_of,
                      uint32_t *first)
{
    uint32_t at = 0;
    for (uint32_t p = 0; p < sketch->processes; p++) {
        first[p] = at;
        for (uint32_t step = 0; step < sketch->length[p]; step++)
            process_of[sketch->order[at++]] = p;
    }
}

int sketch_synchronising(const struct sketch *sketch,
                         const uint32_t *process_of, uint32_t edge)
{
    return process_of[sketch->edge[edge].source] !=
           process_of[sketch->edge[edge].target];
}

/* One pass over the edges; whether some node came nearer. */
static int relax_all(const struct sketch *sketch, int64_t *tokens)
{
    int nearer = 0;
    for (uint32_t i = 0; i < sketch->edges; i++) {
        const struct sketch_edge *edge = &sketch->edge[i];
        if (tokens[edge->source] == SKETCH_NO_ROUTE ||
            tokens[edge->source] + edge->tokens >= tokens[edge->target])
            continue;
        tokens[edge->target] = tokens[edge->source] + edge->tokens;
        nearer = 1;
    }
    return nearer;
}

void sketch_routes_from(const struct sketch *sketch, uint32_t from,
                        int64_t *tokens)
{
    for (uint32_t node = 0; node < sketch->nodes; node++)
        tokens[node] = node == from ? 0 : SKETCH_NO_ROUTE;
    while (relax_all(sketch, tokens))
        continue;
}

uint32_t sketch_sum(const struct sketch *sketch, uint32_t counter)
{
    uint32_t sum = 0;
    for (uint32_t node = 0; node < sketch->nodes; node++)
        if (sketch->counter[node] == counter)
            sum += sketch->increment[node];
    return sum;
}
