#include "strips.h"

#include <stdlib.h>

#include "order.h"

enum { STRIP_WORDS = 64 };

/* A strip of measurements. */
struct strip {
    uint32_t words[STRIP_WORDS];
};

static struct strip *ring[TAMSKLOR_EDGES]; /* NULL: does not synchronise */
static uint32_t ring_room;

/* What stands in one word of an edge's strip. */
static uint32_t word(uint32_t edge, uint32_t number, uint32_t at)
{
    return number * 2654435761u + edge * TAMSKLOR_EDGES + at;
}

void strips_give(uint32_t edge, uint32_t number)
{
    struct strip *strip = &ring[edge][number % ring_room];
    for (uint32_t i = 0; i < STRIP_WORDS; i++)
        strip->words[i] = word(edge, number, i);
}

int strips_take(uint32_t edge, uint32_t number)
{
    const struct strip *strip = &ring[edge][number % ring_room];
    for (uint32_t i = 0; i < STRIP_WORDS; i++)
        if (strip->words[i] != word(edge, number, i))
            return 0;
    return 1;
}

int strips_begin(const TamsklorPlan *plan, uint32_t room)
{
    ring_room = room;
    for (uint32_t e = 0; e < plan->edges; e++) {
        if (!order_synchronises(plan, e))
            continue;
        ring[e] = calloc(room, sizeof *ring[e]);
        if (ring[e] == NULL)
            return 0;
        for (uint32_t i = 0; i < plan->tokens[e]; i++)
            strips_give(e, i);
    }
    return 1;
}

void strips_end(void)
{
    for (uint32_t e = 0; e < TAMSKLOR_EDGES; e++) {
        free(ring[e]);
        ring[e] = NULL;
    }
}
