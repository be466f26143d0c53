/* Images damaged in their tables: numbers 5 to 8. */
#include <string.h>

#include "attempt.h"

/* 5, ways 0, 1 and 4: one or two lengths 0, with the sum kept or not. */
static int damage_5_zero(struct attempt *a)
{
    struct sketch *s = &a->sketch;
    uint32_t empty = attempt_below(a, s->processes), place = empty;
    uint32_t other = attempt_below(a, s->processes);
    uint32_t third = attempt_below(a, s->processes);
    if (empty == other || (a->way == 4 && (third == empty || third == other)))
        return 0;
    if (a->way != 1)
        s->length[other] += s->length[empty];
    s->length[empty] = 0;
    if (a->way == 4) {
        s->length[other] += s->length[third];
        s->length[third] = 0;
        place = empty < third ? empty : third;
    }
    return attempt_finish(a, 5, place);
}

/* 5: a length 0, else lengths that sum to less or more than nodes. */
int damage_5(struct attempt *a)
{
    struct sketch *s = &a->sketch;
    uint32_t process;
    attempt_start(a);
    process = attempt_below(a, s->processes);
    if (a->way == 5 && s->processes == 1) {
        s->length[0] = 0;
        return attempt_finish(a, 5, 0);
    }
    if (a->way != 2 && a->way != 3)
        return a->way != 5 && damage_5_zero(a);
    if (a->way == 2 && s->length[process] < 2)
        return 0;
    if (a->way == 2)
        s->length[process] -= 1 + attempt_below(a, s->length[process] - 1);
    else
        s->length[process] = random_one_in(a->random, 4)
                                 ? 65535
                                 : s->length[process] + 1 + attempt_below(a, 3);
    return attempt_finish(a, 5, s->processes);
}

/* 6: an order entry just past the nodes, far past them, or seen before. */
int damage_6(struct attempt *a)
{
    struct sketch *s = &a->sketch;
    uint32_t at, other;
    attempt_start(a);
    at = attempt_below(a, s->nodes);
    other = attempt_below(a, s->nodes);
    if (a->way == 2) {
        s->order[at] = s->order[other];
        return at != other && attempt_finish(a, 6, at > other ? at : other);
    }
    s->order[at] =
        a->way == 0 ? s->nodes : random_between(a->random, s->nodes, 65535);
    return attempt_finish(a, 6, at);
}

/* 7: a counter just past the counters or far past, an increment 256 or more. */
int damage_7(struct attempt *a)
{
    struct sketch *s = &a->sketch;
    struct wish wish = {0};
    uint32_t node;
    wish.sum = a->way == 2 ? 64 * 255 : 0;
    attempt_draw(a, wish);
    attempt_keep(a);
    node = attempt_below(a, s->nodes);
    if (a->way == 0 && s->counter[node] + 1 != s->counters)
        return 0;
    if (a->way == 2 && s->increment[node] != 255)
        return 0;
    if (a->way == 0)
        s->counter[node] = s->counters;
    if (a->way == 1)
        s->counter[node] = random_between(a->random, s->counters, 65535);
    if (a->way == 2)
        s->increment[node] = 256;
    if (a->way == 3)
        s->increment[node] = random_between(a->random, 256, 65535);
    return attempt_finish(a, 7, node);
}

/* Whether an edge is none of those that make the processes. */
static int is_free_edge(const struct attempt *a, uint32_t edge)
{
    const struct sketch *s = &a->sketch;
    uint32_t p = a->process_of[s->edge[edge].source];
    for (uint32_t step = 0; step < s->length[p]; step++) {
        uint32_t next = (step + 1) % s->length[p];
        if (s->order[a->first[p] + step] == s->edge[edge].source &&
            s->order[a->first[p] + next] == s->edge[edge].target)
            return 0;
    }
    return 1;
}

/* 8, way 2: 1,001 tokens where the accepted side has 1,000. */
static int damage_8_tokens(struct attempt *a)
{
    uint32_t edge = attempt_below(a, a->sketch.edges);
    if (!is_free_edge(a, edge))
        return 0;
    a->sketch.edge[edge].tokens = 1000;
    draw_modulus(a->random, MODULUS_ANY, &a->sketch);
    attempt_keep(a);
    a->sketch.edge[edge].tokens = 1001;
    return attempt_finish(a, 8, edge);
}

/* 8, ways 3 to 5: an edge repeated, two in the wrong order, one overwritten
   with the ends of the one before it. */
static int damage_8_order(struct attempt *a)
{
    struct sketch *s = &a->sketch;
    uint32_t edge = attempt_below(a, s->edges);
    struct sketch_edge kept = s->edge[edge];
    if (a->way == 3) {
        if (s->edges == 512)
            return 0;
        memmove(&s->edge[edge + 1], &s->edge[edge],
                (s->edges - edge) * sizeof s->edge[0]);
        s->edges++;
        s->edge[edge + 1].tokens = attempt_below(a, 4);
        return attempt_finish(a, 8, edge + 1);
    }
    if (edge == 0)
        return 0;
    if (a->way == 4)
        s->edge[edge] = s->edge[edge - 1], s->edge[edge - 1] = kept;
    else
        s->edge[edge].source = s->edge[edge - 1].source,
        s->edge[edge].target = s->edge[edge - 1].target;
    return attempt_finish(a, 8, edge);
}

/* 8: an end unknown, too many tokens, or not above the edge before it. */
int damage_8(struct attempt *a)
{
    struct sketch *s = &a->sketch;
    uint32_t edge;
    attempt_start(a);
    if (a->way == 2)
        return damage_8_tokens(a);
    if (a->way >= 3 && a->way <= 5)
        return damage_8_order(a);
    edge = attempt_below(a, s->edges);
    if (a->way == 0)
        s->edge[edge].source = s->nodes;
    if (a->way == 1)
        s->edge[edge].target = s->nodes;
    if (a->way == 6)
        s->edge[edge].source = random_between(a->random, s->nodes, 65535);
    if (a->way == 7)
        s->edge[edge].target = random_between(a->random, s->nodes, 65535);
    if (a->way == 8)
        s->edge[edge].tokens = random_between(a->random, 1001, 65535);
    return attempt_finish(a, 8, edge);
}
