/* Images damaged in process edges, C0 to C4: numbers 9 to 16. */
#include "attempt.h"

/* The process edge out of an order position. */
static uint32_t process_edge_at(const struct attempt *a, uint32_t at,
                                int *closing)
{
    const struct sketch *s = &a->sketch;
    uint32_t p = a->process_of[s->order[at]];
    *closing = at + 1 == a->first[p] + s->length[p];
    return (uint32_t)sketch_find_edge(
        s, s->order[at], s->order[*closing ? a->first[p] : at + 1]);
}

/* 9: a process edge missing, a closing one with 0 or 2 tokens, an inner one
   with a token. */
int damage_9(struct attempt *a)
{
    struct sketch *s = &a->sketch;
    uint32_t at, edge;
    int closing;
    attempt_start(a);
    at = attempt_below(a, s->nodes);
    edge = process_edge_at(a, at, &closing);
    if (a->way == 0) {
        if (s->edges == 1)
            return 0;
        sketch_drop_edge(s, edge);
        return attempt_finish(a, 9, at);
    }
    if (closing != (a->way < 3))
        return 0;
    if (a->way < 3)
        s->edge[edge].tokens = a->way == 1 ? 0 : 2;
    else
        s->edge[edge].tokens = 1 + attempt_below(a, 3);
    return attempt_finish(a, 9, at);
}

/* 10: a node takes a counter of another process; way 1: one that never
   raises it. */
int damage_10(struct attempt *a)
{
    struct sketch *s = &a->sketch;
    uint32_t node, other;
    attempt_start(a);
    node = attempt_below(a, s->nodes);
    other = attempt_below(a, s->nodes);
    if (a->process_of[node] == a->process_of[other])
        return 0;
    if (a->way == 1 && s->increment[node] != 0)
        return 0;
    s->counter[node] = s->counter[other];
    return attempt_finish(a, 10, s->counter[node]);
}

/* Whether a node has a synchronising out-edge, and one without tokens. */
static int signals(const struct attempt *a, uint32_t node, int *without_tokens)
{
    const struct sketch *s = &a->sketch;
    int found = 0;
    *without_tokens = 0;
    for (uint32_t i = 0; i < s->edges; i++)
        if (s->edge[i].source == node &&
            sketch_synchronising(s, a->process_of, i)) {
            found = 1;
            *without_tokens |= s->edge[i].tokens == 0;
        }
    return found;
}

/* 11: a signalling node with increment 0; way 1: all its edges hold tokens. */
int damage_11(struct attempt *a)
{
    uint32_t node;
    int without_tokens;
    attempt_start(a);
    node = attempt_below(a, a->sketch.nodes);
    if (!signals(a, node, &without_tokens) || without_tokens != (a->way == 0))
        return 0;
    a->sketch.increment[node] = 0;
    return attempt_finish(a, 11, node);
}

/* 12, way 0: a counter that no node has, under any number. */
static int damage_12_unused(struct attempt *a)
{
    struct sketch *s = &a->sketch;
    uint32_t added = attempt_below(a, s->counters + 1);
    if (s->counters == 64)
        return 0;
    if (random_one_in(a->random, 3))
        added = s->counters;
    for (uint32_t node = 0; node < s->nodes; node++)
        s->counter[node] += s->counter[node] >= added;
    s->counters++;
    return attempt_finish(a, 12, added);
}

/* 12, way 1: a counter whose nodes all have increment 0. */
static int damage_12_zero(struct attempt *a)
{
    struct sketch *s = &a->sketch;
    uint32_t counter = attempt_below(a, s->counters);
    int without_tokens;
    for (uint32_t node = 0; node < s->nodes; node++)
        if (s->counter[node] == counter) {
            if (signals(a, node, &without_tokens))
                return 0;
            s->increment[node] = 0;
        }
    return attempt_finish(a, 12, counter);
}

/* 12: a counter's sum is 0 or differs from counter 0's. */
int damage_12(struct attempt *a)
{
    struct sketch *s = &a->sketch;
    uint32_t node, old, changed;
    attempt_start(a);
    if (a->way == 0)
        return damage_12_unused(a);
    if (a->way == 1)
        return damage_12_zero(a);
    node = attempt_below(a, s->nodes);
    old = s->increment[node];
    changed = attempt_below(a, 256);
    if (a->way < 4)
        changed = a->way == 2 ? old + 1 : old - 1;
    if (s->counters == 1 || changed > 255 || changed < 1 || changed == old)
        return 0;
    s->increment[node] = changed;
    return attempt_finish(a, 12, s->counter[node] == 0 ? 1 : s->counter[node]);
}

/* Sets an edge's tokens to 0, adding it where it is missing. */
static int empty_edge(struct attempt *a, uint32_t source, uint32_t target)
{
    struct sketch *s = &a->sketch;
    int edge = sketch_find_edge(s, source, target);
    if (edge < 0 && s->edges == 512)
        return 0;
    if (edge < 0)
        edge = sketch_add_edge(s, source, target, 0);
    s->edge[edge].tokens = 0;
    return 1;
}

/* 13, way 1: an edge back inside a process, without tokens. */
static int damage_13_chord(struct attempt *a)
{
    struct sketch *s = &a->sketch;
    uint32_t early = attempt_below(a, s->nodes);
    uint32_t late = attempt_below(a, s->nodes);
    uint32_t p = a->process_of[s->order[early]], lowest = s->order[early];
    if (early >= late || p != a->process_of[s->order[late]] ||
        late - early + 1 == s->length[p])
        return 0;
    if (!empty_edge(a, s->order[late], s->order[early]))
        return 0;
    for (uint32_t at = early; at <= late; at++)
        if (s->order[at] < lowest)
            lowest = s->order[at];
    attempt_finish(a, 13, lowest);
    a->out->after_aim.place_known = s->processes == 1;
    return 1;
}

/* 13, way 2: a cycle without tokens through several processes. */
static int damage_13_across(struct attempt *a)
{
    struct sketch *s = &a->sketch;
    int64_t tokens[SKETCH_NODES];
    uint32_t from = attempt_below(a, s->nodes), to = attempt_below(a, s->nodes);
    sketch_routes_from(s, to, tokens);
    if (a->process_of[from] == a->process_of[to] || tokens[from] != 0 ||
        s->increment[from] == 0 || !empty_edge(a, from, to))
        return 0;
    attempt_finish(a, 13, 0);
    a->out->after_aim.place_known = 0;
    return 1;
}

/* 13: a cycle without tokens; way 0: a node's edge to itself. */
int damage_13(struct attempt *a)
{
    struct sketch *s = &a->sketch;
    uint32_t node;
    attempt_start(a);
    if (a->way == 1)
        return damage_13_chord(a);
    if (a->way == 2)
        return damage_13_across(a);
    node = attempt_below(a, s->nodes);
    if (s->length[a->process_of[node]] < 2 || !empty_edge(a, node, node))
        return 0;
    return attempt_finish(a, 13, node);
}

/* The lowest synchronising edge without a route back, or -1. */
static int lowest_one_way(const struct attempt *a)
{
    int64_t loop[SKETCH_EDGES];
    drawn_loops(&a->sketch, loop);
    for (uint32_t i = 0; i < a->sketch.edges; i++)
        if (sketch_synchronising(&a->sketch, a->process_of, i) &&
            loop[i] == SKETCH_NO_ROUTE)
            return (int)i;
    return -1;
}

/* Adds an edge between two parts, from a node that raises its counter. */
static void add_one_way(struct attempt *a)
{
    struct sketch *s = &a->sketch;
    int64_t tokens[SKETCH_NODES];
    uint32_t from = attempt_below(a, s->nodes), to = attempt_below(a, s->nodes);
    sketch_routes_from(s, to, tokens);
    if (tokens[from] == SKETCH_NO_ROUTE && s->increment[from] > 0 &&
        s->edges < 512)
        sketch_add_edge(s, from, to, attempt_below(a, 3));
}

/* 14: one or some edges between parts, or an edge of a loop taken out. */
int damage_14(struct attempt *a)
{
    struct wish wish = {0};
    int place;
    wish.parts = a->way < 2 ? 2 + attempt_below(a, 3) : 1;
    attempt_draw(a, wish);
    attempt_keep(a);
    if (a->way == 2) {
        uint32_t edge = attempt_below(a, a->sketch.edges);
        if (!sketch_synchronising(&a->sketch, a->process_of, edge))
            return 0;
        sketch_drop_edge(&a->sketch, edge);
    } else {
        for (uint32_t i = 0; i < (a->way ? 4u : 1u); i++)
            add_one_way(a);
    }
    place = lowest_one_way(a);
    return place >= 0 && attempt_finish(a, 14, (uint32_t)place);
}

/* 15: N no multiple of Q, above the bound, below it, or below Q. */
int damage_15(struct attempt *a)
{
    struct sketch *s = &a->sketch;
    uint32_t sum, least;
    attempt_start(a);
    sum = sketch_sum(s, 0);
    least = drawn_least(s);
    if (sum < 2)
        return 0;
    if (a->way == 0)
        s->modulus += random_one_in(a->random, 2) ? 1 : UINT32_MAX;
    if (a->way == 1)
        s->modulus = random_between(a->random, least, 2000000000);
    if (a->way == 2)
        s->modulus = random_between(a->random, 1, least - 1);
    if (a->way == 3)
        s->modulus = random_between(a->random, 1, sum - 1);
    return s->modulus % sum != 0 && s->modulus <= 2000000000 &&
           attempt_finish(a, 15, 0);
}

/* 16: N a multiple of Q, at the fullest loop's bound or below it. */
int damage_16(struct attempt *a)
{
    struct sketch *s = &a->sketch;
    struct wish wish = {0};
    uint32_t sum, steps;
    int64_t loop[SKETCH_EDGES];
    wish.modulus = a->way == 0 ? MODULUS_LEAST : MODULUS_ANY;
    attempt_draw(a, wish);
    attempt_keep(a);
    sum = sketch_sum(s, 0);
    steps = drawn_least(s) / sum;
    if (steps < 2)
        return 0;
    s->modulus = sum * (a->way == 0 ? steps - 1
                                    : random_between(a->random, 1, steps - 1));
    drawn_loops(s, loop);
    for (uint32_t i = 0; i < s->edges; i++)
        if (sketch_synchronising(s, a->process_of, i) &&
            sum * loop[i] >= s->modulus)
            return attempt_finish(a, 16, i);
    return 0;
}
