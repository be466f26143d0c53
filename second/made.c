#include "made.h"

#include <string.h>

#include "draw.h"

void made_plan_of(const struct sketch *sketch, struct second_plan *plan)
{
    memset(plan, 0, sizeof *plan);
    plan->nodes = sketch->nodes;
    plan->processes = sketch->processes;
    plan->edges = sketch->edges;
    plan->counters = sketch->counters;
    plan->modulus = sketch->modulus;
    plan->round_sum = sketch_sum(sketch, 0);
    for (uint32_t i = 0; i < sketch->processes; i++)
        plan->length[i] = (uint16_t)sketch->length[i];
    for (uint32_t i = 0; i < sketch->nodes; i++) {
        plan->order[i] = (uint16_t)sketch->order[i];
        plan->counter[i] = (uint16_t)sketch->counter[i];
        plan->increment[i] = (uint16_t)sketch->increment[i];
    }
    for (uint32_t i = 0; i < sketch->edges; i++) {
        plan->source[i] = (uint16_t)sketch->edge[i].source;
        plan->target[i] = (uint16_t)sketch->edge[i].target;
        plan->tokens[i] = (uint16_t)sketch->edge[i].tokens;
    }
}

/* Some modulus, a multiple of nothing: tiny, near Q, or large. */
static uint32_t odd_modulus(struct random *random, uint32_t sum)
{
    switch (random_below(random, 4)) {
    case 0: return random_between(random, 1, 5);
    case 1: return random_between(random, 1, 3 * sum + 1);
    case 2: return 2000000000 - random_below(random, 3);
    default: return random_between(random, 1, 2000000000);
    }
}

/* Breaks C1, C2, C3 and the process edges, but no test of shape. */
static void bend_sketch(struct random *random, struct sketch *sketch)
{
    for (uint32_t node = 0; node < sketch->nodes; node++) {
        if (random_one_in(random, 3))
            sketch->counter[node] = random_below(random, sketch->counters);
        if (random_one_in(random, 3))
            sketch->increment[node] = random_below(random, 256);
    }
    for (uint32_t i = 0; i < sketch->edges; i++)
        if (random_one_in(random, 3))
            sketch->edge[i].tokens = random_below(random, 1001);
    if (sketch->edges > 1 && random_one_in(random, 2))
        sketch_drop_edge(sketch, random_below(random, sketch->edges));
}

/* "entries past the counts are neither tested nor used". */
static void litter(struct random *random, struct second_plan *plan)
{
    uint16_t waste = (uint16_t)random_below(random, 65536);
    for (uint32_t i = plan->processes; i < SECOND_PROCESSES; i++)
        plan->length[i] = waste;
    for (uint32_t i = plan->nodes; i < SECOND_NODES; i++)
        plan->order[i] = plan->counter[i] = plan->increment[i] = waste;
    for (uint32_t i = plan->edges; i < SECOND_EDGES; i++)
        plan->source[i] = plan->target[i] = plan->tokens[i] = waste;
}

/* A plan in shape that has what is wished for. */
static void made_plan_like(struct random *random, const struct wish *wish,
                           struct second_plan *plan)
{
    struct sketch sketch;
    do {
        draw_plan(random, wish, &sketch);
        if (random_one_in(random, 2))
            bend_sketch(random, &sketch);
    } while (sketch_sum(&sketch, 0) == 0);
    if (random_one_in(random, 2))
        sketch.modulus = odd_modulus(random, sketch_sum(&sketch, 0));
    made_plan_of(&sketch, plan);
    if (random_one_in(random, 2))
        litter(random, plan);
}

void made_plan(struct random *random, struct second_plan *plan)
{
    struct wish wish = {0};
    wish.most_nodes = random_one_in(random, 3) ? 64 : 8;
    made_plan_like(random, &wish, plan);
}

void made_full_plan(struct random *random, struct second_plan *plan)
{
    struct wish wish = {0};
    wish.nodes = SECOND_NODES;
    wish.edges = SECOND_EDGES;
    made_plan_like(random, &wish, plan);
}

/* The process and the order position of each node. */
static void find_places(const struct second_plan *plan, uint32_t *process_of,
                        uint32_t *first)
{
    uint32_t at = 0;
    for (uint32_t p = 0; p < plan->processes; p++) {
        first[p] = at;
        for (uint32_t i = 0; i < plan->length[p]; i++)
            process_of[plan->order[at++]] = p;
    }
}

/* Marks some of the edges that come in to the process's next node. */
static void mark_some(struct random *random, const struct second_plan *plan,
                      const uint32_t *process_of, uint32_t next,
                      uint8_t *row)
{
    uint32_t style = random_below(random, 3);
    for (uint32_t e = 0; e < plan->edges; e++)
        if (plan->target[e] == next &&
            process_of[plan->source[e]] != process_of[next])
            row[e] = style == 0 ? 0 : style == 1 || random_one_in(random, 2);
}

/* A counter's value: 0, the highest, near Q's multiples, or any. */
static uint32_t some_value(struct random *random,
                           const struct second_plan *plan)
{
    uint64_t near = plan->round_sum * (uint64_t)random_below(random, 8);
    switch (random_below(random, 4)) {
    case 0: return 0;
    case 1: return plan->modulus - 1;
    case 2: return (uint32_t)((near + random_below(random, 3)) % plan->modulus);
    default: return random_below(random, plan->modulus);
    }
}

void made_state(struct random *random, const struct second_plan *plan,
                struct second_state *state)
{
    uint32_t process_of[SECOND_NODES], first[SECOND_PROCESSES];
    memset(state, 0, sizeof *state);
    find_places(plan, process_of, first);
    for (uint32_t p = 0; p < plan->processes; p++) {
        state->position[p] = (uint16_t)random_below(random, plan->length[p]);
        state->open[p] = !random_one_in(random, 3);
        if (state->open[p])
            mark_some(random, plan, process_of,
                      plan->order[first[p] + state->position[p]],
                      state->mark[p]);
    }
    for (uint32_t c = 0; c < plan->counters; c++)
        state->counter[c] = some_value(random, plan);
    state->turn = random_one_in(random, 3) ? UINT32_MAX
                                           : (uint32_t)random_bits(random);
}

/* Out of test 3's bounds: which count, and the value below or above. */
static int spoil_count(struct random *random, uint32_t way,
                       struct second_plan *plan)
{
    uint32_t *counts[] = {&plan->nodes, &plan->processes, &plan->edges,
                          &plan->counters, &plan->modulus};
    static const uint32_t top[] = {64, 64, 512, 64, 2000000000};
    uint32_t field = way / 2;
    *counts[field] = 0;
    if (way % 2)
        *counts[field] = random_one_in(random, 2)
                             ? top[field] + 1
                             : random_between(random, top[field] + 1,
                                              UINT32_MAX);
    return 1;
}

/* Two edges in the wrong order, or one twice. */
static int spoil_edge_order(struct random *random, struct second_plan *plan)
{
    uint32_t edge;
    if (plan->edges < 2)
        return 0;
    edge = random_between(random, 1, plan->edges - 1);
    plan->source[edge] = plan->source[edge - 1];
    plan->target[edge] = random_one_in(random, 2) ? plan->target[edge - 1] : 0;
    return plan->target[edge] <= plan->target[edge - 1];
}

int spoil_plan(struct random *random, uint32_t way, struct second_plan *plan)
{
    uint32_t node, edge, process;
    int more = random_one_in(random, 2);
    if (way < 10)
        return spoil_count(random, way, plan);
    node = random_below(random, plan->nodes);
    edge = random_below(random, plan->edges);
    process = random_below(random, plan->processes);
    switch (way) {
    case 10: plan->round_sum = 0; break;
    case 11: plan->round_sum += more ? 1 : UINT32_MAX; break;
    case 12: plan->length[process] += more ? 1 : 65535; break;
    case 13: plan->order[node] = plan->order[(node + 1) % plan->nodes];
        return plan->nodes > 1;
    case 14: plan->order[node] = (uint16_t)plan->nodes; break;
    case 15: plan->counter[node] = (uint16_t)plan->counters; break;
    case 16: plan->increment[node] = 256; break;
    case 17: plan->tokens[edge] = 1001; break;
    case 18: plan->source[edge] = (uint16_t)plan->nodes; break;
    case 19: plan->target[edge] = (uint16_t)plan->nodes; break;
    default: return spoil_edge_order(random, plan);
    }
    return 1;
}

/* A mark where none may be: on a closed process, on an edge that is no
   synchronising in-edge of the next node, past the edges. */
static int spoil_mark(struct random *random, uint32_t way,
                      const struct second_plan *plan,
                      struct second_state *state)
{
    uint32_t p = random_below(random, plan->processes);
    uint32_t e = random_below(random, plan->edges);
    uint32_t process_of[SECOND_NODES], first[SECOND_PROCESSES], next;
    find_places(plan, process_of, first);
    next = plan->order[first[p] + state->position[p]];
    if (way == 4) {
        if (state->open[p])
            return 0;
    } else if (way == 5) {
        if (!state->open[p] || (plan->target[e] == next &&
                                process_of[plan->source[e]] != p))
            return 0;
    } else {
        if (!state->open[p] || plan->edges == SECOND_EDGES)
            return 0;
        e = random_between(random, plan->edges, SECOND_EDGES - 1);
    }
    state->mark[p][e] = 1;
    return 1;
}

/* Something left in a process past the count. */
static int spoil_past(struct random *random, uint32_t way,
                      const struct second_plan *plan,
                      struct second_state *state)
{
    uint32_t p;
    if (plan->processes == SECOND_PROCESSES)
        return 0;
    p = random_between(random, plan->processes, SECOND_PROCESSES - 1);
    if (way == 7)
        state->position[p] = 1;
    if (way == 8)
        state->open[p] = 1;
    if (way == 9)
        state->mark[p][random_below(random, SECOND_EDGES)] = 1;
    return 1;
}

/* A mark that is there, with a value above 1. */
static int spoil_mark_value(struct random *random,
                            const struct second_plan *plan,
                            struct second_state *state)
{
    uint32_t p = random_below(random, plan->processes);
    for (uint32_t e = 0; e < plan->edges; e++)
        if (state->mark[p][e]) {
            state->mark[p][e] = (uint8_t)random_between(random, 2, 255);
            return 1;
        }
    return 0;
}

int spoil_state(struct random *random, uint32_t way,
                const struct second_plan *plan, struct second_state *state)
{
    uint32_t p = random_below(random, plan->processes);
    uint32_t c = random_below(random, plan->counters);
    switch (way) {
    case 0: state->position[p] = plan->length[p]; break;
    case 1: state->position[p] = 65535; break;
    case 2: state->open[p] = (uint8_t)random_between(random, 2, 255); break;
    case 3: return spoil_mark_value(random, plan, state);
    case 4: case 5: case 6: return spoil_mark(random, way, plan, state);
    case 7: case 8: case 9: return spoil_past(random, way, plan, state);
    case 10: state->counter[c] = plan->modulus; break;
    case 11: state->counter[c] = UINT32_MAX; break;
    default:
        if (plan->counters == SECOND_COUNTERS)
            return 0;
        state->counter[random_between(random, plan->counters,
                                      SECOND_COUNTERS - 1)] = 1;
    }
    return 1;
}

/* A count past its bound: 65,536 more, so that its low two bytes are as
   before, or the highest. */
static void limit_count(uint32_t way, struct second_plan *plan)
{
    uint32_t *counts[] = {&plan->nodes, &plan->processes, &plan->edges,
                          &plan->counters};
    if (way < 4)
        *counts[way] += 65536;
    else
        *counts[way - 4] = UINT32_MAX;
}

void limit_plan(struct random *random, uint32_t way, struct second_plan *plan)
{
    uint32_t node = random_below(random, plan->nodes);
    uint32_t edge = random_below(random, plan->edges);
    uint32_t process = random_below(random, plan->processes);
    switch (way) {
    case 8: plan->modulus = UINT32_MAX; break;
    case 9: plan->modulus = SECOND_MODULUS + 1; break;
    case 10: plan->round_sum = UINT32_MAX; break;
    case 11: plan->length[process] = 65535; break;
    case 12: plan->order[node] = 65535; break;
    case 13: plan->counter[node] = 65535; break;
    case 14: plan->increment[node] = 65535; break;
    case 15: plan->source[edge] = 65535; break;
    case 16: plan->target[edge] = 65535; break;
    case 17: plan->tokens[edge] = 65535; break;
    case 18: plan->edges = SECOND_EDGES + 1; break;
    default: limit_count(way, plan);
    }
}

/* A value on a mark that is there, or on any edge where none is. */
static void limit_mark(struct random *random, uint8_t value,
                       const struct second_plan *plan,
                       struct second_state *state)
{
    uint32_t p = random_below(random, plan->processes);
    uint32_t edge = random_below(random, plan->edges);
    for (uint32_t e = 0; e < plan->edges; e++)
        if (state->mark[p][e])
            edge = e;
    state->mark[p][edge] = value;
}

void limit_state(struct random *random, uint32_t way,
                 const struct second_plan *plan, struct second_state *state)
{
    uint32_t p = random_below(random, plan->processes);
    switch (way) {
    case 0: state->position[p] = 65535; break;
    case 1: state->open[p] = 2; break;
    case 2: state->open[p] = 255; break;
    case 3: limit_mark(random, 2, plan, state); break;
    case 4: limit_mark(random, 255, plan, state); break;
    default:
        state->counter[random_below(random, plan->counters)] = UINT32_MAX;
    }
}
