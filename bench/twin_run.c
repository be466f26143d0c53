/* A run by single calls. */
#include <string.h>

#include "twin.h"

void twin_find_places(const TamsklorPlan *plan, struct twin_places *places)
{
    uint32_t at = 0;
    for (uint32_t p = 0; p < plan->processes; p++) {
        uint32_t end = at + plan->lengths[p];
        places->first[p] = (uint8_t)at;
        for (; at < end; at++)
            places->process_of[plan->order[at]] = (uint8_t)p;
    }
}

static uint32_t next_node(const TamsklorPlan *plan,
                          const struct twin_places *places,
                          const TamsklorState *state, uint32_t p)
{
    return plan->order[places->first[p] + state->positions[p]];
}

/* Positions, open flags and counters in range, and 0 past the counts. */
static int numbers_fit(const TamsklorPlan *plan, const TamsklorState *state)
{
    uint32_t wrong = 0;
    for (uint32_t p = 0; p < plan->processes; p++)
        wrong |= (state->positions[p] >= plan->lengths[p]) |
                 (state->opened[p] > 1);
    for (uint32_t p = plan->processes; p < TAMSKLOR_PROCESSES; p++)
        wrong |= state->positions[p] | state->opened[p];
    for (uint32_t c = 0; c < plan->counters; c++)
        wrong |= state->counters[c] >= plan->modulus;
    for (uint32_t c = plan->counters; c < TAMSKLOR_COUNTERS; c++)
        wrong |= state->counters[c];
    return wrong == 0;
}

/* Whether a row has no mark at all. */
static int row_is_clear(const uint8_t *row)
{
    uint8_t any = 0;
    for (uint32_t e = 0; e < TAMSKLOR_EDGES; e++)
        any |= row[e];
    return any == 0;
}

/* A mark that is there: 1, on a synchronising in-edge of the next node. */
static int mark_fits(const TamsklorPlan *plan,
                     const struct twin_places *places, uint32_t p,
                     uint32_t next, uint32_t e, uint8_t mark)
{
    return mark == 1 && e < plan->edges && plan->destination[e] == next &&
           places->process_of[plan->source[e]] != p;
}

/* The marks of an open process, eight at a time where there are none. */
static int row_fits(const TamsklorPlan *plan, const struct twin_places *places,
                    const TamsklorState *state, uint32_t p)
{
    const uint8_t *row = state->marks + TAMSKLOR_MARK(p, 0);
    uint32_t next = next_node(plan, places, state, p);
    for (uint32_t e = 0; e < TAMSKLOR_EDGES; e += 8) {
        uint64_t eight;
        memcpy(&eight, row + e, 8);
        if (eight == 0)
            continue;
        for (uint32_t i = e; i < e + 8; i++)
            if (row[i] != 0 && !mark_fits(plan, places, p, next, i, row[i]))
                return 0;
    }
    return 1;
}

/* All 32,768 marks. */
static int marks_fit(const TamsklorPlan *plan,
                     const struct twin_places *places,
                     const TamsklorState *state)
{
    for (uint32_t p = 0; p < TAMSKLOR_PROCESSES; p++) {
        if (row_is_clear(state->marks + TAMSKLOR_MARK(p, 0)))
            continue;
        if (state->opened[p] == 0 || !row_fits(plan, places, state, p))
            return 0;
    }
    return 1;
}

/* 25; also finds the places. */
static int both_fit(const TamsklorPlan *plan, const TamsklorState *state,
                    struct twin_places *places)
{
    if (!twin_plan_fits(plan) || !numbers_fit(plan, state))
        return 0;
    twin_find_places(plan, places);
    return marks_fit(plan, places, state);
}

static TamsklorCallAnswer answer(uint32_t kind, uint32_t value)
{
    TamsklorCallAnswer made;
    made.kind = kind;
    made.value = value;
    return made;
}

static uint32_t marks_left(const uint8_t *row)
{
    uint32_t left = 0;
    for (uint32_t e = 0; e < TAMSKLOR_EDGES; e++)
        left += row[e];
    return left;
}

static TamsklorCallAnswer open_process(const TamsklorPlan *plan,
                                       const struct twin_places *places,
                                       TamsklorState *state, uint32_t p)
{
    uint8_t *row = state->marks + TAMSKLOR_MARK(p, 0);
    uint32_t edges = plan->edges, marked = 0;
    uint32_t next = next_node(plan, places, state, p);
    for (uint32_t e = 0; e < edges; e++)
        if (plan->destination[e] == next &&
            places->process_of[plan->source[e]] != p) {
            row[e] = 1;
            marked++;
        }
    state->opened[p] = 1;
    state->turn++;
    return answer(TAMSKLOR_RUN_OPENED, marked);
}

/* b(x), rounded up to a multiple of Q. */
static uint32_t rounded_b(const TamsklorPlan *plan,
                          const struct twin_places *places,
                          const TamsklorState *state, uint32_t x)
{
    const uint16_t *order = plan->order + places->first[places->process_of[x]];
    uint32_t counter = plan->counter[x], earlier = 0, b;
    for (; *order != x; order++)
        if (plan->counter[*order] == counter)
            earlier += plan->increment[*order];
    b = (state->counters[counter] + (plan->modulus - earlier % plan->modulus)) %
        plan->modulus;
    return (b + plan->q - 1) / plan->q * plan->q;
}

/* The difference of two rounded numbers, modulo N. */
static uint32_t minus(uint32_t modulus, uint32_t a, uint32_t b)
{
    return (a + (modulus - b % modulus)) % modulus;
}

/* Formula 14. */
static int edge_found(const TamsklorPlan *plan,
                      const struct twin_places *places,
                      const TamsklorState *state, uint32_t e)
{
    uint32_t n = rounded_b(plan, places, state, plan->destination[e]);
    uint32_t m = rounded_b(plan, places, state, plan->source[e]);
    return minus(plan->modulus, n, m) !=
           plan->q * plan->tokens[e] % plan->modulus;
}

static TamsklorCallAnswer look_at(const TamsklorPlan *plan,
                                  const struct twin_places *places,
                                  TamsklorState *state, uint32_t p, uint32_t e)
{
    uint32_t kind = TAMSKLOR_RUN_WAIT;
    if (edge_found(plan, places, state, e)) {
        state->marks[TAMSKLOR_MARK(p, e)] = 0;
        kind = TAMSKLOR_RUN_FOUND;
    }
    state->turn++;
    return answer(kind, marks_left(state->marks + TAMSKLOR_MARK(p, 0)));
}

static TamsklorCallAnswer fire(const TamsklorPlan *plan,
                               const struct twin_places *places,
                               TamsklorState *state, uint32_t p)
{
    uint32_t node = next_node(plan, places, state, p);
    uint32_t *counter = &state->counters[plan->counter[node]];
    *counter = (*counter + plan->increment[node]) % plan->modulus;
    state->positions[p]++;
    if (state->positions[p] == plan->lengths[p])
        state->positions[p] = 0;
    state->opened[p] = 0;
    state->turn++;
    return answer(TAMSKLOR_RUN_FIRED, node);
}

TamsklorCallAnswer twin_step_in_shape(const TamsklorPlan *plan,
                                      const struct twin_places *places,
                                      TamsklorState *state, uint32_t code,
                                      uint32_t process, uint32_t edge)
{
    if (code > TAMSKLOR_RUN_FIRE)
        return answer(TAMSKLOR_RUN_REFUSED, TAMSKLOR_RUN_UNKNOWN_CODE);
    if (process >= plan->processes)
        return answer(TAMSKLOR_RUN_REFUSED, TAMSKLOR_RUN_UNKNOWN_PROCESS);
    if (code == TAMSKLOR_RUN_OPEN) {
        if (state->opened[process])
            return answer(TAMSKLOR_RUN_REFUSED, TAMSKLOR_RUN_ALREADY_OPEN);
        return open_process(plan, places, state, process);
    }
    if (!state->opened[process])
        return answer(TAMSKLOR_RUN_REFUSED, TAMSKLOR_RUN_NOT_OPEN);
    if (code == TAMSKLOR_RUN_FIRE) {
        if (!row_is_clear(state->marks + TAMSKLOR_MARK(process, 0)))
            return answer(TAMSKLOR_RUN_REFUSED, TAMSKLOR_RUN_MARKS_LEFT);
        return fire(plan, places, state, process);
    }
    if (edge >= plan->edges || !state->marks[TAMSKLOR_MARK(process, edge)])
        return answer(TAMSKLOR_RUN_REFUSED, TAMSKLOR_RUN_NOT_MARKED);
    return look_at(plan, places, state, process, edge);
}

uint32_t twin_begin(const TamsklorPlan *plan, TamsklorState *state)
{
    memset(state, 0, sizeof *state);
    return twin_plan_fits(plan) ? TAMSKLOR_RUN_ACCEPTED
                                : TAMSKLOR_RUN_OUT_OF_SHAPE;
}

TamsklorCallAnswer twin_step(const TamsklorPlan *plan, TamsklorState *state,
                             uint32_t code, uint32_t process, uint32_t edge)
{
    struct twin_places places;
    if (code > TAMSKLOR_RUN_FIRE)
        return answer(TAMSKLOR_RUN_REFUSED, TAMSKLOR_RUN_UNKNOWN_CODE);
    if (!both_fit(plan, state, &places))
        return answer(TAMSKLOR_RUN_REFUSED, TAMSKLOR_RUN_OUT_OF_SHAPE);
    return twin_step_in_shape(plan, &places, state, code, process, edge);
}

TamsklorTokenAnswer twin_tokens(const TamsklorPlan *plan,
                                const TamsklorState *state, uint32_t edge)
{
    TamsklorTokenAnswer made = {TAMSKLOR_RUN_OUT_OF_SHAPE, 0};
    struct twin_places places;
    uint32_t m, n;
    if (!both_fit(plan, state, &places))
        return made;
    made.number = TAMSKLOR_RUN_NOT_SYNCHRONISING;
    if (edge >= plan->edges || places.process_of[plan->source[edge]] ==
                                   places.process_of[plan->destination[edge]])
        return made;
    m = rounded_b(plan, &places, state, plan->source[edge]);
    n = rounded_b(plan, &places, state, plan->destination[edge]);
    made.number = TAMSKLOR_RUN_ACCEPTED;
    made.count =
        (minus(plan->modulus, m, n) / plan->q + plan->tokens[edge]) %
        plan->modulus;
    return made;
}

TamsklorBegun twin_begun(const TamsklorPlan *plan)
{
    TamsklorBegun begun;
    begun.number = twin_begin(plan, &begun.state);
    return begun;
}

TamsklorStepped twin_stepped(TamsklorPlan plan, TamsklorState state,
                             uint32_t code, uint32_t process, uint32_t edge)
{
    TamsklorStepped stepped;
    stepped.state = state;
    stepped.answer = twin_step(&plan, &stepped.state, code, process, edge);
    return stepped;
}
