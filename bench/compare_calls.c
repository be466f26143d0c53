/* The calls and their C twins must answer alike: runs of drawn plans, and
   made-up plan values and states in and out of shape.

     compare_calls [CALLS] */
#include <stdio.h>
#include <stdlib.h>
#include <string.h>

#include "draw.h"
#include "made.h"
#include "measure.h"
#include "script.h"
#include "twin.h"

enum { MOST_COUNT = 65535, NUMBERS = 28, KINDS = 5 };

static unsigned long calls, readings, begins;
static unsigned long kinds[KINDS];     /* answers of calls, by kind */
static unsigned long refused[NUMBERS]; /* calls and readings, by number */

static TamsklorPlan plan;
static TamsklorState state;

static uint16_t held(uint32_t count)
{
    return (uint16_t)(count > MOST_COUNT ? MOST_COUNT : count);
}

/* A made-up plan as the host holds it. */
static void take_plan(const struct second_plan *from)
{
    plan.nodes = held(from->nodes);
    plan.processes = held(from->processes);
    plan.edges = held(from->edges);
    plan.counters = held(from->counters);
    plan.modulus = from->modulus;
    plan.q = from->round_sum;
    memcpy(plan.lengths, from->length, sizeof plan.lengths);
    memcpy(plan.order, from->order, sizeof plan.order);
    memcpy(plan.counter, from->counter, sizeof plan.counter);
    memcpy(plan.increment, from->increment, sizeof plan.increment);
    memcpy(plan.source, from->source, sizeof plan.source);
    memcpy(plan.destination, from->target, sizeof plan.destination);
    memcpy(plan.tokens, from->tokens, sizeof plan.tokens);
}

/* A made-up state as the host holds it. */
static void take_state(const struct second_state *from)
{
    memcpy(state.positions, from->position, sizeof state.positions);
    memcpy(state.opened, from->open, sizeof state.opened);
    memcpy(state.marks, from->mark, sizeof state.marks);
    memcpy(state.counters, from->counter, sizeof state.counters);
    state.turn = from->turn;
}

static int same_answer(TamsklorCallAnswer a, TamsklorCallAnswer b)
{
    return a.kind == b.kind && a.value == b.value;
}

static int same_state(const TamsklorState *a, const TamsklorState *b)
{
    return memcmp(a, b, sizeof *a) == 0;
}

/* One call in all four ways; the state goes on. */
static void compare_step(uint32_t code, uint32_t process, uint32_t edge)
{
    static TamsklorState twin_state;
    static TamsklorStepped stepped, twin_by_value;
    TamsklorCallAnswer host, twin;
    twin_state = state;
    stepped = tamsklor_run_stepped(plan, state, code, process, edge);
    twin_by_value = twin_stepped(plan, state, code, process, edge);
    host = tamsklor_run_step(&plan, &state, code, process, edge);
    twin = twin_step(&plan, &twin_state, code, process, edge);
    if (!same_answer(host, twin) || !same_answer(host, stepped.answer) ||
        !same_answer(host, twin_by_value.answer))
        give_up("the answers of a call and of its twin differ");
    if (!same_state(&state, &twin_state) ||
        !same_state(&state, &stepped.state) ||
        !same_state(&state, &twin_by_value.state))
        give_up("the states after a call and after its twin differ");
    if (host.kind < KINDS)
        kinds[host.kind]++;
    if (host.kind == TAMSKLOR_RUN_REFUSED && host.value < NUMBERS)
        refused[host.value]++;
    calls++;
}

static int same_tokens(TamsklorTokenAnswer a, TamsklorTokenAnswer b)
{
    return a.number == b.number && a.count == b.count;
}

static void compare_tokens(uint32_t edge)
{
    TamsklorTokenAnswer host = tamsklor_run_tokens(&plan, &state, edge);
    if (!same_tokens(host, twin_tokens(&plan, &state, edge)))
        give_up("a token reading and its twin differ");
    if (host.number < NUMBERS)
        refused[host.number]++;
    readings++;
}

static void compare_begin(void)
{
    static TamsklorBegun host, twin;
    static TamsklorState in_place;
    host = tamsklor_run_begin(&plan);
    twin = twin_begun(&plan);
    if (twin_begin(&plan, &in_place) != host.number ||
        twin.number != host.number || !same_state(&host.state, &twin.state) ||
        !same_state(&host.state, &in_place))
        give_up("a beginning and its twin differ");
    begins++;
}

/* Some number that is often small and sometimes any 32 bits. */
static uint32_t some_number(struct random *random, uint32_t near)
{
    static const uint32_t odd[] = {64, 255, 256, 511, 512, 65536, UINT32_MAX};
    return random_one_in(random, 10) ? odd[random_below(random, 7)]
                                     : random_below(random, near % 1000 + 1);
}

/* A process's marks looked at, then fired and opened again. */
static void try_process(struct random *random)
{
    uint32_t p = random_below(random, TAMSKLOR_PROCESSES);
    if (plan.processes > 0 && plan.processes < p)
        p = random_below(random, plan.processes);
    for (uint32_t e = 0; e < TAMSKLOR_EDGES; e++)
        if (state.marks[TAMSKLOR_MARK(p, e)])
            compare_step(TAMSKLOR_RUN_LOOK, p, e);
    compare_step(TAMSKLOR_RUN_FIRE, p, 0);
    compare_step(TAMSKLOR_RUN_OPEN, p, 0);
}

static void try_calls(struct random *random, uint32_t rounds)
{
    compare_begin();
    for (uint32_t i = 0; i < rounds; i++) {
        uint32_t code = some_number(random, 3);
        uint32_t process = some_number(random, plan.processes);
        compare_step(code, process, some_number(random, plan.edges));
        compare_tokens(some_number(random, plan.edges));
        try_process(random);
    }
}

/* A made-up plan and state in shape, then each out of shape in one way. */
static void try_made(struct random *random, uint32_t round)
{
    static struct second_plan made, bad_plan;
    static struct second_state reached, bad_state;
    made_plan(random, &made);
    made_state(random, &made, &reached);
    bad_plan = made;
    bad_state = reached;
    take_plan(&made);
    take_state(&reached);
    try_calls(random, 6);
    if (spoil_state(random, round % STATE_FAULTS, &made, &bad_state)) {
        take_state(&bad_state);
        try_calls(random, 1);
    }
    if (spoil_plan(random, round % PLAN_FAULTS, &bad_plan)) {
        take_plan(&bad_plan);
        take_state(&reached);
        try_calls(random, 1);
    }
}

/* A run of a drawn plan from a fresh start. */
static void try_run(struct random *random, uint32_t length)
{
    static struct sketch sketch;
    static struct shadow shadow;
    static struct second_plan drawn;
    static struct second_state fresh;
    struct wish wish = {0};
    wish.most_nodes = random_one_in(random, 2) ? 64 : 8;
    draw_plan(random, &wish, &sketch);
    made_plan_of(&sketch, &drawn);
    take_plan(&drawn);
    take_state(&fresh);
    shadow_begin(&sketch, &shadow);
    for (uint32_t i = 0; i < length; i++) {
        struct call call = random_one_in(random, 8)
                               ? draw_any_call(random, &sketch)
                               : draw_useful_call(random, &shadow);
        compare_step(call.code, call.process, call.edge);
        shadow_call(&shadow, call.code, call.process, call.edge);
        if (i % 4 == 0)
            compare_tokens(random_below(random, sketch.edges + 1));
    }
}

/* Every kind of answer and every number has to be met often. */
static void expect_all(unsigned long least)
{
    for (uint32_t kind = 0; kind < KINDS; kind++)
        if (kinds[kind] < least)
            give_up("a kind of answer is hardly met");
    for (uint32_t number = 20; number < NUMBERS; number++)
        if (refused[number] < least)
            give_up("a number is hardly met");
}

int main(int arguments, char **argument)
{
    unsigned long size = arguments > 1 ? strtoul(argument[1], NULL, 10) : 60000;
    struct random random = {20240229};
    for (uint32_t round = 0; calls < size; round++) {
        try_made(&random, round);
        try_run(&random, 150);
    }
    expect_all(size / 200);
    printf("answers of the calls: %lu calls, %lu readings, %lu beginnings, 0 "
           "differed\n",
           calls, readings, begins);
    return 0;
}
