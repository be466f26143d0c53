/* begin, open, look, fire and the token reading on made-up plan values and
   states, against 01 put down as plain definitions: numbers 20 to 27. */
#include <stdio.h>
#include <string.h>

#include "check.h"
#include "declared.h"
#include "made.h"

static unsigned long calls, readings, begins, begins_refused;
static unsigned long refused[28];      /* by number, calls and readings */
static unsigned long kinds[6];         /* by kind of answer */
static unsigned long plan_spoiled[PLAN_FAULTS], state_spoiled[STATE_FAULTS];
static unsigned long rough;            /* found or wait where N misses Q */

/* Some number that is often small and sometimes any 32 bits. */
static uint32_t some_number(struct random *random, uint32_t near)
{
    static const uint32_t odd[] = {64, 255, 256, 511, 512, 65536, UINT32_MAX};
    if (random_one_in(random, 10))
        return odd[random_below(random, 7)];
    return random_below(random, near + 1);
}

/* Counts an answer. */
static void count(struct second_answer answer)
{
    kinds[answer.kind]++;
    if (answer.kind == SECOND_REFUSED)
        refused[answer.value]++;
}

/* One call with the state before and after. */
static void compare_call(const struct second_plan *plan,
                         struct second_state *state, uint32_t code,
                         uint32_t process, uint32_t edge)
{
    static struct second_state before, after;
    struct second_answer expected, got;
    before = *state;
    expected = declared_step(plan, &before, code, process, edge, &after);
    got = second_step(plan, state, code, process, edge);
    check(got.kind == expected.kind && got.value == expected.value,
          "answer of a call", calls);
    check(memcmp(state, &after, sizeof after) == 0, "state after a call",
          calls);
    if (expected.kind == SECOND_REFUSED)
        check(memcmp(state, &before, sizeof before) == 0,
              "state after a refused call", calls);
    if (expected.kind == SECOND_FOUND || expected.kind == SECOND_WAIT)
        rough += plan->modulus % plan->round_sum != 0;
    count(expected);
    calls++;
    *state = after;
}

/* One token reading. */
static void compare_reading(const struct second_plan *plan,
                            const struct second_state *state, uint32_t edge)
{
    static struct second_state before;
    struct second_answer expected = declared_reading(plan, state, edge), got;
    before = *state;
    got = second_token_reading(plan, state, edge);
    check(got.kind == expected.kind && got.value == expected.value,
          "token reading", readings);
    check(memcmp(state, &before, sizeof before) == 0,
          "state after a token reading", readings);
    count(expected);
    readings++;
}

/* A beginning, from a state that held something else. */
static void compare_begin(const struct second_plan *plan)
{
    static struct second_state state, zero;
    uint32_t expected = declared_plan_shape(plan) ? 0 : 25;
    memset(&state, 0x5A, sizeof state);
    check(second_begin(plan, &state) == expected, "begin", begins);
    check(memcmp(&state, &zero, sizeof zero) == 0, "state begun", begins);
    begins++;
    begins_refused += expected != 0;
}

/* Some process that is open, or any where none is. */
static uint32_t some_process(struct random *random,
                             const struct second_plan *plan,
                             const struct second_state *state)
{
    uint32_t p = random_below(random, plan->processes);
    for (uint32_t i = 0; i < plan->processes; i++)
        if (state->open[(p + i) % plan->processes])
            return (p + i) % plan->processes;
    return p;
}

/* Looks at what is marked, again at what was just found, then fires. */
static void compare_progress(struct random *random,
                             const struct second_plan *plan,
                             struct second_state *state)
{
    uint32_t p = some_process(random, plan, state);
    for (uint32_t e = 0; e < plan->edges; e++)
        if (state->mark[p][e]) {
            compare_call(plan, state, SECOND_LOOK, p, e);
            if (random_one_in(random, 2))
                compare_call(plan, state, SECOND_LOOK, p, e);
        }
    compare_call(plan, state, SECOND_FIRE, p, some_number(random, 3));
    compare_call(plan, state, SECOND_OPEN, p, some_number(random, 3));
}

/* Some calls and readings on one plan and state. */
static void compare_some(struct random *random, const struct second_plan *plan,
                         struct second_state *state, uint32_t rounds)
{
    for (uint32_t i = 0; i < rounds; i++) {
        uint32_t code = random_one_in(random, 8) ? some_number(random, 3)
                                                 : random_below(random, 3);
        compare_call(plan, state, code, some_number(random, plan->processes),
                     some_number(random, plan->edges));
        compare_reading(plan, state, some_number(random, plan->edges));
        if (code == 0 && declared_plan_shape(plan) &&
            declared_state_shape(plan, state))
            compare_progress(random, plan, state);
    }
}

/* A plan and state in shape, then each spoiled in one way. */
static void try_one(struct random *random, unsigned long round)
{
    static struct second_plan plan, spoiled_plan;
    static struct second_state state, spoiled_state;
    uint32_t plan_way = (uint32_t)(round % PLAN_FAULTS);
    uint32_t state_way = (uint32_t)(round % STATE_FAULTS);
    int spoiled = 0;
    made_plan(random, &plan);
    made_state(random, &plan, &state);
    check(declared_plan_shape(&plan) && declared_state_shape(&plan, &state),
          "made in shape", round);
    compare_begin(&plan);
    spoiled_plan = plan;
    if (spoil_plan(random, plan_way, &spoiled_plan)) {
        check(!declared_plan_shape(&spoiled_plan), "plan spoiled", round);
        plan_spoiled[plan_way]++;
        compare_begin(&spoiled_plan);
        compare_some(random, &spoiled_plan, &state, 1);
    }
    spoiled_state = state;
    for (uint32_t tries = 0; tries < 8 && !spoiled; tries++)
        spoiled = spoil_state(random, state_way, &plan, &spoiled_state);
    if (spoiled) {
        check(!declared_state_shape(&plan, &spoiled_state), "state spoiled",
              round);
        state_spoiled[state_way]++;
        compare_some(random, &plan, &spoiled_state, 1);
    }
    compare_some(random, &plan, &state, 6);
}

/* Prints the counts and holds them against their floors. */
static void show_counts(unsigned long rounds)
{
    static const char *const names[] = {"refused", "opened", "found",
                                        "wait", "fired", "tokens read"};
    printf("calls %lu, readings %lu, begins %lu (refused %lu), looks where N "
           "misses Q %lu\n",
           calls, readings, begins, begins_refused, rough);
    check_floor("begins refused", begins_refused, rounds / 2);
    check_floor("looks where N misses Q", rough, rounds / 4);
    for (uint32_t kind = 0; kind < 6; kind++) {
        printf("%s %lu\n", names[kind], kinds[kind]);
        check_floor(names[kind], kinds[kind], rounds / 10);
    }
    for (uint32_t number = 20; number <= 27; number++) {
        printf("number %u: met %lu\n", (unsigned)number, refused[number]);
        check_floor("number met", refused[number], rounds / 8);
    }
    for (uint32_t way = 0; way < PLAN_FAULTS; way++)
        check_floor("way of a plan out of shape", plan_spoiled[way],
                    rounds / PLAN_FAULTS / 4);
    for (uint32_t way = 0; way < STATE_FAULTS; way++)
        check_floor("way of a state out of shape", state_spoiled[way],
                    rounds / STATE_FAULTS / 8);
}

int main(int arguments, char **argument)
{
    unsigned long seed = 1, rounds = 1500;
    struct random random;
    check_arguments(arguments, argument, &seed, &rounds);
    random.state = seed;
    for (unsigned long round = 0; round < rounds; round++)
        try_one(&random, round);
    show_counts(rounds);
    return check_end("test_calls");
}
