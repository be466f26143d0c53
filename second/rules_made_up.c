/* Made-up plan values and states by hand: 25, and answers where demands 2 and
   3 say nothing. */
#include <string.h>

#include "check.h"
#include "hand.h"
#include "made.h"

static struct second_plan plan;
static struct second_state state;

/* A hand-made plan value, whether or not it would be accepted; fresh state. */
static void take(const char *orders, const char *edges, const char *counters,
                 const char *increments, uint32_t modulus)
{
    struct sketch s;
    hand_plan(&s, orders, edges, counters, increments, modulus);
    made_plan_of(&s, &plan);
    memset(&state, 0, sizeof state);
}

/* All calls, the reading and (where the plan is at fault) begin give 25. */
static void expect_25(const char *what, int plan_at_fault)
{
    static struct second_state before, begun, zero;
    before = state;
    for (uint32_t code = 0; code < 3; code++) {
        struct second_answer answer = second_step(&plan, &state, code, 99, 0);
        check(answer.kind == SECOND_REFUSED && answer.value == 25, what, code);
    }
    check(second_step(&plan, &state, 3, 0, 0).value == 26, "26 before 25", 0);
    check(second_token_reading(&plan, &state, 999).value == 25, what, 0);
    check(second_token_reading(&plan, &state, 999).kind == SECOND_REFUSED,
          what, 0);
    check(memcmp(&before, &state, sizeof state) == 0, what, 0);
    memset(&begun, 1, sizeof begun);
    check(second_begin(&plan, &begun) == (plan_at_fault ? 25u : 0u), what, 0);
    check(memcmp(&begun, &zero, sizeof zero) == 0, what, 0);
}

/* P as a plan value. */
static void take_p(void)
{
    take("0 1|2 3", "0-1:0 1-0:1 1-2:0 2-3:0 3-0:3 3-2:1", "0 0 1 1",
         "0 1 0 1", 4);
}

/* Plan values out of shape, one entry each. */
static void plans_out_of_shape(void)
{
    take_p(), plan.nodes = 0, expect_25("no nodes", 1);
    take_p(), plan.nodes = 65, expect_25("65 nodes", 1);
    take_p(), plan.nodes = UINT32_MAX, expect_25("all nodes", 1);
    take_p(), plan.processes = 65, expect_25("65 processes", 1);
    take_p(), plan.edges = 513, expect_25("513 edges", 1);
    take_p(), plan.edges = 0, expect_25("no edges", 1);
    take_p(), plan.counters = 65, expect_25("65 counters", 1);
    take_p(), plan.counters = 0, expect_25("no counters", 1);
    take_p(), plan.modulus = 0, expect_25("N 0", 1);
    take_p(), plan.modulus = 2000000001, expect_25("N above", 1);
    take_p(), plan.round_sum = 0, expect_25("Q 0", 1);
    take_p(), plan.round_sum = 2, expect_25("Q 2", 1);
    take_p(), plan.length[0] = 3, expect_25("lengths", 1);
    take_p(), plan.length[1] = 0, expect_25("length 0", 1);
    take_p(), plan.order[3] = 0, expect_25("order", 1);
    take_p(), plan.order[0] = 4, expect_25("order entry", 1);
    take_p(), plan.counter[2] = 2, expect_25("counter", 1);
    take_p(), plan.increment[2] = 256, expect_25("increment", 1);
    take_p(), plan.source[5] = 4, expect_25("source", 1);
    take_p(), plan.tokens[0] = 1001, expect_25("tokens", 1);
    take_p(), plan.target[5] = 0, expect_25("repeated edge", 1);
    take_p(), plan.increment[1] = plan.increment[0] = 0, plan.round_sum = 0;
    expect_25("counter 0's sum 0", 1);
    memset(&plan, 0, sizeof plan), expect_25("the plan after a refusal", 1);
}

/* States out of shape, one entry each. */
static void states_out_of_shape(void)
{
    take_p(), state.position[0] = 2, expect_25("position", 0);
    take_p(), state.position[2] = 1, expect_25("position past", 0);
    take_p(), state.open[0] = 2, expect_25("open 2", 0);
    take_p(), state.open[63] = 1, expect_25("open past", 0);
    take_p(), state.mark[0][4] = 1, expect_25("mark while closed", 0);
    take_p(), state.open[0] = 1, state.mark[0][2] = 1;
    expect_25("mark on another's edge", 0);
    take_p(), state.open[0] = 1, state.mark[0][1] = 1;
    expect_25("mark on a process edge", 0);
    take_p(), state.open[0] = 1, state.mark[0][6] = 1;
    expect_25("mark past the edges", 0);
    take_p(), state.open[0] = 1, state.mark[0][511] = 1;
    expect_25("mark at the row's end", 0);
    take_p(), state.open[0] = 1, state.mark[0][4] = 2;
    expect_25("mark 2", 0);
    take_p(), state.open[0] = state.position[0] = 1, state.mark[0][4] = 1;
    expect_25("mark for another position", 0);
    take_p(), state.mark[63][511] = 1, expect_25("last mark", 0);
    take_p(), state.counter[0] = 4, expect_25("counter N", 0);
    take_p(), state.counter[2] = 1, expect_25("counter past", 0);
    take_p(), state.counter[63] = 1, expect_25("last counter", 0);
}

/* What is in shape although nobody would call it a plan. */
static void odd_but_in_shape(void)
{
    struct second_answer answer;
    take_p();
    memset(plan.length + 2, 255, sizeof plan.length - 4);
    plan.order[4] = plan.counter[4] = plan.increment[63] = 65535;
    plan.source[6] = plan.target[511] = plan.tokens[6] = 65535;
    answer = second_step(&plan, &state, SECOND_OPEN, 0, 0);
    check(answer.kind == SECOND_OPENED && answer.value == 1,
          "entries past the counts are not tested", answer.value);
    take_p(), plan.counters = 64;
    check(second_begin(&plan, &state) == 0, "unused counters are in shape", 0);
    take("0|1", "0-1:0", "0 0", "1 2", 2);
    check(plan.round_sum == 3, "Q over all nodes with counter 0", 0);
    check(second_begin(&plan, &state) == 0, "C1 broken is in shape", 0);
}

/* Opens the process of node 1 and looks at edge 0-1, which is edge 1. */
static enum second_kind look_at_0_1(uint32_t counter_0, uint32_t counter_1)
{
    memset(&state, 0, sizeof state);
    state.counter[0] = counter_0;
    state.counter[1] = counter_1;
    second_step(&plan, &state, SECOND_OPEN, 1, 0);
    return second_step(&plan, &state, SECOND_LOOK, 1, 1).kind;
}

/* N 7, Q 3: b 5 and 2 round to 6 and 3; 3 - 6 is 4 modulo 7. */
static void sum_misses_modulus(void)
{
    take("0|1", "0-0:1 0-1:2 1-0:1 1-1:1", "0 1", "3 3", 7);
    check(look_at_0_1(5, 2) == SECOND_FOUND, "4 is not 6", 0);
    plan.tokens[1] = 6;
    check(look_at_0_1(5, 2) == SECOND_WAIT, "4 is 18 modulo 7", 0);
    check(second_token_reading(&plan, &state, 1).value == 0, "3/3+6 mod 7", 0);
    check(second_token_reading(&plan, &state, 2).value == 2, "4/3+1", 0);
    plan.tokens[1] = 2;
    check(second_token_reading(&plan, &state, 1).value == 3, "3/3+2", 0);
    check(look_at_0_1(0, 5) == SECOND_WAIT, "6 - 0 is 6", 0);
    check(look_at_0_1(0, 6) == SECOND_WAIT, "6 rounds to itself", 0);
    check(look_at_0_1(6, 0) == SECOND_FOUND, "0 - 6 is 1", 0);
}

/* N 1 and increments of 255; N below Q; b below 0. */
static void tiny_modulus(void)
{
    struct second_answer answer;
    take("0|1", "0-0:1 0-1:7 1-0:1 1-1:1", "0 1", "255 255", 1);
    check(look_at_0_1(0, 0) == SECOND_WAIT, "all is 0 modulo 1", 0);
    check(second_token_reading(&plan, &state, 1).value == 0, "7 modulo 1", 0);
    second_step(&plan, &state, SECOND_OPEN, 0, 0);
    second_step(&plan, &state, SECOND_LOOK, 0, 2);
    memset(state.mark[0], 0, sizeof state.mark[0]);
    answer = second_step(&plan, &state, SECOND_FIRE, 0, 0);
    check(answer.kind == SECOND_FIRED && state.counter[0] == 0, "255 mod 1", 0);
    take("0 1|2", "0-1:0 1-0:1 1-2:0 2-1:0 2-2:1", "0 0 1", "255 1 255", 100);
    check(plan.round_sum == 256, "Q 256", plan.round_sum);
    state.position[0] = 1;
    second_step(&plan, &state, SECOND_OPEN, 0, 0);
    answer = second_step(&plan, &state, SECOND_LOOK, 0, 3);
    check(answer.kind == SECOND_FOUND, "b(1) is 45, rounds to 256, is 56", 0);
    check(second_token_reading(&plan, &state, 3).value == 0, "44/256", 0);
    check(second_token_reading(&plan, &state, 2).value == 0, "56/256", 0);
}

/* The largest numbers: counters at N - 1 with N 2,000,000,000. */
static void large_numbers(void)
{
    struct second_answer answer;
    take("0|1", "0-0:1 0-1:1000 1-0:1 1-1:1", "0 1", "255 255", 2000000000);
    check(look_at_0_1(1999999999, 0) == SECOND_FOUND, "far apart", 0);
    check(state.turn == 2, "turn", state.turn);
    answer = second_token_reading(&plan, &state, 1);
    check(answer.value == 1000, "rounded up past N: 190/255 + 1000",
          answer.value);
    answer = second_token_reading(&plan, &state, 2);
    check(answer.value == 7843137, "1,999,999,810/255 + 1", answer.value);
    state.open[0] = 1;
    answer = second_step(&plan, &state, SECOND_FIRE, 0, 0);
    check(answer.kind == SECOND_FIRED && state.counter[0] == 254,
          "1,999,999,999 + 255", state.counter[0]);
}

/* C1 broken: b counts only earlier nodes of the node's own round. */
static void shared_counter(void)
{
    take("0 1|2", "0-1:0 0-2:0 1-0:1 2-1:3 2-2:1", "0 0 0", "4 1 5", 50);
    check(plan.round_sum == 10, "Q 10", plan.round_sum);
    state.counter[0] = 14;
    check(second_token_reading(&plan, &state, 1).value == 0,
          "20 - 20: nodes 0 and 2 have none earlier", 0);
    check(second_token_reading(&plan, &state, 3).value == 4,
          "20 - 10, /10, + 3: node 1 has node 0 earlier", 0);
}

void rules_made_up(void)
{
    plans_out_of_shape();
    states_out_of_shape();
    odd_but_in_shape();
    sum_misses_modulus();
    tiny_modulus();
    large_numbers();
    shared_counter();
}
