#include <string.h>

#include "declared.h"

uint32_t declared_process(const struct second_plan *plan, uint32_t node)
{
    uint32_t process = 0, in_it = 0;
    for (uint32_t at = 0; plan->order[at] != node; at++)
        if (++in_it == plan->length[process]) {
            process++;
            in_it = 0;
        }
    return process;
}

/* 5: "a process length 0; else lengths not adding up to nodes". */
static int lengths_break(const struct second_plan *plan, uint32_t place)
{
    uint32_t zeros = 0;
    int64_t sum = 0;
    if (place < plan->processes)
        return plan->length[place] == 0;
    for (uint32_t p = 0; p < plan->processes; p++) {
        zeros += plan->length[p] == 0;
        sum += plan->length[p];
    }
    return zeros == 0 && sum != plan->nodes;
}

/* 6: "an order entry not a node, or a node seen before". */
static int order_breaks(const struct second_plan *plan, uint32_t place)
{
    for (uint32_t before = 0; before < place; before++)
        if (plan->order[before] == plan->order[place])
            return 1;
    return plan->order[place] >= plan->nodes;
}

/* 8: "an end unknown, too many tokens, edge not above the one before it". */
static int edge_breaks(const struct second_plan *plan, uint32_t place)
{
    int above = place == 0 || plan->source[place] > plan->source[place - 1] ||
                (plan->source[place] == plan->source[place - 1] &&
                 plan->target[place] > plan->target[place - 1]);
    return plan->source[place] >= plan->nodes ||
           plan->target[place] >= plan->nodes || plan->tokens[place] > 1000 ||
           !above;
}

int declared_table_breaks(const struct second_plan *plan, uint32_t number,
                          uint32_t place)
{
    switch (number) {
    case 5: return lengths_break(plan, place);
    case 6: return order_breaks(plan, place);
    case 7:
        return plan->counter[place] >= plan->counters ||
               plan->increment[place] > 255;
    default: return edge_breaks(plan, place);
    }
}

int declared_plan_shape(const struct second_plan *plan)
{
    uint32_t sum = 0;
    if (plan->nodes - 1 > 63 || plan->processes - 1 > 63 ||
        plan->edges - 1 > 511 || plan->counters - 1 > 63 ||
        plan->modulus - 1 > 1999999999)
        return 0;
    for (uint32_t place = 0; place <= plan->processes; place++)
        if (declared_table_breaks(plan, 5, place))
            return 0;
    for (uint32_t node = 0; node < plan->nodes; node++)
        if (declared_table_breaks(plan, 6, node) ||
            declared_table_breaks(plan, 7, node))
            return 0;
    for (uint32_t edge = 0; edge < plan->edges; edge++)
        if (declared_table_breaks(plan, 8, edge))
            return 0;
    for (uint32_t node = 0; node < plan->nodes; node++)
        sum += plan->counter[node] == 0 ? plan->increment[node] : 0;
    return sum >= 1 && plan->round_sum == sum;
}

/* The node a process is at, for plans and states in shape. */
static uint32_t node_of(const struct second_plan *plan,
                        const struct second_state *state, uint32_t process)
{
    uint32_t at = state->position[process];
    for (uint32_t p = 0; p < process; p++)
        at += plan->length[p];
    return plan->order[at];
}

/* Whether an edge comes to the process's next node from another process. */
static int comes_in(const struct second_plan *plan,
                    const struct second_state *state, uint32_t process,
                    uint32_t edge)
{
    return edge < plan->edges &&
           plan->target[edge] == node_of(plan, state, process) &&
           declared_process(plan, plan->source[edge]) != process;
}

/* The row of a process: marks 0 or 1, only where they may be. */
static int row_shape(const struct second_plan *plan,
                     const struct second_state *state, uint32_t process)
{
    static const uint8_t no_marks[SECOND_EDGES];
    if (memcmp(state->mark[process], no_marks, sizeof no_marks) == 0)
        return 1;
    for (uint32_t edge = 0; edge < SECOND_EDGES; edge++)
        if (state->mark[process][edge] != 0 &&
            (state->mark[process][edge] != 1 ||
             process >= plan->processes || state->open[process] != 1 ||
             !comes_in(plan, state, process, edge)))
            return 0;
    return 1;
}

int declared_state_shape(const struct second_plan *plan,
                         const struct second_state *state)
{
    for (uint32_t p = 0; p < SECOND_PROCESSES; p++) {
        uint32_t positions = p < plan->processes ? plan->length[p] : 1;
        uint32_t flags = p < plan->processes ? 2 : 1;
        if (state->position[p] >= positions || state->open[p] >= flags ||
            !row_shape(plan, state, p))
            return 0;
    }
    for (uint32_t c = 0; c < SECOND_COUNTERS; c++)
        if (state->counter[c] > (c < plan->counters ? plan->modulus - 1 : 0))
            return 0;
    return 1;
}

/* The remainder from 0 up, of any number. */
static int64_t rest_of(int64_t value, int64_t modulus)
{
    return value >= 0 ? value % modulus
                      : (modulus - (-value) % modulus) % modulus;
}

/* b(x), rounded up to a multiple of Q. */
static int64_t b_rounded(const struct second_plan *plan,
                         const struct second_state *state, uint32_t x)
{
    uint32_t process = declared_process(plan, x);
    int64_t earlier = 0, b;
    for (uint32_t at = 0; plan->order[at] != x; at++)
        if (declared_process(plan, plan->order[at]) == process &&
            plan->counter[plan->order[at]] == plan->counter[x])
            earlier += plan->increment[plan->order[at]];
    b = rest_of(state->counter[plan->counter[x]] - earlier, plan->modulus);
    while (b % plan->round_sum != 0)
        b++;
    return b;
}

/* "found when rounded b(n) minus rounded b(m), modulo N, differs from Q times
   the starting tokens, modulo N". */
static int is_found(const struct second_plan *plan,
                    const struct second_state *state, uint32_t edge)
{
    int64_t b_n = b_rounded(plan, state, plan->target[edge]);
    int64_t b_m = b_rounded(plan, state, plan->source[edge]);
    int64_t full = (int64_t)plan->round_sum * plan->tokens[edge];
    return rest_of(b_n - b_m, plan->modulus) != rest_of(full, plan->modulus);
}

static uint32_t left_to_see(const struct second_state *state, uint32_t process)
{
    uint32_t left = 0;
    for (uint32_t edge = 0; edge < SECOND_EDGES; edge++)
        left += state->mark[process][edge] != 0;
    return left;
}

/* The number a call is turned down with, or 0. */
static uint32_t turned_down(const struct second_plan *plan,
                            const struct second_state *state, uint32_t code,
                            uint32_t process, uint32_t edge)
{
    if (code > 2)
        return 26;
    if (!declared_plan_shape(plan) || !declared_state_shape(plan, state))
        return 25;
    if (process >= plan->processes)
        return 20;
    if (code == 0 && state->open[process] == 1)
        return 21;
    if (code != 0 && state->open[process] == 0)
        return 22;
    if (code == 1 && (edge > 511 || state->mark[process][edge] == 0))
        return 23;
    if (code == 2 && left_to_see(state, process) != 0)
        return 24;
    return 0;
}

/* What a call that is not turned down does and answers. */
static struct second_answer carried_out(const struct second_plan *plan,
                                        const struct second_state *before,
                                        uint32_t code, uint32_t process,
                                        uint32_t edge,
                                        struct second_state *after)
{
    struct second_answer answer = {SECOND_OPENED, 0};
    uint32_t node = node_of(plan, before, process);
    after->turn = before->turn == UINT32_MAX ? 0 : before->turn + 1;
    if (code == 0) {
        after->open[process] = 1;
        for (uint32_t e = 0; e < plan->edges; e++)
            after->mark[process][e] =
                (uint8_t)comes_in(plan, before, process, e);
        answer.value = left_to_see(after, process);
    } else if (code == 1) {
        int found = is_found(plan, before, edge);
        if (found)
            after->mark[process][edge] = 0;
        answer.kind = found ? SECOND_FOUND : SECOND_WAIT;
        answer.value = left_to_see(after, process);
    } else {
        uint32_t c = plan->counter[node];
        after->counter[c] = (uint32_t)rest_of(
            (int64_t)before->counter[c] + plan->increment[node], plan->modulus);
        after->open[process] = 0;
        after->position[process] = (uint16_t)(
            (before->position[process] + 1) % plan->length[process]);
        answer.kind = SECOND_FIRED;
        answer.value = node;
    }
    return answer;
}

struct second_answer declared_step(const struct second_plan *plan,
                                   const struct second_state *before,
                                   uint32_t code, uint32_t process,
                                   uint32_t edge, struct second_state *after)
{
    struct second_answer refused = {SECOND_REFUSED, 0};
    *after = *before;
    refused.value = turned_down(plan, before, code, process, edge);
    if (refused.value != 0)
        return refused;
    return carried_out(plan, before, code, process, edge, after);
}

struct second_answer declared_reading(const struct second_plan *plan,
                                      const struct second_state *state,
                                      uint32_t edge)
{
    struct second_answer answer = {SECOND_REFUSED, 25};
    int64_t apart, b_m, b_n;
    if (!declared_plan_shape(plan) || !declared_state_shape(plan, state))
        return answer;
    answer.value = 27;
    if (edge >= plan->edges || declared_process(plan, plan->source[edge]) ==
                                   declared_process(plan, plan->target[edge]))
        return answer;
    b_m = b_rounded(plan, state, plan->source[edge]);
    b_n = b_rounded(plan, state, plan->target[edge]);
    apart = rest_of(b_m - b_n, plan->modulus) / plan->round_sum;
    answer.kind = SECOND_TOKENS_READ;
    answer.value = (uint32_t)rest_of(apart + plan->tokens[edge], plan->modulus);
    return answer;
}
