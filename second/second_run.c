/* "Running a plan" and "Token reading" of document 01. */
#include <string.h>

#include "planted.h"
#include "second_tests.h"

/* "tests 3, 5, 6, 7 and 8 pass on it and its Q is counter 0's sum and at
   least 1"; each test is safe only after the ones before it. */
static int plan_in_shape(const struct second_plan *plan)
{
    return counts_place(plan) == NOWHERE && lengths_place(plan) == NOWHERE &&
           order_place(plan) == NOWHERE && nodes_place(plan) == NOWHERE &&
           edges_place(plan) == NOWHERE && plan->round_sum >= 1 &&
           plan->round_sum == counter_sum(plan, 0);
}

/* A process's next node, by its position in the firing order. */
static uint32_t next_node(const struct second_plan *plan,
                          const struct second_layout *layout,
                          const struct second_state *state, uint32_t process)
{
    return plan->order[layout->first[process] + state->position[process]];
}

/* Whether an edge is a synchronising in-edge of the process's next node. */
static int leads_to_next(const struct second_plan *plan,
                         const struct second_layout *layout,
                         const struct second_state *state, uint32_t process,
                         uint32_t edge)
{
    return plan->target[edge] == next_node(plan, layout, state, process) &&
           is_synchronising(plan, layout, edge);
}

/* Whether nothing is marked in a row from this edge on. */
static int row_empty_from(const uint8_t *row, uint32_t edge)
{
    static const uint8_t nothing[SECOND_EDGES];
    return memcmp(row + edge, nothing, SECOND_EDGES - edge) == 0;
}

/* "a process's row has marks only while it is open, and only on synchronising
   in-edges of its own next node"; a mark is 0 or 1. */
static int row_in_shape(const struct second_plan *plan,
                        const struct second_layout *layout,
                        const struct second_state *state, uint32_t process)
{
    const uint8_t *row = state->mark[process];
    if (state->open[process] == 0)
        return row_empty_from(row, 0);
    for (uint32_t edge = 0; edge < plan->edges; edge++)
        if (row[edge] > 1 ||
            (row[edge] == 1 &&
             !leads_to_next(plan, layout, state, process, edge)))
            return 0;
    return row_empty_from(row, plan->edges);
}

/* "positions ... in range", open or closed, and the row. */
static int process_in_shape(const struct second_plan *plan,
                            const struct second_layout *layout,
                            const struct second_state *state, uint32_t process)
{
    return state->position[process] < plan->length[process] &&
           state->open[process] <= 1 &&
           row_in_shape(plan, layout, state, process);
}

/* "entries past the counts are 0": a process past the count. */
static int process_all_zero(const struct second_state *state, uint32_t process)
{
    return state->position[process] == 0 && state->open[process] == 0 &&
           row_empty_from(state->mark[process], 0);
}

/* "counters are in range", and 0 past the count. */
static int counters_in_shape(const struct second_plan *plan,
                             const struct second_state *state)
{
    for (uint32_t counter = 0; counter < SECOND_COUNTERS; counter++) {
        uint32_t end = counter < plan->counters ? plan->modulus : 1;
        if (state->counter[counter] >= end + FAULT(25, 1u, 0u))
            return 0;
    }
    return 1;
}

/* "A state is in shape when ..." for a plan in shape. */
static int state_in_shape(const struct second_plan *plan,
                          const struct second_layout *layout,
                          const struct second_state *state)
{
    for (uint32_t process = 0; process < plan->processes; process++)
        if (!process_in_shape(plan, layout, state, process))
            return 0;
    for (uint32_t p = plan->processes; p < SECOND_PROCESSES; p++)
        if (!process_all_zero(state, p))
            return 0;
    return counters_in_shape(plan, state);
}

/* 25: "plan or state out of shape"; gives the layout where both are in. */
static int all_in_shape(const struct second_plan *plan,
                        const struct second_state *state,
                        struct second_layout *layout)
{
    if (!plan_in_shape(plan))
        return 0;
    find_layout(plan, layout);
    return state_in_shape(plan, layout, state);
}

/* "Fresh: first positions, all closed, nothing marked, all counters 0, turn
   0"; "refused with 25 where the plan is out of shape". */
uint32_t second_begin(const struct second_plan *plan,
                      struct second_state *state)
{
    memset(state, 0, sizeof *state);
    return plan_in_shape(plan) ? 0 : 25;
}

/* The remainder in 0..modulus-1, for negative values too. */
static int64_t modulo(int64_t value, int64_t modulus)
{
    int64_t rest = value % modulus;
    return rest < 0 ? rest + modulus : rest;
}

/* "b(x) ... the counter of x less the increments to that counter by nodes
   earlier in x's process round, modulo N", rounded up to a multiple of Q. */
static int64_t rounded_b(const struct second_plan *plan,
                         const struct second_layout *layout,
                         const struct second_state *state, uint32_t node)
{
    int64_t b = state->counter[plan->counter[node]];
    int64_t sum = plan->round_sum;
    uint32_t first = layout->first[layout->process_of[node]];
    for (uint32_t rank = first; rank < layout->rank[node]; rank++)
        if (plan->counter[plan->order[rank]] == plan->counter[node])
            b -= plan->increment[plan->order[rank]];
    b = modulo(b, plan->modulus);
    return (b + sum - 1) / sum * sum;
}

/* Rounded b of an edge's one end less that of the other, modulo N. */
static int64_t gap(const struct second_plan *plan,
                   const struct second_layout *layout,
                   const struct second_state *state, uint32_t ahead,
                   uint32_t behind)
{
    return modulo(rounded_b(plan, layout, state, ahead) -
                      rounded_b(plan, layout, state, behind),
                  plan->modulus);
}

/* The test (000, formula 14). */
static int token_found(const struct second_plan *plan,
                       const struct second_layout *layout,
                       const struct second_state *state, uint32_t edge)
{
    int64_t empty = (int64_t)plan->round_sum * plan->tokens[edge];
    return gap(plan, layout, state, plan->target[edge], plan->source[edge]) !=
           modulo(empty, plan->modulus);
}

/* How many edges a process has still to see. */
static uint32_t marks_left(const struct second_state *state, uint32_t process)
{
    uint32_t left = 0;
    for (uint32_t edge = 0; edge < SECOND_EDGES; edge++)
        left += state->mark[process][edge];
    return left;
}

/* "look at an edge that isn't marked for it", whatever the edge's number. */
static int is_marked(const struct second_plan *plan,
                     const struct second_layout *layout,
                     const struct second_state *state, uint32_t process,
                     uint32_t edge)
{
    (void)layout;
    return edge < plan->edges &&
           FAULT(23, leads_to_next(plan, layout, state, process, edge),
                 state->mark[process][edge] == 1);
}

/* "Turned-down calls, tested in this order": 20 to 24, or 0. */
static uint32_t call_number(const struct second_plan *plan,
                            const struct second_layout *layout,
                            const struct second_state *state, uint32_t code,
                            uint32_t process, uint32_t edge)
{
    uint32_t known =
        FAULT(20, code == SECOND_OPEN ? plan->processes : SECOND_PROCESSES,
              plan->processes);
    if (process >= known)
        return 20;
    if (code == SECOND_OPEN)
        return state->open[process] &&
                       FAULT(21, marks_left(state, process) > 0, 1)
                   ? 21
                   : 0;
    if (!state->open[process] && FAULT(22, code == SECOND_FIRE, 1))
        return 22;
    if (code == SECOND_LOOK)
        return is_marked(plan, layout, state, process, edge) ? 0 : 23;
    return marks_left(state, process) > FAULT(24, 1, 0) ? 24 : 0;
}

/* "Open p: marks the synchronising in-edges of p's next node". */
static struct second_answer open_process(const struct second_plan *plan,
                                         const struct second_layout *layout,
                                         struct second_state *state,
                                         uint32_t process)
{
    struct second_answer answer = {SECOND_OPENED, 0};
    state->open[process] = 1;
    for (uint32_t edge = 0; edge < plan->edges; edge++)
        if (leads_to_next(plan, layout, state, process, edge)) {
            state->mark[process][edge] = 1;
            answer.value++;
        }
    return answer;
}

/* "Look p, e: tests one edge. Found: the mark goes. Wait: marks stay." */
static struct second_answer look_at(const struct second_plan *plan,
                                    const struct second_layout *layout,
                                    struct second_state *state,
                                    uint32_t process, uint32_t edge)
{
    struct second_answer answer = {SECOND_WAIT, 0};
    if (token_found(plan, layout, state, edge)) {
        answer.kind = SECOND_FOUND;
        state->mark[process][edge] = 0;
    }
    answer.value = marks_left(state, process);
    return answer;
}

/* "Fire p: adds the node's increment to its counter modulo N, closes p, moves
   to the next position, the last going to the first. Answers the node." */
static struct second_answer fire_next(const struct second_plan *plan,
                                      const struct second_layout *layout,
                                      struct second_state *state,
                                      uint32_t process)
{
    uint32_t node = next_node(plan, layout, state, process);
    struct second_answer answer = {SECOND_FIRED, node};
    uint32_t *counter = &state->counter[plan->counter[node]];
    *counter = (uint32_t)modulo((int64_t)*counter + plan->increment[node],
                                plan->modulus);
    state->open[process] = 0;
    state->position[process]++;
    if (state->position[process] == plan->length[process])
        state->position[process] = 0;
    return answer;
}

/* A call that is not refused; "raises the turn number by one". */
static struct second_answer do_call(const struct second_plan *plan,
                                    const struct second_layout *layout,
                                    struct second_state *state, uint32_t code,
                                    uint32_t process, uint32_t edge)
{
    state->turn++;
    if (code == SECOND_OPEN)
        return open_process(plan, layout, state, process);
    if (code == SECOND_LOOK)
        return look_at(plan, layout, state, process, edge);
    return fire_next(plan, layout, state, process);
}

/* One call: 26 "before all else", then 25, then 20 to 24; "The state comes
   back unchanged" where one applies. */
struct second_answer second_step(const struct second_plan *plan,
                                 struct second_state *state, uint32_t code,
                                 uint32_t process, uint32_t edge)
{
    struct second_layout layout;
    struct second_answer answer = {SECOND_REFUSED, 26};
    if (code > FAULT(26, SECOND_FIRE + 1, SECOND_FIRE))
        return answer;
    answer.value = 25;
    if (!all_in_shape(plan, state, &layout))
        return answer;
    answer.value = call_number(plan, &layout, state, code, process, edge);
    if (answer.value != 0)
        return answer;
    return do_call(plan, &layout, state, code, process, edge);
}

/* "rounded b(m) minus rounded b(n), modulo N, divided by Q and rounded down,
   plus the starting tokens, modulo N"; refused with 25, then 27. */
struct second_answer second_token_reading(const struct second_plan *plan,
                                          const struct second_state *state,
                                          uint32_t edge)
{
    struct second_layout layout;
    struct second_answer answer = {SECOND_REFUSED, 25};
    int64_t difference;
    if (!all_in_shape(plan, state, &layout))
        return answer;
    answer.value = 27;
    if (edge >= plan->edges ||
        FAULT(27, 0, !is_synchronising(plan, &layout, edge)))
        return answer;
    difference = gap(plan, &layout, state, plan->source[edge],
                     plan->target[edge]);
    answer.kind = SECOND_TOKENS_READ;
    answer.value = (uint32_t)modulo(
        difference / plan->round_sum + plan->tokens[edge], plan->modulus);
    return answer;
}
