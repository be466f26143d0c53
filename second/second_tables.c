/* Tests 3 and 5 to 8 of document 01: bounds and tables of a plan value. */
#include "planted.h"
#include "second_tests.h"

/* "a count or N outside its bounds": whether low <= value <= high. */
static int within(uint32_t value, uint32_t low, uint32_t high)
{
    return low <= value && value <= high;
}

/* Number 3, place 0: each count and N against the line "Bounds". */
int64_t counts_place(const struct second_plan *plan)
{
    uint32_t top = FAULT(3, SECOND_MODULUS - 1, SECOND_MODULUS);
    int fits = within(plan->nodes, 1, SECOND_NODES) &&
               within(plan->processes, 1, SECOND_PROCESSES) &&
               within(plan->edges, 1, SECOND_EDGES) &&
               within(plan->counters, 1, SECOND_COUNTERS) &&
               within(plan->modulus, 1, top);
    return fits ? NOWHERE : 0;
}

/* The process lengths added up. */
static uint32_t length_sum(const struct second_plan *plan)
{
    uint32_t sum = 0;
    for (uint32_t process = 0; process < plan->processes; process++)
        sum += plan->length[process];
    return sum;
}

/* Number 5: the first length 0; else the number of processes. */
int64_t lengths_place(const struct second_plan *plan)
{
    int wrong_sum = length_sum(plan) != plan->nodes;
    if (FAULT(5, wrong_sum, 0))
        return plan->processes;
    for (uint32_t process = 0; process < plan->processes; process++)
        if (plan->length[process] == 0)
            return process;
    return wrong_sum ? (int64_t)plan->processes : NOWHERE;
}

/* Number 6: an order entry that is no node, or a node seen before. */
int64_t order_place(const struct second_plan *plan)
{
    uint64_t seen = 0;
    for (uint32_t rank = 0; rank < plan->nodes; rank++) {
        uint32_t node = plan->order[rank];
        if (node >= plan->nodes || (seen >> node & 1))
            return rank;
        seen = FAULT(6, 0, seen) | (uint64_t)1 << node;
    }
    return NOWHERE;
}

/* Number 7: counter unknown, or increment above 255. */
int64_t nodes_place(const struct second_plan *plan)
{
    uint32_t top = FAULT(7, SECOND_INCREMENT + 1, SECOND_INCREMENT);
    for (uint32_t node = 0; node < plan->nodes; node++)
        if (plan->counter[node] >= plan->counters ||
            plan->increment[node] > top)
            return node;
    return NOWHERE;
}

/* An edge's ends as one number that rises by source, then destination. */
static uint32_t edge_key(const struct second_plan *plan, uint32_t edge)
{
    return ((uint32_t)plan->source[edge] << 16) | plan->target[edge];
}

/* Number 8: an end unknown, too many tokens, or not above the edge before. */
int64_t edges_place(const struct second_plan *plan)
{
    for (uint32_t edge = 0; edge < plan->edges; edge++) {
        if (plan->source[edge] >= plan->nodes ||
            plan->target[edge] >= plan->nodes ||
            plan->tokens[edge] > SECOND_TOKENS)
            return edge;
        if (edge > 0 && edge_key(plan, edge) + FAULT(8, 1u, 0u) <=
                            edge_key(plan, edge - 1))
            return edge;
    }
    return NOWHERE;
}

/* "every counter's increments sum": over all nodes with this counter. */
uint32_t counter_sum(const struct second_plan *plan, uint32_t counter)
{
    uint32_t sum = 0;
    for (uint32_t node = 0; node < plan->nodes; node++)
        if (plan->counter[node] == counter)
            sum += plan->increment[node];
    return sum;
}

/* "process after process, each in firing order"; after tests 5 and 6. */
void find_layout(const struct second_plan *plan, struct second_layout *layout)
{
    uint32_t rank = 0;
    for (uint32_t process = 0; process < plan->processes; process++) {
        layout->first[process] = rank;
        for (uint32_t step = 0; step < plan->length[process]; step++) {
            layout->process_of[plan->order[rank]] = process;
            layout->rank[plan->order[rank]] = rank;
            rank++;
        }
    }
}

/* "synchronising when its ends are in different processes". */
int is_synchronising(const struct second_plan *plan,
                     const struct second_layout *layout, uint32_t edge)
{
    return layout->process_of[plan->source[edge]] !=
           layout->process_of[plan->target[edge]];
}
