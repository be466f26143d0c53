/* Tests 9 to 16 of document 01: process edges and conditions C0 to C4. */
#include <string.h>

#include "planted.h"
#include "second_tests.h"

/* Whether the edge from source to target is there with just these tokens. */
static int has_edge(const struct second_plan *plan, uint32_t source,
                    uint32_t target, uint32_t tokens)
{
    for (uint32_t edge = 0; edge < plan->edges; edge++)
        if (plan->source[edge] == source && plan->target[edge] == target)
            return plan->tokens[edge] == tokens;
    return 0;
}

/* "The edge from a process's last node to its first starts with one token,
   its other process edges with none": the edge out of this rank. */
static int has_process_edge(const struct second_plan *plan, uint32_t first,
                            uint32_t length, uint32_t step)
{
    uint32_t last = step + 1 == length;
    uint32_t next = last ? first : first + step + 1;
    return has_edge(plan, plan->order[first + step], plan->order[next], last);
}

/* Number 9: "order position of its source", over the whole firing order. */
int64_t process_edge_place(const struct plan_work *work)
{
    const struct second_plan *plan = work->plan;
    for (uint32_t process = 0; process < plan->processes; process++) {
        uint32_t first = work->layout.first[process];
        uint32_t length = plan->length[process];
        for (uint32_t step = 0; step < length; step++)
            if (!has_process_edge(plan, first, length, step))
                return FAULT(9, step, first + step);
    }
    return NOWHERE;
}

/* Number 10, C1: "nodes with one counter share a process". */
int64_t shared_counter_place(const struct plan_work *work)
{
    const struct second_plan *plan = work->plan;
    int64_t place = NOWHERE;
    for (uint32_t m = 0; m < plan->nodes; m++)
        for (uint32_t n = 0; n < m; n++)
            if (plan->counter[m] == plan->counter[n] &&
                work->layout.process_of[m] != work->layout.process_of[n] &&
                FAULT(10, plan->increment[m] > 0 && plan->increment[n] > 0, 1)
                && (place == NOWHERE || plan->counter[m] < place))
                place = plan->counter[m];
    return place;
}

/* Number 11, C2: "a node with a synchronising out-edge has an increment
   above 0"; edges rise by source, so the first one found is the lowest node. */
int64_t silent_node_place(const struct plan_work *work)
{
    const struct second_plan *plan = work->plan;
    for (uint32_t edge = 0; edge < plan->edges; edge++)
        if (is_synchronising(plan, &work->layout, edge) &&
            plan->increment[plan->source[edge]] == 0 &&
            FAULT(11, plan->tokens[edge] == 0, 1))
            return plan->source[edge];
    return NOWHERE;
}

/* Number 12, C3: "a counter's sum is 0 or differs from counter 0's". */
int64_t sum_place(const struct plan_work *work)
{
    uint32_t expected = counter_sum(work->plan, 0);
    for (uint32_t counter = 0; counter < work->plan->counters; counter++) {
        uint32_t sum = counter_sum(work->plan, counter);
        if (FAULT(12, counter == 0 ? sum == 0 : sum != 0 && sum != expected,
                  sum == 0 || sum != expected))
            return counter;
    }
    return NOWHERE;
}

/* Which nodes each node reaches over one or more edges without tokens;
   transitive closure, one 64-bit row a node. */
static void close_empty_edges(const struct second_plan *plan,
                              uint64_t reach[SECOND_NODES])
{
    memset(reach, 0, SECOND_NODES * sizeof reach[0]);
    for (uint32_t edge = 0; edge < plan->edges; edge++)
        if (plan->tokens[edge] == 0)
            reach[plan->source[edge]] |= (uint64_t)1 << plan->target[edge];
    for (uint32_t via = 0; via < plan->nodes; via++)
        for (uint32_t node = 0; node < plan->nodes; node++)
            if (reach[node] >> via & 1)
                reach[node] |= reach[via];
}

/* Number 13, C0: the lowest node that lies on some cycle without tokens. */
int64_t empty_cycle_place(const struct plan_work *work)
{
    uint64_t reach[SECOND_NODES];
    uint64_t on_cycle = 0;
    close_empty_edges(work->plan, reach);
    for (uint32_t node = 0; node < work->plan->nodes; node++)
        on_cycle |= reach[node] & ((uint64_t)1 << node);
    for (uint32_t node = 0; node < work->plan->nodes; node++)
        if ((on_cycle >> node & 1) ||
            FAULT(13, (reach[node] & on_cycle) != 0, 0))
            return node;
    return NOWHERE;
}

/* Lets every route also go through one more node. */
static void route_through(struct plan_work *work, uint32_t via)
{
    uint32_t nodes = work->plan->nodes;
    for (uint32_t from = 0; from < nodes; from++) {
        int64_t head = work->route[from][via];
        if (head == NO_ROUTE)
            continue;
        for (uint32_t to = 0; to < nodes; to++) {
            int64_t tail = work->route[via][to];
            if (tail != NO_ROUTE && head + tail < work->route[from][to])
                work->route[from][to] = head + tail;
        }
    }
}

/* "the least sum over all routes, chords and process edges included. From a
   node to itself it is 0, by the empty route": Floyd and Warshall's way. */
void find_routes(struct plan_work *work)
{
    const struct second_plan *plan = work->plan;
    for (uint32_t from = 0; from < plan->nodes; from++)
        for (uint32_t to = 0; to < plan->nodes; to++)
            work->route[from][to] = from == to ? 0 : NO_ROUTE;
    for (uint32_t edge = 0; edge < plan->edges; edge++)
        if (plan->source[edge] != plan->target[edge])
            work->route[plan->source[edge]][plan->target[edge]] =
                plan->tokens[edge];
    for (uint32_t via = 0; via < plan->nodes; via++)
        route_through(work, via);
}

/* Tokens of the emptiest route from an edge's end back to its start. */
static int64_t way_back(const struct plan_work *work, uint32_t edge)
{
    return work->route[work->plan->target[edge]][work->plan->source[edge]];
}

/* Number 14: "A synchronising edge with no route back is refused"; gone
   through from the end, so the lowest one stays. */
int64_t one_way_place(const struct plan_work *work)
{
    int64_t place = NOWHERE;
    for (uint32_t edge = work->plan->edges; edge-- > 0;)
        if (is_synchronising(work->plan, &work->layout, edge) &&
            way_back(work, edge) == NO_ROUTE && FAULT(14, place == NOWHERE, 1))
            place = edge;
    return place;
}

/* Number 15, place 0: "the modulus N is a multiple of Q". */
int64_t multiple_place(const struct plan_work *work)
{
    return work->plan->modulus % work->plan->round_sum == 0 ? NOWHERE : 0;
}

/* "Q times (its tokens plus the tokens on the emptiest route from n to m)";
   after test 14 there is such a route. */
static int64_t edge_bound(const struct plan_work *work, uint32_t edge)
{
    return work->plan->round_sum *
           (work->plan->tokens[edge] + way_back(work, edge));
}

/* Number 16: "N exceeds" the bound of each synchronising edge. */
int64_t bound_place(const struct plan_work *work)
{
    const struct second_plan *plan = work->plan;
    for (uint32_t edge = 0; edge < plan->edges; edge++) {
        if (!is_synchronising(plan, &work->layout, edge))
            continue;
        if (plan->modulus + FAULT(16, 1, 0) <= edge_bound(work, edge))
            return edge;
    }
    return NOWHERE;
}

/* "the smallest N that would pass 15 and 16 (Q where no edge synchronises)". */
uint32_t least_modulus(const struct plan_work *work)
{
    int64_t least = work->plan->round_sum;
    for (uint32_t edge = 0; edge < work->plan->edges; edge++) {
        if (!is_synchronising(work->plan, &work->layout, edge))
            continue;
        while (least <= edge_bound(work, edge))
            least += work->plan->round_sum;
    }
    return (uint32_t)least;
}
