#include "order.h"

#include <stdio.h>
#include <string.h>

uint32_t order_first(const TamsklorPlan *plan, uint32_t process)
{
    uint32_t first = 0;
    for (uint32_t p = 0; p < process; p++)
        first += plan->lengths[p];
    return first;
}

uint32_t order_process(const TamsklorPlan *plan, uint32_t node)
{
    uint32_t at = 0, process = 0;
    while (plan->order[at] != node)
        at++;
    for (uint32_t end = plan->lengths[0]; end <= at; process++)
        end += plan->lengths[process + 1];
    return process;
}

int order_synchronises(const TamsklorPlan *plan, uint32_t edge)
{
    return order_process(plan, plan->source[edge]) !=
           order_process(plan, plan->destination[edge]);
}

void order_begin(const TamsklorPlan *plan, struct marking *marking)
{
    memset(marking, 0, sizeof *marking);
    for (uint32_t e = 0; e < plan->edges; e++)
        marking->tokens[e] = plan->tokens[e];
    for (uint32_t p = 0; p < plan->processes; p++)
        marking->next[p] = order_first(plan, p);
}

/* Moves a process past a node, if that is its next one. */
static int take_turn(const TamsklorPlan *plan, struct marking *marking,
                     uint32_t node)
{
    uint32_t process = order_process(plan, node);
    uint32_t first = order_first(plan, process);
    uint32_t next = marking->next[process];
    if (plan->order[next] != node) {
        printf("node %u fires, but process %u has node %u next\n",
               (unsigned)node, (unsigned)process, (unsigned)plan->order[next]);
        return 0;
    }
    next++;
    marking->next[process] =
        next == first + plan->lengths[process] ? first : next;
    return 1;
}

/* Takes one token from each in-edge of a node, if it is there. */
static int take_tokens(const TamsklorPlan *plan, struct marking *marking,
                       uint32_t node)
{
    for (uint32_t e = 0; e < plan->edges; e++) {
        if (plan->destination[e] != node)
            continue;
        if (marking->tokens[e] == 0) {
            printf("node %u fires, but edge %u-%u holds no token\n",
                   (unsigned)node, (unsigned)plan->source[e], (unsigned)node);
            return 0;
        }
        marking->tokens[e]--;
    }
    return 1;
}

int order_fire(const TamsklorPlan *plan, struct marking *marking,
               uint32_t node)
{
    if (!take_turn(plan, marking, node) || !take_tokens(plan, marking, node))
        return 0;
    for (uint32_t e = 0; e < plan->edges; e++)
        if (plan->source[e] == node)
            marking->tokens[e]++;
    marking->fired[node]++;
    return 1;
}
