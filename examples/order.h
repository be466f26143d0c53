/* The order of a run's firings against the marked graph, without Tamsklor. */
#ifndef ORDER_H
#define ORDER_H

#include <stddef.h>

#include "tamsklor.h"

/* A marked graph on its way: the tokens of each edge, the next node of each
   process as a position in the plan's order, and how often each node fired. */
struct marking {
    uint32_t tokens[TAMSKLOR_EDGES];
    uint32_t next[TAMSKLOR_PROCESSES];
    uint32_t fired[TAMSKLOR_NODES];
};

/* The starting tokens, the first nodes, nothing fired. */
void order_begin(const TamsklorPlan *plan, struct marking *marking);

/* Fires a node; says on standard output why the marked graph does not allow
   it, and returns 0. */
int order_fire(const TamsklorPlan *plan, struct marking *marking,
               uint32_t node);

/* The position in the plan's order where a process begins. */
uint32_t order_first(const TamsklorPlan *plan, uint32_t process);

/* The process of a node. */
uint32_t order_process(const TamsklorPlan *plan, uint32_t node);

/* Whether an edge joins two processes. */
int order_synchronises(const TamsklorPlan *plan, uint32_t edge);

#endif
