/* Inside the second program: the tests a plan value meets, in 01's numbers. */
#ifndef SECOND_TESTS_H
#define SECOND_TESTS_H

#include "second.h"

#define NOWHERE ((int64_t)-1)
#define NO_ROUTE INT64_MAX

/* Where each node stands in the firing order. */
struct second_layout {
    uint32_t process_of[SECOND_NODES];
    uint32_t rank[SECOND_NODES];      /* position in the whole firing order */
    uint32_t first[SECOND_PROCESSES]; /* rank of a process's first node */
};

/* A plan under test with what is worked out on the way. */
struct plan_work {
    struct second_plan *plan;
    struct second_layout layout;
    int64_t route[SECOND_NODES][SECOND_NODES]; /* tokens of emptiest routes */
};

/* Each answers the lowest place at which its number applies, or NOWHERE. */
int64_t counts_place(const struct second_plan *plan);   /* 3 */
int64_t lengths_place(const struct second_plan *plan);  /* 5 */
int64_t order_place(const struct second_plan *plan);    /* 6 */
int64_t nodes_place(const struct second_plan *plan);    /* 7 */
int64_t edges_place(const struct second_plan *plan);    /* 8 */
int64_t process_edge_place(const struct plan_work *work);  /* 9 */
int64_t shared_counter_place(const struct plan_work *work); /* 10 */
int64_t silent_node_place(const struct plan_work *work);    /* 11 */
int64_t sum_place(const struct plan_work *work);            /* 12 */
int64_t empty_cycle_place(const struct plan_work *work);    /* 13 */
int64_t one_way_place(const struct plan_work *work);        /* 14 */
int64_t multiple_place(const struct plan_work *work);       /* 15 */
int64_t bound_place(const struct plan_work *work);          /* 16 */

uint32_t counter_sum(const struct second_plan *plan, uint32_t counter);
void find_layout(const struct second_plan *plan, struct second_layout *layout);
int is_synchronising(const struct second_plan *plan,
                     const struct second_layout *layout, uint32_t edge);
void find_routes(struct plan_work *work);
uint32_t least_modulus(const struct plan_work *work);

#endif
