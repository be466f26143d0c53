/* The plan check and the calls once more in plain C, to measure the proved
   ones against: the same answers, written as one writes them in C. */
#ifndef TWIN_H
#define TWIN_H

#include "tamsklor.h"

/* The plan check, by the same way: one row of emptiest routes a node. */
TamsklorVerdict twin_check(const uint8_t *image, size_t length);

/* The plan check's answer, and the plan where it is accepted. */
TamsklorPlanRead twin_read(const uint8_t *image, size_t length);

/* Whether a plan value is in shape: tests 3, 5, 6, 7 and 8, and its Q. */
int twin_plan_fits(const TamsklorPlan *plan);

/* The process of each node of a plan in shape, and where each begins in the
   firing order. */
struct twin_places {
    uint8_t process_of[TAMSKLOR_NODES];
    uint8_t first[TAMSKLOR_PROCESSES];
};
void twin_find_places(const TamsklorPlan *plan, struct twin_places *places);

/* Begins a run where the state stands: 0, or 25. */
uint32_t twin_begin(const TamsklorPlan *plan, TamsklorState *state);

/* One call, the state updated where it stands. */
TamsklorCallAnswer twin_step(const TamsklorPlan *plan, TamsklorState *state,
                             uint32_t code, uint32_t process, uint32_t edge);

/* The same for a plan and a state in shape, without testing it. */
TamsklorCallAnswer twin_step_in_shape(const TamsklorPlan *plan,
                                      const struct twin_places *places,
                                      TamsklorState *state, uint32_t code,
                                      uint32_t process, uint32_t edge);

/* The token reading of an edge. */
TamsklorTokenAnswer twin_tokens(const TamsklorPlan *plan,
                                const TamsklorState *state, uint32_t edge);

/* A beginning with the state by value, and a call with everything by value, as
   the archive's functions have them. */
TamsklorBegun twin_begun(const TamsklorPlan *plan);
TamsklorStepped twin_stepped(TamsklorPlan plan, TamsklorState state,
                             uint32_t code, uint32_t process, uint32_t edge);

#endif
