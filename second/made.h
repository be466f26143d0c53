/* Made-up plan values and states: in shape but not accepted or not reached,
   and ones just out of shape. */
#ifndef MADE_H
#define MADE_H

#include "random.h"
#include "second.h"
#include "sketch.h"

enum { PLAN_FAULTS = 21, STATE_FAULTS = 13 };
enum { PLAN_LIMITS = 19, STATE_LIMITS = 6 };

/* A sketch as a plan value; Q is counter 0's sum. */
void made_plan_of(const struct sketch *sketch, struct second_plan *plan);

/* A plan value in shape: often one that no image could bring in. */
void made_plan(struct random *random, struct second_plan *plan);

/* One of 64 nodes and, if none was taken away, 512 edges. */
void made_full_plan(struct random *random, struct second_plan *plan);

/* A state in shape for a plan in shape. */
void made_state(struct random *random, const struct second_plan *plan,
                struct second_state *state);

/* Brings a plan out of shape in one way; 0 where this plan can't be. */
int spoil_plan(struct random *random, uint32_t way, struct second_plan *plan);

/* Brings a state out of shape in one way; 0, and nothing changed, where it
   did not come about. */
int spoil_state(struct random *random, uint32_t way,
                const struct second_plan *plan, struct second_state *state);

/* Puts one number of a plan at its width's limit, or just past 01's bound;
   either way it is out of shape. */
void limit_plan(struct random *random, uint32_t way, struct second_plan *plan);

/* The same for one number of a state, for a plan in shape. */
void limit_state(struct random *random, uint32_t way,
                 const struct second_plan *plan, struct second_state *state);

#endif
