/* Document 01 put down as plain definitions, slow and without tricks, to
   compare the second program with. Decodes images by itself. */
#ifndef DECLARED_H
#define DECLARED_H

#include "second.h"

struct declared_answer {
    uint32_t number;
    uint32_t place;
    uint32_t round_sum;
    uint32_t modulus;
    uint32_t least;
};

/* The answer 01's table gives for an image, and the plan beside it. */
struct declared_answer declared_read(const uint8_t *bytes, size_t length,
                                     struct second_plan *plan);

/* "A plan value ... is in shape when"; "A state is in shape when". */
int declared_plan_shape(const struct second_plan *plan);
int declared_state_shape(const struct second_plan *plan,
                         const struct second_state *state);

/* One call: the answer, and the state afterwards. */
struct second_answer declared_step(const struct second_plan *plan,
                                   const struct second_state *before,
                                   uint32_t code, uint32_t process,
                                   uint32_t edge, struct second_state *after);

/* The token reading. */
struct second_answer declared_reading(const struct second_plan *plan,
                                      const struct second_state *state,
                                      uint32_t edge);

/* Whether number 5, 6, 7 or 8 applies to a plan value at a place. */
int declared_table_breaks(const struct second_plan *plan, uint32_t number,
                          uint32_t place);

/* The process a node is in, by counting along the firing order. */
uint32_t declared_process(const struct second_plan *plan, uint32_t node);

#endif
