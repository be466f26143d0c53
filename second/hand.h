/* Plans and calls written by hand, for the tests of 01's own sentences. */
#ifndef HAND_H
#define HAND_H

#include "second.h"
#include "sketch.h"

/* A plan from words: firing orders "0 1|2 3", edges "0-1:0 1-0:1", counters
   and increments in node order; edges stay in the order written. */
void hand_plan(struct sketch *sketch, const char *orders, const char *edges,
               const char *counters, const char *increments, uint32_t modulus);

/* Plan P of document 01. */
void hand_plan_p(struct sketch *sketch);

/* Reads a sketch's image. */
struct second_reading hand_read(const struct sketch *sketch);

/* Accepted with these numbers. */
void expect_accepted(const char *what, const struct sketch *sketch,
                     uint32_t round_sum, uint32_t least);

/* Refused with this number and place, with nothing of the plan beside it. */
void expect_refused(const char *what, const struct sketch *sketch,
                    uint32_t number, uint32_t place);

/* The same for an image's bytes. */
void expect_bytes_refused(const char *what, const uint8_t *bytes,
                          size_t length, uint32_t number, uint32_t place);

/* The groups of tests by hand. */
void rules_plans(void);
void rules_clauses(void);
void rules_calls(void);
void rules_made_up(void);
void rules_program(void);
void rules_examples(void);

#endif
