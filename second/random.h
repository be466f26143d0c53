/* A small reproducible source of numbers (splitmix64), for the generator. */
#ifndef RANDOM_H
#define RANDOM_H

#include <stdint.h>

struct random {
    uint64_t state;
};

/* The next 64 bits. */
uint64_t random_bits(struct random *random);

/* A number from 0 to end - 1; end is at least 1. */
uint32_t random_below(struct random *random, uint32_t end);

/* A number from low to high, both included. */
uint32_t random_between(struct random *random, uint32_t low, uint32_t high);

/* Whether one of so many chances came up. */
int random_one_in(struct random *random, uint32_t chances);

#endif
