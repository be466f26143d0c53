/* Images just beyond each bound, with the refusal they aim at, and the image
   on the good side of the same bound. */
#ifndef DAMAGE_H
#define DAMAGE_H

#include "random.h"
#include "sketch.h"

/* An answer the generator expects; number 0 is an accepted plan. */
struct aim {
    uint32_t number;
    uint32_t place;
    int place_known;
};

struct damaged {
    struct picture before; /* the good side */
    struct aim before_aim;
    struct picture after; /* beyond the bound */
    struct aim after_aim;
};

/* In how many ways a number's line is broken; numbers 1 to 16. */
uint32_t damage_ways(uint32_t number);

/* Breaks one line of 01's table in one way, on plans of at most so many
   nodes (bounds of the counts need larger ones). */
void damage_plan(struct random *random, uint32_t number, uint32_t way,
                 uint32_t most_nodes, struct damaged *damaged);

/* Random bytes, random tables behind a fitting header, or a valid or broken
   image with some bytes changed, so that several numbers apply at once:
   whatever the answer is. */
void random_picture(struct random *random, uint32_t most_nodes,
                    struct picture *picture);

#endif
