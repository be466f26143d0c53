/* Inside the generator: one try at breaking a line of 01's table. */
#ifndef ATTEMPT_H
#define ATTEMPT_H

#include "damage.h"
#include "draw.h"

/* One try at a damage. */
struct attempt {
    struct random *random;
    uint32_t way;
    uint32_t most_nodes;
    struct damaged *out;
    struct sketch sketch;
    uint32_t process_of[SKETCH_NODES];
    uint32_t first[SKETCH_NODES];
};

/* Draws the plan to be damaged. */
void attempt_draw(struct attempt *a, struct wish wish);

/* Keeps the plan as it stands as the accepted side. */
void attempt_keep(struct attempt *a);

/* Draws any valid plan and keeps its image. */
void attempt_start(struct attempt *a);

/* The expected answer for the damaged side; 1. */
int attempt_aim(struct attempt *a, uint32_t number, uint32_t place);

/* The damaged sketch's image and expected answer; 1. */
int attempt_finish(struct attempt *a, uint32_t number, uint32_t place);

/* A random number from 0 to end - 1. */
uint32_t attempt_below(struct attempt *a, uint32_t end);

/* Breaks the line of one number in the attempt's way; 0 where the plan drawn
   does not allow it. */
int damage_1(struct attempt *a);
int damage_2(struct attempt *a);
int damage_3(struct attempt *a);
int damage_4(struct attempt *a);
int damage_5(struct attempt *a);
int damage_6(struct attempt *a);
int damage_7(struct attempt *a);
int damage_8(struct attempt *a);
int damage_9(struct attempt *a);
int damage_10(struct attempt *a);
int damage_11(struct attempt *a);
int damage_12(struct attempt *a);
int damage_13(struct attempt *a);
int damage_14(struct attempt *a);
int damage_15(struct attempt *a);
int damage_16(struct attempt *a);

#endif
