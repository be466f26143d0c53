/* The buffers: one ring of strips for each synchronising edge. Nothing in here
   is locked; who may touch which strip is the plan's business. */
#ifndef STRIPS_H
#define STRIPS_H

#include <stdint.h>

#include "tamsklor.h"

/* Makes the rings, `room` strips each, with the strips of the starting tokens
   in them; returns 0 where there is no memory. */
int strips_begin(const TamsklorPlan *plan, uint32_t room);

/* Frees the rings. */
void strips_end(void);

/* Writes an edge's strip with this number. */
void strips_give(uint32_t edge, uint32_t number);

/* Reads an edge's strip; whether it is the one with this number, whole. */
int strips_take(uint32_t edge, uint32_t number);

#endif
