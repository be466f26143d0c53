/* Draws calls: ones that bring a run on, and ones that are refused. */
#ifndef SCRIPT_H
#define SCRIPT_H

#include "random.h"
#include "shadow.h"

struct call {
    uint32_t code;
    uint32_t process;
    uint32_t edge;
};

/* A call the marked graph will not refuse, of some process. */
struct call draw_useful_call(struct random *random,
                             const struct shadow *shadow);

/* Any call: unknown processes, edges and codes among them. */
struct call draw_any_call(struct random *random, const struct sketch *sketch);

#endif
