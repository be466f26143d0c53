/* Plans, states and calls to measure with. */
#ifndef SCENES_H
#define SCENES_H

#include "tamsklor.h"

/* The kinds of call. */
enum scene_case {
    SCENE_OPEN,
    SCENE_FOUND,
    SCENE_WAIT,
    SCENE_FIRE,
    SCENE_REFUSED,   /* 20: the shape is tested, then the process */
    SCENE_NO_CODE,   /* 26: before all else, so the shape is not tested */
    SCENE_TOKENS,
    SCENE_BEGIN,
    SCENE_CASES
};
extern const char *const scene_case_names[SCENE_CASES];

/* The plans: drawn ones of 64 nodes and 512 edges, and plan P of 01. */
enum { SCENE_PLANS = 2, SCENE_RUNS = 8 };
extern const char *const scene_plan_names[SCENE_PLANS];

/* A call on a state that a run of an accepted plan has reached. */
struct scene {
    TamsklorPlan plan;
    TamsklorState state;
    uint32_t code, process, edge;
};

/* Draws all scenes, the same ones each time; a run's scenes of all kinds. */
void scenes_draw(void);

struct scene *scene_of(uint32_t plan, enum scene_case kind, uint32_t run);

#endif
