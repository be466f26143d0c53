#include "scenes.h"

#include "hand.h"
#include "measure.h"
#include "plans.h"
#include "script.h"
#include "shadow.h"
#include "twin.h"

enum { CALLS_BEFORE = 300, MOST_CALLS = 200000 };

const char *const scene_case_names[SCENE_CASES] = {
    "open",       "look-found", "look-wait", "fire",
    "refused-20", "refused-26", "tokens",    "begin"};
const char *const scene_plan_names[SCENE_PLANS] = {"64", "P"};

/* Few tokens, so that looks wait. */
static const struct shape shape_64 = {"64", 64, 8, 512, 1, 2, 0};

static struct scene scenes[SCENE_PLANS][SCENE_CASES][SCENE_RUNS];

struct scene *scene_of(uint32_t plan, enum scene_case kind, uint32_t run)
{
    return &scenes[plan][kind][run];
}

/* A run, and the marked graph beside it that says which calls are useful. */
struct running {
    struct random *random;
    struct sketch sketch;
    struct shadow shadow;
    TamsklorPlan plan;
    TamsklorState state;
};

static void begin_run(struct running *run)
{
    struct picture picture;
    TamsklorPlanRead reading;
    sketch_picture(&run->sketch, &picture);
    reading = tamsklor_plan_read(picture.bytes, picture.length);
    if (reading.number != TAMSKLOR_PLAN_ACCEPTED)
        give_up("a plan to run is not accepted");
    run->plan = reading.plan;
    run->state = tamsklor_run_begin(&reading.plan).state;
    shadow_begin(&run->sketch, &run->shadow);
}

/* The kind of answer that a case is about; TAMSKLOR_RUN_REFUSED where any
   state does. */
static uint32_t answer_of(enum scene_case kind)
{
    switch (kind) {
    case SCENE_OPEN: return TAMSKLOR_RUN_OPENED;
    case SCENE_FOUND: return TAMSKLOR_RUN_FOUND;
    case SCENE_WAIT: return TAMSKLOR_RUN_WAIT;
    case SCENE_FIRE: return TAMSKLOR_RUN_FIRED;
    default: return TAMSKLOR_RUN_REFUSED;
    }
}

/* One useful call; where its answer is of this kind the scene is kept. */
static int keep_if(struct running *run, uint32_t kind, struct scene *scene)
{
    struct call call = draw_useful_call(run->random, &run->shadow);
    TamsklorCallAnswer got;
    if (kind != TAMSKLOR_RUN_REFUSED) {
        scene->plan = run->plan;
        scene->state = run->state;
        scene->code = call.code;
        scene->process = call.process;
        scene->edge = call.edge;
    }
    got = twin_step(&run->plan, &run->state, call.code, call.process,
                    call.edge);
    shadow_call(&run->shadow, call.code, call.process, call.edge);
    return kind != TAMSKLOR_RUN_REFUSED && got.kind == kind;
}

/* A scene that any state serves. */
static void keep_any(struct running *run, enum scene_case kind,
                     struct scene *scene)
{
    uint32_t process_of[SKETCH_NODES], first[SKETCH_NODES];
    scene->plan = run->plan;
    scene->state = run->state;
    scene->code = kind == SCENE_NO_CODE ? 3 : TAMSKLOR_RUN_LOOK;
    scene->process = run->plan.processes;
    scene->edge = 0;
    sketch_processes(&run->sketch, process_of, first);
    if (kind == SCENE_TOKENS)
        do
            scene->edge = random_below(run->random, run->plan.edges);
        while (!sketch_synchronising(&run->sketch, process_of, scene->edge));
}

static void draw_run(uint32_t plan, uint32_t number, struct random *random)
{
    static struct running run;
    run.random = random;
    if (plan == 0)
        draw_shape(&shape_64, random, &run.sketch);
    else
        hand_plan_p(&run.sketch);
    begin_run(&run);
    for (uint32_t i = 0; i < CALLS_BEFORE; i++)
        keep_if(&run, TAMSKLOR_RUN_REFUSED, NULL);
    for (uint32_t kind = 0; kind < SCENE_CASES; kind++) {
        struct scene *scene = &scenes[plan][kind][number];
        uint32_t wanted = answer_of((enum scene_case)kind), calls = 0;
        if (wanted == TAMSKLOR_RUN_REFUSED)
            keep_any(&run, (enum scene_case)kind, scene);
        else
            while (!keep_if(&run, wanted, scene))
                if (calls++ == MOST_CALLS)
                    give_up("no such answer in a run");
    }
}

void scenes_draw(void)
{
    struct random random = {20240229};
    for (uint32_t plan = 0; plan < SCENE_PLANS; plan++)
        for (uint32_t run = 0; run < SCENE_RUNS; run++)
            draw_run(plan, run, &random);
}
