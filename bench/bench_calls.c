/* The calls of a run beside their C twins on the same plans and states.

     time       nanoseconds of each call: plan and state by pointer, its
                twin, by value (0 for a reading and a beginning, which the
                archive has by pointer only), its twin
     stack      bytes by value and stack used, the most over all plans and
                calls
     cases      plan and call of each measurement
     once WHO   each call once on each of 8 states, between two marks, to
                count instructions there; WHO is tamsklor_run_step, twin_step
                (by pointer), or tamsklor_run_stepped, twin_stepped (by
                value) */
#include <stdio.h>
#include <string.h>

#include "measure.h"
#include "scenes.h"
#include "twin.h"

enum { BLOCKS = 24, CALLS = 40 /* of a state in a block */ };

static TamsklorBegun begun;
static TamsklorStepped stepped;

/* What a run's call has changed is put back: the next call finds the same. */
static void put_back(TamsklorState *state, const TamsklorState *before,
                     uint32_t p)
{
    if (state->turn == before->turn)
        return;
    state->positions[p] = before->positions[p];
    state->opened[p] = before->opened[p];
    memcpy(state->marks + TAMSKLOR_MARK(p, 0),
           before->marks + TAMSKLOR_MARK(p, 0), TAMSKLOR_EDGES);
    memcpy(state->counters, before->counters, sizeof state->counters);
    state->turn = before->turn;
}

/* Each way answers one call on a scene; `work` is a copy of its state. */
typedef uint32_t (*way)(enum scene_case, const struct scene *,
                        TamsklorState *work);

static uint32_t in_place(enum scene_case kind, const struct scene *s,
                         TamsklorState *work)
{
    uint32_t value;
    if (kind == SCENE_TOKENS)
        return tamsklor_run_tokens(&s->plan, work, s->edge).count;
    if (kind == SCENE_BEGIN) {
        begun = tamsklor_run_begin(&s->plan);
        return begun.number;
    }
    value =
        tamsklor_run_step(&s->plan, work, s->code, s->process, s->edge).value;
    put_back(work, &s->state, s->process);
    return value;
}

static uint32_t twin_in_place(enum scene_case kind, const struct scene *s,
                              TamsklorState *work)
{
    uint32_t value;
    if (kind == SCENE_TOKENS)
        return twin_tokens(&s->plan, work, s->edge).count;
    if (kind == SCENE_BEGIN) {
        begun = twin_begun(&s->plan);
        return begun.number;
    }
    value = twin_step(&s->plan, work, s->code, s->process, s->edge).value;
    put_back(work, &s->state, s->process);
    return value;
}

static uint32_t by_value(enum scene_case kind, const struct scene *s,
                         TamsklorState *work)
{
    (void)kind;
    stepped =
        tamsklor_run_stepped(s->plan, *work, s->code, s->process, s->edge);
    return stepped.answer.value;
}

static uint32_t twin_by_value(enum scene_case kind, const struct scene *s,
                              TamsklorState *work)
{
    (void)kind;
    stepped = twin_stepped(s->plan, *work, s->code, s->process, s->edge);
    return stepped.answer.value;
}

static TamsklorState work;

/* So many calls on each state of a case. */
static void repeat(way way, uint32_t plan, enum scene_case kind,
                   uint32_t calls)
{
    volatile uint32_t sink;
    for (uint32_t run = 0; run < SCENE_RUNS; run++) {
        const struct scene *scene = scene_of(plan, kind, run);
        work = scene->state;
        for (uint32_t i = 0; i < calls; i++)
            sink = way(kind, scene, &work);
    }
    (void)sink;
}

/* Nanoseconds a call: the best block. */
static double time_of(way way, uint32_t plan, enum scene_case kind,
                      double best)
{
    double began = now();
    repeat(way, plan, kind, CALLS);
    return lower(best, (now() - began) / (SCENE_RUNS * CALLS));
}

/* The archive has only the calls by value, no reading and no beginning. */
static int has_by_value(enum scene_case kind)
{
    return kind != SCENE_TOKENS && kind != SCENE_BEGIN;
}

static void show_time(uint32_t plan, enum scene_case kind)
{
    int valued = has_by_value(kind);
    double host = 1e18, twin = 1e18, host_value = 1e18, twin_value = 1e18;
    for (int block = 0; block < BLOCKS; block++) {
        host = time_of(in_place, plan, kind, host);
        twin = time_of(twin_in_place, plan, kind, twin);
        if (valued) {
            host_value = time_of(by_value, plan, kind, host_value);
            twin_value = time_of(twin_by_value, plan, kind, twin_value);
        }
    }
    printf("%.0f %.0f %.0f %.0f\n", host, twin, valued ? host_value : 0,
           valued ? twin_value : 0);
}

static void show_times(void)
{
    for (uint32_t plan = 0; plan < SCENE_PLANS; plan++)
        for (uint32_t kind = 0; kind < SCENE_CASES; kind++)
            show_time(plan, (enum scene_case)kind);
}

static void call_once(way way)
{
    for (uint32_t plan = 0; plan < SCENE_PLANS; plan++)
        for (uint32_t kind = 0; kind < SCENE_CASES; kind++) {
            mark();
            if (way == in_place || way == twin_in_place ||
                has_by_value((enum scene_case)kind))
                repeat(way, plan, (enum scene_case)kind, 1);
            mark();
        }
}

static void show_cases(void)
{
    for (uint32_t plan = 0; plan < SCENE_PLANS; plan++)
        for (uint32_t kind = 0; kind < SCENE_CASES; kind++)
            printf("%s %s\n", scene_plan_names[plan], scene_case_names[kind]);
}

/* Each call on a stack of its own; what it answers by value lies above what is
   counted, what it takes by value below. */
static const struct scene *lent;

static void call_step(void)
{
    volatile uint8_t here = 0;
    stack_begins(&here);
    tamsklor_run_step(&lent->plan, &work, lent->code, lent->process,
                      lent->edge);
}

static void call_twin_step(void)
{
    volatile uint8_t here = 0;
    stack_begins(&here);
    twin_step(&lent->plan, &work, lent->code, lent->process, lent->edge);
}

static void call_tokens(void)
{
    volatile uint8_t here = 0;
    stack_begins(&here);
    tamsklor_run_tokens(&lent->plan, &work, lent->edge);
}

static void call_twin_tokens(void)
{
    volatile uint8_t here = 0;
    stack_begins(&here);
    twin_tokens(&lent->plan, &work, lent->edge);
}

static TamsklorBegun begin_here(void)
{
    volatile uint8_t here = 0;
    stack_begins(&here);
    return tamsklor_run_begin(&lent->plan);
}

static TamsklorBegun begin_twin_here(void)
{
    volatile uint8_t here = 0;
    stack_begins(&here);
    return twin_begun(&lent->plan);
}

static TamsklorStepped step_here(void)
{
    volatile uint8_t here = 0;
    stack_begins(&here);
    return tamsklor_run_stepped(lent->plan, work, lent->code, lent->process,
                                lent->edge);
}

static TamsklorStepped step_twin_here(void)
{
    volatile uint8_t here = 0;
    stack_begins(&here);
    return twin_stepped(lent->plan, work, lent->code, lent->process,
                        lent->edge);
}

static TamsklorBegun (*volatile beginner)(void);
static TamsklorStepped (*volatile stepper)(void);

static void call_begin(void)
{
    beginner = begin_here;
    begun = beginner();
}

static void call_twin_begun(void)
{
    beginner = begin_twin_here;
    begun = beginner();
}

static void call_stepped(void)
{
    stepper = step_here;
    stepped = stepper();
}

static void call_twin_stepped(void)
{
    stepper = step_twin_here;
    stepped = stepper();
}

enum { BOTH_BYTES = TAMSKLOR_PLAN_BYTES + TAMSKLOR_STATE_BYTES };

static struct {
    const char *name;
    void (*call)(void);
    unsigned taken;  /* bytes by value */
    unsigned stated; /* tamsklor.h's figure; 0 for a twin */
    size_t most;
} stacks[] = {
    {"tamsklor_run_begin", call_begin, 0, TAMSKLOR_RUN_BEGIN_STACK, 0},
    {"twin_begun", call_twin_begun, 0, 0, 0},
    {"tamsklor_run_step", call_step, 0, TAMSKLOR_RUN_STEP_STACK, 0},
    {"twin_step", call_twin_step, 0, 0, 0},
    {"tamsklor_run_stepped", call_stepped, BOTH_BYTES,
     TAMSKLOR_RUN_STEPPED_STACK, 0},
    {"twin_stepped", call_twin_stepped, BOTH_BYTES, 0, 0},
    {"tamsklor_run_tokens", call_tokens, 0, TAMSKLOR_RUN_TOKENS_STACK, 0},
    {"twin_tokens", call_twin_tokens, 0, 0, 0}};
enum { STACKS = sizeof stacks / sizeof stacks[0] };

static void measure_stack(uint32_t stack)
{
    for (uint32_t plan = 0; plan < SCENE_PLANS; plan++)
        for (uint32_t kind = 0; kind < SCENE_CASES; kind++) {
            lent = scene_of(plan, (enum scene_case)kind, 0);
            work = lent->state;
            stacks[stack].most =
                larger(stacks[stack].most, stack_of(stacks[stack].call));
        }
}

static void show_stack(void)
{
    for (uint32_t i = 0; i < STACKS; i++) {
        measure_stack(i);
        printf("%s %u %lu\n", stacks[i].name, stacks[i].taken,
               (unsigned long)stacks[i].most);
        if (stacks[i].stated && stacks[i].most > stacks[i].stated)
            give_up("a call uses more stack than tamsklor.h says");
    }
}

int main(int arguments, char **argument)
{
    static const struct {
        const char *name;
        way way;
    } ways[] = {{"tamsklor_run_step", in_place},
                {"twin_step", twin_in_place},
                {"tamsklor_run_stepped", by_value},
                {"twin_stepped", twin_by_value}};
    const char *what = arguments > 1 ? argument[1] : "";
    scenes_draw();
    if (strcmp(what, "time") == 0)
        show_times();
    else if (strcmp(what, "stack") == 0)
        show_stack();
    else if (strcmp(what, "cases") == 0)
        show_cases();
    else if (strcmp(what, "once") == 0 && arguments == 3) {
        for (uint32_t i = 0; i < 4; i++)
            if (strcmp(argument[2], ways[i].name) == 0)
                call_once(ways[i].way);
    } else
        give_up("time, stack, cases, or once WHO");
    return 0;
}
