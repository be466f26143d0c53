/* tamsklor_plan_check and tamsklor_plan_read beside their C twins on the same
   plans.

     answers     the same answers on drawn images, refused ones too
     time        nanoseconds of tamsklor_plan_check, its twin,
                 tamsklor_plan_read and its twin, a line a shape
     stack       bytes by value (none) and stack used, the most over drawn
                 images and all shapes
     shapes      name, nodes, processes, edges of each shape
     once WHO    one call on each of the 8 plans of each shape between two
                 marks, to count instructions there; WHO is
                 tamsklor_plan_check, twin_check, tamsklor_plan_read or
                 twin_read */
#include <stdio.h>
#include <string.h>

#include "damage.h"
#include "measure.h"
#include "plans.h"
#include "twin.h"

enum {
    PLANS = 8,            /* of each shape */
    BLOCKS = 60,          /* the best one counts */
    BLOCK_STEPS = 1000000 /* of relaxation in a block, about */
};

typedef TamsklorVerdict (*checker)(const uint8_t *, size_t);

/* How the cost grows by nodes at three edges a node, and by edges at 64 nodes
   (64 edges: process edges only; slow: as many sweeps as there can be). */
static const struct shape shapes[] = {
    {"n4", 4, 2, 12, 1, 0, 0},     {"n8", 8, 2, 24, 1, 0, 0},
    {"n16", 16, 4, 48, 1, 0, 0},   {"n32", 32, 4, 96, 1, 0, 0},
    {"n64", 64, 8, 192, 1, 0, 0},  {"e64", 64, 8, 64, 8, 0, 0},
    {"e128", 64, 8, 128, 1, 0, 0}, {"e256", 64, 8, 256, 1, 0, 0},
    {"e512", 64, 8, 512, 1, 0, 0}, {"slow", 64, 1, 512, 1, 0, 1}};
enum { SHAPES = sizeof shapes / sizeof shapes[0] };

static struct picture plan[PLANS];

static int same(TamsklorVerdict a, TamsklorVerdict b)
{
    return a.number == b.number && a.place == b.place && a.least == b.least;
}

/* Draws the plans of a shape, the same ones each time. All are accepted. */
static void draw_plans(uint32_t shape)
{
    static struct sketch sketch;
    struct random random = {20240229};
    for (uint32_t i = 0; i < PLANS; i++) {
        TamsklorVerdict got;
        draw_shape(&shapes[shape], &random, &sketch);
        sketch_picture(&sketch, &plan[i]);
        got = tamsklor_plan_check(plan[i].bytes, plan[i].length);
        if (got.number != TAMSKLOR_PLAN_ACCEPTED ||
            !same(got, twin_check(plan[i].bytes, plan[i].length)))
            give_up("a plan to measure with is not accepted");
    }
}

/* Calls a function on images beyond every bound. */
static void for_each_damage(uint32_t rounds,
                            void (*use)(const struct picture *))
{
    static struct damaged damaged;
    struct random random = {7};
    for (uint32_t round = 0; round < rounds; round++)
        for (uint32_t number = 1; number <= 16; number++)
            for (uint32_t way = 0; way < damage_ways(number); way++) {
                damage_plan(&random, number, way, 64, &damaged);
                use(&damaged.before);
                use(&damaged.after);
            }
}

static unsigned long answered;

static void compare_answers(const struct picture *picture)
{
    static TamsklorPlanRead host, twin;
    if (!same(tamsklor_plan_check(picture->bytes, picture->length),
              twin_check(picture->bytes, picture->length)))
        give_up("tamsklor_plan_check and its twin differ");
    host = tamsklor_plan_read(picture->bytes, picture->length);
    twin = twin_read(picture->bytes, picture->length);
    if (memcmp(&host, &twin, sizeof host) != 0)
        give_up("tamsklor_plan_read and its twin differ");
    answered++;
}

static void show_answers(void)
{
    for_each_damage(60, compare_answers);
    printf("answers of the check and of the reading: %lu images, 0 differed\n",
           answered);
}

static TamsklorPlanRead reading;

static TamsklorVerdict verdict_of(const TamsklorPlanRead *from)
{
    TamsklorVerdict verdict;
    verdict.number = from->number;
    verdict.place = from->place;
    verdict.least = from->least;
    return verdict;
}

static TamsklorVerdict check_by_read(const uint8_t *image, size_t length)
{
    reading = tamsklor_plan_read(image, length);
    return verdict_of(&reading);
}

static TamsklorVerdict check_by_twin_read(const uint8_t *image, size_t length)
{
    reading = twin_read(image, length);
    return verdict_of(&reading);
}

static const struct {
    const char *name;
    checker check;
} checkers[] = {{"tamsklor_plan_check", tamsklor_plan_check},
                {"twin_check", twin_check},
                {"tamsklor_plan_read", check_by_read},
                {"twin_read", check_by_twin_read}};
enum { CHECKERS = 4 };

/* Nanoseconds a call, over one block of calls on the plans. */
static double time_block(checker check, uint32_t calls)
{
    volatile uint32_t sink;
    double began = now();
    for (uint32_t i = 0; i < calls; i++) {
        const struct picture *p = &plan[i % PLANS];
        sink = check(p->bytes, p->length).least;
    }
    (void)sink;
    return (now() - began) / calls;
}

/* The best block of each, taken in turn. */
static void show_time(uint32_t shape)
{
    uint32_t steps = shapes[shape].nodes * shapes[shape].edges *
                     (shapes[shape].slow ? shapes[shape].nodes : 4);
    uint32_t calls = (BLOCK_STEPS / steps / PLANS + 1) * PLANS;
    double best[CHECKERS] = {1e18, 1e18, 1e18, 1e18};
    draw_plans(shape);
    for (int block = 0; block < BLOCKS; block++)
        for (uint32_t i = 0; i < CHECKERS; i++)
            best[i] = lower(best[i], time_block(checkers[i].check, calls));
    printf("%.0f %.0f %.0f %.0f\n", best[0], best[1], best[2], best[3]);
}

static void show_times(void)
{
    for (uint32_t i = 0; i < SHAPES; i++)
        show_time(i);
}

static const struct picture *lent;

static void call_check(void)
{
    volatile uint8_t here = 0;
    stack_begins(&here);
    tamsklor_plan_check(lent->bytes, lent->length);
}

static void call_twin_check(void)
{
    volatile uint8_t here = 0;
    stack_begins(&here);
    twin_check(lent->bytes, lent->length);
}

static TamsklorPlanRead read_here(void)
{
    volatile uint8_t here = 0;
    stack_begins(&here);
    return tamsklor_plan_read(lent->bytes, lent->length);
}

static TamsklorPlanRead read_twin_here(void)
{
    volatile uint8_t here = 0;
    stack_begins(&here);
    return twin_read(lent->bytes, lent->length);
}

/* Through pointers, so that the reading itself lies above what is counted. */
static TamsklorPlanRead (*volatile reader)(void);

static void call_read(void)
{
    reader = read_here;
    reading = reader();
}

static void call_twin_read(void)
{
    reader = read_twin_here;
    reading = reader();
}

static struct {
    const char *name;
    void (*call)(void);
    unsigned stated; /* tamsklor.h's figure; 0 for a twin */
    size_t most;
} stacks[] = {
    {"tamsklor_plan_check", call_check, TAMSKLOR_PLAN_CHECK_STACK, 0},
    {"twin_check", call_twin_check, 0, 0},
    {"tamsklor_plan_read", call_read, TAMSKLOR_PLAN_READ_STACK, 0},
    {"twin_read", call_twin_read, 0, 0}};
enum { STACKS = sizeof stacks / sizeof stacks[0] };

static void measure_stack(const struct picture *picture)
{
    lent = picture;
    for (uint32_t i = 0; i < STACKS; i++)
        stacks[i].most = larger(stacks[i].most, stack_of(stacks[i].call));
}

static void show_stack(void)
{
    for (uint32_t i = 0; i < SHAPES; i++) {
        draw_plans(i);
        for (uint32_t j = 0; j < PLANS; j++)
            measure_stack(&plan[j]);
    }
    for_each_damage(4, measure_stack);
    for (uint32_t i = 0; i < STACKS; i++) {
        printf("%s 0 %lu\n", stacks[i].name, (unsigned long)stacks[i].most);
        if (stacks[i].stated && stacks[i].most > stacks[i].stated)
            give_up("a call uses more stack than tamsklor.h says");
    }
}

/* One call on each plan of each shape. */
static void call_once(checker check)
{
    for (uint32_t i = 0; i < SHAPES; i++) {
        draw_plans(i);
        mark();
        time_block(check, PLANS);
        mark();
    }
}

static void show_shapes(void)
{
    for (uint32_t i = 0; i < SHAPES; i++)
        printf("%s %u %u %u\n", shapes[i].name, (unsigned)shapes[i].nodes,
               (unsigned)shapes[i].processes, (unsigned)shapes[i].edges);
}

int main(int arguments, char **argument)
{
    const char *what = arguments > 1 ? argument[1] : "";
    const char *who = arguments > 2 ? argument[2] : "";
    if (strcmp(what, "answers") == 0)
        show_answers();
    else if (strcmp(what, "time") == 0)
        show_times();
    else if (strcmp(what, "stack") == 0)
        show_stack();
    else if (strcmp(what, "shapes") == 0)
        show_shapes();
    else if (strcmp(what, "once") == 0) {
        for (uint32_t i = 0; i < CHECKERS; i++)
            if (strcmp(who, checkers[i].name) == 0)
                call_once(checkers[i].check);
    } else
        give_up("answers, time, stack, shapes, or once WHO");
    return 0;
}
