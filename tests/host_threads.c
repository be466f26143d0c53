/* Every export on a thread whose stack has exactly the size that tamsklor.h
   states for it, and below it memory that cannot be touched: images of every
   number and of the bounds, calls of every kind on plan P and on a plan of 64
   nodes and 512 edges, and a plan out of shape.

     host_threads         every call on its size
     host_threads least   the least sizes that suffice here, in steps of 256 */
#define _DEFAULT_SOURCE
#include <pthread.h>
#include <signal.h>
#include <stdio.h>
#include <stdlib.h>
#include <string.h>
#include <sys/mman.h>
#include <sys/wait.h>
#include <unistd.h>

#include "check.h"
#include "damage.h"
#include "draw.h"
#include "hand.h"
#include "script.h"
#include "shadow.h"
#include "tamsklor.h"

enum {
    BELOW = 1 << 21, /* bytes below a stack that cannot be touched */
    MOST_STACK = 1 << 20,
    MOST_IMAGES = 256,
    RUN_CALLS = 120, /* of each plan */
    MOST_SCENES = 2 * RUN_CALLS + 1,
    STEP = 256
};

/* A call on a state that a run has reached. */
struct scene {
    TamsklorPlan plan;
    TamsklorState state;
    struct call call;
};

static struct picture images[MOST_IMAGES];
static struct scene scenes[MOST_SCENES];
static uint32_t image_count, scene_count;

/* What a thread is given. */
static const struct picture *image;
static struct scene *scene;

/* Where an answer stands. */
static const void *volatile local;

/* Has the answer stand in the thread's own frame. */
static void stands_at(const void *answer)
{
    local = answer;
    local = NULL;
}

static void *check_image(void *unused)
{
    TamsklorVerdict verdict = tamsklor_plan_check(image->bytes, image->length);
    stands_at(&verdict);
    return unused;
}

static void *read_image(void *unused)
{
    TamsklorPlanRead reading = tamsklor_plan_read(image->bytes, image->length);
    stands_at(&reading);
    return unused;
}

static void *begin_run(void *unused)
{
    TamsklorBegun begun = tamsklor_run_begin(&scene->plan);
    stands_at(&begun);
    return unused;
}

static void *make_call(void *unused)
{
    TamsklorCallAnswer answer =
        tamsklor_run_step(&scene->plan, &scene->state, scene->call.code,
                          scene->call.process, scene->call.edge);
    stands_at(&answer);
    return unused;
}

static void *make_call_by_value(void *unused)
{
    TamsklorStepped stepped =
        tamsklor_run_stepped(scene->plan, scene->state, scene->call.code,
                             scene->call.process, scene->call.edge);
    stands_at(&stepped);
    return unused;
}

static void *read_tokens(void *unused)
{
    TamsklorTokenAnswer answer =
        tamsklor_run_tokens(&scene->plan, &scene->state, scene->call.edge);
    stands_at(&answer);
    return unused;
}

/* The exports, what each works on, and the header's size. */
static const struct export
{
    const char *name;
    void *(*call)(void *);
    int on_images;
    size_t size;
}
exports[] = {
    {"tamsklor_plan_check", check_image, 1, TAMSKLOR_PLAN_CHECK_THREAD},
    {"tamsklor_plan_read", read_image, 1, TAMSKLOR_PLAN_READ_THREAD},
    {"tamsklor_run_begin", begin_run, 0, TAMSKLOR_RUN_BEGIN_THREAD},
    {"tamsklor_run_step", make_call, 0, TAMSKLOR_RUN_STEP_THREAD},
    {"tamsklor_run_stepped", make_call_by_value, 0,
     TAMSKLOR_RUN_STEPPED_THREAD},
    {"tamsklor_run_tokens", read_tokens, 0, TAMSKLOR_RUN_TOKENS_THREAD}};
enum { EXPORTS = sizeof exports / sizeof exports[0] };

/* Ends the program: nothing can be tested without memory and threads. */
static void give_up(const char *what)
{
    perror(what);
    exit(2);
}

static uint8_t *low; /* the lowest byte that can be touched */

/* Memory for stacks, with memory below it that cannot be touched. */
static void make_stack(void)
{
    uint8_t *all = mmap(NULL, BELOW + MOST_STACK, PROT_NONE,
                        MAP_PRIVATE | MAP_ANONYMOUS, -1, 0);
    if (all == MAP_FAILED)
        give_up("mmap");
    low = all + BELOW;
    if (mprotect(low, MOST_STACK, PROT_READ | PROT_WRITE) != 0)
        give_up("mprotect");
}

/* One call on a thread with a stack of this size and no more. */
static void run_thread(void *(*call)(void *), size_t size)
{
    pthread_attr_t attributes;
    pthread_t thread;
    if (pthread_attr_init(&attributes) ||
        pthread_attr_setstack(&attributes, low, size) ||
        pthread_create(&thread, &attributes, call, NULL) ||
        pthread_join(thread, NULL))
        give_up("no thread");
    pthread_attr_destroy(&attributes);
}

/* An export on everything, each time on a thread of its own. */
static void run_all(const struct export *export, size_t size)
{
    uint32_t count = export->on_images ? image_count : scene_count;
    for (uint32_t i = 0; i < count; i++) {
        image = &images[i % image_count];
        scene = &scenes[i % scene_count];
        run_thread(export->call, size);
    }
}

/* Whether a process that does so on this size ends as it should. */
static int suffices(const struct export *export, size_t size)
{
    int status;
    pid_t child = fork();
    if (child < 0)
        give_up("fork");
    if (child == 0) {
        signal(SIGSEGV, SIG_DFL);
        run_all(export, size);
        _exit(0);
    }
    if (waitpid(child, &status, 0) != child)
        give_up("waitpid");
    return WIFEXITED(status) && WEXITSTATUS(status) == 0;
}

/* The least size in steps of STEP, from what never suffices to what does. */
static size_t least_size(const struct export *export)
{
    size_t under = 16384 - STEP, enough = export->size;
    while (!suffices(export, enough))
        enough += export->size;
    while (enough - under > STEP) {
        size_t middle = (under + enough) / 2 / STEP * STEP;
        if (suffices(export, middle))
            enough = middle;
        else
            under = middle;
    }
    return enough;
}

static void add_image(const struct picture *picture)
{
    if (image_count < MOST_IMAGES)
        images[image_count++] = *picture;
}

/* Images of every number, in every way. */
static void draw_images(struct random *random)
{
    static struct damaged damaged;
    for (uint32_t number = 1; number <= 16; number++)
        for (uint32_t way = 0; way < damage_ways(number); way++) {
            damage_plan(random, number, way, 64, &damaged);
            add_image(&damaged.before);
            add_image(&damaged.after);
        }
}

/* Calls of a run of a plan, every fourth of them any call. */
static void draw_run(struct random *random, const struct sketch *sketch)
{
    static struct shadow shadow;
    static struct picture picture;
    static TamsklorPlanRead reading;
    static TamsklorState state;
    sketch_picture(sketch, &picture);
    add_image(&picture);
    reading = tamsklor_plan_read(picture.bytes, picture.length);
    check(reading.number == TAMSKLOR_PLAN_ACCEPTED, "plan accepted", 0);
    memset(&state, 0, sizeof state);
    shadow_begin(sketch, &shadow);
    for (uint32_t i = 0; i < RUN_CALLS; i++) {
        struct scene *next = &scenes[scene_count++];
        next->call = i % 4 == 3 ? draw_any_call(random, sketch)
                                : draw_useful_call(random, &shadow);
        next->plan = reading.plan;
        next->state = state;
        tamsklor_run_step(&reading.plan, &state, next->call.code,
                          next->call.process, next->call.edge);
        shadow_call(&shadow, next->call.code, next->call.process,
                    next->call.edge);
    }
}

static void draw_all(void)
{
    static struct sketch sketch;
    struct random random = {20240229};
    struct wish wish = {0};
    draw_images(&random);
    hand_plan_p(&sketch);
    draw_run(&random, &sketch);
    wish.nodes = 64;
    wish.edges = 512;
    wish.parts = 1;
    draw_plan(&random, &wish, &sketch);
    draw_run(&random, &sketch);
    scene_count++; /* plan and state all 0: out of shape */
}

int main(int arguments, char **argument)
{
    int least = arguments > 1 && strcmp(argument[1], "least") == 0;
    make_stack();
    draw_all();
    printf("stacks: %u images, %u calls\n", (unsigned)image_count,
           (unsigned)scene_count);
    check_floor("images", image_count, 100);
    check_floor("calls", scene_count, MOST_SCENES);
    for (uint32_t i = 0; i < EXPORTS; i++) {
        const struct export *export = &exports[i];
        if (least)
            printf("%s: %lu of %lu\n", export->name,
                   (unsigned long)least_size(export),
                   (unsigned long)export->size);
        else
            check(suffices(export, export->size), export->name, export->size);
    }
    check(!suffices(&exports[3], TAMSKLOR_RUN_STEP_THREAD / 2),
          "a stack that is too small is seen", 0);
    return check_end("host_threads");
}
