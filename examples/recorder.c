/* A small recorder: runs a plan with one thread for each process.

     recorder IMAGE [ROUNDS [LINES]]

   Each stage opens, looks until every token is there, works on its strips and
   fires, ROUNDS times round (1000). The calls on the one state stand under one
   lock. Afterwards the order of all firings is held against the marked graph,
   the first LINES (12) of it are shown, and every strip taken has to be the
   one that was given.

   -DPLANTED=1 to 5 plants a fault that has to be reported. */
#define _POSIX_C_SOURCE 200809L

#include <pthread.h>
#include <stdio.h>
#include <stdlib.h>
#include <string.h>

#include "order.h"
#include "strips.h"
#include "tamsklor.h"
#include "tamsklor_text.h"

#ifndef PLANTED
#define PLANTED 0
#endif

enum {
    FAULT_NONE,
    FAULT_EARLY,     /* a firing is written down before its tokens are there */
    FAULT_EXCHANGED, /* two firings of a process are written down crosswise */
    FAULT_NO_LOOK,   /* a stage works before it has looked */
    FAULT_NO_WAIT,   /* a stage takes a wait for found */
    FAULT_LEAVES     /* the last stage leaves after half its rounds */
};

enum {
    IMAGE_ROOM = TAMSKLOR_IMAGE_BYTES + 1, /* a longer image is refused */
    MOST_ROUNDS = 1000000
};

/* A thread of the recorder: one process of the plan. */
struct stage {
    pthread_t thread;
    uint32_t process;
    unsigned long taken;   /* strips */
    unsigned long wrong;   /* strips that were not the ones given */
    uint32_t wrong_edge;   /* the first of them */
    uint32_t wrong_number;
};

/* Set before the threads begin, and only read by them. */
static TamsklorPlan plan;
static uint8_t synchronises[TAMSKLOR_EDGES];
static unsigned long rounds = 1000, lines = 12;

/* What the lock guards. */
static pthread_mutex_t lock = PTHREAD_MUTEX_INITIALIZER;
static pthread_cond_t something_fired = PTHREAD_COND_INITIALIZER;
static TamsklorState state;
static uint16_t *record; /* the nodes in the order of their firings */
static size_t firings;
static unsigned long waits;
static uint32_t present; /* stages that have not ended */
static uint32_t asleep;  /* those that sleep since the last firing */
static int stopped;      /* a call was refused, or every stage waits */

/* Ends with a message. */
static void give_up(const char *what, const char *which)
{
    fprintf(stderr, "recorder: %s %s\n", what, which);
    exit(2);
}

/* Stops every stage; the lock is held. */
static void stop(void)
{
    stopped = 1;
    pthread_cond_broadcast(&something_fired);
}

/* One call on the one state, with the lock held. A refusal is a fault of this
   program. */
static TamsklorCallAnswer call(uint32_t code, uint32_t process, uint32_t edge)
{
    TamsklorCallAnswer answer =
        tamsklor_run_step(&plan, &state, code, process, edge);
    if (answer.kind == TAMSKLOR_RUN_REFUSED) {
        printf("process %u: %s refused with %u: %s\n", (unsigned)process,
               tamsklor_code_text(code), (unsigned)answer.value,
               tamsklor_text(answer.value));
        stop();
    }
    return answer;
}

/* Nobody is left to fire: an accepted plan never comes to this. */
static void stop_if_stuck(void)
{
    if (!stopped && present > 0 && asleep == present) {
        printf("every stage waits\n");
        stop();
    }
}

/* Sleeps until something has fired. The lock is held, but not meanwhile. */
static void sleep_until_fire(void)
{
    size_t seen = firings;
    waits++;
    asleep++;
    stop_if_stuck();
    while (!stopped && firings == seen)
        pthread_cond_wait(&something_fired, &lock);
}

/* Looks at one edge until its token is there; the lock is held. */
static void find_token(uint32_t process, uint32_t edge)
{
    while (!stopped &&
           call(TAMSKLOR_RUN_LOOK, process, edge).kind == TAMSKLOR_RUN_WAIT) {
        if (PLANTED == FAULT_NO_WAIT)
            return;
        sleep_until_fire();
    }
}

/* Opens a process and waits for all tokens of its next node; whether to go
   on. */
static int await_tokens(uint32_t process)
{
    int going;
    pthread_mutex_lock(&lock);
    if (!stopped)
        call(TAMSKLOR_RUN_OPEN, process, 0);
    for (uint32_t e = 0; e < plan.edges; e++)
        if (state.marks[TAMSKLOR_MARK(process, e)])
            find_token(process, e);
    going = !stopped;
    pthread_mutex_unlock(&lock);
    return going;
}

/* Fires the next node of a process, writes it down and wakes those who wait;
   whether to go on. */
static int fire(uint32_t process)
{
    TamsklorCallAnswer answer;
    int fired = 0;
    pthread_mutex_lock(&lock);
    if (!stopped) {
        answer = call(TAMSKLOR_RUN_FIRE, process, 0);
        fired = answer.kind == TAMSKLOR_RUN_FIRED;
        if (fired)
            record[firings++] = (uint16_t)answer.value;
        asleep = 0;
        pthread_cond_broadcast(&something_fired);
    }
    pthread_mutex_unlock(&lock);
    return fired;
}

/* Takes the strip of one in-edge. */
static void take_strip(struct stage *stage, uint32_t edge, uint32_t number)
{
    stage->taken++;
    if (strips_take(edge, number))
        return;
    if (stage->wrong++ == 0) {
        stage->wrong_edge = edge;
        stage->wrong_number = number;
    }
}

/* A stage's own work for a node, without the lock: takes a strip from every
   synchronising in-edge, gives one to every synchronising out-edge. */
static void work(struct stage *stage, uint32_t node, uint32_t round)
{
    for (uint32_t e = 0; e < plan.edges; e++)
        if (synchronises[e] && plan.destination[e] == node)
            take_strip(stage, e, round);
    for (uint32_t e = 0; e < plan.edges; e++)
        if (synchronises[e] && plan.source[e] == node)
            strips_give(e, plan.tokens[e] + round);
}

/* One node of a stage; whether to go on. */
static int do_node(struct stage *stage, uint32_t node, uint32_t round)
{
    if (PLANTED == FAULT_NO_LOOK)
        work(stage, node, round);
    if (!await_tokens(stage->process))
        return 0;
    if (PLANTED != FAULT_NO_LOOK)
        work(stage, node, round);
    return fire(stage->process);
}

/* One round of a stage: its nodes in their order; whether to go on. */
static int do_round(struct stage *stage, uint32_t round)
{
    uint32_t first = order_first(&plan, stage->process);
    uint32_t end = first + plan.lengths[stage->process];
    for (uint32_t at = first; at < end; at++)
        if (!do_node(stage, plan.order[at], round))
            return 0;
    return 1;
}

/* A stage's thread. */
static void *run_stage(void *argument)
{
    struct stage *stage = argument;
    unsigned long last = rounds;
    uint32_t round = 0;
    if (PLANTED == FAULT_LEAVES && stage->process + 1 == plan.processes)
        last = rounds / 2;
    while (round < last && do_round(stage, round))
        round++;
    pthread_mutex_lock(&lock);
    present--;
    stop_if_stuck();
    pthread_mutex_unlock(&lock);
    return NULL;
}

/* One thread a process, from the first call to the last. */
static void run_stages(struct stage *stages)
{
    present = plan.processes;
    for (uint32_t p = 0; p < plan.processes; p++) {
        stages[p].process = p;
        if (pthread_create(&stages[p].thread, NULL, run_stage, &stages[p]))
            give_up("cannot start", "a thread");
    }
    for (uint32_t p = 0; p < plan.processes; p++)
        pthread_join(stages[p].thread, NULL);
}

/* Reads a file's bytes. Any file longer than an image can be gets the same
   answer from its first IMAGE_ROOM bytes. */
static size_t read_file(const char *name, uint8_t *bytes)
{
    FILE *file = fopen(name, "rb");
    size_t length;
    if (file == NULL)
        give_up("cannot read", name);
    length = fread(bytes, 1, IMAGE_ROOM, file);
    if (ferror(file))
        give_up("cannot read", name);
    fclose(file);
    return length;
}

/* Reads the plan and makes all that the threads need; 0 for a refused plan. */
static int prepare(const char *name)
{
    static uint8_t image[IMAGE_ROOM];
    TamsklorPlanRead reading =
        tamsklor_plan_read(image, read_file(name, image));
    TamsklorBegun begun;
    if (reading.number != TAMSKLOR_PLAN_ACCEPTED) {
        const char *counted = tamsklor_place_text(reading.number);
        printf("refused %u %u\n%s", (unsigned)reading.number,
               (unsigned)reading.place, tamsklor_text(reading.number));
        if (counted[0] != '\0')
            printf(" (%s %u)", counted, (unsigned)reading.place);
        printf("\n");
        return 0;
    }
    plan = reading.plan;
    printf("plan %u %u %u\n", (unsigned)plan.q, (unsigned)plan.modulus,
           (unsigned)reading.least);
    begun = tamsklor_run_begin(&plan);
    if (begun.number != TAMSKLOR_RUN_ACCEPTED)
        give_up("cannot begin", name);
    state = begun.state;
    for (uint32_t e = 0; e < plan.edges; e++)
        synchronises[e] = (uint8_t)order_synchronises(&plan, e);
    record = calloc(rounds * plan.nodes, sizeof *record);
    /* No edge ever holds more tokens than its loop, and the least modulus is Q
       times one more than the largest loop. */
    if (record == NULL || !strips_begin(&plan, reading.least / plan.q - 1))
        give_up("no memory for", name);
    return 1;
}

/* Plants a fault in the record: the last process's first firing comes before
   all others, or the first two firings are exchanged. */
static void plant_fault(void)
{
    uint16_t first = plan.order[order_first(&plan, plan.processes - 1u)];
    size_t from = 1;
    if (PLANTED == FAULT_EARLY)
        while (record[from] != first)
            from++;
    if (PLANTED == FAULT_EARLY || PLANTED == FAULT_EXCHANGED) {
        uint16_t node = record[from];
        memmove(record + 1, record, from * sizeof *record);
        record[0] = node;
    }
}

/* The strips of a firing: those of a node's in-edges or of its out-edges. */
static void show_strips(const char *word, const uint16_t *ends, uint32_t node,
                        const struct marking *marking, int given)
{
    for (uint32_t e = 0; e < plan.edges; e++)
        if (synchronises[e] && ends[e] == node) {
            uint32_t number =
                marking->fired[node] + (given ? plan.tokens[e] : 0u);
            printf("  %s %u-%u strip %u", word, (unsigned)plan.source[e],
                   (unsigned)plan.destination[e], (unsigned)number);
        }
}

/* One line of the trace. */
static void show_firing(size_t index, const struct marking *marking)
{
    uint32_t node = record[index];
    printf("%6lu  process %u fires node %u", (unsigned long)index,
           (unsigned)order_process(&plan, node), (unsigned)node);
    show_strips("takes", plan.destination, node, marking, 0);
    show_strips("gives", plan.source, node, marking, 1);
    printf("\n");
}

/* Replays the record on the marked graph, from the starting tokens. */
static int order_agrees(struct marking *marking)
{
    order_begin(&plan, marking);
    for (size_t i = 0; i < firings; i++) {
        if (i < lines)
            show_firing(i, marking);
        if (!order_fire(&plan, marking, record[i])) {
            printf("firing %lu differs from the marked graph\n",
                   (unsigned long)i);
            return 0;
        }
    }
    for (uint32_t node = 0; node < plan.nodes; node++)
        if (marking->fired[node] != rounds) {
            printf("node %u has fired %u times\n", (unsigned)node,
                   (unsigned)marking->fired[node]);
            return 0;
        }
    return 1;
}

/* Whether every strip taken was the one that was given. */
static int strips_agree(const struct stage *stages)
{
    unsigned long taken = 0, wrong = 0;
    for (uint32_t p = 0; p < plan.processes; p++) {
        uint32_t e = stages[p].wrong_edge;
        taken += stages[p].taken;
        wrong += stages[p].wrong;
        if (stages[p].wrong > 0)
            printf("process %u: strip %u of %u-%u is not the one given\n",
                   (unsigned)p, (unsigned)stages[p].wrong_number,
                   (unsigned)plan.source[e], (unsigned)plan.destination[e]);
    }
    printf("%u threads, %lu rounds, %lu waits, %lu strips taken, %lu wrong\n",
           (unsigned)plan.processes, rounds, waits, taken, wrong);
    return wrong == 0;
}

/* Whether the service screen shows the marked graph's tokens, on edges whose
   end is the next node of its process. */
static int readings_agree(const struct marking *marking)
{
    int agree = 1;
    for (uint32_t e = 0; e < plan.edges; e++) {
        uint32_t end = plan.destination[e];
        uint32_t next = marking->next[order_process(&plan, end)];
        TamsklorTokenAnswer reading;
        if (!synchronises[e] || plan.order[next] != end)
            continue;
        reading = tamsklor_run_tokens(&plan, &state, e);
        printf("edge %u-%u holds %u\n", (unsigned)plan.source[e], (unsigned)end,
               (unsigned)reading.count);
        if (reading.number != TAMSKLOR_RUN_ACCEPTED ||
            reading.count != marking->tokens[e])
            agree = 0;
    }
    return agree;
}

/* An argument that is a number from `least` to MOST_ROUNDS. */
static unsigned long number(const char *text, unsigned long least)
{
    char *end;
    unsigned long value = strtoul(text, &end, 10);
    if (*end != '\0' || value < least || value > MOST_ROUNDS)
        give_up("not a number to use:", text);
    return value;
}

int main(int arguments, char **argument)
{
    static struct stage stages[TAMSKLOR_PROCESSES];
    static struct marking marking;
    int agrees;
    if (arguments < 2 || arguments > 4)
        give_up("usage:", "recorder IMAGE [ROUNDS [LINES]]");
    if (arguments > 2)
        rounds = number(argument[2], 1);
    if (arguments > 3)
        lines = number(argument[3], 0);
    if (!prepare(argument[1]))
        return 1;
    run_stages(stages);
    if (!stopped)
        plant_fault();
    agrees = !stopped && order_agrees(&marking);
    agrees = strips_agree(stages) && agrees;
    agrees = agrees && readings_agree(&marking);
    if (agrees)
        printf("%lu firings, order agrees with the marked graph\n",
               (unsigned long)firings);
    else
        printf("recorder: FAILED\n");
    strips_end();
    free(record);
    return agrees ? 0 : 1;
}
