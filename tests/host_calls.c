/* Every export but tamsklor_plan_check, as the host in C calls it, against the
   second program: images, plan P's run with the answers 01 gives, runs of
   accepted plans beside the marked graph, made-up plan values and states in
   and out of shape. The plan lies where nothing can write or read past it, the
   state between guard bytes. */
#include <stddef.h>
#include <stdio.h>
#include <string.h>

#include "check.h"
#include "damage.h"
#include "draw.h"
#include "guarded.h"
#include "hand.h"
#include "made.h"
#include "script.h"
#include "second.h"
#include "shadow.h"
#include "tamsklor.h"
#include "tamsklor_text.h"

enum { GUARD = 64, GUARD_BYTE = 0xA5, MOST_COUNT = 65535 };

/* "#[repr(C)]" structs of numbers and arrays: every field at its place. */
#define LIES_AT(name, type, field, place)                                     \
    typedef char name[offsetof(type, field) == (place) ? 1 : -1]
#define HAS_BYTES(name, type, bytes)                                          \
    typedef char name[sizeof(type) == (bytes) ? 1 : -1]

LIES_AT(nodes_at, TamsklorPlan, nodes, 0);
LIES_AT(processes_at, TamsklorPlan, processes, 2);
LIES_AT(edges_at, TamsklorPlan, edges, 4);
LIES_AT(counters_at, TamsklorPlan, counters, 6);
LIES_AT(modulus_at, TamsklorPlan, modulus, 8);
LIES_AT(q_at, TamsklorPlan, q, 12);
LIES_AT(lengths_at, TamsklorPlan, lengths, 16);
LIES_AT(order_at, TamsklorPlan, order, 144);
LIES_AT(counter_at, TamsklorPlan, counter, 272);
LIES_AT(increment_at, TamsklorPlan, increment, 400);
LIES_AT(source_at, TamsklorPlan, source, 528);
LIES_AT(destination_at, TamsklorPlan, destination, 1552);
LIES_AT(tokens_at, TamsklorPlan, tokens, 2576);
HAS_BYTES(plan_has, TamsklorPlan, TAMSKLOR_PLAN_BYTES);
LIES_AT(read_number_at, TamsklorPlanRead, number, 0);
LIES_AT(read_place_at, TamsklorPlanRead, place, 4);
LIES_AT(read_least_at, TamsklorPlanRead, least, 8);
LIES_AT(read_plan_at, TamsklorPlanRead, plan, 12);
HAS_BYTES(reading_has, TamsklorPlanRead, 12 + TAMSKLOR_PLAN_BYTES);
LIES_AT(positions_at, TamsklorState, positions, 0);
LIES_AT(opened_at, TamsklorState, opened, 128);
LIES_AT(marks_at, TamsklorState, marks, 192);
LIES_AT(run_counters_at, TamsklorState, counters, 32960);
LIES_AT(turn_at, TamsklorState, turn, 33216);
HAS_BYTES(state_has, TamsklorState, TAMSKLOR_STATE_BYTES);
LIES_AT(begun_number_at, TamsklorBegun, number, 0);
LIES_AT(begun_state_at, TamsklorBegun, state, 4);
HAS_BYTES(begun_has, TamsklorBegun, 4 + TAMSKLOR_STATE_BYTES);
LIES_AT(kind_at, TamsklorCallAnswer, kind, 0);
LIES_AT(value_at, TamsklorCallAnswer, value, 4);
HAS_BYTES(answer_has, TamsklorCallAnswer, 8);
LIES_AT(stepped_answer_at, TamsklorStepped, answer, 0);
LIES_AT(stepped_state_at, TamsklorStepped, state, 8);
HAS_BYTES(stepped_has, TamsklorStepped, 8 + TAMSKLOR_STATE_BYTES);
LIES_AT(token_number_at, TamsklorTokenAnswer, number, 0);
LIES_AT(token_count_at, TamsklorTokenAnswer, count, 4);
HAS_BYTES(token_answer_has, TamsklorTokenAnswer, 8);

static unsigned long images, accepted, calls, readings, begins;
static unsigned long refused[28];    /* calls and readings, by number */
static unsigned long kinds[6];       /* answers, by the second's kind */
static unsigned long turns_round;    /* turn numbers that came to 0 again */
static unsigned long begins_refused;
static unsigned long longest;        /* calls of one run */

/* The plan and the state on both sides. */
static const TamsklorPlan *plan; /* read-only, at an edge of memory */
static struct second_plan second_plan;
static struct second_state second_state;

/* The host's one state, and an answer by value, between guard bytes. */
static struct {
    uint8_t before[GUARD];
    TamsklorState state;
    uint8_t after[GUARD];
} kept;
static struct {
    uint8_t before[GUARD];
    TamsklorPlanRead reading;
    uint8_t after[GUARD];
} read_out;
static struct {
    uint8_t before[GUARD];
    TamsklorBegun begun;
    uint8_t after[GUARD];
} begun_out;
static struct {
    uint8_t before[GUARD];
    TamsklorStepped stepped;
    uint8_t after[GUARD];
} stepped_out;

/* Sets the guard bytes before and after. */
static void set_guards(uint8_t *before, uint8_t *after)
{
    memset(before, GUARD_BYTE, GUARD);
    memset(after, GUARD_BYTE, GUARD);
}

/* Whether the guard bytes are as they were. */
static int guards_whole(const uint8_t *before, const uint8_t *after)
{
    for (int i = 0; i < GUARD; i++)
        if (before[i] != GUARD_BYTE || after[i] != GUARD_BYTE)
            return 0;
    return 1;
}

/* A plan value of the second program as the host holds it. */
static void host_plan(const struct second_plan *from, TamsklorPlan *to)
{
    to->nodes = (uint16_t)from->nodes;
    to->processes = (uint16_t)from->processes;
    to->edges = (uint16_t)from->edges;
    to->counters = (uint16_t)from->counters;
    to->modulus = from->modulus;
    to->q = from->round_sum;
    memcpy(to->lengths, from->length, sizeof to->lengths);
    memcpy(to->order, from->order, sizeof to->order);
    memcpy(to->counter, from->counter, sizeof to->counter);
    memcpy(to->increment, from->increment, sizeof to->increment);
    memcpy(to->source, from->source, sizeof to->source);
    memcpy(to->destination, from->target, sizeof to->destination);
    memcpy(to->tokens, from->tokens, sizeof to->tokens);
}

/* Whether every byte of a host's plan is the second program's. */
static int same_plan(const TamsklorPlan *a, const struct second_plan *b)
{
    static TamsklorPlan expected;
    host_plan(b, &expected);
    return memcmp(a, &expected, sizeof expected) == 0;
}

/* A state of the second program as the host holds it. */
static void host_state(const struct second_state *from, TamsklorState *to)
{
    memcpy(to->positions, from->position, sizeof to->positions);
    memcpy(to->opened, from->open, sizeof to->opened);
    memcpy(to->marks, from->mark, sizeof to->marks);
    memcpy(to->counters, from->counter, sizeof to->counters);
    to->turn = from->turn;
}

/* Whether every field of a host's state is the second program's. */
static int same_state(const TamsklorState *a, const struct second_state *b)
{
    return memcmp(a->positions, b->position, sizeof a->positions) == 0 &&
           memcmp(a->opened, b->open, sizeof a->opened) == 0 &&
           memcmp(a->marks, b->mark, sizeof a->marks) == 0 &&
           memcmp(a->counters, b->counter, sizeof a->counters) == 0 &&
           a->turn == b->turn;
}

/* A count as far as the host's plan can hold it, out of bounds or not. */
static uint32_t held(uint32_t count)
{
    return count > MOST_COUNT ? MOST_COUNT : count;
}

/* Takes a plan value on both sides; the host's ends, or begins, where nothing
   can be read. */
static void take_plan(const struct second_plan *value)
{
    static TamsklorPlan copy;
    static unsigned long taken;
    const void *at;
    second_plan = *value;
    second_plan.nodes = held(value->nodes);
    second_plan.processes = held(value->processes);
    second_plan.edges = held(value->edges);
    second_plan.counters = held(value->counters);
    host_plan(&second_plan, &copy);
    if (taken++ % 2 == 0)
        at = guarded_to_end((const uint8_t *)&copy, sizeof copy);
    else
        at = guarded_from_start((const uint8_t *)&copy, sizeof copy);
    plan = at;
}

/* Takes a state on both sides. */
static void take_state(const struct second_state *value)
{
    second_state = *value;
    host_state(value, &kept.state);
    set_guards(kept.before, kept.after);
}

/* Counts an answer of the second program. */
static void count(struct second_answer answer)
{
    kinds[answer.kind]++;
    if (answer.kind == SECOND_REFUSED && answer.value < 28)
        refused[answer.value]++;
}

/* The host's number for a kind of answer. */
static uint32_t kind_number(enum second_kind kind)
{
    switch (kind) {
    case SECOND_OPENED: return TAMSKLOR_RUN_OPENED;
    case SECOND_FOUND: return TAMSKLOR_RUN_FOUND;
    case SECOND_WAIT: return TAMSKLOR_RUN_WAIT;
    case SECOND_FIRED: return TAMSKLOR_RUN_FIRED;
    default: return TAMSKLOR_RUN_REFUSED;
    }
}

/* The same call by value, before it is made in place: the state handed in is
   as it was. */
static void step_by_value(uint32_t code, uint32_t process, uint32_t edge)
{
    static TamsklorState before;
    before = kept.state;
    set_guards(stepped_out.before, stepped_out.after);
    memset(&stepped_out.stepped, GUARD_BYTE, sizeof stepped_out.stepped);
    stepped_out.stepped =
        tamsklor_run_stepped(*plan, kept.state, code, process, edge);
    check(memcmp(&before, &kept.state, sizeof before) == 0 &&
              guards_whole(kept.before, kept.after) &&
              guards_whole(stepped_out.before, stepped_out.after),
          "bytes around a call by value", calls);
}

/* One call on both sides. */
static struct second_answer compare_step(uint32_t code, uint32_t process,
                                         uint32_t edge)
{
    static TamsklorState before;
    TamsklorCallAnswer got;
    struct second_answer expected =
        second_step(&second_plan, &second_state, code, process, edge);
    before = kept.state;
    step_by_value(code, process, edge);
    got = tamsklor_run_step(plan, &kept.state, code, process, edge);
    check(memcmp(&got, &stepped_out.stepped.answer, sizeof got) == 0 &&
              memcmp(&kept.state, &stepped_out.stepped.state,
                     sizeof kept.state) == 0,
          "tamsklor_run_step and tamsklor_run_stepped", calls);
    check(got.kind == kind_number(expected.kind) &&
              got.value == expected.value,
          "tamsklor_run_step and the second program", calls);
    check(same_state(&kept.state, &second_state),
          "tamsklor_run_step's state and the second program", calls);
    check(guards_whole(kept.before, kept.after), "bytes around the state",
          calls);
    if (got.kind == TAMSKLOR_RUN_REFUSED)
        check(memcmp(&before, &kept.state, sizeof before) == 0,
              "state after a refused call", calls);
    else
        turns_round += kept.state.turn == 0;
    count(expected);
    calls++;
    return expected;
}

/* One token reading on both sides. */
static void compare_tokens(uint32_t edge)
{
    static TamsklorState before;
    TamsklorTokenAnswer got;
    struct second_answer expected =
        second_token_reading(&second_plan, &second_state, edge);
    int is_read = expected.kind == SECOND_TOKENS_READ;
    before = kept.state;
    got = tamsklor_run_tokens(plan, &kept.state, edge);
    check(got.number == (is_read ? TAMSKLOR_RUN_ACCEPTED : expected.value) &&
              got.count == (is_read ? expected.value : 0),
          "tamsklor_run_tokens and the second program", readings);
    check(memcmp(&before, &kept.state, sizeof before) == 0 &&
              guards_whole(kept.before, kept.after),
          "state after a token reading", readings);
    count(expected);
    readings++;
}

/* A beginning on both sides, into a struct that held something else. */
static void compare_begin(void)
{
    static struct second_state fresh;
    static const TamsklorState zero;
    uint32_t expected = second_begin(&second_plan, &fresh);
    memset(&begun_out.begun, 0x5A, sizeof begun_out.begun);
    set_guards(begun_out.before, begun_out.after);
    begun_out.begun = tamsklor_run_begin(plan);
    check(begun_out.begun.number == expected &&
              same_state(&begun_out.begun.state, &fresh),
          "tamsklor_run_begin and the second program", begins);
    check(memcmp(&begun_out.begun.state, &zero, sizeof zero) == 0,
          "state begun is all 0", begins);
    check(guards_whole(begun_out.before, begun_out.after),
          "bytes around a beginning", begins);
    begins++;
    begins_refused += expected != 0;
}

/* One image through tamsklor_plan_read, into a struct that held something
   else. */
static uint32_t compare_read(const uint8_t *bytes, size_t length)
{
    static struct second_reading expected;
    static const TamsklorPlan zero;
    const uint8_t *image = images % 2 == 0 ? guarded_to_end(bytes, length)
                                           : guarded_from_start(bytes, length);
    TamsklorPlanRead *got = &read_out.reading;
    TamsklorVerdict verdict = tamsklor_plan_check(image, length);
    expected = second_read(bytes, length);
    memset(got, 0x5A, sizeof *got);
    set_guards(read_out.before, read_out.after);
    *got = tamsklor_plan_read(image, length);
    check(got->number == expected.number && got->place == expected.place &&
              got->least == expected.least,
          "tamsklor_plan_read and the second program", images);
    check(same_plan(&got->plan, &expected.plan),
          "tamsklor_plan_read's plan and the second program", images);
    check(got->number == verdict.number && got->place == verdict.place &&
              got->least == verdict.least,
          "tamsklor_plan_read and tamsklor_plan_check", images);
    check(got->number == 0 || memcmp(&got->plan, &zero, sizeof zero) == 0,
          "all 0 after a refusal", images);
    check(guards_whole(read_out.before, read_out.after),
          "bytes around a reading", images);
    images++;
    accepted += expected.number == 0;
    return got->number;
}

/* Reads a plan's image and begins its run on both sides. */
static void begin_run(const struct sketch *sketch)
{
    static struct picture picture;
    static struct second_state fresh;
    sketch_picture(sketch, &picture);
    check(compare_read(picture.bytes, picture.length) ==
              TAMSKLOR_PLAN_ACCEPTED,
          "drawn plan accepted", images);
    take_plan(&(struct second_plan){0});
    compare_begin();
    made_plan_of(sketch, &second_plan);
    check(same_plan(&read_out.reading.plan, &second_plan),
          "the plan that was drawn", images);
    take_plan(&second_plan);
    compare_begin();
    check(begun_out.begun.number == TAMSKLOR_RUN_ACCEPTED, "drawn plan begins",
          begins);
    memset(&fresh, 0, sizeof fresh);
    take_state(&fresh);
    kept.state = begun_out.begun.state;
}

/* Plan P's run: the calls of 01 and the answers that 01 prints. */
static void try_plan_p(void)
{
    static const uint32_t run[9][5] = {
        {TAMSKLOR_RUN_OPEN, 0, 0, TAMSKLOR_RUN_OPENED, 1},
        {TAMSKLOR_RUN_LOOK, 0, 4, TAMSKLOR_RUN_FOUND, 0},
        {TAMSKLOR_RUN_FIRE, 0, 0, TAMSKLOR_RUN_FIRED, 0},
        {TAMSKLOR_RUN_OPEN, 0, 0, TAMSKLOR_RUN_OPENED, 0},
        {TAMSKLOR_RUN_FIRE, 0, 0, TAMSKLOR_RUN_FIRED, 1},
        {TAMSKLOR_RUN_OPEN, 1, 0, TAMSKLOR_RUN_OPENED, 1},
        {TAMSKLOR_RUN_LOOK, 1, 2, TAMSKLOR_RUN_FOUND, 0},
        {TAMSKLOR_RUN_LOOK, 1, 2, TAMSKLOR_RUN_REFUSED,
         TAMSKLOR_RUN_NOT_MARKED},
        {TAMSKLOR_RUN_FIRE, 1, 0, TAMSKLOR_RUN_FIRED, 2}};
    static struct sketch sketch;
    static TamsklorState state;
    TamsklorCallAnswer got;
    hand_plan_p(&sketch);
    begin_run(&sketch);
    state = kept.state;
    for (int i = 0; i < 9; i++) {
        got = tamsklor_run_step(plan, &state, run[i][0], run[i][1], run[i][2]);
        check(got.kind == run[i][3] && got.value == run[i][4],
              "a call of 01", (unsigned long)i);
    }
    check(state.turn == 8, "turns of 01's run", 0);
}

/* A list of calls from a fresh start, beside the marked graph. */
static void try_run(struct random *random, unsigned long length)
{
    static struct sketch sketch;
    static struct shadow shadow;
    struct wish wish = {0};
    uint32_t useful = random_one_in(random, 2) ? 3 : 12;
    wish.most_nodes = random_one_in(random, 3) ? 64 : 8;
    draw_plan(random, &wish, &sketch);
    begin_run(&sketch);
    shadow_begin(&sketch, &shadow);
    for (unsigned long i = 0; i < length; i++) {
        struct call call = random_one_in(random, useful)
                               ? draw_any_call(random, &sketch)
                               : draw_useful_call(random, &shadow);
        struct second_answer got =
            compare_step(call.code, call.process, call.edge);
        struct second_answer expected =
            shadow_call(&shadow, call.code, call.process, call.edge);
        check(got.kind == expected.kind && got.value == expected.value,
              "the second program and the marked graph", calls - 1);
        if (i % 8 == 0)
            compare_tokens(random_below(random, sketch.edges + 1));
    }
    if (length > longest)
        longest = length;
}

/* Some number that is often small and sometimes any 32 bits. */
static uint32_t some_number(struct random *random, uint32_t near)
{
    static const uint32_t odd[] = {64, 255, 256, 511, 512, 65536, UINT32_MAX};
    return random_one_in(random, 10) ? odd[random_below(random, 7)]
                                     : random_below(random, near % 1000 + 1);
}

/* One process's marks looked at (some twice), then fired and opened again. */
static void try_progress(struct random *random)
{
    uint32_t p = random_below(random, SECOND_PROCESSES);
    if (second_plan.processes > 0 && second_plan.processes <= p)
        p = random_below(random, second_plan.processes);
    for (uint32_t e = 0; e < SECOND_EDGES; e++)
        if (second_state.mark[p][e]) {
            compare_step(TAMSKLOR_RUN_LOOK, p, e);
            if (random_one_in(random, 4))
                compare_step(TAMSKLOR_RUN_LOOK, p, e);
        }
    compare_step(TAMSKLOR_RUN_FIRE, p, some_number(random, 3));
    compare_step(TAMSKLOR_RUN_OPEN, p, some_number(random, 3));
}

/* Calls and readings on the plan and state taken. */
static void try_calls(struct random *random, uint32_t rounds)
{
    for (uint32_t i = 0; i < rounds; i++) {
        compare_step(random_one_in(random, 8) ? some_number(random, 4)
                                              : random_below(random, 3),
                     some_number(random, second_plan.processes),
                     some_number(random, second_plan.edges));
        compare_tokens(some_number(random, second_plan.edges));
        try_progress(random);
    }
}

/* A made-up plan and state in shape, then each out of shape in one way. */
static void try_made(struct random *random, unsigned long round)
{
    static struct second_plan made, bad_plan;
    static struct second_state state, bad_state;
    made_plan(random, &made);
    made_state(random, &made, &state);
    bad_plan = made;
    bad_state = state;
    take_plan(&made);
    take_state(&state);
    compare_begin();
    try_calls(random, 8);
    if (spoil_state(random, (uint32_t)(round % STATE_FAULTS), &made,
                    &bad_state)) {
        take_state(&bad_state);
        try_calls(random, 2);
    }
    if (spoil_plan(random, (uint32_t)(round % PLAN_FAULTS), &bad_plan)) {
        take_plan(&bad_plan);
        take_state(&state);
        compare_begin();
        try_calls(random, 2);
    }
}

/* Images on both sides of every bound, in every way, and random ones. */
static void try_images(struct random *random, unsigned long rounds)
{
    static struct damaged damaged;
    static struct picture picture;
    check(compare_read(NULL, 0) == TAMSKLOR_PLAN_HEADER_CUT,
          "NULL and 0 bytes", 0);
    for (unsigned long round = 0; round < rounds; round++)
        for (uint32_t number = 1; number <= 16; number++) {
            uint32_t way = (uint32_t)(round % damage_ways(number));
            uint32_t most_nodes = random_one_in(random, 2) ? 64 : 7;
            damage_plan(random, number, way, most_nodes, &damaged);
            compare_read(damaged.before.bytes, damaged.before.length);
            compare_read(damaged.after.bytes, damaged.after.length);
            random_picture(random, most_nodes, &picture);
            compare_read(picture.bytes, picture.length);
        }
}

/* Words for a kind of answer. */
static const char *kind_name(enum second_kind kind)
{
    return kind == SECOND_TOKENS_READ ? "tokens read"
                                      : tamsklor_kind_text(kind_number(kind));
}

/* Prints the counts and holds them against their floors. */
static void show_counts(unsigned long size)
{
    printf("images %lu (accepted %lu), begins %lu (refused %lu), calls %lu, "
           "readings %lu\n",
           images, accepted, begins, begins_refused, calls, readings);
    printf("longest run %lu calls, turn numbers round to 0: %lu\n", longest,
           turns_round);
    check_floor("images", images, 700);
    check_floor("calls", calls, size);
    check_floor("longest run", longest, size / 20);
    check_floor("turn numbers round to 0", turns_round, size / 1000);
    check_floor("begins refused", begins_refused, size / 1000);
    for (uint32_t kind = 0; kind < 6; kind++) {
        const char *name = kind_name((enum second_kind)kind);
        printf("%s %lu\n", name, kinds[kind]);
        check_floor(name, kinds[kind], size / 100);
    }
    for (uint32_t number = 20; number <= 27; number++) {
        printf("number %u, %s: met %lu\n", (unsigned)number,
               tamsklor_text(number), refused[number]);
        check_floor("number met", refused[number], size / 200);
    }
}

int main(int arguments, char **argument)
{
    unsigned long seed = 1, size = 100000, round = 0;
    struct random random;
    check_arguments(arguments, argument, &seed, &size);
    random.state = seed;
    guarded_begin();
    check(guarded_works(), "reads past an edge are seen", 0);
    try_plan_p();
    try_images(&random, 15);
    try_run(&random, size / 20);
    for (; calls < size; round++) {
        try_made(&random, round);
        try_run(&random, random_between(&random, 20, 300));
    }
    show_counts(size);
    return check_end("host_calls");
}
