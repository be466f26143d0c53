/* generate_states SEED COUNT: made-up plan values, states and requests for
   `states`, the same for the same seed. */
#include <stdio.h>
#include <stdlib.h>
#include <string.h>

#include "made.h"

static uint8_t record[65536];
static size_t length;

/* Adds a number of so many bytes. */
static void put(uint32_t value, size_t width)
{
    put_little(record + length, value, width);
    length += width;
}

static void put_plan(const struct second_plan *plan)
{
    put(plan->nodes, 4);
    put(plan->processes, 4);
    put(plan->edges, 4);
    put(plan->counters, 4);
    put(plan->modulus, 4);
    put(plan->round_sum, 4);
    for (size_t i = 0; i < SECOND_PROCESSES; i++)
        put(plan->length[i], 2);
    for (size_t i = 0; i < SECOND_NODES; i++)
        put(plan->order[i], 2);
    for (size_t i = 0; i < SECOND_NODES; i++) {
        put(plan->counter[i], 2);
        put(plan->increment[i], 2);
    }
    for (size_t i = 0; i < SECOND_EDGES; i++) {
        put(plan->source[i], 2);
        put(plan->target[i], 2);
        put(plan->tokens[i], 2);
    }
}

/* Adds the marks that are not 0, and in front of them how many. */
static void put_marks(const struct second_state *state)
{
    size_t count_at = length;
    uint32_t count = 0;
    put(0, 2);
    for (uint32_t p = 0; p < SECOND_PROCESSES; p++)
        for (uint32_t e = 0; e < SECOND_EDGES; e++)
            if (state->mark[p][e] != 0) {
                put(p, 1);
                put(state->mark[p][e], 1);
                put(e, 2);
                count++;
            }
    put_little(record + count_at, count, 2);
}

static void put_state(const struct second_state *state)
{
    for (size_t i = 0; i < SECOND_PROCESSES; i++)
        put(state->position[i], 2);
    for (size_t i = 0; i < SECOND_PROCESSES; i++)
        put(state->open[i], 1);
    for (size_t i = 0; i < SECOND_COUNTERS; i++)
        put(state->counter[i], 4);
    put(state->turn, 4);
    put_marks(state);
}

static void put_request(uint32_t kind, uint32_t code, uint32_t process,
                        uint32_t edge)
{
    put(kind, 1);
    put(code, 4);
    put(process, 4);
    put(edge, 4);
}

/* Some number that is often small and sometimes any 32 bits. */
static uint32_t some_number(struct random *random, uint32_t near)
{
    static const uint32_t odd[] = {64, 255, 256, 511, 512, 65536, UINT32_MAX};
    return random_one_in(random, 10) ? odd[random_below(random, 7)]
                                     : random_below(random, near + 1);
}

/* One process's marks looked at (some twice), then fired and opened again. */
static void put_progress(struct random *random, const struct second_plan *plan,
                         const struct second_state *state)
{
    uint32_t p = random_below(random, plan->processes % SECOND_PROCESSES + 1) %
                 SECOND_PROCESSES;
    for (uint32_t e = 0; e < SECOND_EDGES; e++)
        if (state->mark[p][e])
            for (uint32_t i = random_between(random, 1, 2); i > 0; i--)
                put_request(0, SECOND_LOOK, p, e);
    put_request(0, SECOND_FIRE, p, 0);
    put_request(0, SECOND_OPEN, p, 0);
}

/* Calls and readings; a beginning now and then. */
static void put_requests(struct random *random, const struct second_plan *plan,
                         const struct second_state *state)
{
    for (uint32_t i = 0; i < 6; i++) {
        put_progress(random, plan, state);
        put_request(0, some_number(random, 3),
                    some_number(random, plan->processes % 65),
                    some_number(random, plan->edges % 513));
        put_request(1, 0, 0, some_number(random, plan->edges % 513));
    }
    if (random_one_in(random, 3)) {
        put_request(2, 0, 0, 0);
        put_request(0, SECOND_OPEN, 0, 0);
    }
}

/* A plan and state in shape, or one of them spoiled or at a limit. */
static void draw_record(struct random *random)
{
    static struct second_plan plan;
    static struct second_state state;
    uint32_t style = random_below(random, 8);
    if (style == 4 && random_one_in(random, 4))
        made_full_plan(random, &plan);
    else
        made_plan(random, &plan);
    made_state(random, &plan, &state);
    if (style == 0)
        spoil_state(random, random_below(random, STATE_FAULTS), &plan, &state);
    if (style == 1)
        spoil_plan(random, random_below(random, PLAN_FAULTS), &plan);
    if (style == 2)
        limit_state(random, random_below(random, STATE_LIMITS), &plan, &state);
    if (style == 3)
        limit_plan(random, random_below(random, PLAN_LIMITS), &plan);
    length = 0;
    put_plan(&plan);
    put_state(&state);
    put_requests(random, &plan, &state);
}

int main(int arguments, char **argument)
{
    struct random random;
    unsigned long count;
    if (arguments != 3) {
        fprintf(stderr, "usage: generate_states SEED COUNT\n");
        return 2;
    }
    random.state = strtoull(argument[1], NULL, 10);
    count = strtoul(argument[2], NULL, 10);
    for (unsigned long i = 0; i < count; i++) {
        uint8_t size[4];
        draw_record(&random);
        put_little(size, (uint32_t)length, 4);
        fwrite(size, 1, 4, stdout);
        fwrite(record, 1, length, stdout);
    }
    return fflush(stdout) == 0 && !ferror(stdout) ? 0 : 2;
}
