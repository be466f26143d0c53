#include "record.h"

#include <stdio.h>
#include <string.h>

enum { RECORD_BYTES = 65536 };

static uint8_t record[RECORD_BYTES];
static size_t record_length, at;

/* The next number of so many bytes; 0 past the record's end. */
static uint32_t take(size_t width)
{
    uint32_t value = 0;
    for (size_t i = 0; i < width; i++, at++)
        if (at < record_length)
            value |= (uint32_t)record[at] << (8 * i);
    return value;
}

/* The plan value: counts, N, Q, then whole tables. */
static void take_plan(struct second_plan *plan)
{
    plan->nodes = take(4);
    plan->processes = take(4);
    plan->edges = take(4);
    plan->counters = take(4);
    plan->modulus = take(4);
    plan->round_sum = take(4);
    for (size_t i = 0; i < SECOND_PROCESSES; i++)
        plan->length[i] = (uint16_t)take(2);
    for (size_t i = 0; i < SECOND_NODES; i++)
        plan->order[i] = (uint16_t)take(2);
    for (size_t i = 0; i < SECOND_NODES; i++) {
        plan->counter[i] = (uint16_t)take(2);
        plan->increment[i] = (uint16_t)take(2);
    }
    for (size_t i = 0; i < SECOND_EDGES; i++) {
        plan->source[i] = (uint16_t)take(2);
        plan->target[i] = (uint16_t)take(2);
        plan->tokens[i] = (uint16_t)take(2);
    }
}

/* The state: positions, open flags, counters, turn, then the marks. */
static void take_state(struct second_state *state)
{
    memset(state, 0, sizeof *state);
    for (size_t i = 0; i < SECOND_PROCESSES; i++)
        state->position[i] = (uint16_t)take(2);
    for (size_t i = 0; i < SECOND_PROCESSES; i++)
        state->open[i] = (uint8_t)take(1);
    for (size_t i = 0; i < SECOND_COUNTERS; i++)
        state->counter[i] = take(4);
    state->turn = take(4);
    for (uint32_t marks = take(2); marks > 0; marks--) {
        uint32_t process = take(1) % SECOND_PROCESSES;
        uint32_t value = take(1);
        state->mark[process][take(2) % SECOND_EDGES] = (uint8_t)value;
    }
}

int record_next(void)
{
    uint8_t length[4];
    size_t got = fread(length, 1, 4, stdin);
    if (got == 0)
        return 0;
    record_length = length[0] | (size_t)length[1] << 8 |
                    (size_t)length[2] << 16 | (size_t)length[3] << 24;
    if (got != 4 || record_length > RECORD_BYTES)
        return -1;
    return fread(record, 1, record_length, stdin) == record_length ? 1 : -1;
}

void record_values(struct second_plan *plan, struct second_state *state)
{
    at = 0;
    take_plan(plan);
    take_state(state);
}

int record_request(struct request *request)
{
    if (at >= record_length)
        return 0;
    request->kind = take(1);
    request->code = take(4);
    request->process = take(4);
    request->edge = take(4);
    return 1;
}
