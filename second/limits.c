/* limits FLOOR: how many records of a stream of made-up plan values and
   states hold a number at its width's limit or at 01's bound; fails where a
   limit is in fewer records than the floor. */
#include <stdio.h>
#include <stdlib.h>

#include "record.h"

enum limit {
    POSITION_HIGH,
    OPEN_2,
    OPEN_HIGH,
    MARK_2,
    MARK_HIGH,
    COUNTER_HIGH,
    COUNTER_N,
    COUNTER_BELOW_N,
    COUNTER_TOP,
    TURN_HIGH,
    TURN_TO_0,
    CODE_3,
    CODE_HIGH,
    PROCESS_64,
    PROCESS_HIGH,
    EDGE_512,
    EDGE_HIGH,
    EDGE_HIGH_READ,
    COUNT_64,
    COUNT_65,
    EDGES_512,
    EDGES_513,
    COUNT_WRAPS,
    COUNT_HIGH,
    N_TOP,
    N_PAST_TOP,
    N_HIGH,
    Q_HIGH,
    LENGTH_HIGH,
    ORDER_HIGH,
    NUMBER_HIGH,
    INCREMENT_255,
    INCREMENT_256,
    INCREMENT_HIGH,
    SOURCE_HIGH,
    DESTINATION_HIGH,
    TOKENS_1000,
    TOKENS_1001,
    TOKENS_HIGH,
    LIMITS
};

static const char *const names[LIMITS] = {
    [POSITION_HIGH] = "position 65535",
    [OPEN_2] = "open flag 2",
    [OPEN_HIGH] = "open flag 255",
    [MARK_2] = "mark 2",
    [MARK_HIGH] = "mark 255",
    [COUNTER_HIGH] = "counter 4294967295",
    [COUNTER_N] = "counter N",
    [COUNTER_BELOW_N] = "counter N - 1",
    [COUNTER_TOP] = "counter 1999999999",
    [TURN_HIGH] = "turn 4294967295",
    [TURN_TO_0] = "turn 4294967295 raised to 0",
    [CODE_3] = "code 3",
    [CODE_HIGH] = "code 4294967295",
    [PROCESS_64] = "process 64",
    [PROCESS_HIGH] = "process 4294967295",
    [EDGE_512] = "edge 512",
    [EDGE_HIGH] = "edge 4294967295",
    [EDGE_HIGH_READ] = "edge 4294967295 read",
    [COUNT_64] = "nodes, processes or counters 64",
    [COUNT_65] = "nodes, processes or counters 65",
    [EDGES_512] = "edges 512",
    [EDGES_513] = "edges 513",
    [COUNT_WRAPS] = "a count 65536 too high",
    [COUNT_HIGH] = "a count 4294967295",
    [N_TOP] = "N 2000000000",
    [N_PAST_TOP] = "N 2000000001",
    [N_HIGH] = "N 4294967295",
    [Q_HIGH] = "Q 4294967295",
    [LENGTH_HIGH] = "length 65535",
    [ORDER_HIGH] = "order entry 65535",
    [NUMBER_HIGH] = "counter number 65535",
    [INCREMENT_255] = "increment 255",
    [INCREMENT_256] = "increment 256",
    [INCREMENT_HIGH] = "increment 65535",
    [SOURCE_HIGH] = "source 65535",
    [DESTINATION_HIGH] = "destination 65535",
    [TOKENS_1000] = "tokens 1000",
    [TOKENS_1001] = "tokens 1001",
    [TOKENS_HIGH] = "tokens 65535"
};

static struct second_plan plan;
static struct second_state state;
static int met[LIMITS];
static unsigned long records[LIMITS];

/* A limit that is met in this record, or not by this number. */
static void note(enum limit limit, int is_met)
{
    met[limit] |= is_met;
}

/* Whether one of so many bytes has this value. */
static int any_byte(const uint8_t *bytes, size_t count, uint32_t value)
{
    for (size_t i = 0; i < count; i++)
        if (bytes[i] == value)
            return 1;
    return 0;
}

/* Whether a counter of the state has this value. */
static int any_counter(uint32_t value)
{
    for (size_t i = 0; i < SECOND_COUNTERS; i++)
        if (state.counter[i] == value)
            return 1;
    return 0;
}

/* Whether a table's entry below the count, and below its end, has this
   value. */
static int any_entry(const uint16_t *table, uint32_t count, uint32_t end,
                     uint32_t value)
{
    for (uint32_t i = 0; i < count && i < end; i++)
        if (table[i] == value)
            return 1;
    return 0;
}

static int any_of_processes(const uint16_t *table, uint32_t value)
{
    return any_entry(table, plan.processes, SECOND_PROCESSES, value);
}

static int any_of_nodes(const uint16_t *table, uint32_t value)
{
    return any_entry(table, plan.nodes, SECOND_NODES, value);
}

static int any_of_edges(const uint16_t *table, uint32_t value)
{
    return any_entry(table, plan.edges, SECOND_EDGES, value);
}

static void note_state(void)
{
    const uint8_t *marks = (const uint8_t *)state.mark;
    note(POSITION_HIGH, any_of_processes(state.position, 65535));
    note(OPEN_2, any_byte(state.open, sizeof state.open, 2));
    note(OPEN_HIGH, any_byte(state.open, sizeof state.open, 255));
    note(MARK_2, any_byte(marks, sizeof state.mark, 2));
    note(MARK_HIGH, any_byte(marks, sizeof state.mark, 255));
    note(COUNTER_HIGH, any_counter(UINT32_MAX));
    note(COUNTER_N, plan.modulus > 0 && any_counter(plan.modulus));
    note(COUNTER_BELOW_N, plan.modulus > 1 && any_counter(plan.modulus - 1));
    note(COUNTER_TOP, any_counter(SECOND_MODULUS - 1));
    note(TURN_HIGH, state.turn == UINT32_MAX);
}

/* One request, done so that the turn goes on. */
static void note_request(const struct request *request)
{
    uint32_t turn = state.turn;
    int calls = request->kind == 0;
    if (calls)
        second_step(&plan, &state, request->code, request->process,
                    request->edge);
    else if (request->kind != 1)
        second_begin(&plan, &state);
    note(TURN_TO_0, calls && turn == UINT32_MAX && state.turn == 0);
    note(CODE_3, calls && request->code == 3);
    note(CODE_HIGH, calls && request->code == UINT32_MAX);
    note(PROCESS_64, calls && request->process == SECOND_PROCESSES);
    note(PROCESS_HIGH, calls && request->process == UINT32_MAX);
    note(EDGE_512, request->edge == SECOND_EDGES);
    note(EDGE_HIGH, calls && request->edge == UINT32_MAX);
    note(EDGE_HIGH_READ, request->kind == 1 && request->edge == UINT32_MAX);
}

/* Whether a count is far too high, and in its low two bytes is not. */
static int wraps(uint32_t count, uint32_t most)
{
    return count > 65535 && count % 65536 >= 1 && count % 65536 <= most;
}

/* Whether a count that is at most 64 has this value. */
static int any_count(uint32_t value)
{
    return plan.nodes == value || plan.processes == value ||
           plan.counters == value;
}

static void note_counts(void)
{
    note(COUNT_64, any_count(64));
    note(COUNT_65, any_count(65));
    note(EDGES_512, plan.edges == 512);
    note(EDGES_513, plan.edges == 513);
    note(COUNT_WRAPS, wraps(plan.nodes, 64) || wraps(plan.processes, 64) ||
                          wraps(plan.counters, 64) || wraps(plan.edges, 512));
    note(COUNT_HIGH, any_count(UINT32_MAX) || plan.edges == UINT32_MAX);
    note(N_TOP, plan.modulus == SECOND_MODULUS);
    note(N_PAST_TOP, plan.modulus == SECOND_MODULUS + 1);
    note(N_HIGH, plan.modulus == UINT32_MAX);
    note(Q_HIGH, plan.round_sum == UINT32_MAX);
}

/* The tables up to their counts. */
static void note_tables(void)
{
    note(LENGTH_HIGH, any_of_processes(plan.length, 65535));
    note(ORDER_HIGH, any_of_nodes(plan.order, 65535));
    note(NUMBER_HIGH, any_of_nodes(plan.counter, 65535));
    note(INCREMENT_255, any_of_nodes(plan.increment, SECOND_INCREMENT));
    note(INCREMENT_256, any_of_nodes(plan.increment, SECOND_INCREMENT + 1));
    note(INCREMENT_HIGH, any_of_nodes(plan.increment, 65535));
    note(SOURCE_HIGH, any_of_edges(plan.source, 65535));
    note(DESTINATION_HIGH, any_of_edges(plan.target, 65535));
    note(TOKENS_1000, any_of_edges(plan.tokens, SECOND_TOKENS));
    note(TOKENS_1001, any_of_edges(plan.tokens, SECOND_TOKENS + 1));
    note(TOKENS_HIGH, any_of_edges(plan.tokens, 65535));
}

/* All of one record. */
static void note_record(void)
{
    struct request request;
    for (unsigned i = 0; i < LIMITS; i++)
        met[i] = 0;
    record_values(&plan, &state);
    note_state();
    note_counts();
    note_tables();
    while (record_request(&request))
        note_request(&request);
    for (unsigned i = 0; i < LIMITS; i++)
        records[i] += met[i] != 0;
}

int main(int arguments, char **argument)
{
    unsigned long floor, cases = 0;
    int more, few = 0;
    if (arguments != 2) {
        fprintf(stderr, "usage: limits FLOOR\n");
        return 2;
    }
    floor = strtoul(argument[1], NULL, 10);
    for (; (more = record_next()) == 1; cases++)
        note_record();
    for (unsigned i = 0; i < LIMITS; i++) {
        printf("limit %s: in %lu%s\n", names[i], records[i],
               records[i] < floor ? "  TOO FEW" : "");
        few += records[i] < floor;
    }
    printf("limits: %lu records, %d limits below their floor\n", cases, few);
    return more == 0 && few == 0 ? 0 : 1;
}
