/* The reader of document 01: a plan image's bytes to numbers or a refusal. */
#include <string.h>

#include "planted.h"
#include "second_tests.h"

/* An image's bytes; a byte past its end reads as 0. */
struct image {
    const uint8_t *bytes;
    size_t length;
};

/* "Unsigned little-endian numbers" of one to four bytes. */
static uint32_t number_at(const struct image *image, size_t at, size_t width)
{
    uint32_t value = 0;
    for (size_t i = width; i > 0; i--) {
        size_t place = at + i - 1;
        value = value << 8 | (place < image->length ? image->bytes[place] : 0);
    }
    return value;
}

/* The counts and N of the 36-byte header. */
static void take_counts(const struct image *image, struct second_plan *plan)
{
    plan->nodes = number_at(image, 2, 2);
    plan->processes = number_at(image, 4, 2);
    plan->edges = number_at(image, 6, 2);
    plan->counters = number_at(image, 8, 2);
    plan->modulus = number_at(image, 12, 4);
}

/* Offsets and total "the counts give", in the order of the header. */
static void expected_offsets(const struct second_plan *plan, uint32_t offset[5])
{
    offset[0] = SECOND_HEADER_BYTES;
    offset[1] = offset[0] + 2 * plan->processes;
    offset[2] = offset[1] + 2 * plan->nodes;
    offset[3] = offset[2] + 4 * plan->nodes;
    offset[4] = offset[3] + 6 * plan->edges;
}

/* Number 4: an offset or the total differs, or the image's length does. */
static int offsets_differ(const struct image *image,
                          const struct second_plan *plan)
{
    uint32_t offset[5];
    expected_offsets(plan, offset);
    for (size_t field = 0; field < 5; field++)
        if (number_at(image, 16 + 4 * field, FAULT(4, 2, 4)) != offset[field])
            return 1;
    return image->length != offset[4];
}

/* The four tables that "follow the header in that order without gaps". */
static void take_tables(const struct image *image, struct second_plan *plan)
{
    size_t at = SECOND_HEADER_BYTES;
    for (uint32_t process = 0; process < plan->processes; process++, at += 2)
        plan->length[process] = (uint16_t)number_at(image, at, 2);
    for (uint32_t rank = 0; rank < plan->nodes; rank++, at += 2)
        plan->order[rank] = (uint16_t)number_at(image, at, 2);
    for (uint32_t node = 0; node < plan->nodes; node++, at += 4) {
        plan->counter[node] = (uint16_t)number_at(image, at, 2);
        plan->increment[node] = (uint16_t)number_at(image, at + 2, 2);
    }
    for (uint32_t edge = 0; edge < plan->edges; edge++, at += 6) {
        plan->source[edge] = (uint16_t)number_at(image, at, 2);
        plan->target[edge] = (uint16_t)number_at(image, at + 2, 2);
        plan->tokens[edge] = (uint16_t)number_at(image, at + 4, 2);
    }
}

/* Numbers 1 to 4, all at place 0; 0 where none applies. */
static uint32_t header_number(const struct image *image,
                              struct second_plan *plan)
{
    if (image->length < FAULT(1, SECOND_HEADER_BYTES - 1, SECOND_HEADER_BYTES))
        return 1;
    if (number_at(image, 0, 2) != 1 ||
        number_at(image, 10, FAULT(2, 1, 2)) != 0)
        return 2;
    take_counts(image, plan);
    if (counts_place(plan) != NOWHERE)
        return 3;
    return offsets_differ(image, plan) ? 4 : 0;
}

/* Puts a number and place into the answer where a test found one. */
static int refused(struct second_reading *reading, uint32_t number,
                   int64_t place)
{
    if (place == NOWHERE)
        return 0;
    reading->number = number;
    reading->place = (uint32_t)place;
    return 1;
}

/* Numbers 5 to 8: the tables alone. */
static int tables_refused(struct second_reading *reading)
{
    return refused(reading, 5, lengths_place(&reading->plan)) ||
           refused(reading, 6, order_place(&reading->plan)) ||
           refused(reading, 7, nodes_place(&reading->plan)) ||
           refused(reading, 8, edges_place(&reading->plan));
}

/* Numbers 9 to 13: process edges, C1, C2, C3 and C0. */
static int graph_refused(struct second_reading *reading,
                         struct plan_work *work)
{
    find_layout(work->plan, &work->layout);
    return refused(reading, 9, process_edge_place(work)) ||
           refused(reading, 10, shared_counter_place(work)) ||
           refused(reading, 11, silent_node_place(work)) ||
           refused(reading, 12, sum_place(work)) ||
           refused(reading, 13, empty_cycle_place(work));
}

/* Numbers 14 to 16: routes back and C4, "the lowest number that applies". */
static int modulus_refused(struct second_reading *reading,
                           struct plan_work *work)
{
    work->plan->round_sum = counter_sum(work->plan, 0);
    find_routes(work);
    return refused(reading, 14, one_way_place(work)) ||
           (FAULT(15, 1, 0) && refused(reading, 16, bound_place(work))) ||
           refused(reading, 15, multiple_place(work)) ||
           refused(reading, 16, bound_place(work));
}

/* "The reader's answer is either these three numbers or a refusal; the plan's
   tables stand beside it, with 0 past the counts, and all 0 after a
   refusal." */
struct second_reading second_read(const uint8_t *bytes, size_t length)
{
    struct image image = {bytes, length};
    struct second_reading reading;
    struct plan_work work;
    memset(&reading, 0, sizeof reading);
    work.plan = &reading.plan;
    reading.number = header_number(&image, &reading.plan);
    if (reading.number == 0) {
        take_tables(&image, &reading.plan);
        if (!tables_refused(&reading) && !graph_refused(&reading, &work) &&
            !modulus_refused(&reading, &work)) {
            reading.round_sum = reading.plan.round_sum;
            reading.modulus = reading.plan.modulus;
            reading.least = least_modulus(&work);
            return reading;
        }
    }
    memset(&reading.plan, 0, sizeof reading.plan);
    return reading;
}
