#include "hand.h"

#include <stdlib.h>
#include <string.h>

#include "check.h"

/* The next number of a text; moves behind it. */
static uint32_t next_number(const char **text)
{
    char *end;
    uint32_t number = (uint32_t)strtoul(*text, &end, 10);
    *text = end;
    return number;
}

/* Firing orders, parted by |. */
static void take_orders(struct sketch *sketch, const char *text)
{
    sketch->processes = 1;
    while (*text != '\0') {
        if (*text == ' ') {
            text++;
        } else if (*text == '|') {
            sketch->processes++;
            text++;
        } else {
            sketch->order[sketch->nodes++] = next_number(&text);
            sketch->length[sketch->processes - 1]++;
        }
    }
}

/* Edges as source-target:tokens. */
static void take_edges(struct sketch *sketch, const char *text)
{
    while (*text != '\0') {
        struct sketch_edge *edge = &sketch->edge[sketch->edges++];
        edge->source = next_number(&text);
        text++;
        edge->target = next_number(&text);
        text++;
        edge->tokens = next_number(&text);
        while (*text == ' ')
            text++;
    }
}

void hand_plan(struct sketch *sketch, const char *orders, const char *edges,
               const char *counters, const char *increments, uint32_t modulus)
{
    memset(sketch, 0, sizeof *sketch);
    take_orders(sketch, orders);
    take_edges(sketch, edges);
    for (uint32_t node = 0; node < sketch->nodes; node++) {
        sketch->counter[node] = next_number(&counters);
        sketch->increment[node] = next_number(&increments);
        if (sketch->counter[node] >= sketch->counters)
            sketch->counters = sketch->counter[node] + 1;
    }
    sketch->modulus = modulus;
}

void hand_plan_p(struct sketch *sketch)
{
    hand_plan(sketch, "0 1|2 3", "0-1:0 1-0:1 1-2:0 2-3:0 3-0:3 3-2:1",
              "0 0 1 1", "0 1 0 1", 4);
}

struct second_reading hand_read(const struct sketch *sketch)
{
    struct picture picture;
    sketch_picture(sketch, &picture);
    return second_read(picture.bytes, picture.length);
}

void expect_accepted(const char *what, const struct sketch *sketch,
                     uint32_t round_sum, uint32_t least)
{
    struct second_reading reading = hand_read(sketch);
    check(reading.number == 0 && reading.place == 0, what, reading.number);
    check(reading.round_sum == round_sum, what, reading.round_sum);
    check(reading.modulus == sketch->modulus, what, reading.modulus);
    check(reading.least == least, what, reading.least);
    check(reading.plan.nodes == sketch->nodes &&
              reading.plan.edges == sketch->edges &&
              reading.plan.round_sum == round_sum,
          what, 0);
}

void expect_bytes_refused(const char *what, const uint8_t *bytes,
                          size_t length, uint32_t number, uint32_t place)
{
    static const struct second_plan nothing;
    struct second_reading reading = second_read(bytes, length);
    check(reading.number == number, what, reading.number);
    check(reading.place == place, what, reading.place);
    check(reading.round_sum == 0 && reading.modulus == 0 && reading.least == 0,
          what, 0);
    check(memcmp(&reading.plan, &nothing, sizeof nothing) == 0, what, 0);
}

void expect_refused(const char *what, const struct sketch *sketch,
                    uint32_t number, uint32_t place)
{
    struct picture picture;
    sketch_picture(sketch, &picture);
    expect_bytes_refused(what, picture.bytes, picture.length, number, place);
}
