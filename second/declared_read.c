#include <string.h>

#include "declared.h"

enum { FEW_NODES = 7 }; /* up to here all routes are tried one by one */

#define NONE INT64_MAX

/* An image taken apart. */
struct opened {
    const uint8_t *bytes;
    size_t length;
    struct second_plan *plan;
    int edge_tokens[SECOND_NODES][SECOND_NODES]; /* -1: no edge */
    /* tokens on the emptiest route of at least one edge, from and to */
    int64_t emptiest[SECOND_NODES][SECOND_NODES];
};

/* Two bytes, low one first. */
static uint32_t two(const struct opened *o, size_t at)
{
    return o->bytes[at] + 256u * o->bytes[at + 1];
}

/* Four bytes, low one first. */
static uint32_t four(const struct opened *o, size_t at)
{
    return two(o, at) + 65536u * two(o, at + 2);
}

/* "a count or N outside its bounds". */
static int bounds_broken(const struct opened *o)
{
    return two(o, 2) < 1 || two(o, 2) > 64 || two(o, 4) < 1 ||
           two(o, 4) > 64 || two(o, 6) < 1 || two(o, 6) > 512 ||
           two(o, 8) < 1 || two(o, 8) > 64 || four(o, 12) < 1 ||
           four(o, 12) > 2000000000u;
}

/* "an offset or the total differs ..., or the image has another length". */
static int sizes_broken(const struct opened *o)
{
    uint32_t nodes = two(o, 2), processes = two(o, 4), edges = two(o, 6);
    uint32_t total = 36 + 2 * processes + 6 * nodes + 6 * edges;
    return four(o, 16) != 36 || four(o, 20) != 36 + 2 * processes ||
           four(o, 24) != 36 + 2 * processes + 2 * nodes ||
           four(o, 28) != 36 + 2 * processes + 6 * nodes ||
           four(o, 32) != total || o->length != total;
}

/* Numbers 1 to 4. */
static int header_breaks(const struct opened *o, uint32_t number)
{
    switch (number) {
    case 1: return o->length < 36;
    case 2: return two(o, 0) != 1 || two(o, 10) != 0;
    case 3: return bounds_broken(o);
    default: return sizes_broken(o);
    }
}

/* Fills the plan value by the header's own offsets. */
static void take_plan(struct opened *o)
{
    struct second_plan *plan = o->plan;
    plan->nodes = two(o, 2);
    plan->processes = two(o, 4);
    plan->edges = two(o, 6);
    plan->counters = two(o, 8);
    plan->modulus = four(o, 12);
    for (uint32_t i = 0; i < plan->processes; i++)
        plan->length[i] = (uint16_t)two(o, four(o, 16) + 2 * i);
    for (uint32_t i = 0; i < plan->nodes; i++) {
        plan->order[i] = (uint16_t)two(o, four(o, 20) + 2 * i);
        plan->counter[i] = (uint16_t)two(o, four(o, 24) + 4 * i);
        plan->increment[i] = (uint16_t)two(o, four(o, 24) + 4 * i + 2);
    }
    for (uint32_t i = 0; i < plan->edges; i++) {
        plan->source[i] = (uint16_t)two(o, four(o, 28) + 6 * i);
        plan->target[i] = (uint16_t)two(o, four(o, 28) + 6 * i + 2);
        plan->tokens[i] = (uint16_t)two(o, four(o, 28) + 6 * i + 4);
    }
}

/* The edges as a square of tokens. */
static void square_edges(struct opened *o)
{
    for (uint32_t m = 0; m < SECOND_NODES; m++)
        for (uint32_t n = 0; n < SECOND_NODES; n++)
            o->edge_tokens[m][n] = -1;
    for (uint32_t i = 0; i < o->plan->edges; i++)
        o->edge_tokens[o->plan->source[i]][o->plan->target[i]] =
            o->plan->tokens[i];
}

static int is_sync(const struct opened *o, uint32_t edge)
{
    return declared_process(o->plan, o->plan->source[edge]) !=
           declared_process(o->plan, o->plan->target[edge]);
}

/* 9: the process edge whose source stands at this order position. */
static int process_edge_breaks(const struct opened *o, uint32_t at)
{
    const struct second_plan *plan = o->plan;
    uint32_t process = declared_process(plan, plan->order[at]), first = at;
    uint32_t next;
    while (first > 0 &&
           declared_process(plan, plan->order[first - 1]) == process)
        first--;
    next = at + 1 < plan->nodes &&
                   declared_process(plan, plan->order[at + 1]) == process
               ? at + 1
               : first;
    return o->edge_tokens[plan->order[at]][plan->order[next]] !=
           (next == first ? 1 : 0);
}

/* 10: two nodes of the counter are in two processes. */
static int counter_breaks(const struct opened *o, uint32_t counter)
{
    uint32_t m, n;
    for (m = 0; m < o->plan->nodes; m++)
        for (n = 0; n < o->plan->nodes; n++)
            if (o->plan->counter[m] == counter &&
                o->plan->counter[n] == counter &&
                declared_process(o->plan, m) != declared_process(o->plan, n))
                return 1;
    return 0;
}

/* 11: the node has a synchronising out-edge and increment 0. */
static int node_breaks(const struct opened *o, uint32_t node)
{
    for (uint32_t i = 0; i < o->plan->edges; i++)
        if (o->plan->source[i] == node && is_sync(o, i))
            return o->plan->increment[node] == 0;
    return 0;
}

static uint32_t sum_of(const struct second_plan *plan, uint32_t counter)
{
    uint32_t sum = 0;
    for (uint32_t node = 0; node < plan->nodes; node++)
        sum += plan->counter[node] == counter ? plan->increment[node] : 0;
    return sum;
}

/* 12: the counter's sum is 0 or not counter 0's. */
static int sum_breaks(const struct opened *o, uint32_t counter)
{
    uint32_t sum = sum_of(o->plan, counter);
    return sum == 0 || sum != sum_of(o->plan, 0);
}

/* Tries every simple route on from a node; the least tokens to the goal. At
   least one edge is walked, so a goal equal to the start means a cycle. */
static int64_t try_routes(const struct opened *o, uint32_t at, uint32_t goal,
                          uint64_t visited, int64_t tokens)
{
    int64_t least = NONE;
    for (uint32_t next = 0; next < o->plan->nodes; next++) {
        int64_t found = NONE;
        if (o->edge_tokens[at][next] < 0)
            continue;
        if (next == goal)
            found = tokens + o->edge_tokens[at][next];
        else if (!(visited >> next & 1))
            found = try_routes(o, next, goal, visited | (uint64_t)1 << next,
                               tokens + o->edge_tokens[at][next]);
        if (found < least)
            least = found;
    }
    return least;
}

/* The nearest node not yet settled, or the number of nodes. */
static uint32_t nearest(const struct opened *o, const int64_t *tokens,
                        uint64_t settled)
{
    uint32_t best = o->plan->nodes;
    for (uint32_t node = 0; node < o->plan->nodes; node++)
        if (!(settled >> node & 1) && tokens[node] != NONE &&
            (best == o->plan->nodes || tokens[node] < tokens[best]))
            best = node;
    return best;
}

/* Least tokens over routes of at least one edge, settled nearest first. */
static void settle_routes(const struct opened *o, uint32_t from,
                          int64_t *tokens)
{
    uint64_t settled = 0;
    uint32_t node;
    for (node = 0; node < o->plan->nodes; node++)
        tokens[node] = o->edge_tokens[from][node] < 0
                           ? NONE
                           : o->edge_tokens[from][node];
    while ((node = nearest(o, tokens, settled)) < o->plan->nodes) {
        settled |= (uint64_t)1 << node;
        for (uint32_t next = 0; next < o->plan->nodes; next++)
            if (o->edge_tokens[node][next] >= 0 &&
                tokens[node] + o->edge_tokens[node][next] < tokens[next])
                tokens[next] = tokens[node] + o->edge_tokens[node][next];
    }
}

/* The emptiest routes between all nodes; where these are few, every route is
   tried. */
static void find_emptiest(struct opened *o)
{
    for (uint32_t from = 0; from < o->plan->nodes; from++)
        if (o->plan->nodes > FEW_NODES)
            settle_routes(o, from, o->emptiest[from]);
        else
            for (uint32_t goal = 0; goal < o->plan->nodes; goal++)
                o->emptiest[from][goal] =
                    try_routes(o, from, goal, (uint64_t)1 << from, 0);
}

/* Tokens on the emptiest route from an edge's end to its source. */
static int64_t back(const struct opened *o, uint32_t edge)
{
    return o->emptiest[o->plan->target[edge]][o->plan->source[edge]];
}

/* 16: N does not exceed Q times the emptiest loop through the edge. */
static int bound_breaks(const struct opened *o, uint32_t edge, int64_t modulus)
{
    return is_sync(o, edge) &&
           !(modulus > (int64_t)sum_of(o->plan, 0) *
                           (o->plan->tokens[edge] + back(o, edge)));
}

/* Numbers 9 to 16 at a place. */
static int condition_breaks(struct opened *o, uint32_t number, uint32_t place)
{
    switch (number) {
    case 9: return process_edge_breaks(o, place);
    case 10: return counter_breaks(o, place);
    case 11: return node_breaks(o, place);
    case 12: return sum_breaks(o, place);
    case 13: return o->emptiest[place][place] == 0;
    case 14: return is_sync(o, place) && back(o, place) == NONE;
    case 15: return o->plan->modulus % sum_of(o->plan, 0) != 0;
    default: return bound_breaks(o, place, o->plan->modulus);
    }
}

/* How many places a number's line can name. */
static uint32_t places_of(const struct second_plan *plan, uint32_t number)
{
    switch (number) {
    case 5: return plan->processes + 1;
    case 6: case 7: case 9: case 11: case 13: return plan->nodes;
    case 8: case 14: case 16: return plan->edges;
    case 10: case 12: return plan->counters;
    default: return 1;
    }
}

/* Whether a line of the table applies at a place. */
static int breaks(struct opened *o, uint32_t number, uint32_t place)
{
    if (number <= 4)
        return header_breaks(o, number);
    if (number <= 8)
        return declared_table_breaks(o->plan, number, place);
    return condition_breaks(o, number, place);
}

/* What has to be known before a number is tested. */
static void prepare(struct opened *o, uint32_t number)
{
    if (number == 5)
        take_plan(o);
    if (number == 9)
        square_edges(o);
    if (number == 13)
        find_emptiest(o);
}

/* Whether a modulus would pass 15 and 16. */
static int would_pass(const struct opened *o, int64_t modulus)
{
    if (modulus % sum_of(o->plan, 0) != 0)
        return 0;
    for (uint32_t i = 0; i < o->plan->edges; i++)
        if (bound_breaks(o, i, modulus))
            return 0;
    return 1;
}

/* "the smallest N that would pass 15 and 16": tried from below, from 1 where
   that is near, else from the last multiple that still fails. */
static uint32_t smallest_modulus(const struct opened *o)
{
    int64_t modulus = 1, fullest = -1;
    for (uint32_t i = 0; i < o->plan->edges; i++)
        if (is_sync(o, i) && o->plan->tokens[i] + back(o, i) > fullest)
            fullest = o->plan->tokens[i] + back(o, i);
    if (sum_of(o->plan, 0) * fullest > 300)
        modulus = sum_of(o->plan, 0) * fullest;
    while (!would_pass(o, modulus))
        modulus++;
    return (uint32_t)modulus;
}

/* "The lowest number that applies is given; within it the lowest place." */
struct declared_answer declared_read(const uint8_t *bytes, size_t length,
                                     struct second_plan *plan)
{
    static struct opened o;
    struct declared_answer answer = {0, 0, 0, 0, 0};
    o.bytes = bytes;
    o.length = length;
    o.plan = plan;
    memset(plan, 0, sizeof *plan);
    for (uint32_t number = 1; number <= 16; number++) {
        prepare(&o, number);
        for (uint32_t place = 0; place < places_of(plan, number); place++)
            if (breaks(&o, number, place)) {
                answer.number = number;
                answer.place = place;
                memset(plan, 0, sizeof *plan);
                return answer;
            }
    }
    plan->round_sum = sum_of(plan, 0);
    answer.round_sum = plan->round_sum;
    answer.modulus = plan->modulus;
    answer.least = smallest_modulus(&o);
    return answer;
}
