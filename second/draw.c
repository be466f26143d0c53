#include "draw.h"

#include <string.h>

/* A plan while it is drawn. */
struct drawing {
    struct random *random;
    const struct wish *wish;
    struct sketch *sketch;
    uint32_t process_of[SKETCH_NODES];
    uint32_t first[SKETCH_NODES];
    uint32_t time[SKETCH_NODES]; /* token-free edges go up in time */
    uint32_t part_of[SKETCH_NODES];
    uint32_t parts;
    uint32_t token_style;
};

/* How many nodes: often few, sometimes many, sometimes all 64. */
static uint32_t draw_node_count(struct drawing *d)
{
    uint32_t most = d->wish->most_nodes ? d->wish->most_nodes : 64;
    uint32_t style = random_below(d->random, 10);
    if (d->wish->nodes)
        return d->wish->nodes;
    if (style == 0)
        return most;
    if (style < 6 && most > 8)
        return random_between(d->random, 1, 8);
    return random_between(d->random, 1, most);
}

/* How many processes: one, one a node, a few, or any number. */
static uint32_t draw_process_count(struct drawing *d, uint32_t nodes)
{
    uint32_t style = random_below(d->random, 8);
    if (d->wish->processes)
        return d->wish->processes < nodes ? d->wish->processes : nodes;
    if (style == 0)
        return 1;
    if (style == 1)
        return nodes;
    if (style < 5)
        return random_between(d->random, 1, nodes < 5 ? nodes : 5);
    return random_between(d->random, 1, nodes);
}

/* Lengths of at least 1 that add up, and a mixed firing order. */
static void draw_order(struct drawing *d)
{
    struct sketch *s = d->sketch;
    for (uint32_t p = 0; p < s->processes; p++)
        s->length[p] = 1;
    for (uint32_t rest = s->nodes - s->processes; rest > 0; rest--)
        s->length[random_below(d->random, s->processes)]++;
    for (uint32_t i = 0; i < s->nodes; i++)
        s->order[i] = i;
    for (uint32_t i = s->nodes; i > 1; i--) {
        uint32_t j = random_below(d->random, i);
        uint32_t kept = s->order[i - 1];
        if (random_one_in(d->random, 6))
            continue;
        s->order[i - 1] = s->order[j];
        s->order[j] = kept;
    }
    sketch_processes(s, d->process_of, d->first);
}

/* A mixed time for the nodes that keeps each process's order. */
static void draw_times(struct drawing *d)
{
    uint32_t done[SKETCH_NODES] = {0};
    const struct sketch *s = d->sketch;
    for (uint32_t time = 0; time < s->nodes; time++) {
        uint32_t p = random_below(d->random, s->processes);
        while (done[p] == s->length[p])
            p = (p + 1) % s->processes;
        d->time[s->order[d->first[p] + done[p]++]] = time;
    }
}

/* The edges that make each process a cycle. */
static void add_process_edges(struct drawing *d)
{
    struct sketch *s = d->sketch;
    for (uint32_t p = 0; p < s->processes; p++)
        for (uint32_t step = 0; step < s->length[p]; step++) {
            uint32_t last = step + 1 == s->length[p];
            uint32_t next = d->first[p] + (last ? 0 : step + 1);
            sketch_add_edge(s, s->order[d->first[p] + step], s->order[next],
                            last);
        }
}

/* Tokens that fit the wish; at least the given number. */
static uint32_t draw_tokens(struct drawing *d, uint32_t least)
{
    uint32_t most = d->wish->most_tokens ? d->wish->most_tokens : 1000;
    uint32_t style = d->token_style;
    if (style == 3)
        style = random_below(d->random, 3);
    if (style == 0)
        return least;
    if (style == 1)
        return random_between(d->random, least, most < 4 ? most : 4);
    if (random_one_in(d->random, 4))
        return most;
    return random_between(d->random, least, most);
}

/* An edge whose tokens keep every cycle marked. */
static void add_drawn_edge(struct drawing *d, uint32_t source, uint32_t target)
{
    uint32_t least = d->time[source] >= d->time[target];
    if (d->sketch->edges < 512)
        sketch_add_edge(d->sketch, source, target, draw_tokens(d, least));
}

/* Some node of a process. */
static uint32_t some_node(struct drawing *d, uint32_t process)
{
    uint32_t step = random_below(d->random, d->sketch->length[process]);
    return d->sketch->order[d->first[process] + step];
}

/* An edge between two processes. */
static void connect(struct drawing *d, uint32_t from, uint32_t to)
{
    add_drawn_edge(d, some_node(d, from), some_node(d, to));
}

/* The processes spread over parts; some parts stay single. */
static void draw_parts(struct drawing *d)
{
    uint32_t processes = d->sketch->processes;
    d->parts = 1;
    if (d->wish->parts)
        d->parts = d->wish->parts;
    else if (random_one_in(d->random, 4))
        d->parts = random_between(d->random, 1, processes);
    if (d->parts > processes)
        d->parts = processes;
    for (uint32_t p = 0; p < processes; p++)
        d->part_of[p] = p < d->parts ? p : random_below(d->random, d->parts);
}

/* Connects a part's processes so that each reaches each: a ring, a star, or a
   line with edges both ways. */
static void connect_part(struct drawing *d, const uint32_t *member,
                         uint32_t members)
{
    uint32_t shape = random_below(d->random, 3);
    for (uint32_t i = 1; i < members; i++) {
        uint32_t before = shape == 1 ? 0 : i - 1;
        connect(d, member[before], member[i]);
        if (shape != 0)
            connect(d, member[i], member[before]);
    }
    if (shape == 0 && members > 1)
        connect(d, member[members - 1], member[0]);
}

/* Further edges inside a part, synchronising ones and chords. */
static void add_more_edges(struct drawing *d, uint32_t more)
{
    uint32_t nodes = d->sketch->nodes;
    for (uint32_t i = 0; i < more && d->sketch->edges < 512; i++) {
        uint32_t source = random_below(d->random, nodes);
        uint32_t target = random_below(d->random, nodes);
        if (d->part_of[d->process_of[source]] ==
            d->part_of[d->process_of[target]])
            add_drawn_edge(d, source, target);
    }
}

/* All edges of the plan. */
static void draw_edges(struct drawing *d)
{
    uint32_t member[SKETCH_NODES];
    uint32_t nodes = d->sketch->nodes;
    uint32_t style = random_below(d->random, 4);
    add_process_edges(d);
    draw_parts(d);
    for (uint32_t part = 0; part < d->parts; part++) {
        uint32_t members = 0;
        for (uint32_t p = 0; p < d->sketch->processes; p++)
            if (d->part_of[p] == part)
                member[members++] = p;
        connect_part(d, member, members);
    }
    if (style == 1)
        add_more_edges(d, random_below(d->random, nodes + 1));
    if (style == 2)
        add_more_edges(d, random_below(d->random, 4 * nodes + 1));
    if (style == 3 && random_one_in(d->random, 4))
        add_more_edges(d, 600);
    for (uint32_t tries = 0; tries < 40 && d->sketch->edges < d->wish->edges;
         tries++)
        add_more_edges(d, d->wish->edges - d->sketch->edges);
}

/* Counters: each belongs to one process, each has a node. */
static void draw_counters(struct drawing *d)
{
    struct sketch *s = d->sketch;
    uint32_t style = random_below(d->random, 3);
    if (d->wish->counters)
        style = d->wish->counters;
    s->counters = 0;
    for (uint32_t p = 0; p < s->processes; p++) {
        uint32_t groups = random_between(d->random, 1, s->length[p]);
        if (style == COUNTERS_ONE_A_NODE)
            groups = s->length[p];
        if (style == COUNTERS_ONE_A_PROCESS)
            groups = 1;
        for (uint32_t step = 0; step < s->length[p]; step++)
            s->counter[s->order[d->first[p] + step]] =
                s->counters +
                (step < groups ? step : random_below(d->random, groups));
        s->counters += groups;
    }
}

/* Gives the counters other numbers. */
static void mix_counters(struct drawing *d)
{
    uint32_t name[SKETCH_NODES];
    struct sketch *s = d->sketch;
    for (uint32_t c = 0; c < s->counters; c++)
        name[c] = c;
    for (uint32_t c = s->counters; c > 1; c--) {
        uint32_t other = random_below(d->random, c);
        uint32_t kept = name[c - 1];
        name[c - 1] = name[other];
        name[other] = kept;
    }
    for (uint32_t node = 0; node < s->nodes; node++)
        s->counter[node] = name[s->counter[node]];
}

/* Increment 1 for the nodes that signal, else 0. */
static void set_needed_increments(struct drawing *d)
{
    struct sketch *s = d->sketch;
    memset(s->increment, 0, sizeof s->increment);
    for (uint32_t i = 0; i < s->edges; i++)
        if (sketch_synchronising(s, d->process_of, i))
            s->increment[s->edge[i].source] = 1;
}

/* The range of sums every counter can have. */
static void sum_range(const struct sketch *s, uint32_t *low, uint32_t *high)
{
    *low = 1;
    *high = 64 * 255;
    for (uint32_t c = 0; c < s->counters; c++) {
        uint32_t members = 0;
        for (uint32_t node = 0; node < s->nodes; node++)
            members += s->counter[node] == c;
        if (sketch_sum(s, c) > *low)
            *low = sketch_sum(s, c);
        if (255 * members < *high)
            *high = 255 * members;
    }
}

/* Q: the least that fits, the most, 255, or any. */
static uint32_t draw_sum(struct drawing *d)
{
    uint32_t low, high, style = random_below(d->random, 6);
    sum_range(d->sketch, &low, &high);
    if (d->wish->sum)
        return d->wish->sum < low ? low
                                  : d->wish->sum > high ? high : d->wish->sum;
    if (style < 2)
        return low;
    if (style == 2)
        return high;
    if (style == 3)
        return random_between(d->random, low, low + 7 < high ? low + 7 : high);
    return random_between(d->random, low, high);
}

/* Raises a counter's increments until they sum to Q. */
static void raise_to_sum(struct drawing *d, uint32_t counter, uint32_t sum)
{
    struct sketch *s = d->sketch;
    uint32_t rest = sum - sketch_sum(s, counter);
    uint32_t node = random_below(d->random, s->nodes);
    while (rest > 0) {
        uint32_t room = 255 - s->increment[node];
        if (s->counter[node] == counter && room > 0) {
            uint32_t most = room < rest ? room : rest;
            uint32_t added = random_one_in(d->random, 2)
                                 ? most
                                 : random_between(d->random, 0, most);
            s->increment[node] += added;
            rest -= added;
        }
        node = (node + 1) % s->nodes;
    }
}

/* Increments by C2 and C3. */
static void draw_increments(struct drawing *d)
{
    uint32_t sum;
    set_needed_increments(d);
    sum = draw_sum(d);
    for (uint32_t c = 0; c < d->sketch->counters; c++)
        raise_to_sum(d, c, sum);
}

void drawn_loops(const struct sketch *sketch, int64_t *loop)
{
    int64_t tokens[SKETCH_NODES];
    for (uint32_t target = 0; target < sketch->nodes; target++) {
        int known = 0;
        for (uint32_t i = 0; i < sketch->edges; i++) {
            const struct sketch_edge *edge = &sketch->edge[i];
            if (edge->target != target)
                continue;
            if (!known)
                sketch_routes_from(sketch, target, tokens);
            known = 1;
            loop[i] = tokens[edge->source];
            if (loop[i] != SKETCH_NO_ROUTE)
                loop[i] += edge->tokens;
        }
    }
}

uint32_t drawn_least(const struct sketch *sketch)
{
    uint32_t process_of[SKETCH_NODES], first[SKETCH_NODES];
    int64_t loop[SKETCH_EDGES];
    int64_t fullest = 0;
    if (sketch->processes == 1)
        return sketch_sum(sketch, 0);
    sketch_processes(sketch, process_of, first);
    drawn_loops(sketch, loop);
    for (uint32_t i = 0; i < sketch->edges; i++)
        if (sketch_synchronising(sketch, process_of, i) &&
            loop[i] != SKETCH_NO_ROUTE && loop[i] > fullest)
            fullest = loop[i];
    return sketch_sum(sketch, 0) * (uint32_t)(fullest + 1);
}

void draw_modulus(struct random *random, enum modulus_style style,
                  struct sketch *sketch)
{
    uint32_t least = drawn_least(sketch);
    uint32_t sum = sketch_sum(sketch, 0);
    uint32_t steps = (2000000000 - least) / sum;
    int few = random_one_in(random, 2);
    if (style == MODULUS_ANY)
        style = (enum modulus_style)random_between(random, MODULUS_LEAST,
                                                   MODULUS_TOP);
    sketch->modulus = least;
    if (style == MODULUS_TOP)
        sketch->modulus += steps * sum;
    else if (style == MODULUS_MORE)
        sketch->modulus += sum * random_below(random, few ? 3 : steps + 1);
}

void draw_plan(struct random *random, const struct wish *wish,
               struct sketch *sketch)
{
    struct drawing d;
    memset(&d, 0, sizeof d);
    memset(sketch, 0, sizeof *sketch);
    d.random = random;
    d.wish = wish;
    d.sketch = sketch;
    d.token_style = random_below(random, 4);
    sketch->nodes = draw_node_count(&d);
    sketch->processes = draw_process_count(&d, sketch->nodes);
    draw_order(&d);
    draw_times(&d);
    draw_edges(&d);
    draw_counters(&d);
    mix_counters(&d);
    draw_increments(&d);
    draw_modulus(random, wish->modulus, sketch);
}
