/* Runs of accepted plans beside Lamport's marked graph: demand 2 (looks
   against tokens, fires) and demand 3 (leads, reached limits, progress). */
#include <stdio.h>
#include <string.h>

#include "check.h"
#include "draw.h"
#include "script.h"
#include "second.h"

enum { LONGEST_CLIMB = 60 }; /* limits up to here are climbed to */

static unsigned long plans, calls, looks_found, looks_waited, fires, refusals;
static unsigned long turned_down[28];
static unsigned long leads, limits_reached, limits_of_more, progress_points;
static unsigned long readings;
static unsigned long wraps; /* counters that came round past N */
static unsigned long chord_plans, part_plans, shared_plans;

/* A run and its marked graph. */
struct run {
    struct sketch sketch;
    struct second_plan plan;
    struct second_state state;
    struct shadow shadow;
    int64_t route[SKETCH_NODES][SKETCH_NODES];
};

/* Reads a drawn plan; the reader has to accept it. */
static int take_plan(struct run *run)
{
    struct picture picture;
    struct second_reading reading;
    sketch_picture(&run->sketch, &picture);
    reading = second_read(picture.bytes, picture.length);
    check(reading.number == 0, "drawn plan accepted", plans);
    run->plan = reading.plan;
    return reading.number == 0;
}

/* A fresh start on both sides. */
static void begin_run(struct run *run)
{
    check(second_begin(&run->plan, &run->state) == 0, "begin", plans);
    shadow_begin(&run->sketch, &run->shadow);
}

/* Whether the counters fell, which only the modulus can bring about. */
static int came_round(const struct second_state *before,
                      const struct second_state *after)
{
    for (uint32_t c = 0; c < SECOND_COUNTERS; c++)
        if (after->counter[c] < before->counter[c])
            return 1;
    return 0;
}

/* Counts an answer by its kind. */
static void count(struct second_answer answer)
{
    calls++;
    looks_found += answer.kind == SECOND_FOUND;
    looks_waited += answer.kind == SECOND_WAIT;
    fires += answer.kind == SECOND_FIRED;
    refusals += answer.kind == SECOND_REFUSED;
    if (answer.kind == SECOND_REFUSED)
        turned_down[answer.value]++;
}

/* One call on both sides; a fire also has to be one of the marked graph. */
static struct second_answer call_both(struct run *run, struct call call)
{
    static struct second_state before;
    struct second_answer got, expected;
    int known = call.process < run->sketch.processes;
    int may = known && shadow_may_fire(&run->shadow,
                                       shadow_next(&run->shadow, call.process));
    before = run->state;
    got = second_step(&run->plan, &run->state, call.code, call.process,
                      call.edge);
    expected =
        shadow_call(&run->shadow, call.code, call.process, call.edge);
    check(got.kind == expected.kind && got.value == expected.value,
          "answer against the marked graph", calls);
    if (got.kind == SECOND_FIRED)
        check(may, "fired where the marked graph may", calls);
    if (got.kind == SECOND_REFUSED)
        check(memcmp(&before, &run->state, sizeof before) == 0,
              "state after a refused call", calls);
    else
        check(run->state.turn == before.turn + 1, "turn", calls);
    wraps += came_round(&before, &run->state);
    count(got);
    return got;
}

/* "n has fired at most as often as m plus the starting tokens on the emptiest
   such route", for all pairs. */
static void check_leads(const struct run *run)
{
    for (uint32_t m = 0; m < run->sketch.nodes; m++)
        for (uint32_t n = 0; n < run->sketch.nodes; n++) {
            if (run->route[m][n] == SKETCH_NO_ROUTE)
                continue;
            check(run->shadow.fired[n] <=
                      run->shadow.fired[m] + (uint64_t)run->route[m][n],
                  "lead", calls);
            leads++;
        }
}

/* An edge whose end is next: its reading is its tokens, as far as a number
   modulo N / Q can tell. */
static void check_readings(const struct run *run)
{
    uint32_t wrap = run->plan.modulus / run->plan.round_sum;
    for (uint32_t e = 0; e < run->sketch.edges; e++) {
        uint32_t end = run->sketch.edge[e].target;
        struct second_answer answer;
        if (!sketch_synchronising(&run->sketch, run->shadow.process_of, e) ||
            shadow_next(&run->shadow, run->shadow.process_of[end]) != end)
            continue;
        answer = second_token_reading(&run->plan, &run->state, e);
        check(answer.kind == SECOND_TOKENS_READ &&
                  answer.value % wrap == run->shadow.tokens[e],
              "token reading against the marked graph", calls);
        readings++;
    }
}

/* Whether a process, called alone, fires: at most one open, one look at each
   edge it has yet to see, one fire. */
static int fires_alone(const struct run *run, uint32_t process)
{
    static struct second_state state;
    state = run->state;
    if (!state.open[process])
        second_step(&run->plan, &state, SECOND_OPEN, process, 0);
    for (uint32_t e = 0; e < run->plan.edges; e++)
        if (state.mark[process][e])
            second_step(&run->plan, &state, SECOND_LOOK, process, e);
    return second_step(&run->plan, &state, SECOND_FIRE, process, 0).kind ==
           SECOND_FIRED;
}

/* "At every point some process, called alone, fires". */
static void check_progress(const struct run *run)
{
    int fires_now = 0;
    for (uint32_t p = 0; p < run->plan.processes && !fires_now; p++)
        fires_now = fires_alone(run, p);
    check(fires_now, "some process fires alone", calls);
    progress_points++;
}

/* A random list of calls, refused ones among them. */
static void run_calls(struct random *random, struct run *run, uint32_t length)
{
    uint32_t useful = random_one_in(random, 2) ? 3 : 12;
    begin_run(run);
    for (uint32_t i = 0; i < length; i++) {
        struct call call = random_one_in(random, useful)
                               ? draw_any_call(random, &run->sketch)
                               : draw_useful_call(random, &run->shadow);
        call_both(run, call);
        if (i % 16 == 0)
            check_progress(run);
        if (i % 32 == 31) {
            check_leads(run);
            check_readings(run);
        }
    }
    check_leads(run);
}

/* Fires a process's next node where it can; looks only where it has to. */
static int fire_once(struct run *run, uint32_t process)
{
    struct call open = {SECOND_OPEN, process, 0};
    struct call fire = {SECOND_FIRE, process, 0};
    if (!run->shadow.open[process])
        call_both(run, open);
    for (uint32_t e = 0; e < run->sketch.edges; e++)
        if (run->shadow.to_see[process][e]) {
            struct call look = {SECOND_LOOK, process, e};
            if (call_both(run, look).kind == SECOND_WAIT)
                return 0;
        }
    return call_both(run, fire).kind == SECOND_FIRED;
}

/* Fires each node as often as n needs it to reach the limit, m never; whether
   n got there. Node x is needed limit less its own route's tokens. */
static int climb(struct run *run, uint32_t n, int64_t limit)
{
    int fired = 1;
    begin_run(run);
    while (fired) {
        fired = 0;
        for (uint32_t p = 0; p < run->sketch.processes; p++) {
            uint32_t x = shadow_next(&run->shadow, p);
            if (run->route[x][n] == SKETCH_NO_ROUTE ||
                (int64_t)run->shadow.fired[x] >= limit - run->route[x][n])
                continue;
            fired |= fire_once(run, p);
        }
    }
    return (int64_t)run->shadow.fired[n] == limit;
}

/* "and some sequence reaches that limit", for a pair with m not fired. */
static void check_limit(struct random *random, struct run *run)
{
    uint32_t m = random_below(random, run->sketch.nodes);
    uint32_t n = random_below(random, run->sketch.nodes);
    int64_t limit = run->route[m][n];
    if (limit == SKETCH_NO_ROUTE || limit > LONGEST_CLIMB)
        return;
    check(climb(run, n, limit), "limit reached", calls);
    check(run->shadow.fired[m] == 0, "the one behind stays", calls);
    limits_reached++;
    limits_of_more += limit > 1;
}

/* Notes which features a plan has. */
static void note_features(const struct run *run)
{
    const uint32_t *process_of = run->shadow.process_of;
    uint32_t inside = 0, apart = 0;
    for (uint32_t e = 0; e < run->sketch.edges; e++)
        inside += !sketch_synchronising(&run->sketch, process_of, e);
    for (uint32_t node = 0; node < run->sketch.nodes; node++)
        apart += run->route[0][node] == SKETCH_NO_ROUTE;
    chord_plans += inside > run->sketch.nodes;
    part_plans += apart > 0;
    shared_plans += run->sketch.counters < run->sketch.nodes;
    plans++;
}

/* One plan: small ones run long, so that their counters come round. */
static void try_plan(struct random *random, unsigned long round)
{
    static struct run run;
    struct wish wish = {0};
    int small = round % 3 != 0;
    wish.most_nodes = small ? 6 : 64;
    wish.most_tokens = random_one_in(random, 3) ? 40 : 2;
    wish.modulus = random_one_in(random, 4) ? MODULUS_ANY : MODULUS_LEAST;
    draw_plan(random, &wish, &run.sketch);
    if (!take_plan(&run))
        return;
    for (uint32_t m = 0; m < run.sketch.nodes; m++)
        sketch_routes_from(&run.sketch, m, run.route[m]);
    run_calls(random, &run, small ? 250 : 120);
    for (uint32_t i = 0; i < 3; i++)
        check_limit(random, &run);
    note_features(&run);
}

/* Prints the counts and holds them against their floors. */
static void show_counts(unsigned long rounds)
{
    printf("plans %lu: with chords %lu, several parts %lu, shared counters "
           "%lu\n",
           plans, chord_plans, part_plans, shared_plans);
    printf("calls %lu: found %lu, wait %lu, fired %lu, refused %lu; counters "
           "came round %lu times\n",
           calls, looks_found, looks_waited, fires, refusals, wraps);
    printf("leads %lu, limits reached %lu (above one %lu), points of progress "
           "%lu, token readings %lu\n",
           leads, limits_reached, limits_of_more, progress_points, readings);
    check_floor("plans", plans, rounds);
    check_floor("plans with chords", chord_plans, rounds / 8);
    check_floor("plans of several parts", part_plans, rounds / 20);
    check_floor("plans with shared counters", shared_plans, rounds / 4);
    check_floor("found", looks_found, 4 * rounds);
    check_floor("wait", looks_waited, 4 * rounds);
    check_floor("fired", fires, 20 * rounds);
    check_floor("counters come round", wraps, 4 * rounds);
    check_floor("leads", leads, 100 * rounds);
    check_floor("limits reached", limits_reached, rounds);
    check_floor("limits above one", limits_of_more, rounds / 8);
    check_floor("points of progress", progress_points, 5 * rounds);
    check_floor("token readings", readings, 4 * rounds);
    for (uint32_t number = 20; number <= 24; number++) {
        printf("number %u: met %lu\n", (unsigned)number, turned_down[number]);
        check_floor("number met", turned_down[number], rounds / 2);
    }
    printf("number 26: met %lu\n", turned_down[26]);
    check_floor("26 met", turned_down[26], rounds / 2);
}

int main(int arguments, char **argument)
{
    unsigned long seed = 1, rounds = 600;
    struct random random;
    check_arguments(arguments, argument, &seed, &rounds);
    random.state = seed;
    for (unsigned long round = 0; round < rounds; round++)
        try_plan(&random, round);
    show_counts(rounds);
    return check_end("test_graph");
}
