#include "script.h"

/* Some edge the process has still to see. */
static uint32_t edge_to_see(struct random *random, const struct shadow *shadow,
                            uint32_t process, uint32_t left)
{
    uint32_t skipped = random_below(random, left);
    for (uint32_t i = 0; i < shadow->sketch->edges; i++)
        if (shadow->to_see[process][i] && skipped-- == 0)
            return i;
    return 0;
}

struct call draw_useful_call(struct random *random,
                             const struct shadow *shadow)
{
    struct call call = {0, 0, 0};
    uint32_t left;
    call.process = random_below(random, shadow->sketch->processes);
    call.edge = random_one_in(random, 2) ? 0 : random_below(random, 65536);
    if (!shadow->open[call.process])
        return call;
    left = shadow_left(shadow, call.process);
    call.code = left > 0 ? 1 : 2;
    if (left > 0)
        call.edge = edge_to_see(random, shadow, call.process, left);
    return call;
}

struct call draw_any_call(struct random *random, const struct sketch *sketch)
{
    static const uint32_t edges[] = {511, 512, 513, 65535};
    static const uint32_t processes[] = {63, 64, 65, 255};
    struct call call;
    call.code = random_one_in(random, 8) ? 3 : random_below(random, 3);
    if (random_one_in(random, 24))
        call.code = random_between(random, 3, 255);
    call.process = random_below(random, sketch->processes + 1);
    if (random_one_in(random, 12))
        call.process = processes[random_below(random, 4)];
    call.edge = random_below(random, sketch->edges + 1);
    if (random_one_in(random, 12))
        call.edge = edges[random_below(random, 4)];
    return call;
}
