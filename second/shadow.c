#include "shadow.h"

#include <string.h>

void shadow_begin(const struct sketch *sketch, struct shadow *shadow)
{
    memset(shadow, 0, sizeof *shadow);
    shadow->sketch = sketch;
    sketch_processes(sketch, shadow->process_of, shadow->first);
    for (uint32_t i = 0; i < sketch->edges; i++)
        shadow->tokens[i] = sketch->edge[i].tokens;
}

int shadow_may_fire(const struct shadow *shadow, uint32_t node)
{
    for (uint32_t i = 0; i < shadow->sketch->edges; i++)
        if (shadow->sketch->edge[i].target == node && shadow->tokens[i] == 0)
            return 0;
    return 1;
}

uint32_t shadow_next(const struct shadow *shadow, uint32_t process)
{
    return shadow->sketch
        ->order[shadow->first[process] + shadow->position[process]];
}

uint32_t shadow_left(const struct shadow *shadow, uint32_t process)
{
    uint32_t left = 0;
    for (uint32_t i = 0; i < shadow->sketch->edges; i++)
        left += shadow->to_see[process][i] != 0;
    return left;
}

/* "takes one from each in-edge and adds one to each out-edge." */
static void move_tokens(struct shadow *shadow, uint32_t node)
{
    for (uint32_t i = 0; i < shadow->sketch->edges; i++) {
        if (shadow->sketch->edge[i].target == node)
            shadow->tokens[i]--;
        if (shadow->sketch->edge[i].source == node)
            shadow->tokens[i]++;
    }
    shadow->fired[node]++;
}

/* An open: everything that comes in from other processes is to be seen. */
static struct second_answer open_answer(struct shadow *shadow, uint32_t process)
{
    const struct sketch *sketch = shadow->sketch;
    struct second_answer answer = {SECOND_OPENED, 0};
    uint32_t node = shadow_next(shadow, process);
    shadow->open[process] = 1;
    for (uint32_t i = 0; i < sketch->edges; i++) {
        shadow->to_see[process][i] =
            sketch->edge[i].target == node &&
            shadow->process_of[sketch->edge[i].source] != process;
        answer.value += (uint32_t)shadow->to_see[process][i];
    }
    return answer;
}

/* A look: found exactly when there is a token. */
static struct second_answer look_answer(struct shadow *shadow,
                                        uint32_t process, uint32_t edge)
{
    struct second_answer answer = {SECOND_WAIT, 0};
    if (shadow->tokens[edge] > 0) {
        answer.kind = SECOND_FOUND;
        shadow->to_see[process][edge] = 0;
    }
    answer.value = shadow_left(shadow, process);
    return answer;
}

/* A fire: the tokens move, the process goes on. */
static struct second_answer fire_answer(struct shadow *shadow, uint32_t process)
{
    struct second_answer answer = {SECOND_FIRED, shadow_next(shadow, process)};
    move_tokens(shadow, answer.value);
    shadow->open[process] = 0;
    shadow->position[process] =
        (shadow->position[process] + 1) % shadow->sketch->length[process];
    return answer;
}

struct second_answer shadow_call(struct shadow *shadow, uint32_t code,
                                 uint32_t process, uint32_t edge)
{
    struct second_answer refused = {SECOND_REFUSED, 0};
    int known = process < shadow->sketch->processes;
    int open = known && shadow->open[process];
    int seen = edge >= shadow->sketch->edges || !known ||
               !shadow->to_see[process][edge];
    if (code > 2)
        refused.value = 26;
    else if (!known)
        refused.value = 20;
    else if (code == 0 && open)
        refused.value = 21;
    else if (code != 0 && !open)
        refused.value = 22;
    else if (code == 1 && seen)
        refused.value = 23;
    else if (code == 2 && shadow_left(shadow, process) > 0)
        refused.value = 24;
    if (refused.value != 0)
        return refused;
    if (code == 0)
        return open_answer(shadow, process);
    if (code == 1)
        return look_answer(shadow, process, edge);
    return fire_answer(shadow, process);
}
