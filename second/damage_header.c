/* Images damaged in the header or in length: numbers 1 to 4. */
#include <string.h>

#include "attempt.h"

/* 1: fewer than 36 bytes; just 36 bytes get as far as 4. */
int damage_1(struct attempt *a)
{
    attempt_start(a);
    a->out->after = a->out->before;
    a->out->before.length = 36;
    a->out->before_aim.number = 4;
    a->out->after.length = a->way == 0 ? 35 : attempt_below(a, 35);
    return attempt_aim(a, 1, 0);
}

/* 2: format not 1 in either byte, byte 10 or byte 11 not zero. */
int damage_2(struct attempt *a)
{
    static const uint32_t at[] = {0, 1, 10, 11};
    uint8_t *byte;
    attempt_start(a);
    a->out->after = a->out->before;
    byte = &a->out->after.bytes[at[a->way]];
    *byte = (uint8_t)(*byte + 1);
    if (random_one_in(a->random, 2))
        *byte = (uint8_t)(*byte + attempt_below(a, 255));
    return attempt_aim(a, 2, 0);
}

/* The plan that stands at the low or the high bound of a header field. */
static struct wish bound_wish(uint32_t field, int high)
{
    struct wish wish = {0};
    if (high) {
        wish.nodes = 64;
        wish.processes = field == 1 ? 64 : 0;
        wish.edges = field == 2 ? 512 : 0;
        wish.counters = field == 3 ? COUNTERS_ONE_A_NODE : COUNTERS_ANY;
        wish.modulus = field == 4 ? MODULUS_TOP : MODULUS_ANY;
    } else {
        wish.nodes = field == 0 || field == 2 ? 1 : 0;
        wish.processes = 1;
        wish.counters = COUNTERS_ONE_A_PROCESS;
        wish.modulus = MODULUS_LEAST;
    }
    wish.sum = field == 4 ? 1 : 0;
    return wish;
}

/* A header field of the sketch. */
static uint32_t *count_of(struct sketch *sketch, uint32_t field)
{
    uint32_t *counts[] = {&sketch->nodes, &sketch->processes, &sketch->edges,
                          &sketch->counters, &sketch->modulus};
    return counts[field];
}

/* 3: each count and N one below its least or above its most. */
int damage_3(struct attempt *a)
{
    static const uint32_t at[] = {2, 4, 6, 8, 12};
    static const uint32_t top[] = {64, 64, 512, 64, 2000000000};
    uint32_t field = a->way / 2, high = a->way % 2;
    uint32_t *count = count_of(&a->sketch, field);
    uint32_t beyond = 0, widest = field == 4 ? UINT32_MAX : 65535;
    attempt_draw(a, bound_wish(field, (int)high));
    attempt_keep(a);
    if (*count != (high ? top[field] : 1))
        return 0;
    if (high && random_one_in(a->random, 2)) {
        *count += 1;
        return attempt_finish(a, 3, 0);
    }
    if (high)
        beyond = random_one_in(a->random, 2)
                     ? top[field] + 1
                     : random_between(a->random, top[field] + 1, widest);
    a->out->after = a->out->before;
    put_little(a->out->after.bytes + at[field], beyond, field == 4 ? 4 : 2);
    return attempt_aim(a, 3, 0);
}

/* A number other than the given one: beside it, far off, or in a high byte. */
static uint32_t other_number(struct attempt *a, uint32_t number)
{
    switch (attempt_below(a, 5)) {
    case 0: return number + 1;
    case 1: return number - 1;
    case 2: return number + 65536;
    case 3: return 0;
    default: return number ^ ((uint32_t)1 << attempt_below(a, 32));
    }
}

/* 4, by a count that is in bounds but not the tables': counts at 2, 4, 6. */
static int damage_4_count(struct attempt *a)
{
    static const uint32_t top[] = {64, 64, 512};
    uint32_t field = attempt_below(a, 3);
    uint32_t old = *count_of(&a->sketch, field);
    uint32_t changed = random_between(a->random, 1, top[field]);
    if (random_one_in(a->random, 2))
        changed = old < top[field] ? old + 1 : old - 1;
    put_little(a->out->after.bytes + 2 + 2 * field, changed, 2);
    return changed != old && attempt_aim(a, 4, 0);
}

/* 4: an offset, the total, the image's length, or a count differs. */
int damage_4(struct attempt *a)
{
    struct picture *after = &a->out->after;
    attempt_start(a);
    *after = a->out->before;
    if (a->way < 5) {
        uint8_t *field = after->bytes + 16 + 4 * a->way;
        uint32_t old = field[0] | (uint32_t)field[1] << 8;
        put_little(field, other_number(a, old), 4);
    } else if (a->way == 5) {
        uint32_t more = 1;
        if (random_one_in(a->random, 2))
            more += attempt_below(a, 40);
        memset(after->bytes + after->length, (int)attempt_below(a, 256), more);
        after->length += more;
    } else if (a->way == 6) {
        after->length = random_one_in(a->random, 2)
                            ? after->length - 1
                            : random_between(a->random, 36,
                                             (uint32_t)after->length - 1);
    } else {
        return damage_4_count(a);
    }
    return attempt_aim(a, 4, 0);
}
