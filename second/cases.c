#include "cases.h"

#include <string.h>

#include "damage.h"
#include "draw.h"
#include "script.h"

/* Puts an image at the start of a case. */
static void put_picture(struct input_case *drawn, const struct picture *picture)
{
    memcpy(drawn->bytes, picture->bytes, picture->length);
    drawn->length = picture->length;
}

/* Adds one call of four bytes. */
static void put_call(struct input_case *drawn, struct call call)
{
    unsigned char *at = drawn->bytes + drawn->length;
    put_little(at, call.code, 1);
    put_little(at + 1, call.process, 1);
    put_little(at + 2, call.edge, 2);
    drawn->length += 4;
}

/* Adds up to three bytes that print `cut`. */
static void put_rest(struct random *random, struct input_case *drawn)
{
    for (uint32_t i = random_below(random, 7); i > 3; i--)
        drawn->bytes[drawn->length++] =
            (unsigned char)random_below(random, 256);
}

/* Adds calls: one refused or random call in so many, the others useful. */
static void put_script(struct random *random, const struct sketch *sketch,
                       uint32_t calls, uint32_t useful,
                       struct input_case *drawn)
{
    static struct shadow shadow;
    shadow_begin(sketch, &shadow);
    for (uint32_t i = 0; i < calls; i++) {
        struct call call = random_one_in(random, useful)
                               ? draw_any_call(random, sketch)
                               : draw_useful_call(random, &shadow);
        put_call(drawn, call);
        shadow_call(&shadow, call.code, call.process, call.edge);
    }
}

/* A valid plan with a script. */
static void draw_run(struct random *random, struct input_case *drawn)
{
    static const uint32_t useful[] = {2, 5, 20, 1000};
    struct sketch sketch;
    struct picture picture;
    struct wish wish = {0};
    uint32_t calls = random_below(random, 80);
    if (random_one_in(random, 40))
        calls = random_below(random, 2000);
    if (random_one_in(random, 2))
        wish.most_nodes = 6;
    if (random_one_in(random, 2))
        wish.most_tokens = 3;
    if (random_one_in(random, 2))
        wish.modulus = MODULUS_LEAST;
    draw_plan(random, &wish, &sketch);
    sketch_picture(&sketch, &picture);
    put_picture(drawn, &picture);
    put_script(random, &sketch, calls, useful[random_below(random, 4)], drawn);
    put_rest(random, drawn);
}

/* An image beyond a bound, or just inside it, with random calls behind. */
static void draw_damaged(struct random *random, unsigned long turn,
                         struct input_case *drawn)
{
    static struct damaged damaged;
    uint32_t number = (uint32_t)(turn % 16 + 1);
    uint32_t way = (uint32_t)(turn / 16 % damage_ways(number));
    uint32_t most = random_one_in(random, 3) ? 64 : 10;
    damage_plan(random, number, way, most, &damaged);
    put_picture(drawn, random_one_in(random, 4) ? &damaged.before
                                                : &damaged.after);
    if (random_one_in(random, 2))
        for (uint32_t i = random_below(random, 40); i > 0; i--)
            drawn->bytes[drawn->length++] =
                (unsigned char)random_below(random, 4);
}

/* Random bytes and valid images with bytes changed. */
static void draw_random(struct random *random, struct input_case *drawn)
{
    struct picture picture;
    random_picture(random, random_one_in(random, 3) ? 64 : 8, &picture);
    put_picture(drawn, &picture);
    put_rest(random, drawn);
}

/* A valid plan whose total field is below 36, beyond the input, or shorter
   than the image. */
static void draw_total(struct random *random, struct input_case *drawn)
{
    uint32_t total;
    draw_run(random, drawn);
    switch (random_below(random, 4)) {
    case 0: total = random_below(random, 37); break;
    case 1: total = (uint32_t)drawn->length + random_below(random, 3); break;
    case 2: total = random_between(random, 36, (uint32_t)drawn->length); break;
    default: total = (uint32_t)random_bits(random); break;
    }
    put_little(drawn->bytes + 32, total, 4);
}

/* A small valid plan, filled up with calls to 65,535 or 65,536 bytes. */
static void draw_long(struct random *random, struct input_case *drawn)
{
    size_t length = 65535 + random_below(random, 2);
    struct sketch sketch;
    struct picture picture;
    struct wish wish = {0};
    wish.most_nodes = 3;
    wish.most_tokens = 2;
    wish.modulus = MODULUS_LEAST;
    draw_plan(random, &wish, &sketch);
    sketch_picture(&sketch, &picture);
    put_picture(drawn, &picture);
    put_script(random, &sketch, (uint32_t)(length - picture.length) / 4, 50,
               drawn);
    while (drawn->length < length)
        drawn->bytes[drawn->length++] = 0;
}

/* A run with zeros behind it, to 65,537 bytes or some more. */
static void draw_too_long(struct random *random, struct input_case *drawn)
{
    size_t length = 65537 + (random_one_in(random, 2)
                                 ? 0
                                 : random_below(random, CASE_BYTES - 65537));
    draw_run(random, drawn);
    memset(drawn->bytes + drawn->length, 0, length - drawn->length);
    drawn->length = length;
}

void draw_case(struct random *random, unsigned long index,
               struct input_case *drawn)
{
    uint32_t kind = (uint32_t)(index % 16);
    drawn->length = 0;
    if (random_one_in(random, 1000))
        draw_long(random, drawn);
    else if (random_one_in(random, 400))
        draw_too_long(random, drawn);
    else if (kind < 6)
        draw_run(random, drawn);
    else if (kind < 13)
        draw_damaged(random, index / 16 * 7 + kind - 6, drawn);
    else if (kind < 15)
        draw_random(random, drawn);
    else
        draw_total(random, drawn);
}
