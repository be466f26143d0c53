/* planrun's whole text for generated inputs, against text put together from
   01's plain definitions. */
#include <stdio.h>
#include <string.h>

#include "check.h"
#include "declared.h"
#include "cases.h"

static char expected[SECOND_TEXT_BYTES];
static size_t expected_length;
static unsigned long inputs, accepted, too_long, cut;
static unsigned long plan_refused[17], call_refused[28], kinds[6];

/* Adds a line with up to three numbers. */
static void add_line(const char *format, unsigned a, unsigned b, unsigned c)
{
    expected_length += (size_t)sprintf(expected + expected_length, format, a, b,
                                       c);
}

/* "The image is the first T bytes". */
static size_t image_size(const struct input_case *drawn)
{
    const unsigned char *field = drawn->bytes + 32;
    size_t total = 0;
    if (drawn->length >= 36)
        total = field[0] + 256 * (field[1] + 256 * (field[2] +
                                                    256 * (size_t)field[3]));
    return total >= 36 && total <= drawn->length ? total : drawn->length;
}

/* A call's line. */
static void add_answer(unsigned index, struct second_answer answer)
{
    static const char *const formats[] = {"%u refused %u\n", "%u opened %u\n",
                                          "%u found %u\n", "%u wait %u\n",
                                          "%u fired %u\n", ""};
    add_line(formats[answer.kind], index, answer.value, 0);
    kinds[answer.kind]++;
    if (answer.kind == SECOND_REFUSED)
        call_refused[answer.value]++;
}

/* All calls behind the image, and what is left over. */
static void add_calls(const struct second_plan *plan,
                      const struct input_case *drawn, size_t at)
{
    static struct second_state state, after;
    unsigned index = 0;
    memset(&state, 0, sizeof state);
    for (; drawn->length - at >= 4; at += 4) {
        const unsigned char *call = drawn->bytes + at;
        add_answer(index++, declared_step(plan, &state, call[0], call[1],
                                          call[2] + 256u * call[3], &after));
        state = after;
    }
    if (drawn->length > at) {
        add_line("cut\n", 0, 0, 0);
        cut++;
    }
}

/* The whole text by the definitions. */
static void expect_text(const struct input_case *drawn)
{
    static struct second_plan plan;
    struct declared_answer answer;
    expected_length = 0;
    if (drawn->length > 65536) {
        add_line("too long\n", 0, 0, 0);
        too_long++;
        return;
    }
    answer = declared_read(drawn->bytes, image_size(drawn), &plan);
    if (answer.number != 0) {
        add_line("refused %u %u\n", answer.number, answer.place, 0);
        plan_refused[answer.number]++;
        return;
    }
    accepted++;
    add_line("plan %u %u %u\n", answer.round_sum, answer.modulus, answer.least);
    add_calls(&plan, drawn, image_size(drawn));
}

/* Prints the counts and holds them against their floors. */
static void show_counts(void)
{
    printf("inputs %lu, accepted %lu, too long %lu, cut %lu\n", inputs,
           accepted, too_long, cut);
    printf("opened %lu, found %lu, wait %lu, fired %lu\n", kinds[SECOND_OPENED],
           kinds[SECOND_FOUND], kinds[SECOND_WAIT], kinds[SECOND_FIRED]);
    check_floor("accepted", accepted, inputs / 5);
    check_floor("too long", too_long, inputs / 2000);
    check_floor("cut", cut, inputs / 50);
    for (unsigned kind = SECOND_OPENED; kind <= SECOND_FIRED; kind++)
        check_floor("kind of answer", kinds[kind], inputs / 2);
    for (unsigned number = 1; number <= 16; number++) {
        printf("plan refused %u: met %lu\n", number, plan_refused[number]);
        check_floor("plan refused", plan_refused[number], inputs / 200);
    }
    for (unsigned number = 20; number <= 26; number++) {
        if (number == 25)
            continue;
        printf("call refused %u: met %lu\n", number, call_refused[number]);
        check_floor("call refused", call_refused[number], inputs / 100);
    }
}

int main(int arguments, char **argument)
{
    static struct input_case drawn;
    static struct second_text text;
    unsigned long seed = 1, size = 1000;
    struct random random;
    check_arguments(arguments, argument, &seed, &size);
    random.state = seed;
    for (inputs = 0; inputs < size; inputs++) {
        draw_case(&random, inputs, &drawn);
        expect_text(&drawn);
        second_transcript(drawn.bytes, drawn.length, &text);
        check(text.length == expected_length &&
                  memcmp(text.bytes, expected, expected_length) == 0,
              "planrun's text", inputs);
    }
    show_counts();
    return check_end("test_text");
}
