/* planrun once more in plain C, with the twins: reads at most 65,536 bytes of
   standard input and prints the same text. The state is not tested again. */
#include <stdio.h>
#include <string.h>

#include "twin.h"

enum { INPUT_BYTES = 65536, TEXT_BYTES = 409642 };

static uint8_t input[INPUT_BYTES + 1];
static char text[TEXT_BYTES];
static TamsklorPlanRead reading;
static TamsklorState state;

static char *put_word(char *at, const char *word)
{
    size_t length = strlen(word);
    memcpy(at, word, length);
    return at + length;
}

static char *put_number(char *at, uint32_t number)
{
    char digits[10];
    size_t first = sizeof digits;
    do {
        digits[--first] = (char)('0' + number % 10);
        number /= 10;
    } while (number > 0);
    memcpy(at, digits + first, sizeof digits - first);
    return at + (sizeof digits - first);
}

static char *put_line(char *at, uint32_t index, TamsklorCallAnswer answer)
{
    static const char *const words[] = {" refused ", " opened ", " found ",
                                        " wait ", " fired "};
    at = put_number(at, index);
    at = put_word(at, words[answer.kind]);
    at = put_number(at, answer.value);
    *at = '\n';
    return at + 1;
}

static char *put_calls(char *at, const uint8_t *calls, size_t length)
{
    struct twin_places places;
    uint32_t index = 0;
    twin_begin(&reading.plan, &state);
    twin_find_places(&reading.plan, &places);
    for (; length >= 4; calls += 4, length -= 4)
        at = put_line(at, index++,
                      twin_step_in_shape(&reading.plan, &places, &state,
                                         calls[0], calls[1],
                                         calls[2] | (uint32_t)calls[3] << 8));
    return length > 0 ? put_word(at, "cut\n") : at;
}

/* The image is the first T bytes, or the whole input. */
static size_t image_length(size_t length)
{
    uint32_t total;
    if (length < 36)
        return length;
    total = input[32] | (uint32_t)input[33] << 8 | (uint32_t)input[34] << 16 |
            (uint32_t)input[35] << 24;
    return total < 36 || total > length ? length : total;
}

static char *put_three(char *at, const char *word, uint32_t a, uint32_t b)
{
    at = put_word(at, word);
    at = put_number(at, a);
    *at++ = ' ';
    return put_number(at, b);
}

static char *put_text(char *at, size_t length)
{
    size_t image = image_length(length);
    if (length > INPUT_BYTES)
        return put_word(at, "too long\n");
    reading = twin_read(input, image);
    if (reading.number != TAMSKLOR_PLAN_ACCEPTED) {
        at = put_three(at, "refused ", reading.number, reading.place);
        return put_word(at, "\n");
    }
    at = put_three(at, "plan ", reading.plan.q, reading.plan.modulus);
    *at++ = ' ';
    at = put_number(at, reading.least);
    *at++ = '\n';
    return put_calls(at, input + image, length - image);
}

int main(void)
{
    size_t length = fread(input, 1, sizeof input, stdin);
    size_t written = (size_t)(put_text(text, length) - text);
    return fwrite(text, 1, written, stdout) != written || fflush(stdout) != 0;
}
