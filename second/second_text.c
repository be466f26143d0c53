/* "The program" of document 01: everything planrun prints for one input. */
#include <string.h>

#include "second.h"

/* Adds a word; the text is large enough for any input of 65,536 bytes. */
static void put_word(struct second_text *text, const char *word)
{
    size_t size = strlen(word);
    if (size > SECOND_TEXT_BYTES - text->length)
        return;
    memcpy(text->bytes + text->length, word, size);
    text->length += size;
}

/* Adds a number in decimal digits. */
static void put_number(struct second_text *text, uint32_t number)
{
    char digits[11];
    size_t at = sizeof digits - 1;
    digits[at] = '\0';
    do {
        digits[--at] = (char)('0' + number % 10);
        number /= 10;
    } while (number > 0);
    put_word(text, digits + at);
}

/* Adds a blank and a number. */
static void put_next_number(struct second_text *text, uint32_t number)
{
    put_word(text, " ");
    put_number(text, number);
}

/* "First line: `plan` Q N least, or `refused` number place". */
static void put_reading(struct second_text *text,
                        const struct second_reading *reading)
{
    if (reading->number != 0) {
        put_word(text, "refused");
        put_next_number(text, reading->number);
        put_next_number(text, reading->place);
    } else {
        put_word(text, "plan");
        put_next_number(text, reading->round_sum);
        put_next_number(text, reading->modulus);
        put_next_number(text, reading->least);
    }
    put_word(text, "\n");
}

/* "Each call prints its index from 0, then `opened`, `found` or `wait` with
   edges left, or `fired` with the node, or `refused` with the number." */
static void put_answer(struct second_text *text, uint32_t index,
                       struct second_answer answer)
{
    static const char *const words[] = {" refused", " opened", " found",
                                        " wait", " fired", " tokens"};
    put_number(text, index);
    put_word(text, words[answer.kind]);
    put_next_number(text, answer.value);
    put_word(text, "\n");
}

/* "The image is the first T bytes, T being the total field; the whole input
   where T is missing, below 36 or beyond the input." */
static size_t image_length(const uint8_t *input, size_t length)
{
    uint32_t total;
    if (length < SECOND_HEADER_BYTES)
        return length;
    total = input[32] | (uint32_t)input[33] << 8 | (uint32_t)input[34] << 16 |
            (uint32_t)input[35] << 24;
    return total < SECOND_HEADER_BYTES || total > length ? length : total;
}

/* "Then calls of four bytes"; "One to three bytes left over print `cut`." */
static void put_calls(struct second_text *text, const struct second_plan *plan,
                      const uint8_t *calls, size_t length)
{
    struct second_state state;
    uint32_t index = 0;
    second_begin(plan, &state);
    for (; length >= 4; calls += 4, length -= 4) {
        uint32_t edge = calls[2] | (uint32_t)calls[3] << 8;
        put_answer(text, index++,
                   second_step(plan, &state, calls[0], calls[1], edge));
    }
    if (length > 0)
        put_word(text, "cut\n");
}

/* planrun's whole output; over 65,536 bytes "it prints `too long` only". */
void second_transcript(const uint8_t *input, size_t length,
                       struct second_text *text)
{
    size_t image = image_length(input, length);
    struct second_reading reading;
    text->length = 0;
    if (length > SECOND_INPUT_BYTES) {
        put_word(text, "too long\n");
        return;
    }
    reading = second_read(input, image);
    put_reading(text, &reading);
    if (reading.number == 0)
        put_calls(text, &reading.plan, input + image, length - image);
}
