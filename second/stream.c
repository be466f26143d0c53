/* Answers a long stream of inputs: each is a 4-byte little-endian length and
   that many bytes; each answer is a line `case K` and planrun's text. */
#include <stdio.h>

#include "second.h"

static uint8_t input[SECOND_INPUT_BYTES + 1];
static struct second_text text;

/* Reads a case's length; 1 where there is one, 0 at the end, -1 if cut. */
static int next_length(uint32_t *length)
{
    uint8_t bytes[4];
    size_t got = fread(bytes, 1, 4, stdin);
    if (got == 0)
        return 0;
    *length = bytes[0] | (uint32_t)bytes[1] << 8 | (uint32_t)bytes[2] << 16 |
              (uint32_t)bytes[3] << 24;
    return got == 4 ? 1 : -1;
}

/* Reads a case's bytes, keeping what planrun would see; 0 if cut. */
static int read_case(uint32_t length, size_t *kept)
{
    *kept = length < sizeof input ? length : sizeof input;
    if (fread(input, 1, *kept, stdin) != *kept)
        return 0;
    for (uint32_t rest = length - (uint32_t)*kept; rest > 0; rest--)
        if (getchar() == EOF)
            return 0;
    return 1;
}

int main(void)
{
    uint32_t length;
    unsigned long number = 0;
    int more;
    while ((more = next_length(&length)) == 1) {
        size_t kept;
        if (!read_case(length, &kept)) {
            more = -1;
            break;
        }
        second_transcript(input, kept, &text);
        printf("case %lu\n", number++);
        fwrite(text.bytes, 1, text.length, stdout);
    }
    if (more == -1)
        fprintf(stderr, "stream: input cut in case %lu\n", number);
    return more == 0 && fflush(stdout) == 0 && !ferror(stdout) ? 0 : 2;
}
