/* planrun: document 01's program, from standard input to standard output. */
#include <stdio.h>

#include "second.h"

/* "reads at most 65,536 bytes of standard input; with more it prints `too
   long` only": one byte more is tried for. */
int main(void)
{
    static uint8_t input[SECOND_INPUT_BYTES + 1];
    static struct second_text text;
    size_t length = fread(input, 1, sizeof input, stdin);
    if (ferror(stdin))
        return 2;
    second_transcript(input, length, &text);
    if (fwrite(text.bytes, 1, text.length, stdout) != text.length)
        return 2;
    return fflush(stdout) == 0 ? 0 : 2;
}
