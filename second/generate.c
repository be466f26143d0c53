/* generate SEED COUNT: a stream of cases for `stream`, the same for the same
   seed; each is a 4-byte little-endian length and that many bytes. */
#include <stdio.h>
#include <stdlib.h>

#include "cases.h"
#include "sketch.h"

int main(int arguments, char **argument)
{
    static struct input_case drawn;
    struct random random;
    unsigned long count;
    if (arguments != 3) {
        fprintf(stderr, "usage: generate SEED COUNT\n");
        return 2;
    }
    random.state = strtoull(argument[1], NULL, 10);
    count = strtoul(argument[2], NULL, 10);
    for (unsigned long i = 0; i < count; i++) {
        unsigned char length[4];
        draw_case(&random, i, &drawn);
        put_little(length, (uint32_t)drawn.length, 4);
        fwrite(length, 1, 4, stdout);
        fwrite(drawn.bytes, 1, drawn.length, stdout);
    }
    return fflush(stdout) == 0 && !ferror(stdout) ? 0 : 2;
}
