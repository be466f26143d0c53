#include "check.h"

#include <stdio.h>
#include <stdlib.h>

enum { SHOWN = 12 }; /* differences printed in full */

static unsigned long compared, differed, too_few;
static int stop_at_first;

void check(int same, const char *what, unsigned long input)
{
    compared++;
    if (same)
        return;
    if (differed++ < SHOWN)
        printf("  DIFFERS: %s (input %lu)\n", what, input);
    fflush(stdout);
    if (stop_at_first)
        exit(1);
}

void check_floor(const char *what, unsigned long count, unsigned long floor)
{
    if (count >= floor)
        return;
    too_few++;
    printf("  TOO FEW: %s %lu, floor %lu\n", what, count, floor);
}

unsigned long check_count(void)
{
    return compared;
}

int check_end(const char *test)
{
    printf("%s: %lu comparisons, %lu differed, %lu counts below their floor\n",
           test, compared, differed, too_few);
    return differed == 0 && too_few == 0 ? 0 : 1;
}

void check_arguments(int arguments, char **argument, unsigned long *seed,
                     unsigned long *size)
{
    if (arguments > 1)
        *seed = strtoul(argument[1], NULL, 10);
    if (arguments > 2)
        *size = strtoul(argument[2], NULL, 10);
    stop_at_first = arguments > 3;
}
