/* One case for planrun: an image and calls behind it, or something else. */
#ifndef CASES_H
#define CASES_H

#include <stddef.h>

#include "random.h"

enum { CASE_BYTES = 65536 + 1024 };

struct input_case {
    size_t length;
    unsigned char bytes[CASE_BYTES];
};

/* The case with this index of a seeded stream; the index sees to it that all
   kinds of cases, numbers and ways come round evenly. */
void draw_case(struct random *random, unsigned long index,
               struct input_case *drawn);

#endif
