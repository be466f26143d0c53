/* The plan check of an image on standard input. */
#include <stdio.h>

#include "tamsklor.h"
#include "tamsklor_text.h"

int main(void)
{
    static uint8_t image[TAMSKLOR_IMAGE_BYTES + 1];
    size_t length = fread(image, 1, sizeof image, stdin);
    TamsklorVerdict verdict = tamsklor_plan_check(image, length);
    if (verdict.number == TAMSKLOR_PLAN_ACCEPTED)
        printf("accepted, least modulus %u\n", (unsigned)verdict.least);
    else
        printf("refused with %u at %u: %s\n", (unsigned)verdict.number,
               (unsigned)verdict.place, tamsklor_text(verdict.number));
    return verdict.number == TAMSKLOR_PLAN_ACCEPTED ? 0 : 1;
}
