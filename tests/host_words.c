/* The version, the constants and the words of the headers. */
#include <stdio.h>
#include <string.h>

#include "check.h"
#include "tamsklor.h"
#include "tamsklor_text.h"

enum { NUMBERS = 28 };

/* Whether 01 has this number. */
static int is_known(uint32_t number)
{
    return number <= 16 || (number >= 20 && number <= 27);
}

/* A text of its own for each number of 01, and one for all others. */
static void try_numbers(void)
{
    for (uint32_t a = 0; a <= NUMBERS; a++) {
        int unknown = strcmp(tamsklor_text(a), "unknown number") == 0;
        check(unknown == !is_known(a), "words for a number", a);
        for (uint32_t b = 0; b < a; b++)
            check(!is_known(a) || strcmp(tamsklor_text(a), tamsklor_text(b)),
                  "words of its own", a);
    }
    check(strcmp(tamsklor_text(UINT32_MAX), "unknown number") == 0,
          "words for the largest number", 0);
}

/* A place has a name from 5 on, but for 15. */
static void try_places(void)
{
    for (uint32_t number = 0; number <= NUMBERS; number++) {
        int named = tamsklor_place_text(number)[0] != '\0';
        check(named == (number >= 5 && number <= 16 && number != 15),
              "a place's name", number);
    }
}

/* The words of planrun. */
static void try_answers(void)
{
    static const char *const kinds[] = {"refused", "opened", "found",
                                        "wait",    "fired",  "unknown kind"};
    static const char *const codes[] = {"open", "look", "fire",
                                        "unknown code"};
    for (uint32_t kind = 0; kind < 6; kind++)
        check(strcmp(tamsklor_kind_text(kind), kinds[kind]) == 0,
              "words for a kind", kind);
    for (uint32_t code = 0; code < 4; code++)
        check(strcmp(tamsklor_code_text(code), codes[code]) == 0,
              "words for a code", code);
}

int main(void)
{
    check(tamsklor_version() == TAMSKLOR_VERSION, "the version", 0);
    check(TAMSKLOR_IMAGE_BYTES == 3620, "bytes of the largest image", 0);
    check(TAMSKLOR_PLAN_BYTES == sizeof(TamsklorPlan), "bytes of a plan", 0);
    check(TAMSKLOR_STATE_BYTES == sizeof(TamsklorState), "bytes of a state",
          0);
    check(TAMSKLOR_MARK(63, 511) + 1 == sizeof((TamsklorState *)0)->marks,
          "the last mark", 0);
    try_numbers();
    try_places();
    try_answers();
    return check_end("host_words");
}
