/* planrun's text by hand: plan P's run, T, `cut`, `too long`. */
#include <string.h>

#include "check.h"
#include "hand.h"

static uint8_t input[65536 + 2];
static size_t length;
static struct second_text text;

/* Plan P's image alone. */
static void start_p(void)
{
    struct sketch s;
    struct picture picture;
    hand_plan_p(&s);
    sketch_picture(&s, &picture);
    memcpy(input, picture.bytes, picture.length);
    length = picture.length;
}

/* Adds a call. */
static void add_call(uint8_t code, uint8_t process, uint32_t edge)
{
    input[length++] = code;
    input[length++] = process;
    input[length++] = (uint8_t)(edge & 255);
    input[length++] = (uint8_t)(edge >> 8);
}

/* The whole text for the input as it stands. */
static void expect_text(const char *what, const char *expected)
{
    second_transcript(input, length, &text);
    check(text.length == strlen(expected) &&
              memcmp(text.bytes, expected, text.length) == 0,
          what, text.length);
}

/* "Calls: ... Whole output:". */
static void run_of_p(void)
{
    start_p();
    add_call(0, 0, 0);
    add_call(1, 0, 4);
    add_call(2, 0, 0);
    add_call(0, 0, 0);
    add_call(2, 0, 0);
    add_call(0, 1, 0);
    add_call(1, 1, 2);
    add_call(1, 1, 2);
    add_call(2, 1, 0);
    expect_text("P's run", "plan 1 4 4\n"
                           "0 opened 1\n1 found 0\n2 fired 0\n3 opened 0\n"
                           "4 fired 1\n5 opened 1\n6 found 0\n7 refused 23\n"
                           "8 fired 2\n");
}

/* Odd calls, and one to three bytes left over. */
static void odd_calls(void)
{
    start_p();
    expect_text("no calls", "plan 1 4 4\n");
    add_call(3, 200, 0);
    add_call(255, 0, 0);
    add_call(0, 64, 0);
    add_call(2, 255, 0);
    add_call(0, 1, 65535);
    add_call(1, 1, 2);
    add_call(1, 1, 0x0200);
    add_call(1, 1, 0x0202);
    expect_text("odd calls", "plan 1 4 4\n0 refused 26\n1 refused 26\n"
                             "2 refused 20\n3 refused 20\n4 opened 1\n"
                             "5 wait 1\n6 refused 23\n7 refused 23\n");
    start_p();
    add_call(0, 0, 0);
    for (size_t rest = 1; rest <= 3; rest++) {
        input[length++] = 0;
        expect_text("cut", "plan 1 4 4\n0 opened 1\ncut\n");
    }
    input[length++] = 0;
    expect_text("a whole call", "plan 1 4 4\n0 opened 1\n1 refused 21\n");
}

/* A refused plan prints one line, whatever follows. */
static void refused_plans(void)
{
    start_p();
    put_little(input + 12, 3, 4);
    expect_text("refused", "refused 16 2\n");
    add_call(0, 0, 0);
    input[length++] = 0;
    expect_text("no calls, no cut", "refused 16 2\n");
    length = 0;
    expect_text("no input", "refused 1 0\n");
    start_p();
    length = 35;
    expect_text("35 bytes", "refused 1 0\n");
}

/* "The image is the first T bytes ...; the whole input where T is missing,
   below 36 or beyond the input." */
static void total_field(void)
{
    start_p();
    put_little(input + 32, 35, 4);
    expect_text("T 35", "refused 4 0\n");
    put_little(input + 32, 0, 4);
    expect_text("T 0", "refused 4 0\n");
    put_little(input + 32, 101, 4);
    expect_text("T beyond", "refused 4 0\n");
    put_little(input + 32, 36, 4);
    expect_text("T 36", "refused 4 0\n");
    put_little(input + 32, 99, 4);
    expect_text("T 99", "refused 4 0\n");
    input[length++] = 0;
    put_little(input + 32, 101, 4);
    expect_text("T 101 of 101", "refused 4 0\n");
    put_little(input + 32, 100, 4);
    expect_text("T 100 of 101", "plan 1 4 4\ncut\n");
    put_little(input + 32, 36, 4);
    put_little(input, 2, 2);
    expect_text("T 36 and format 2", "refused 2 0\n");
}

/* "with more it prints `too long` only". */
static void long_inputs(void)
{
    const char *last;
    start_p();
    while (length < 65536)
        input[length++] = 9;
    second_transcript(input, 65536, &text);
    check(memcmp(text.bytes, "plan 1 4 4\n0 refused 26\n", 24) == 0,
          "65,536 bytes", 0);
    last = text.bytes + text.length - 18;
    check(memcmp(last, "\n16358 refused 26\n", 18) == 0,
          "last call of 65,536 bytes", 0);
    second_transcript(input, 65535, &text);
    check(memcmp(text.bytes + text.length - 4, "cut\n", 4) == 0,
          "65,535 bytes", 0);
    second_transcript(input, 65537, &text);
    check(text.length == 9 && memcmp(text.bytes, "too long\n", 9) == 0,
          "65,537 bytes", 0);
}

void rules_program(void)
{
    run_of_p();
    odd_calls();
    refused_plans();
    total_field();
    long_inputs();
}
