/* Calls on plan P by hand: answers, orders of refusal, turns. */
#include <string.h>

#include "check.h"
#include "hand.h"

static struct second_plan plan;
static struct second_state state;

/* P, begun fresh. */
static void begin_p(void)
{
    struct sketch s;
    hand_plan_p(&s);
    plan = hand_read(&s).plan;
    check(second_begin(&plan, &state) == 0, "P begins", 0);
}

/* A call that is not refused; the turn goes up by one. */
static void expect_call(const char *what, uint32_t code, uint32_t process,
                        uint32_t edge, enum second_kind kind, uint32_t value)
{
    uint32_t turn = state.turn;
    struct second_answer answer =
        second_step(&plan, &state, code, process, edge);
    check(answer.kind == kind, what, answer.kind);
    check(answer.value == value, what, answer.value);
    check(state.turn == (uint32_t)(turn + 1), what, state.turn);
}

/* A refused call; the state stays as it was. */
static void expect_no(const char *what, uint32_t code, uint32_t process,
                      uint32_t edge, uint32_t number)
{
    static struct second_state before;
    struct second_answer answer;
    before = state;
    answer = second_step(&plan, &state, code, process, edge);
    check(answer.kind == SECOND_REFUSED, what, answer.kind);
    check(answer.value == number, what, answer.value);
    check(memcmp(&before, &state, sizeof state) == 0, what, 0);
}

/* 20 to 24 and 26 in their order. */
static void refusals_in_order(void)
{
    begin_p();
    expect_no("code 3 before 20", 3, 9, 0, 26);
    expect_no("code of 32 bits", UINT32_MAX, 0, 0, 26);
    for (uint32_t code = 0; code < 3; code++) {
        expect_no("process 2 of 2", code, 2, 0, 20);
        expect_no("process 64", code, 64, 0, 20);
        expect_no("process 255", code, 255, 0, 20);
        expect_no("process of 32 bits", code, UINT32_MAX, 0, 20);
    }
    expect_no("look on a closed one", SECOND_LOOK, 0, 4, 22);
    expect_no("look on a closed one, odd edge", SECOND_LOOK, 0, 512, 22);
    expect_no("fire on a closed one", SECOND_FIRE, 0, 0, 22);
    expect_call("open 0", SECOND_OPEN, 0, 9, SECOND_OPENED, 1);
    expect_no("open twice", SECOND_OPEN, 0, 0, 21);
    expect_no("fire with marks left", SECOND_FIRE, 0, 0, 24);
    expect_no("look at a process edge", SECOND_LOOK, 0, 1, 23);
    expect_no("look at another's edge", SECOND_LOOK, 0, 2, 23);
    expect_no("edge 6 of 6", SECOND_LOOK, 0, 6, 23);
    expect_no("edge 511", SECOND_LOOK, 0, 511, 23);
    expect_no("edge 512", SECOND_LOOK, 0, 512, 23);
    expect_no("edge 65,535", SECOND_LOOK, 0, 65535, 23);
    expect_no("edge of 32 bits", SECOND_LOOK, 0, UINT32_MAX, 23);
    expect_call("look 0,4", SECOND_LOOK, 0, 4, SECOND_FOUND, 0);
    expect_no("look at a seen edge", SECOND_LOOK, 0, 4, 23);
    expect_no("open with nothing left", SECOND_OPEN, 0, 0, 21);
    expect_call("fire 0", SECOND_FIRE, 0, 65535, SECOND_FIRED, 0);
    expect_no("fire again", SECOND_FIRE, 0, 0, 22);
}

/* An edge marked in another process's row is not marked for this one. */
static void marks_of_others(void)
{
    begin_p();
    expect_call("open 0", SECOND_OPEN, 0, 0, SECOND_OPENED, 1);
    expect_call("open 1", SECOND_OPEN, 1, 0, SECOND_OPENED, 1);
    expect_no("0 looks at 1's edge", SECOND_LOOK, 0, 2, 23);
    expect_no("1 looks at 0's edge", SECOND_LOOK, 1, 4, 23);
    expect_call("wait counts a turn", SECOND_LOOK, 1, 2, SECOND_WAIT, 1);
    expect_call("and again", SECOND_LOOK, 1, 2, SECOND_WAIT, 1);
}

/* The producer runs three rounds ahead, not four; counters go round at 4. */
static void rounds_of_p(void)
{
    begin_p();
    for (uint32_t round = 0; round < 9; round++) {
        if (round >= 3) {
            expect_call("open 1", SECOND_OPEN, 1, 0, SECOND_OPENED, 1);
            expect_call("consume", SECOND_LOOK, 1, 2, SECOND_FOUND, 0);
            expect_call("node 2", SECOND_FIRE, 1, 0, SECOND_FIRED, 2);
            expect_call("open 1", SECOND_OPEN, 1, 0, SECOND_OPENED, 0);
            expect_call("node 3", SECOND_FIRE, 1, 0, SECOND_FIRED, 3);
            expect_call("now found", SECOND_LOOK, 0, 4, SECOND_FOUND, 0);
        } else {
            expect_call("open 0", SECOND_OPEN, 0, 0, SECOND_OPENED, 1);
            expect_call("produce", SECOND_LOOK, 0, 4, SECOND_FOUND, 0);
        }
        expect_call("node 0", SECOND_FIRE, 0, 0, SECOND_FIRED, 0);
        expect_call("open 0", SECOND_OPEN, 0, 0, SECOND_OPENED, 0);
        expect_call("node 1", SECOND_FIRE, 0, 0, SECOND_FIRED, 1);
        if (round >= 2) {
            expect_call("open 0", SECOND_OPEN, 0, 0, SECOND_OPENED, 1);
            expect_call("full", SECOND_LOOK, 0, 4, SECOND_WAIT, 1);
        }
    }
    check(state.counter[0] == 9 % 4, "counter 0", state.counter[0]);
    check(state.counter[1] == 6 % 4, "counter 1", state.counter[1]);
}

/* "4,294,967,295 is followed by 0". */
static void turn_goes_round(void)
{
    begin_p();
    state.turn = UINT32_MAX;
    expect_no("refused at the last turn", SECOND_FIRE, 0, 0, 22);
    expect_call("the turn after the last", SECOND_OPEN, 0, 0, SECOND_OPENED, 1);
    check(state.turn == 0, "turn 0", state.turn);
}

/* Readings of P's edges, fresh and with one piece produced. */
static void readings_of_p(void)
{
    static const uint32_t fresh[] = {27, 27, 0, 27, 3, 27, 27};
    static const uint32_t later[] = {27, 27, 1, 27, 2, 27, 27};
    struct second_answer answer;
    begin_p();
    for (uint32_t edge = 0; edge < 7; edge++) {
        answer = second_token_reading(&plan, &state, edge);
        check(answer.value == fresh[edge], "reading, fresh", edge);
        check((answer.kind == SECOND_REFUSED) == (fresh[edge] == 27),
              "reading refused or not", edge);
    }
    state.counter[0] = 1;
    for (uint32_t edge = 0; edge < 7; edge++)
        check(second_token_reading(&plan, &state, edge).value == later[edge],
              "reading, one piece", edge);
    check(second_token_reading(&plan, &state, 512).value == 27, "edge 512", 0);
    check(second_token_reading(&plan, &state, UINT32_MAX).value == 27,
          "edge of 32 bits", 0);
    check(state.turn == 0, "a reading is no call", 0);
}

void rules_calls(void)
{
    refusals_in_order();
    marks_of_others();
    rounds_of_p();
    turn_goes_round();
    readings_of_p();
}
