/* Every bullet of 01's "Plans on each side of a bound". */
#include "check.h"
#include "hand.h"

/* "P accepted. P with N 3: 16 at edge 2. P without 3-0: 14 at edge 2. P with
   1-2 repeated next to itself: 8 at edge 3." */
static void plan_p_and_neighbours(void)
{
    struct sketch s;
    struct picture picture;
    hand_plan_p(&s);
    expect_accepted("P", &s, 1, 4);
    sketch_picture(&s, &picture);
    check(picture.length == 100, "P has 100 bytes", picture.length);
    s.modulus = 3;
    expect_refused("P with N 3", &s, 16, 2);
    hand_plan_p(&s);
    sketch_drop_edge(&s, 4);
    expect_refused("P without 3-0", &s, 14, 2);
    hand_plan(&s, "0 1|2 3", "0-1:0 1-0:1 1-2:0 1-2:0 2-3:0 3-0:3 3-2:1",
              "0 0 1 1", "0 1 0 1", 4);
    expect_refused("P with 1-2 repeated", &s, 8, 3);
}

/* "One node, edge 0-0:1, increment 1, N 1: accepted, least 1 (50 bytes).
   Increment 0 there: 12 at 0." */
static void one_node(void)
{
    struct sketch s;
    struct picture picture;
    hand_plan(&s, "0", "0-0:1", "0", "1", 1);
    expect_accepted("one node", &s, 1, 1);
    sketch_picture(&s, &picture);
    check(picture.length == 50, "one node has 50 bytes", picture.length);
    s.increment[0] = 0;
    expect_refused("one node, increment 0", &s, 12, 0);
}

/* "P with increments 0,2,0,2: N 7: 15; N 6: 16 at edge 2; N 8: accepted,
   least 8." */
static void plan_p_by_twos(void)
{
    struct sketch s;
    hand_plan_p(&s);
    s.increment[1] = s.increment[3] = 2;
    s.modulus = 7;
    expect_refused("P by twos, N 7", &s, 15, 0);
    s.modulus = 6;
    expect_refused("P by twos, N 6", &s, 16, 2);
    s.modulus = 8;
    expect_accepted("P by twos, N 8", &s, 2, 8);
}

/* "P with an added edge 0-0:0: 13 at node 0." */
static void plan_p_self_loop(void)
{
    struct sketch s;
    hand_plan_p(&s);
    sketch_add_edge(&s, 0, 0, 0);
    expect_refused("P with 0-0:0", &s, 13, 0);
    s.edge[0].tokens = 1;
    expect_accepted("P with 0-0:1", &s, 1, 4);
}

/* "Ring: three one-node processes ...: N 3 gives 16 at edge 1; N 4
   accepted." */
static void ring(void)
{
    struct sketch s;
    hand_plan(&s, "0|1|2", "0-0:1 0-1:1 1-1:1 1-2:1 2-0:1 2-2:1", "0 1 2",
              "1 1 1", 3);
    expect_refused("ring, N 3", &s, 16, 1);
    s.modulus = 4;
    expect_accepted("ring, N 4", &s, 1, 4);
}

/* "P with all increments 1 and N 8: fresh, open 1, look 1,2 waits; b(1) is 7
   and rounds to 8." */
static void plan_p_all_ones(void)
{
    struct sketch s;
    struct second_state state;
    struct second_reading reading;
    struct second_answer answer;
    hand_plan_p(&s);
    s.increment[0] = s.increment[2] = 1;
    s.modulus = 8;
    expect_accepted("P all ones", &s, 2, 8);
    reading = hand_read(&s);
    check(second_begin(&reading.plan, &state) == 0, "P all ones begins", 0);
    answer = second_step(&reading.plan, &state, SECOND_OPEN, 1, 0);
    check(answer.kind == SECOND_OPENED && answer.value == 1, "open 1", 0);
    answer = second_step(&reading.plan, &state, SECOND_LOOK, 1, 2);
    check(answer.kind == SECOND_WAIT && answer.value == 1, "look 1,2 waits", 0);
}

void rules_plans(void)
{
    plan_p_and_neighbours();
    one_node();
    plan_p_by_twos();
    plan_p_self_loop();
    ring();
    plan_p_all_ones();
}
