/* 01's own sentences by hand: its plans, every clause of its table, calls,
   made-up plan values and states, planrun's text, and 000's examples. */
#include "check.h"
#include "hand.h"

int main(void)
{
    rules_plans();
    rules_clauses();
    rules_calls();
    rules_made_up();
    rules_program();
    rules_examples();
    check_floor("comparisons", check_count(), 1800);
    return check_end("test_rules");
}
