/* Words for Tamsklor's numbers, for logs and the service screen. Every answer
   is a constant text, never NULL; a number, kind or code that tamsklor.h does
   not have is "unknown number", "unknown kind" or "unknown code". */
#ifndef TAMSKLOR_TEXT_H
#define TAMSKLOR_TEXT_H

#include <stdint.h>

#include "tamsklor.h"

#ifdef __cplusplus
extern "C" {
#endif

/* What is wrong: the numbers of a plan, 0 to 16, and of a run, 20 to 27. */
static inline const char *tamsklor_text(uint32_t number)
{
    switch (number) {
    case TAMSKLOR_PLAN_ACCEPTED: return "accepted";
    case TAMSKLOR_PLAN_HEADER_CUT: return "fewer than 36 bytes";
    case TAMSKLOR_PLAN_FORMAT_WRONG:
        return "format not 1, or bytes 10 and 11 not zero";
    case TAMSKLOR_PLAN_COUNT_OUT_OF_BOUNDS:
        return "a count or N outside its bounds";
    case TAMSKLOR_PLAN_OFFSET_WRONG:
        return "an offset, the total or the length is not what the counts give";
    case TAMSKLOR_PLAN_LENGTH_WRONG:
        return "a process length is 0, or the lengths do not add up";
    case TAMSKLOR_PLAN_ORDER_WRONG:
        return "an order entry is not a node, or a node seen before";
    case TAMSKLOR_PLAN_NODE_WRONG:
        return "counter unknown, or increment too large";
    case TAMSKLOR_PLAN_EDGE_WRONG:
        return "an end unknown, too many tokens, or not above the one before";
    case TAMSKLOR_PLAN_PROCESS_EDGE_WRONG:
        return "process edge missing or with wrong tokens";
    case TAMSKLOR_PLAN_COUNTER_SHARED:
        return "nodes of several processes share the counter";
    case TAMSKLOR_PLAN_INCREMENT_ZERO:
        return "a synchronising out-edge, but increment 0";
    case TAMSKLOR_PLAN_SUM_WRONG:
        return "the counter's sum is 0 or differs from counter 0's";
    case TAMSKLOR_PLAN_CYCLE_WITHOUT_TOKENS: return "a cycle without tokens";
    case TAMSKLOR_PLAN_NO_ROUTE_BACK:
        return "synchronising edge without a route back";
    case TAMSKLOR_PLAN_MODULUS_NO_MULTIPLE: return "N is not a multiple of Q";
    case TAMSKLOR_PLAN_MODULUS_TOO_SMALL: return "N is not above the bound";
    case TAMSKLOR_RUN_UNKNOWN_PROCESS: return "unknown process";
    case TAMSKLOR_RUN_ALREADY_OPEN: return "open on an open process";
    case TAMSKLOR_RUN_NOT_OPEN: return "look or fire on a closed process";
    case TAMSKLOR_RUN_NOT_MARKED:
        return "look at an edge that is not marked for the process";
    case TAMSKLOR_RUN_MARKS_LEFT: return "fire with marks left";
    case TAMSKLOR_RUN_OUT_OF_SHAPE: return "plan or state out of shape";
    case TAMSKLOR_RUN_UNKNOWN_CODE: return "unknown code";
    case TAMSKLOR_RUN_NOT_SYNCHRONISING:
        return "edge unknown or not synchronising";
    default: return "unknown number";
    }
}

/* What a plan's place counts: "process", "order position", "node", "edge" or
   "counter"; "" where the place is always 0. With 5 the place is a process, or
   the number of processes where none of the lengths is 0. */
static inline const char *tamsklor_place_text(uint32_t number)
{
    switch (number) {
    case TAMSKLOR_PLAN_LENGTH_WRONG: return "process";
    case TAMSKLOR_PLAN_ORDER_WRONG:
    case TAMSKLOR_PLAN_PROCESS_EDGE_WRONG: return "order position";
    case TAMSKLOR_PLAN_NODE_WRONG:
    case TAMSKLOR_PLAN_INCREMENT_ZERO:
    case TAMSKLOR_PLAN_CYCLE_WITHOUT_TOKENS: return "node";
    case TAMSKLOR_PLAN_EDGE_WRONG:
    case TAMSKLOR_PLAN_NO_ROUTE_BACK:
    case TAMSKLOR_PLAN_MODULUS_TOO_SMALL: return "edge";
    case TAMSKLOR_PLAN_COUNTER_SHARED:
    case TAMSKLOR_PLAN_SUM_WRONG: return "counter";
    default: return "";
    }
}

/* What a call's answer is. */
static inline const char *tamsklor_kind_text(uint32_t kind)
{
    switch (kind) {
    case TAMSKLOR_RUN_REFUSED: return "refused";
    case TAMSKLOR_RUN_OPENED: return "opened";
    case TAMSKLOR_RUN_FOUND: return "found";
    case TAMSKLOR_RUN_WAIT: return "wait";
    case TAMSKLOR_RUN_FIRED: return "fired";
    default: return "unknown kind";
    }
}

/* Which call it is. */
static inline const char *tamsklor_code_text(uint32_t code)
{
    switch (code) {
    case TAMSKLOR_RUN_OPEN: return "open";
    case TAMSKLOR_RUN_LOOK: return "look";
    case TAMSKLOR_RUN_FIRE: return "fire";
    default: return "unknown code";
    }
}

#ifdef __cplusplus
}
#endif

#endif
