/* The records of the stream of made-up plan values and states: README.md
   gives the format. */
#ifndef RECORD_H
#define RECORD_H

#include "second.h"

struct request {
    uint32_t kind; /* 0 a call, 1 a token reading, else a beginning */
    uint32_t code;
    uint32_t process;
    uint32_t edge;
};

/* Reads the next record; 1 where there is one, 0 at the end, -1 if cut. */
int record_next(void);

/* The record's plan value and state. */
void record_values(struct second_plan *plan, struct second_state *state);

/* The next request behind them; 0 where there is none left. */
int record_request(struct request *request);

#endif
