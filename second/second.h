/* Second program for document 01: reader, machine, token reading, planrun's
   text. Written from 01 alone; shares nothing with the proved program. */
#ifndef SECOND_H
#define SECOND_H

#include <stddef.h>
#include <stdint.h>

enum {
    SECOND_NODES = 64,
    SECOND_PROCESSES = 64,
    SECOND_EDGES = 512,
    SECOND_COUNTERS = 64,
    SECOND_INCREMENT = 255,
    SECOND_TOKENS = 1000,
    SECOND_MODULUS = 2000000000,
    SECOND_HEADER_BYTES = 36,
    SECOND_INPUT_BYTES = 65536,
    SECOND_TEXT_BYTES = 300000
};

/* A plan value: counts, N, Q and the tables ("Running a plan"). */
struct second_plan {
    uint32_t nodes;
    uint32_t processes;
    uint32_t edges;
    uint32_t counters;
    uint32_t modulus;   /* N */
    uint32_t round_sum; /* Q */
    uint16_t length[SECOND_PROCESSES];
    uint16_t order[SECOND_NODES];
    uint16_t counter[SECOND_NODES];
    uint16_t increment[SECOND_NODES];
    uint16_t source[SECOND_EDGES];
    uint16_t target[SECOND_EDGES];
    uint16_t tokens[SECOND_EDGES];
};

/* The reader's answer; number 0 means accepted, else the plan is all 0. */
struct second_reading {
    uint32_t number;
    uint32_t place;
    uint32_t round_sum; /* Q */
    uint32_t modulus;   /* N */
    uint32_t least;
    struct second_plan plan;
};

/* A run's state; a position counts inside its process, from 0. */
struct second_state {
    uint16_t position[SECOND_PROCESSES];
    uint8_t open[SECOND_PROCESSES];
    uint8_t mark[SECOND_PROCESSES][SECOND_EDGES];
    uint32_t counter[SECOND_COUNTERS];
    uint32_t turn;
};

enum second_code { SECOND_OPEN = 0, SECOND_LOOK = 1, SECOND_FIRE = 2 };

enum second_kind {
    SECOND_REFUSED, /* value: the number */
    SECOND_OPENED,  /* value: edges marked */
    SECOND_FOUND,   /* value: edges left */
    SECOND_WAIT,    /* value: edges left */
    SECOND_FIRED,   /* value: the node */
    SECOND_TOKENS_READ /* value: the token reading */
};

struct second_answer {
    enum second_kind kind;
    uint32_t value;
};

/* Everything planrun prints for one input. */
struct second_text {
    size_t length;
    char bytes[SECOND_TEXT_BYTES];
};

struct second_reading second_read(const uint8_t *image, size_t length);

/* 0, or 25 where the plan is out of shape; the state is all zero either way. */
uint32_t second_begin(const struct second_plan *plan,
                      struct second_state *state);

/* One call; refused with 26, 25, 20, 21 to 24 in this order. */
struct second_answer second_step(const struct second_plan *plan,
                                 struct second_state *state, uint32_t code,
                                 uint32_t process, uint32_t edge);

struct second_answer second_token_reading(const struct second_plan *plan,
                                          const struct second_state *state,
                                          uint32_t edge);

void second_transcript(const uint8_t *input, size_t length,
                       struct second_text *text);

#endif
