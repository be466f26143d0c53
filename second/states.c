/* Answers a stream of made-up plan values and states, which planrun can't
   bring in: README.md gives the format. */
#include <stdio.h>

#include "record.h"

static struct second_plan plan;
static struct second_state state;

/* One answer's line. */
static void show(struct second_answer answer)
{
    static const char *const words[] = {"refused", "opened", "found",
                                        "wait",    "fired",  "tokens"};
    printf("%s %lu\n", words[answer.kind], (unsigned long)answer.value);
}

/* One request: 0 a call, 1 a token reading, else a beginning. */
static void answer_request(const struct request *request)
{
    if (request->kind == 0) {
        show(second_step(&plan, &state, request->code, request->process,
                         request->edge));
    } else if (request->kind == 1) {
        show(second_token_reading(&plan, &state, request->edge));
    } else {
        uint32_t number = second_begin(&plan, &state);
        if (number == 0)
            printf("begun\n");
        else
            printf("refused %lu\n", (unsigned long)number);
    }
}

/* The state afterwards: the turn and all that is not 0. */
static void show_state(void)
{
    printf("turn %lu\n", (unsigned long)state.turn);
    for (unsigned i = 0; i < SECOND_COUNTERS; i++)
        if (state.counter[i] != 0)
            printf("counter %u %lu\n", i, (unsigned long)state.counter[i]);
    for (unsigned p = 0; p < SECOND_PROCESSES; p++) {
        if (state.position[p] != 0 || state.open[p] != 0)
            printf("process %u %u %u\n", p, state.position[p], state.open[p]);
        for (unsigned e = 0; e < SECOND_EDGES; e++)
            if (state.mark[p][e] != 0)
                printf("mark %u %u %u\n", p, e, state.mark[p][e]);
    }
}

int main(void)
{
    unsigned long number = 0;
    int more;
    while ((more = record_next()) == 1) {
        struct request request;
        printf("case %lu\n", number++);
        record_values(&plan, &state);
        while (record_request(&request))
            answer_request(&request);
        show_state();
    }
    if (more == -1)
        fprintf(stderr, "states: input cut in case %lu\n", number);
    return more == 0 && fflush(stdout) == 0 && !ferror(stdout) ? 0 : 2;
}
