/* Tamsklor for the recorder's host in C: the plan check, the plan of an image,
   and a run of a plan by single calls.

   `./install PREFIX` puts this header, tamsklor_text.h, the archive
   libtamsklor.a (x86-64 Linux) and a pkg-config file below PREFIX; without it,
   link with crates/tamsklor_c/out/libtamsklor_c.a, which `rt lib --cpu x86-64`
   in crates/tamsklor_c writes. tamsklor_text.h has words for every number below.

   Names: the structs are those of the Rattle source with Tamsklor before the
   name, their fields are named alike and lie in the same order.

   Nothing need be checked before a call: every image, plan, state and number
   is answered. What no check can see, and the caller answers for:
   - `image` points to `length` bytes that can be read, and nothing writes to
     them before the call returns. Bytes of a mapped file are lent only where
     nobody can write or shorten that file meanwhile; else copy them first.
   - With length 0 nothing is read, and `image` may be anything, NULL too:
     the kit's guide to the libraries says that an empty slice may have a null
     or a dangling pointer, and the length is tested before any byte is read.
     The answer is 1 at 0. NULL with another length is a fault of the caller.
   - `plan` and `state` point to a whole struct each, aligned as C aligns it,
     every byte of it set; never NULL. Nothing writes to them before the call
     returns. The state of tamsklor_run_step does not overlap the plan, and
     nothing else reads or writes it meanwhile: one caller at a time.
   - The stack has room for the call: see "Stack" below.

   The calls write to no byte of the image or of the plan, and to none of the
   state but in tamsklor_run_step. They keep no state of their own, take no
   lock, ask for no memory and call nothing of the system: any number of threads
   may call them at once, on one image or plan or on several, each thread with a
   state of its own. They always return. */
#ifndef TAMSKLOR_H
#define TAMSKLOR_H

#include <stddef.h>
#include <stdint.h>

#ifdef __cplusplus
extern "C" {
#endif

/* The version of this header. tamsklor_version answers that of the archive. */
#define TAMSKLOR_VERSION_MAJOR 0
#define TAMSKLOR_VERSION_MINOR 2
#define TAMSKLOR_VERSION_PATCH 0
#define TAMSKLOR_VERSION                                                      \
    (TAMSKLOR_VERSION_MAJOR * 10000 + TAMSKLOR_VERSION_MINOR * 100 +          \
     TAMSKLOR_VERSION_PATCH)

/* Bounds of a plan: each count is 1 up to its bound, N is 1 up to
   TAMSKLOR_MODULUS_MOST, an increment and an edge's tokens are 0 up to
   theirs. */
#define TAMSKLOR_NODES 64
#define TAMSKLOR_PROCESSES 64
#define TAMSKLOR_EDGES 512
#define TAMSKLOR_COUNTERS 64
#define TAMSKLOR_MODULUS_MOST 2000000000
#define TAMSKLOR_INCREMENT_MOST 255
#define TAMSKLOR_TOKENS_MOST 1000

/* Bytes of an image's header, and of the largest image. A longer one is
   refused: its first TAMSKLOR_IMAGE_BYTES + 1 bytes get the same answer. */
#define TAMSKLOR_HEADER_BYTES 36
#define TAMSKLOR_IMAGE_BYTES                                                  \
    (TAMSKLOR_HEADER_BYTES + 2 * TAMSKLOR_PROCESSES + 2 * TAMSKLOR_NODES +    \
     4 * TAMSKLOR_NODES + 6 * TAMSKLOR_EDGES)

/* Bytes of the two large structs. */
#define TAMSKLOR_PLAN_BYTES 3600
#define TAMSKLOR_STATE_BYTES 33220

/* What a plan is turned down with: what is wrong, then what the place is. */
enum TamsklorPlanNumber {
    TAMSKLOR_PLAN_ACCEPTED = 0,
    /* fewer than 36 bytes; 0 */
    TAMSKLOR_PLAN_HEADER_CUT = 1,
    /* format not 1, or bytes 10 and 11 not zero; 0 */
    TAMSKLOR_PLAN_FORMAT_WRONG = 2,
    /* a count or N outside its bounds; 0 */
    TAMSKLOR_PLAN_COUNT_OUT_OF_BOUNDS = 3,
    /* an offset, the total or the length is not what the counts give; 0 */
    TAMSKLOR_PLAN_OFFSET_WRONG = 4,
    /* a length 0; process. Else a wrong sum of them; number of processes */
    TAMSKLOR_PLAN_LENGTH_WRONG = 5,
    /* an order entry not a node, or a node seen before; order position */
    TAMSKLOR_PLAN_ORDER_WRONG = 6,
    /* counter unknown, increment too large; node */
    TAMSKLOR_PLAN_NODE_WRONG = 7,
    /* an end unknown, too many tokens, not above the one before; edge */
    TAMSKLOR_PLAN_EDGE_WRONG = 8,
    /* process edge missing or with wrong tokens; its source's position */
    TAMSKLOR_PLAN_PROCESS_EDGE_WRONG = 9,
    /* C1 broken: nodes with one counter in several processes; counter */
    TAMSKLOR_PLAN_COUNTER_SHARED = 10,
    /* C2 broken: a synchronising out-edge, and increment 0; node */
    TAMSKLOR_PLAN_INCREMENT_ZERO = 11,
    /* C3 broken: a counter's sum is 0 or differs from counter 0's; counter */
    TAMSKLOR_PLAN_SUM_WRONG = 12,
    /* C0 broken: a cycle without tokens; lowest node on one */
    TAMSKLOR_PLAN_CYCLE_WITHOUT_TOKENS = 13,
    /* synchronising edge without a route back; edge */
    TAMSKLOR_PLAN_NO_ROUTE_BACK = 14,
    /* C4 broken: N not a multiple of Q; 0 */
    TAMSKLOR_PLAN_MODULUS_NO_MULTIPLE = 15,
    /* C4 broken: N not above the bound; edge */
    TAMSKLOR_PLAN_MODULUS_TOO_SMALL = 16
};

/* What a call, a beginning or a reading is turned down with. */
enum TamsklorRunNumber {
    TAMSKLOR_RUN_ACCEPTED = 0,
    /* unknown process */
    TAMSKLOR_RUN_UNKNOWN_PROCESS = 20,
    /* open on an open process */
    TAMSKLOR_RUN_ALREADY_OPEN = 21,
    /* look or fire on a closed one */
    TAMSKLOR_RUN_NOT_OPEN = 22,
    /* look at an edge that isn't marked for it */
    TAMSKLOR_RUN_NOT_MARKED = 23,
    /* fire with marks left */
    TAMSKLOR_RUN_MARKS_LEFT = 24,
    /* plan or state out of shape: tested before 20 to 24 and 27 */
    TAMSKLOR_RUN_OUT_OF_SHAPE = 25,
    /* code above 2: before all else */
    TAMSKLOR_RUN_UNKNOWN_CODE = 26,
    /* token reading of an edge that is unknown or not synchronising */
    TAMSKLOR_RUN_NOT_SYNCHRONISING = 27
};

/* The calls of a run, by code. */
enum TamsklorCode {
    /* marks the synchronising in-edges of the process's next node */
    TAMSKLOR_RUN_OPEN = 0,
    /* tests one edge; the mark goes where it is found */
    TAMSKLOR_RUN_LOOK = 1,
    /* fires the next node, closes the process, moves on */
    TAMSKLOR_RUN_FIRE = 2
};

/* What a call's answer is, and then its value. */
enum TamsklorKind {
    /* the number, 20 to 26; the state is as it was */
    TAMSKLOR_RUN_REFUSED = 0,
    /* how many edges are marked */
    TAMSKLOR_RUN_OPENED = 1,
    /* how many are left */
    TAMSKLOR_RUN_FOUND = 2,
    /* how many are left */
    TAMSKLOR_RUN_WAIT = 3,
    /* the node */
    TAMSKLOR_RUN_FIRED = 4
};

/* The plan check's answer: the lowest number that applies and within it the
   lowest place, or 0 and the least modulus. */
typedef struct TamsklorVerdict {
    uint32_t number; /* TAMSKLOR_PLAN_ACCEPTED, or the number, 1 to 16 */
    uint32_t place;  /* where; 0 for an accepted plan */
    uint32_t least;  /* least modulus that would pass 15 and 16; 0 if refused */
} TamsklorVerdict;

/* A plan: counts, N, Q and the tables. Entries past the counts are neither
   tested nor used. */
typedef struct TamsklorPlan {
    uint16_t nodes;
    uint16_t processes;
    uint16_t edges;
    uint16_t counters;
    uint32_t modulus;                     /* N */
    uint32_t q;                           /* counter 0's sum */
    uint16_t lengths[TAMSKLOR_PROCESSES]; /* nodes of each process */
    uint16_t order[TAMSKLOR_NODES];       /* nodes, process by process */
    uint16_t counter[TAMSKLOR_NODES];     /* of each node */
    uint16_t increment[TAMSKLOR_NODES];   /* of each node */
    uint16_t source[TAMSKLOR_EDGES];      /* of each edge */
    uint16_t destination[TAMSKLOR_EDGES]; /* of each edge */
    uint16_t tokens[TAMSKLOR_EDGES];      /* of each edge, at the start */
} TamsklorPlan;

/* The plan check's answer with the plan beside it: the image's tables with 0
   past the counts, and all 0 after a refusal. */
typedef struct TamsklorPlanRead {
    uint32_t number;
    uint32_t place;
    uint32_t least;
    TamsklorPlan plan;
} TamsklorPlanRead;

/* A run's state. Anything may be handed in: a state out of shape is refused
   with 25. */
typedef struct TamsklorState {
    uint16_t positions[TAMSKLOR_PROCESSES]; /* in each process, from 0 */
    uint8_t opened[TAMSKLOR_PROCESSES];     /* 1 open, 0 closed */
    uint8_t marks[TAMSKLOR_PROCESSES * TAMSKLOR_EDGES]; /* 1: still to see */
    uint32_t counters[TAMSKLOR_COUNTERS];
    uint32_t turn; /* raised by each call not refused; after 4294967295: 0 */
} TamsklorState;

/* Where the mark of an edge for a process stands: a row of TAMSKLOR_EDGES for
   each process. state.marks[TAMSKLOR_MARK(process, edge)] */
#define TAMSKLOR_MARK(process, edge)                                          \
    ((size_t)(process) * TAMSKLOR_EDGES + (size_t)(edge))

/* A beginning's answer. */
typedef struct TamsklorBegun {
    uint32_t number;     /* TAMSKLOR_RUN_ACCEPTED or ..._OUT_OF_SHAPE */
    TamsklorState state; /* all 0: the fresh state, or none */
} TamsklorBegun;

/* A call's answer. */
typedef struct TamsklorCallAnswer {
    uint32_t kind;
    uint32_t value;
} TamsklorCallAnswer;

/* A call's answer beside the state that it leaves. */
typedef struct TamsklorStepped {
    TamsklorCallAnswer answer;
    TamsklorState state;
} TamsklorStepped;

/* A token reading's answer. */
typedef struct TamsklorTokenAnswer {
    uint32_t number; /* TAMSKLOR_RUN_ACCEPTED, 25 or 27 */
    uint32_t count;  /* 01's reading, modulo N; with Q above 1 it may be more
                        than the tokens on the edge; 0 if refused */
} TamsklorTokenAnswer;

/* The version of the archive: TAMSKLOR_VERSION of the header it belongs to. */
uint32_t tamsklor_version(void);

/* The plan check over the image's bytes. */
TamsklorVerdict tamsklor_plan_check(const uint8_t *image, size_t length);

/* The plan of an image. */
TamsklorPlanRead tamsklor_plan_read(const uint8_t *image, size_t length);

/* Begins a run; refused with 25 where the plan is out of shape. */
TamsklorBegun tamsklor_run_begin(const TamsklorPlan *plan);

/* One call on a state, updated where it stands. `edge` is ignored by open and
   fire. */
TamsklorCallAnswer tamsklor_run_step(const TamsklorPlan *plan,
                                     TamsklorState *state, uint32_t code,
                                     uint32_t process, uint32_t edge);

/* The same call with plan and state by value; what is handed in stays as it
   is. */
TamsklorStepped tamsklor_run_stepped(TamsklorPlan plan, TamsklorState state,
                                     uint32_t code, uint32_t process,
                                     uint32_t edge);

/* The token reading of a synchronising edge, for the service screen. */
TamsklorTokenAnswer tamsklor_run_tokens(const TamsklorPlan *plan,
                                        const TamsklorState *state,
                                        uint32_t edge);

/* Stack, in bytes.

   ..._STACK: what a call uses below its caller's frame, structs taken by value
   included. The struct that it answers is not counted: it stands in the
   caller's frame, and there some compilers keep it twice.

   ..._THREAD: the size of a thread's stack, as pthread_attr_setstacksize takes
   it, that suffices for a function which keeps the answer in a local and makes
   this call: the call, the answer twice, and 12 KiB for the thread's own data,
   the function itself and the loader's first binding of a name. What else the
   thread calls or keeps, large thread-local variables of the program too, comes
   on top.

   tamsklor_version needs next to nothing. tests/host_threads.c makes every call
   on a stack of its THREAD size; docs/SPEED.md has what was measured. */
#define TAMSKLOR_PLAN_CHECK_STACK 21504
#define TAMSKLOR_PLAN_READ_STACK 21504
#define TAMSKLOR_RUN_BEGIN_STACK 5120
#define TAMSKLOR_RUN_STEP_STACK 245760
#define TAMSKLOR_RUN_STEPPED_STACK 212992
#define TAMSKLOR_RUN_TOKENS_STACK 40960

#define TAMSKLOR_PLAN_CHECK_THREAD                                            \
    TAMSKLOR_THREAD_BYTES(TAMSKLOR_PLAN_CHECK_STACK, 12)
#define TAMSKLOR_PLAN_READ_THREAD                                             \
    TAMSKLOR_THREAD_BYTES(TAMSKLOR_PLAN_READ_STACK, 12 + TAMSKLOR_PLAN_BYTES)
#define TAMSKLOR_RUN_BEGIN_THREAD                                             \
    TAMSKLOR_THREAD_BYTES(TAMSKLOR_RUN_BEGIN_STACK, 4 + TAMSKLOR_STATE_BYTES)
#define TAMSKLOR_RUN_STEP_THREAD                                              \
    TAMSKLOR_THREAD_BYTES(TAMSKLOR_RUN_STEP_STACK, 8)
#define TAMSKLOR_RUN_STEPPED_THREAD                                           \
    TAMSKLOR_THREAD_BYTES(TAMSKLOR_RUN_STEPPED_STACK, 8 + TAMSKLOR_STATE_BYTES)
#define TAMSKLOR_RUN_TOKENS_THREAD                                            \
    TAMSKLOR_THREAD_BYTES(TAMSKLOR_RUN_TOKENS_STACK, 8)

/* A thread's size, in whole pages, for a call's stack and answer. */
#define TAMSKLOR_THREAD_BYTES(stack, answer)                                  \
    (((stack) + 2 * (answer) + 12288 + 4095) / 4096 * 4096)

#ifdef __cplusplus
}
#endif

#endif
