/* What a driver asks of the scheduler in potzendai_schedule.c. A program that is linked without that file has no scheduler, and the system runs its
 * threads as it will. Included by potzendai_map.h. */
#ifndef POTZENDAI_SCHEDULE_H
#define POTZENDAI_SCHEDULE_H

#include <stdbool.h>
#include <stddef.h>
#include <stdint.h>
#include <time.h>

/* How the next thread is chosen. */
enum potzendai_strategy {
    POTZENDAI_WALK,  /* at each point, any thread that can run */
    POTZENDAI_PCT,   /* by priorities that change at a few drawn points: Burckhardt, Kothari, Musuvathi and Nagarakatte, 2010 */
    POTZENDAI_POS,   /* by a priority for each event, drawn again where events race: Yuan, Yang and Gu, 2018 */
    POTZENDAI_LISTED /* as a list of switches says */
};

/* Which accesses of memory are points, where another thread may go on. */
enum potzendai_points {
    POTZENDAI_ALL_POINTS, /* each access outside the thread's own stack */
    POTZENDAI_ATOMICS,    /* atomic accesses only */
    POTZENDAI_LEARNING,   /* each access; the words of memory at which threads meet are noted */
    POTZENDAI_LEARNED     /* accesses of words at which threads were seen to meet */
};

enum { POTZENDAI_SCHEDULED = 64, POTZENDAI_SWITCHES = 1 << 16, POTZENDAI_LEARNED_WORDS = 1 << 17 };

/* How many addresses say where a thread is: that of an instruction, and of the calls that lead to it, the innermost first; 0 if there are fewer. */
enum { POTZENDAI_CODES = 6 };

/* Thread `thread` gives way to thread `to` in its call number `call`, at point number `step` of that call. If `to` is DRAIN, it does not give way:
 * the oldest store in its buffer reaches the memory. The rest says which call it is, and where in it. */
struct potzendai_switch {
    uint32_t thread, call, step, to, function;
    uint64_t key;
    uintptr_t codes[POTZENDAI_CODES];
};
enum { POTZENDAI_DRAIN = POTZENDAI_SCHEDULED };

/* Instead of an instruction: as a call begins, and as it ends. */
enum { POTZENDAI_AT_CALL = 1, POTZENDAI_AT_RETURN = 2 };
/* Instead of a function: between calls. */
enum { POTZENDAI_IN_NO_CALL = 99 };

/* A word of memory: which threads touched it, and which wrote it, a bit each. */
struct potzendai_word { uintptr_t word; uint64_t touched, written; };

/* What a round is to be. `calls_left_out` has a bit for each call that is not made, in `bits_each` words of 64 bits for each thread. */
struct potzendai_schedule {
    enum potzendai_strategy strategy;
    enum potzendai_points points;
    unsigned threads, depth;
    bool has_buffers, has_kernel_threads;
    uint64_t seed, round, steps_expected;
    struct potzendai_word *words;
    const struct potzendai_switch *listed;
    uint32_t listed_count;
    const uint64_t *calls_left_out;
    uint64_t bits_each;
};

/* How a round ends. The first is also the outcome of a round whose process died. */
enum potzendai_outcome { POTZENDAI_UNFINISHED, POTZENDAI_FINISHED, POTZENDAI_DEADLOCK, POTZENDAI_ENDLESS, POTZENDAI_STARTS_THREADS };

/* Where a thread is, or was last. */
struct potzendai_at { uint32_t function; bool is_in_call, is_over; uint64_t key; uintptr_t codes[POTZENDAI_CODES]; };

/* What a round was. It is in memory that the processes share, since the round's own process may not live to its end. */
struct potzendai_scheduled {
    enum potzendai_outcome outcome;
    uint64_t steps, accesses, hash;
    uint32_t count;
    struct potzendai_at at[POTZENDAI_SCHEDULED];
    struct potzendai_switch switches[POTZENDAI_SWITCHES];
};

/* The scheduler's functions, in the order of a round. */
struct potzendai_scheduler {
    bool (*is_pinned)(void);       /* whether addresses are the same in each process */
    void (*clock)(clockid_t clock, struct timespec *now); /* the true time, which is not shown to the map */
    void *(*share)(size_t size);   /* memory that processes share, all 0; NULL if it is refused */
    void (*begin)(const struct potzendai_schedule *asked, struct potzendai_scheduled *made); /* before threads are made */
    void (*enter)(unsigned number); /* first in each thread: waits for its turn to open its connection */
    void (*ready)(void);            /* in a thread that has opened it */
    void (*run)(void);              /* in the thread that made them: returns once all have left */
    bool (*call)(uint32_t function, uint64_t key); /* in a thread that has drawn a call: whether it is to be made */
    void (*in)(void);               /* around each function of the map */
    void (*out)(void);
    void (*leave)(void);            /* last in each thread: does not return, since the process ends with the round */
    void (*locate)(const uintptr_t codes[POTZENDAI_CODES], char *text, size_t room); /* where an instruction is in the source, as far as is known */
};

#ifdef __cplusplus
extern "C" {
#endif

/* The scheduler, or NULL: potzendai_schedule.c defines it with a value, and the driver without one, weakly. */
extern const struct potzendai_scheduler *potzendai_scheduler;

#ifdef __cplusplus
}
#endif

#endif
