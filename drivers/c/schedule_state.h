/* The threads of a round, and what each is about to do. Part of potzendai_schedule.c. */
#ifndef SCHEDULE_STATE_H
#define SCHEDULE_STATE_H

enum thread_state {
    THREAD_OPENING, /* it opens its connection, and is not scheduled yet */
    THREAD_READY,
    THREAD_BLOCKED, /* until another thread wakes it */
    THREAD_TIMED,   /* the same, or until a time that comes once nobody else can run */
    THREAD_DONE
};

/* The limits of a round. */
enum {
    LOOKS_MOST = 12,          /* a thread that looks at a word so often without a change of its own waits for another thread */
    LOOKS_LEFT_OUT = 100,     /* after so many looks, a word that is no point becomes one */
    STEPS_WITHOUT_CHANGE = 2000,
    STEPS_WITHOUT_END = 200000, /* a round counts as endless after so many steps in which no call ends */
    WAYS_GIVEN_UNTIL_TIME = 256, /* while threads spin, those that wait for a time get it after so many spins */
    PARK_STACK = 16384
};
enum { LOOKED_AT = 64, STORES = 16, CHANGES = 128, FRAMES = 64 };

/* What a thread is about to do at a point. `code` is where its code does that. */
struct event { uintptr_t address, code; bool is_write, yields, looks; };

/* How often a thread has looked at an address since it last changed something. */
struct look { uintptr_t address; uint32_t since, times; };

/* A store that only its own thread sees so far. */
struct store { uintptr_t address; uint64_t value; unsigned size; };

struct thread {
    unsigned id;
    enum thread_state state;
    bool is_in_map, was_woken;
    _Atomic int has_turn;
    const void *waits_for;
    uint64_t priority;
    struct event next;
    uintptr_t stack_low, stack_high;
    uint32_t call, calls, step;         /* its call that is made, how many it has drawn, and the points in this one */
    uint32_t idle, changes, next_listed; /* steps since it changed something; how often it did; what comes next in the list of switches */
    uintptr_t frames[FRAMES];           /* a ring: where the functions were called that it is in, the last of them number `depth` - 1 */
    uint32_t depth;
    struct look looks[LOOKED_AT];
    struct store stores[STORES];        /* a ring: the oldest is that number `oldest` */
    unsigned oldest, stored;
    void *stack_pointer;                /* of a fiber that does not run: where it continues, and its thread-locals */
    uintptr_t thread_locals;
    char park_stack[PARK_STACK] __attribute__((aligned(64)));
};

static struct thread threads[POTZENDAI_SCHEDULED];
static unsigned count, opened;
static const struct potzendai_schedule *asked;
static struct potzendai_scheduled *made;
static uint64_t random_state, lowest_priority, steps_at_end_of_call, times_given_way;
static uint64_t change_points[CHANGES];
static size_t stack_size;
static bool has_fibers;

/* The thread that this code runs in; NULL if it is not scheduled. */
static __thread struct thread *me;

/* Priorities: drawn ones are above those of PCT's change points, and these are above those of threads that wait. */
static const uint64_t drawn_priority = (uint64_t)1 << 40, changed_priority = (uint64_t)1 << 31, waiting_priority = (uint64_t)1 << 30;

/* SplitMix (Steele, Lea and Flood, 2014). */
static uint64_t draw(void)
{
    uint64_t z = random_state += 0x9e3779b97f4a7c15u;
    z = (z ^ z >> 30) * 0xbf58476d1ce4e5b9u;
    z = (z ^ z >> 27) * 0x94d049bb133111ebu;
    return z ^ z >> 31;
}

static uint64_t draw_priority(void)
{
    return (draw() >> 2) + drawn_priority;
}

/* Ends the round and its process. */
static void end_round(enum potzendai_outcome outcome)
{
    made->outcome = outcome;
    _exit(0);
}

/* The scheduled thread, if it is in a call of the map; else NULL. */
static struct thread *in_map(void)
{
    struct thread *t = me;
    return t && t->is_in_map ? t : NULL;
}

/* The scheduled thread; NULL if there is none, or while it opens its connection. */
static struct thread *scheduled(void)
{
    struct thread *t = me;
    return t && t->state == THREAD_READY ? t : NULL;
}

static void has_changed(struct thread *t)
{
    t->idle = 0;
    t->changes++;
}

/* Counts a look at an address. Returns how many there were since the thread last changed something. */
static uint32_t look_at(struct thread *t, uintptr_t address)
{
    struct look *look = &t->looks[(address >> 2 ^ address >> 8) % LOOKED_AT];
    if (look->address != address || look->since != t->changes) {
        look->address = address;
        look->since = t->changes;
        look->times = 0;
    }
    return ++look->times;
}

#endif
