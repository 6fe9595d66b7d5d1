/* A map that is tested: its functions, their answers, and how a history records them. Included by potzendai_test.h. */
#ifndef POTZENDAI_MAP_H
#define POTZENDAI_MAP_H

#include "potzendai_schedule.h"
#include "streaming.h"
#include <inttypes.h>
#include <stdlib.h>
#include <time.h>

/* What a function of the map answers. */
enum map_said {
    MAP_TOLD,    /* there was a value, which is given: of a put, del or replace the one before; of a floor, ceiling or pop_first a pair */
    MAP_NONE,    /* there was none */
    MAP_DONE,    /* it was done, and what it found is not said; of a replace: the old value was there, and is replaced */
    MAP_FOUND,   /* there was a value, which is not given; of a floor, ceiling or pop_first its key is */
    MAP_OTHER,   /* of a replace: the old value was not there, and nothing has changed */
    MAP_REFUSED, /* nothing has changed, as of a transaction that was rolled back */
    MAP_UNKNOWN  /* nobody knows whether it was done, as of a request that timed out */
};

enum { POTZENDAI_SAYINGS = 7 };

/* Any function but `get` and `put` may be NULL: then it is not called. Keys are from 0 up; the map holds no others. With `begin` the run makes
 * its maps itself, one after another. It makes them from `map`, which may be anything, or NULL. */
struct potzendai_map {
    const char *name;
    void *map;
    unsigned value_bits; /* how many bits a value may have, or 0 for 64: values from 1 up are put */
    void *(*open)(void *map, unsigned thread); /* called in each thread: its own connection to the map, or NULL if that fails, with errno
                                                  ENOMEM if memory is refused. The run opens one too, for gets at rest; its number comes
                                                  after those of the threads. Without this function, the connection is `map` */
    void (*close)(void *connection);
    enum map_said (*get)(void *connection, uint64_t key, uint64_t *found);
    enum map_said (*put)(void *connection, uint64_t key, uint64_t value, uint64_t *found);
    enum map_said (*del)(void *connection, uint64_t key, uint64_t *found);
    enum map_said (*scan)(void *connection, uint64_t low, uint64_t high, struct recording_pair *pairs, size_t room, size_t *count);
    enum map_said (*replace)(void *connection, uint64_t key, uint64_t old, uint64_t value, uint64_t *found);
    enum map_said (*put_if_absent)(void *connection, uint64_t key, uint64_t value, uint64_t *found);
    enum map_said (*floor)(void *connection, uint64_t key, struct recording_pair *pair);
    enum map_said (*ceiling)(void *connection, uint64_t key, struct recording_pair *pair);
    enum map_said (*pop_first)(void *connection, struct recording_pair *pair);
    void *(*begin)(void *map);     /* makes a new map for `open`, or for the functions; NULL if that fails, with errno as of `open` */
    void (*end)(void *opened);     /* closes it at the end */
    void *(*reopen)(void *opened); /* closes it, at rest, and opens it again with its pairs; returns the same pointer or another */
};

/* Under `--kill` the folder in which `begin` opens its store, with what it held; NULL else. `end` is not called then. */
static inline const char *potzendai_store(void)
{
    return getenv("POTZENDAI_STORE");
}

enum potzendai_function {
    POTZENDAI_GET, POTZENDAI_PUT, POTZENDAI_DEL, POTZENDAI_SCAN, POTZENDAI_REPLACE, POTZENDAI_PUT_IF_ABSENT, POTZENDAI_FLOOR,
    POTZENDAI_CEILING, POTZENDAI_POP_FIRST, POTZENDAI_FUNCTIONS
};

static const char *const potzendai_functions[] = {
    "get", "put", "del", "scan", "replace", "put_if_absent", "floor", "ceiling", "pop_first", NULL
};

static const char *const potzendai_sayings[] = {"told", "none", "done", "found", "other", "refused", "unknown"};

/* A call: `other` is the old value of a replace, and the high key of a scan. */
struct potzendai_request { enum potzendai_function function; uint64_t key, value, other; };

/* The answer to a call: the value or the pair that was found; `pairs`, with room for so many, are those of a scan. */
struct potzendai_answer {
    enum map_said said;
    struct recording_pair pair;
    struct recording_pair *pairs;
    size_t room, count;
};

static inline bool potzendai_has(const struct potzendai_map *map, enum potzendai_function function)
{
    switch (function) {
    case POTZENDAI_GET: return map->get != NULL;
    case POTZENDAI_PUT: return map->put != NULL;
    case POTZENDAI_DEL: return map->del != NULL;
    case POTZENDAI_SCAN: return map->scan != NULL;
    case POTZENDAI_REPLACE: return map->replace != NULL;
    case POTZENDAI_PUT_IF_ABSENT: return map->put_if_absent != NULL;
    case POTZENDAI_FLOOR: return map->floor != NULL;
    case POTZENDAI_CEILING: return map->ceiling != NULL;
    case POTZENDAI_POP_FIRST: return map->pop_first != NULL;
    default: return false;
    }
}

/* Whether a function may change the map. */
static inline bool potzendai_writes(enum potzendai_function function)
{
    return function == POTZENDAI_PUT || function == POTZENDAI_DEL || function == POTZENDAI_REPLACE || function == POTZENDAI_PUT_IF_ABSENT
        || function == POTZENDAI_POP_FIRST;
}

#ifdef __cplusplus
extern "C" {
#endif

/* The scheduler; NULL if the program is linked without one. */
__attribute__((weak)) const struct potzendai_scheduler *potzendai_scheduler;

#ifdef __cplusplus
}
#endif

#ifdef __cplusplus
#define POTZENDAI_OF_THREAD static thread_local
#else
#define POTZENDAI_OF_THREAD static _Thread_local
#endif

/* Of each thread that calls the map: how many of a thousand points give way to other threads, and the state of the generator that draws them. */
POTZENDAI_OF_THREAD unsigned potzendai_yields;
POTZENDAI_OF_THREAD uint64_t potzendai_yield_state;

/* Of each such thread: whether it is within a call, and how many points it has reached within calls under `--yield`. */
POTZENDAI_OF_THREAD bool potzendai_is_calling;
POTZENDAI_OF_THREAD uint64_t potzendai_points;

/* Calls a function of the map. */
static inline void potzendai_ask(const struct potzendai_map *map, void *connection, const struct potzendai_request *request,
                                 struct potzendai_answer *answer)
{
    uint64_t key = request->key, *found = &answer->pair.value;
    answer->pair.key = key;
    answer->pair.value = 0;
    answer->count = 0;
    potzendai_is_calling = true;
    if (potzendai_scheduler)
        potzendai_scheduler->in();
    switch (request->function) {
    case POTZENDAI_GET: answer->said = map->get(connection, key, found); break;
    case POTZENDAI_PUT: answer->said = map->put(connection, key, request->value, found); break;
    case POTZENDAI_DEL: answer->said = map->del(connection, key, found); break;
    case POTZENDAI_SCAN: answer->said = map->scan(connection, key, request->other, answer->pairs, answer->room, &answer->count); break;
    case POTZENDAI_REPLACE: answer->said = map->replace(connection, key, request->other, request->value, found); break;
    case POTZENDAI_PUT_IF_ABSENT: answer->said = map->put_if_absent(connection, key, request->value, found); break;
    case POTZENDAI_FLOOR: answer->said = map->floor(connection, key, &answer->pair); break;
    case POTZENDAI_CEILING: answer->said = map->ceiling(connection, key, &answer->pair); break;
    default: answer->said = map->pop_first(connection, &answer->pair);
    }
    if (potzendai_scheduler)
        potzendai_scheduler->out();
    potzendai_is_calling = false;
}

/* What becomes of a call: its answer does not fit it; it is left out, since it says nothing; it stays without an answer; or it is a call and an
 * answer of a history. */
enum potzendai_fate { POTZENDAI_UNFIT, POTZENDAI_LEFT_OUT, POTZENDAI_STAYS_OPEN, POTZENDAI_ANSWERED };

struct potzendai_row { enum potzendai_fate fate; enum recording_kind call, answer; };

#define POTZENDAI_ROW(call, answer) {POTZENDAI_ANSWERED, RECORDING_##call, RECORDING_##answer}
#define POTZENDAI_NO_ROW {POTZENDAI_UNFIT, RECORDING_GET, RECORDING_NONE}
#define POTZENDAI_OUT {POTZENDAI_LEFT_OUT, RECORDING_GET, RECORDING_REFUSED}
#define POTZENDAI_OPEN(call) {POTZENDAI_STAYS_OPEN, RECORDING_##call, RECORDING_NONE}

/* By function and answer, in the order of the two enumerations. */
static const struct potzendai_row potzendai_rows[POTZENDAI_FUNCTIONS][POTZENDAI_SAYINGS] = {
    {POTZENDAI_ROW(GET, VALUE), POTZENDAI_ROW(GET, NONE), POTZENDAI_OUT, POTZENDAI_ROW(GET, FOUND), POTZENDAI_NO_ROW, POTZENDAI_OUT,
     POTZENDAI_OUT},
    {POTZENDAI_ROW(INSERT, VALUE), POTZENDAI_ROW(INSERT, NONE), POTZENDAI_ROW(INSERT, DONE), POTZENDAI_ROW(INSERT, FOUND),
     POTZENDAI_NO_ROW, POTZENDAI_ROW(INSERT, REFUSED), POTZENDAI_OPEN(INSERT)},
    {POTZENDAI_ROW(REMOVE, VALUE), POTZENDAI_ROW(REMOVE, NONE), POTZENDAI_ROW(REMOVE, DONE), POTZENDAI_ROW(REMOVE, FOUND),
     POTZENDAI_NO_ROW, POTZENDAI_ROW(REMOVE, REFUSED), POTZENDAI_OPEN(REMOVE)},
    {POTZENDAI_ROW(SCAN, LIST), POTZENDAI_ROW(SCAN, LIST), POTZENDAI_OUT, POTZENDAI_NO_ROW, POTZENDAI_NO_ROW, POTZENDAI_OUT,
     POTZENDAI_OUT},
    {POTZENDAI_ROW(REPLACE, VALUE), POTZENDAI_ROW(REPLACE, NONE), POTZENDAI_ROW(REPLACE, VALUE), POTZENDAI_ROW(REPLACE, FOUND),
     POTZENDAI_ROW(REPLACE, OTHER), POTZENDAI_ROW(REPLACE, REFUSED), POTZENDAI_OPEN(REPLACE)},
    {POTZENDAI_ROW(GET, VALUE), POTZENDAI_ROW(INSERT, NONE), POTZENDAI_NO_ROW, POTZENDAI_ROW(GET, FOUND), POTZENDAI_NO_ROW,
     POTZENDAI_OUT, POTZENDAI_OPEN(INSERT)},
    {POTZENDAI_ROW(SCAN, LIST), POTZENDAI_ROW(SCAN, LIST), POTZENDAI_OUT, POTZENDAI_ROW(GET, FOUND), POTZENDAI_NO_ROW, POTZENDAI_OUT,
     POTZENDAI_OUT},
    {POTZENDAI_ROW(SCAN, LIST), POTZENDAI_ROW(SCAN, LIST), POTZENDAI_OUT, POTZENDAI_ROW(GET, FOUND), POTZENDAI_NO_ROW, POTZENDAI_OUT,
     POTZENDAI_OUT},
    {POTZENDAI_ROW(REMOVE, VALUE), POTZENDAI_ROW(SCAN, LIST), POTZENDAI_NO_ROW, POTZENDAI_ROW(REMOVE, FOUND), POTZENDAI_NO_ROW,
     POTZENDAI_OUT, POTZENDAI_NO_ROW}
};

/* Whether only its answer says which call of the history it was. */
static inline bool potzendai_is_held(enum potzendai_function function)
{
    return function >= POTZENDAI_PUT_IF_ABSENT;
}

/* The high key of the scan as which a ceiling or a floor is recorded: that of the pair it found, if that lies in its range. */
static inline uint64_t potzendai_high(const struct potzendai_request *request, const struct potzendai_answer *answer)
{
    bool is_told = answer->said == MAP_TOLD;
    switch (request->function) {
    case POTZENDAI_SCAN: return request->other;
    case POTZENDAI_FLOOR: return request->key;
    case POTZENDAI_CEILING: return is_told && answer->pair.key >= request->key ? answer->pair.key : UINT64_MAX;
    default: return UINT64_MAX;
    }
}

static inline uint64_t potzendai_low(const struct potzendai_request *request, const struct potzendai_answer *answer)
{
    if (request->function == POTZENDAI_FLOOR)
        return answer->said == MAP_TOLD && answer->pair.key <= request->key ? answer->pair.key : 0;
    return request->function == POTZENDAI_POP_FIRST ? 0 : request->key;
}

/* The words of the event of a call. */
static inline void potzendai_words(const struct potzendai_request *request, const struct potzendai_answer *answer,
                                   enum recording_kind call, uint64_t words[3])
{
    words[0] = request->function >= POTZENDAI_FLOOR ? answer->pair.key : request->key;
    words[1] = request->value;
    words[2] = 0;
    if (call == RECORDING_SCAN) {
        words[0] = potzendai_low(request, answer);
        words[1] = potzendai_high(request, answer);
    } else if (call == RECORDING_REPLACE) {
        words[1] = request->other;
        words[2] = request->value;
    }
}

/* A generator of numbers: SplitMix (Steele, Lea and Flood, 2014). Its state may be any number. */
static inline uint64_t potzendai_mix(uint64_t *state)
{
    uint64_t z = *state += 0x9e3779b97f4a7c15u;
    z = (z ^ z >> 30) * 0xbf58476d1ce4e5b9u;
    z = (z ^ z >> 27) * 0x94d049bb133111ebu;
    return z ^ z >> 31;
}

/* A number below a limit. */
static inline uint64_t potzendai_draw_below(uint64_t *state, uint64_t limit)
{
    return potzendai_mix(state) % limit;
}

/* The true time, also if a scheduler shows the map another one. */
static inline void potzendai_clock(clockid_t clock, struct timespec *now)
{
    if (potzendai_scheduler)
        potzendai_scheduler->clock(clock, now);
    else
        clock_gettime(clock, now);
}

static inline double potzendai_now(void)
{
    struct timespec now;
    potzendai_clock(CLOCK_MONOTONIC, &now);
    return (double)now.tv_sec + (double)now.tv_nsec / 1e9;
}

static inline void potzendai_pause(void)
{
    struct timespec some_time = {0, (long)(1000 + potzendai_draw_below(&potzendai_yield_state, 50000))};
    if (potzendai_draw_below(&potzendai_yield_state, 4))
        sched_yield();
    else
        nanosleep(&some_time, NULL);
}

#ifdef __cplusplus
extern "C" {
#endif

/* A map's functions may call this at each place where another thread should be able to run: under `--yield` one sometimes does. A source that does
 * not include this file declares it: void potzendai_point(void); in C++ with extern "C" before it. */
__attribute__((weak)) void potzendai_point(void);
__attribute__((weak)) void potzendai_point(void)
{
    if (potzendai_yields == 0)
        return;
    potzendai_points += potzendai_is_calling;
    if (potzendai_draw_below(&potzendai_yield_state, 1000) < potzendai_yields)
        potzendai_pause();
}

#ifdef __cplusplus
}
#endif

#endif
