/* Threads that draw calls, make them and record them. Included by potzendai_test.h. */
#ifndef POTZENDAI_THREADS_H
#define POTZENDAI_THREADS_H

#include "potzendai_cache.h"
#include <pthread.h>

#ifdef __cplusplus
#define POTZENDAI_RELAXED std::memory_order_relaxed
#else
#define POTZENDAI_RELAXED memory_order_relaxed
#endif

enum potzendai_memory { POTZENDAI_FORGOTTEN, POTZENDAI_ABSENT, POTZENDAI_PRESENT };

/* What is known of a key: how many threads write it now, and whether two ever did; what its one writer remembers, or its lock. It is loose once a
 * write without an answer may take effect at any time: then nobody knows what the next write finds. Of a cache also: how many removals began, and
 * how many of them are open. `held_at` is 1 more than the number of removals at a put that no removal overlapped, or 0. */
struct potzendai_key {
    recording_word writers, is_met, held_at, removals, removing;
    pthread_mutex_t lock;
    enum potzendai_memory memory;
    bool is_loose;
    uint64_t value;
};

/* A call of which nobody knows whether it was done, as it is recorded. */
struct potzendai_open { enum recording_kind call; uint64_t words[3]; };

/* What was counted of a run: its calls, how many others were open at their invocations, the answers, and the functions called. `hits` and `misses`
 * are the gets that found a value or none. `losses` counts the keys that a cache lost, `left_out` its scans that are in no history. `points` counts
 * the points that were reached within calls, and `wrongs` how often a map that is made wrong was wrong. */
struct potzendai_counts {
    uint64_t calls, overlap, sayings[POTZENDAI_SAYINGS], functions_called[POTZENDAI_FUNCTIONS];
    uint64_t hits, misses, losses, left_out, points, wrongs;
};

/* What the threads share. `truly` is the map itself; `map` is the one that is called, which may be made wrong. */
struct potzendai_run {
    const struct potzendai_options *options;
    const struct potzendai_map *map, *truly;
    struct potzendai_key *keys;
    struct recording *recording;
    struct streaming *stream;
    uint64_t threads, keys_drawn, calls, round;
    uint64_t puts[1024], values_from;
    struct potzendai_counts counts;
    bool is_scheduled;
    int events; /* of a process that is killed: where its events go, or 0 */
    struct potzendai_open open_calls[RECORDING_PROCESSES];
    recording_word open_count;
    recording_word next_process, processes, arrived, has_begun, is_over, fault, wrongs, pops, popping, left_out;
    char complaint[200];
};

/* What only one thread uses. Others read the numbers of its calls and of those refused. */
struct potzendai_thread {
    struct potzendai_run *run;
    unsigned number, process;
    uint64_t state, made, sayings[POTZENDAI_SAYINGS], functions_called[POTZENDAI_FUNCTIONS], hits, misses, losses, points;
    uint64_t *seen;
    struct recording_pair *pairs;
    void *connection;
    pthread_t id;
    recording_word calls, refused;
    char apart[128];
};

/* The thread itself while it makes a call that only reads; else NULL. */
POTZENDAI_OF_THREAD struct potzendai_thread *potzendai_reader;

#ifdef __cplusplus
extern "C" {
#endif

/* A read of the map may call this once it has taken its snapshot: it counts as answered at this moment, and may read its pairs later. If it is
 * called several times, the last one counts. A source that does not include this file declares it: void potzendai_taken(void); */
__attribute__((weak)) void potzendai_taken(void);
__attribute__((weak)) void potzendai_taken(void)
{
    struct potzendai_thread *t = potzendai_reader;
    if (t && t->run->stream)
        streaming_taken(t->run->stream, t->process);
    else if (t && !t->run->events)
        recording_taken(t->run->recording, t->process);
}

#ifdef __cplusplus
}
#endif

/* Ends the run with a status and a reason. The first call decides. Returns -1. */
__attribute__((format(printf, 3, 4)))
static inline int potzendai_fail(struct potzendai_run *run, enum potzendai_status status, const char *format, ...)
{
    uint64_t none = 0;
    if (!atomic_compare_exchange_strong(&run->fault, &none, (uint64_t)100))
        return -1;
    va_list arguments;
    va_start(arguments, format);
    vsnprintf(run->complaint, sizeof run->complaint, format, arguments);
    va_end(arguments);
    atomic_store(&run->fault, (uint64_t)status);
    return -1;
}

/* Opens the connection of a thread; if that fails, the run ends. */
static inline void *potzendai_open_connection(struct potzendai_run *run, const struct potzendai_map *map, unsigned thread)
{
    if (!map->open)
        return map->map;
    errno = 0;
    void *connection = map->open(map->map, thread);
    if (!connection && errno == ENOMEM)
        potzendai_fail(run, POTZENDAI_NO_MEMORY, "memory: no connection for thread %u", thread);
    else if (!connection)
        potzendai_fail(run, POTZENDAI_BAD_WORDS, "open: no connection for thread %u", thread);
    return connection;
}

static inline int potzendai_note_hold(struct potzendai_run *run, unsigned p)
{
    return run->stream ? streaming_hold(run->stream, p) : recording_hold(run->recording, p);
}

static inline int potzendai_note_drop(struct potzendai_run *run, unsigned p)
{
    return run->stream ? streaming_drop(run->stream, p) : recording_drop(run->recording, p);
}

/* Writes an event as a line, which is there as a whole or not at all. */
static inline int potzendai_note_line(struct potzendai_run *run, unsigned p, enum recording_kind kind, const uint64_t words[3],
                                      const struct recording_pair *pairs)
{
    char text[RECORDING_EVENT_TEXT + (POTZENDAI_SPAN + 1) * RECORDING_PAIR_TEXT];
    struct recording_event event = {0, {words[0], words[1], words[2]}, kind, p, RECORDING_AS_MADE};
    char *end = recording_put_event(text, &event, pairs);
    *end++ = '\n';
    return write(run->events, text, (size_t)(end - text)) == end - text ? 0 : -1;
}

static inline int potzendai_note_call(struct potzendai_run *run, unsigned p, enum recording_kind call, const uint64_t words[3])
{
    if (run->events)
        return potzendai_note_line(run, p, call, words, NULL);
    return run->stream ? streaming_invoke(run->stream, p, call, words[0], words[1], words[2])
                       : recording_add(run->recording, p, call, words[0], words[1], words[2]);
}

static inline int potzendai_note_pairs(struct potzendai_run *run, unsigned p, const struct recording_pair *pairs, size_t count)
{
    const uint64_t words[3] = {0, count, 0};
    if (run->events)
        return potzendai_note_line(run, p, RECORDING_LIST, words, pairs);
    return run->stream ? streaming_answer_pairs(run->stream, p, pairs, count) : recording_answer_pairs(run->recording, p, pairs, count);
}

static inline int potzendai_note_answer(struct potzendai_run *run, unsigned p, enum recording_kind kind,
                                        const struct potzendai_request *request, const struct potzendai_answer *answer)
{
    if (kind == RECORDING_LIST)
        return request->function == POTZENDAI_SCAN
                   ? potzendai_note_pairs(run, p, answer->pairs, answer->said == MAP_TOLD ? answer->count : 0)
                   : potzendai_note_pairs(run, p, &answer->pair, answer->said == MAP_TOLD);
    bool is_done_replace = request->function == POTZENDAI_REPLACE && answer->said == MAP_DONE;
    uint64_t value = is_done_replace ? request->other : answer->pair.value;
    const uint64_t words[3] = {value, 0, 0};
    if (run->events)
        return potzendai_note_line(run, p, kind, words, NULL);
    return run->stream ? streaming_respond(run->stream, p, kind, value, 0) : recording_add(run->recording, p, kind, value, 0, 0);
}

/* Whether an answer has a value that the driver needs for its own use if the map is a cache. */
static inline bool potzendai_tells_own(const struct potzendai_request *request, const struct potzendai_answer *answer)
{
    if (answer->said != MAP_TOLD)
        return false;
    for (size_t i = 0; request->function == POTZENDAI_SCAN && i < answer->count && i < answer->room; i++)
        if (answer->pairs[i].value >= RECORDING_NOBODY)
            return true;
    return request->function != POTZENDAI_SCAN && answer->pair.value >= RECORDING_NOBODY;
}

/* How a call with this answer is recorded. If the answer does not fit the function, the run ends, and this is NULL. */
static inline const struct potzendai_row *potzendai_row_of(struct potzendai_run *run, const struct potzendai_request *request,
                                                           const struct potzendai_answer *answer)
{
    const char *name = potzendai_functions[request->function];
    if ((unsigned)answer->said >= POTZENDAI_SAYINGS) {
        potzendai_fail(run, POTZENDAI_BAD_WORDS, "%s said %d, which is no answer", name, (int)answer->said);
        return NULL;
    }
    const char *said = potzendai_sayings[answer->said];
    const struct potzendai_row *row = &potzendai_rows[request->function][answer->said];
    bool tells_less = row->fate == POTZENDAI_ANSWERED && row->answer >= RECORDING_DONE;
    bool is_write = request->function == POTZENDAI_PUT || request->function == POTZENDAI_DEL;
    if (row->fate == POTZENDAI_UNFIT)
        potzendai_fail(run, POTZENDAI_BAD_WORDS, "%s said %s, which does not fit it", name, said);
    else if (request->function == POTZENDAI_SCAN && answer->said == MAP_TOLD && answer->count > answer->room)
        potzendai_fail(run, POTZENDAI_BAD_WORDS, "scan said %zu pairs, and there was room for %zu", answer->count, answer->room);
    else if (run->options->cache != POTZENDAI_NO_CACHE && potzendai_tells_own(request, answer))
        potzendai_fail(run, POTZENDAI_BAD_WORDS, "%s said a value from 2^63 on, and --cache needs these for its own use", name);
    else if (tells_less && is_write && run->options->void_puts == POTZENDAI_VOID_TOLD)
        potzendai_fail(run, POTZENDAI_BAD_WORDS, "%s said %s, and --void told wants the value before", name, said);
    else
        return row;
    return NULL;
}

/* Keeps a call that may take effect at any time: later rounds have it too. */
static inline void potzendai_keep_open(struct potzendai_run *run, enum recording_kind call, const uint64_t words[3])
{
    uint64_t place = atomic_fetch_add(&run->open_count, (uint64_t)1);
    if (place >= RECORDING_PROCESSES)
        return;
    run->open_calls[place].call = call;
    memcpy(run->open_calls[place].words, words, sizeof run->open_calls[place].words);
}

/* Notes that the next call of a process was made in another way than it is recorded. */
static inline void potzendai_note_made(struct potzendai_run *run, unsigned p, enum recording_note note)
{
    if (run->stream)
        run->stream->processes[p].note = note;
    else
        run->recording->logs[p].note = note;
}

/* Whether a scan of a cache is left out: in a stream, if it does not have all keys of its range. In a round, these keys are recorded as lost. */
static inline bool potzendai_is_scan_left_out(const struct potzendai_run *run, const struct potzendai_request *request,
                                              const struct potzendai_answer *answer, const struct potzendai_row *row)
{
    if (!run->stream || run->options->cache == POTZENDAI_NO_CACHE || row->fate != POTZENDAI_ANSWERED || row->call != RECORDING_SCAN)
        return false;
    bool is_list = request->function == POTZENDAI_SCAN;
    const struct recording_pair *pairs = is_list ? answer->pairs : &answer->pair;
    size_t count = answer->said != MAP_TOLD ? 0 : is_list ? answer->count : 1;
    return potzendai_missing(pairs, count, potzendai_low(request, answer), potzendai_high(request, answer), run->options->keys) > 0;
}

/* Records a call and its answer, once it is over. In a stream, a call that is known before its answer is recorded already. */
static inline int potzendai_note(struct potzendai_thread *t, const struct potzendai_request *request,
                                 const struct potzendai_answer *answer, bool is_held)
{
    struct potzendai_run *run = t->run;
    uint64_t words[3];
    const struct potzendai_row *row = potzendai_row_of(run, request, answer);
    if (!row && is_held)
        potzendai_note_drop(run, t->process);
    if (!row)
        return -1;
    enum recording_note note;
    row = potzendai_row_of_cache(run->options->cache, request->function, answer->said, row, &note);
    if (potzendai_is_scan_left_out(run, request, answer, row)) {
        atomic_fetch_add(&run->left_out, (uint64_t)1);
        row = &potzendai_no_word;
    }
    if (row->fate == POTZENDAI_LEFT_OUT)
        return is_held ? potzendai_note_drop(run, t->process)
                       : potzendai_note_answer(run, t->process, RECORDING_REFUSED, request, answer);
    potzendai_words(request, answer, row->call, words);
    potzendai_words_of_cache(request, note, words);
    if (note)
        potzendai_note_made(run, t->process, note);
    if (is_held && potzendai_note_call(run, t->process, row->call, words))
        return -1;
    if (row->fate == POTZENDAI_ANSWERED)
        return potzendai_note_answer(run, t->process, row->answer, request, answer);
    potzendai_keep_open(run, row->call, words);
    t->process = (unsigned)atomic_fetch_add(&run->next_process, (uint64_t)1);
    return t->process < atomic_load(&run->processes) ? 0 : -1;
}

/* Updates what the one writer of a key remembers. From that memory, fills in what a put or del that answered `done` found. */
static inline void potzendai_remember(struct potzendai_key *key, const struct potzendai_request *request, struct potzendai_answer *answer)
{
    enum map_said said = answer->said;
    enum potzendai_memory before = key->memory;
    uint64_t value_before = key->value;
    bool is_put = request->function == POTZENDAI_PUT || (request->function == POTZENDAI_PUT_IF_ABSENT && said == MAP_NONE)
        || (request->function == POTZENDAI_REPLACE
            && (said == MAP_DONE || (said == MAP_TOLD && answer->pair.value == request->other)));
    if (said == MAP_REFUSED || key->is_loose)
        return;
    if (request->function == POTZENDAI_REPLACE && said == MAP_FOUND)
        key->memory = POTZENDAI_FORGOTTEN;
    else if (request->function == POTZENDAI_DEL)
        key->memory = POTZENDAI_ABSENT;
    else if (is_put) {
        key->memory = POTZENDAI_PRESENT;
        key->value = request->value;
    }
    bool is_told = said == MAP_DONE && (request->function == POTZENDAI_PUT || request->function == POTZENDAI_DEL);
    if (!is_told || before == POTZENDAI_FORGOTTEN)
        return;
    answer->said = before == POTZENDAI_PRESENT ? MAP_TOLD : MAP_NONE;
    answer->pair.value = value_before;
}

/* Calls a function, and counts the call and its answer. */
static inline void potzendai_ask_and_count(struct potzendai_thread *t, const struct potzendai_request *request,
                                           struct potzendai_answer *answer)
{
    potzendai_ask(t->run->map, t->connection, request, answer);
    t->functions_called[request->function]++;
    t->hits += request->function == POTZENDAI_GET && (answer->said == MAP_TOLD || answer->said == MAP_FOUND);
    t->misses += request->function == POTZENDAI_GET && answer->said == MAP_NONE;
    if ((unsigned)answer->said < POTZENDAI_SAYINGS)
        t->sayings[answer->said]++;
}

/* Gets the value and then writes, under the key's own lock: the write found what the get found. Of a cache this does not hold, since the key may be
 * lost in between. */
static inline void potzendai_ask_locked(struct potzendai_thread *t, const struct potzendai_request *request,
                                        struct potzendai_answer *answer)
{
    struct potzendai_request get = {POTZENDAI_GET, request->key, 0, 0};
    struct potzendai_answer got = *answer;
    potzendai_ask(t->run->map, t->connection, &get, &got);
    potzendai_ask_and_count(t, request, answer);
    bool is_known = (got.said == MAP_TOLD || got.said == MAP_NONE) && t->run->options->cache == POTZENDAI_NO_CACHE;
    if (answer->said == MAP_DONE && is_known && !t->run->keys[request->key].is_loose) {
        answer->said = got.said;
        answer->pair.value = got.pair.value;
    }
}

/* Remembers the last value that the thread saw at a key, for a replace to expect. */
static inline void potzendai_see(struct potzendai_thread *t, const struct potzendai_request *request, const struct potzendai_answer *answer)
{
    bool is_put = request->function == POTZENDAI_PUT || (request->function == POTZENDAI_REPLACE && answer->said == MAP_DONE);
    if (is_put)
        t->seen[request->key] = request->value;
    else if (request->function <= POTZENDAI_PUT_IF_ABSENT && request->function != POTZENDAI_SCAN && answer->said == MAP_TOLD)
        t->seen[request->key] = answer->pair.value;
}

/* What was known of a cache's key before a call: whether it was put and no removal has begun since, whether a removal was open, and how many
 * removals had begun. */
struct potzendai_sight { bool is_held, is_open; uint64_t removals; };

static inline uint64_t potzendai_removals(struct potzendai_run *run, uint64_t key)
{
    return atomic_load_explicit(&run->keys[key].removals, POTZENDAI_RELAXED) + atomic_load_explicit(&run->pops, POTZENDAI_RELAXED);
}

/* Notes before a call what is known of its key, and that a removal begins. */
static inline struct potzendai_sight potzendai_look(struct potzendai_run *run, const struct potzendai_request *request)
{
    struct potzendai_key *key = &run->keys[request->key];
    struct potzendai_sight sight;
    bool is_pop = request->function == POTZENDAI_POP_FIRST;
    if (is_pop || request->function == POTZENDAI_DEL) {
        atomic_fetch_add_explicit(is_pop ? &run->popping : &key->removing, (uint64_t)1, POTZENDAI_RELAXED);
        atomic_fetch_add_explicit(is_pop ? &run->pops : &key->removals, (uint64_t)1, POTZENDAI_RELAXED);
    }
    sight.removals = potzendai_removals(run, request->key);
    sight.is_held = atomic_load_explicit(&key->held_at, POTZENDAI_RELAXED) == sight.removals + 1;
    sight.is_open = atomic_load_explicit(&key->removing, POTZENDAI_RELAXED) != 0 || atomic_load_explicit(&run->popping, POTZENDAI_RELAXED) != 0;
    return sight;
}

/* Whether a call shows that its key was lost: it found no value, after the answer of a put that no removal overlapped, and no removal has begun
 * since. This is only counted; no verdict depends on it. */
static inline bool potzendai_is_lost(struct potzendai_run *run, const struct potzendai_request *request, const struct potzendai_answer *answer,
                                     const struct potzendai_sight *sight)
{
    enum potzendai_function f = request->function;
    if ((f == POTZENDAI_POP_FIRST || f == POTZENDAI_DEL) && answer->said != MAP_UNKNOWN)
        atomic_fetch_sub_explicit(f == POTZENDAI_DEL ? &run->keys[request->key].removing : &run->popping, (uint64_t)1, POTZENDAI_RELAXED);
    bool is_put = (f == POTZENDAI_PUT && answer->said <= MAP_FOUND) || (f == POTZENDAI_PUT_IF_ABSENT && answer->said == MAP_NONE);
    bool is_of_key = f == POTZENDAI_GET || f == POTZENDAI_PUT || f == POTZENDAI_REPLACE || f == POTZENDAI_PUT_IF_ABSENT;
    bool is_same = potzendai_removals(run, request->key) == sight->removals;
    struct potzendai_key *key = &run->keys[request->key];
    bool is_lost = is_of_key && answer->said == MAP_NONE && sight->is_held && is_same
        && atomic_exchange_explicit(&key->held_at, (uint64_t)0, POTZENDAI_RELAXED) == sight->removals + 1;
    if (is_put && is_same && !sight->is_open)
        atomic_store_explicit(&key->held_at, sight->removals + 1, POTZENDAI_RELAXED);
    return is_lost;
}

/* Makes a call and records it: 0, or -1 if the thread has to stop. */
static inline int potzendai_make(struct potzendai_thread *t, const struct potzendai_request *request, struct potzendai_answer *answer)
{
    struct potzendai_run *run = t->run;
    bool is_cache = run->options->cache != POTZENDAI_NO_CACHE, is_round = !run->stream && !run->events;
    bool is_held = is_round || is_cache || potzendai_is_held(request->function);
    uint64_t words[3];
    memset(answer, 0, sizeof *answer);
    answer->pairs = t->pairs;
    answer->room = POTZENDAI_SPAN + 1;
    potzendai_words(request, answer, potzendai_rows[request->function][MAP_TOLD].call, words);
    if (is_held ? potzendai_note_hold(run, t->process)
                : potzendai_note_call(run, t->process, potzendai_rows[request->function][MAP_TOLD].call, words))
        return -1;
    bool is_locked = run->options->void_puts == POTZENDAI_VOID_LOCK
        && (request->function == POTZENDAI_PUT || request->function == POTZENDAI_DEL);
    struct potzendai_sight sight = {false, false, 0};
    if (is_cache)
        sight = potzendai_look(run, request);
    potzendai_reader = potzendai_writes(request->function) ? NULL : t;
    if (is_locked)
        potzendai_ask_locked(t, request, answer);
    else
        potzendai_ask_and_count(t, request, answer);
    potzendai_reader = NULL;
    if (is_cache)
        t->losses += potzendai_is_lost(run, request, answer, &sight);
    if (answer->said == MAP_UNKNOWN && potzendai_has_one_writer(run->options) && potzendai_writes(request->function))
        run->keys[request->key].is_loose = true;
    if (run->options->void_puts == POTZENDAI_VOID_OWN && potzendai_writes(request->function))
        potzendai_remember(&run->keys[request->key], request, answer);
    potzendai_see(t, request, answer);
    atomic_store_explicit(&t->calls, ++t->made, POTZENDAI_RELAXED);
    if (answer->said == MAP_REFUSED)
        atomic_store_explicit(&t->refused, t->sayings[MAP_REFUSED], POTZENDAI_RELAXED);
    return potzendai_note(t, request, answer, is_held);
}

/* Makes a call that writes a key: notes if two writers meet, and takes the key's lock under --void lock. */
static inline int potzendai_write_key(struct potzendai_thread *t, const struct potzendai_request *request, struct potzendai_answer *answer)
{
    struct potzendai_key *key = &t->run->keys[request->key];
    bool is_locked = t->run->options->void_puts == POTZENDAI_VOID_LOCK;
    if (is_locked)
        pthread_mutex_lock(&key->lock);
    if (atomic_fetch_add_explicit(&key->writers, (uint64_t)1, POTZENDAI_RELAXED) > 0)
        atomic_store_explicit(&key->is_met, (uint64_t)1, POTZENDAI_RELAXED);
    int status = potzendai_make(t, request, answer);
    atomic_fetch_sub_explicit(&key->writers, (uint64_t)1, POTZENDAI_RELAXED);
    if (is_locked)
        pthread_mutex_unlock(&key->lock);
    return status;
}

/* Whether the thread may make another call. */
static inline bool potzendai_may_call(const struct potzendai_thread *t)
{
    return (t->run->calls == 0 || t->made < t->run->calls) && !atomic_load_explicit(&t->run->is_over, POTZENDAI_RELAXED)
        && !atomic_load_explicit(&t->run->fault, POTZENDAI_RELAXED);
}

/* Reads a range by steps: each asks for the first pair from a key on. */
static inline int potzendai_make_steps(struct potzendai_thread *t, uint64_t low, uint64_t high)
{
    struct potzendai_answer answer;
    struct potzendai_request step = {POTZENDAI_CEILING, low, 0, 0};
    int status;
    do {
        status = potzendai_make(t, &step, &answer);
        if (status || answer.said != MAP_TOLD || answer.pair.key < step.key)
            break;
        step.key = answer.pair.key + 1;
    } while (answer.pair.key < high && potzendai_may_call(t));
    return status;
}

/* A value for a put: no other put has it, and it was not in the map before, unless the values run out. */
static inline uint64_t potzendai_new_value(struct potzendai_run *run, unsigned thread)
{
    unsigned bits = run->truly->value_bits;
    uint64_t most = bits == 0 || bits >= 64 ? UINT64_MAX : ((uint64_t)1 << bits) - 1;
    return 1 + (run->values_from + run->puts[thread]++ * run->options->threads + thread) % most;
}

static inline uint64_t potzendai_draw_key(struct potzendai_thread *t, enum potzendai_function function)
{
    const struct potzendai_run *run = t->run;
    uint64_t hot = run->options->hot < run->keys_drawn ? run->options->hot : 0;
    bool is_hot = hot > 0 && potzendai_draw_below(&t->state, 10) < 9;
    uint64_t key = potzendai_draw_below(&t->state, is_hot ? hot : run->keys_drawn);
    if (run->options->void_puts != POTZENDAI_VOID_OWN || !potzendai_writes(function))
        return key;
    key = key / run->threads * run->threads + t->number;
    return key < run->keys_drawn ? key : t->number;
}

static inline void potzendai_draw_call(struct potzendai_thread *t, struct potzendai_request *request)
{
    const struct potzendai_run *run = t->run;
    uint64_t total = 0, f = 0;
    for (int i = 0; i < POTZENDAI_FUNCTIONS; i++)
        total += run->options->shares[i];
    uint64_t place = potzendai_draw_below(&t->state, total);
    for (; place >= run->options->shares[f]; f++)
        place -= run->options->shares[f];
    request->function = (enum potzendai_function)f;
    request->key = potzendai_draw_key(t, request->function);
    request->value = request->other = 0;
    if (potzendai_writes(request->function))
        request->value = potzendai_new_value(t->run, t->number);
    if (request->function == POTZENDAI_REPLACE)
        request->other = t->seen[request->key];
    if (request->function == POTZENDAI_SCAN) {
        request->other = request->key + potzendai_draw_below(&t->state, run->options->span);
        request->other = request->other < run->keys_drawn ? request->other : run->keys_drawn - 1;
    }
}

static inline int potzendai_draw_and_make(struct potzendai_thread *t)
{
    struct potzendai_request request;
    struct potzendai_answer answer;
    potzendai_draw_call(t, &request);
    if (t->run->is_scheduled && !potzendai_scheduler->call(request.function, request.key)) {
        t->made++;
        return 0;
    }
    potzendai_point();
    if (request.function == POTZENDAI_SCAN && t->run->options->is_steps)
        return potzendai_make_steps(t, request.key, request.other);
    if (potzendai_writes(request.function) && request.function != POTZENDAI_POP_FIRST)
        return potzendai_write_key(t, &request, &answer);
    return potzendai_make(t, &request, &answer);
}

/* What a thread does. Its calls depend on the seed, the round and its number. Answers decide only what a replace expects, and how many steps a range
 * takes. */
static inline void *potzendai_thread_body(void *own)
{
    struct potzendai_thread *t = (struct potzendai_thread *)own;
    struct potzendai_run *run = t->run;
    if (run->is_scheduled)
        potzendai_scheduler->enter(t->number);
    uint64_t seed = run->options->seed, round = run->round + ((uint64_t)1 << 40), number = t->number + ((uint64_t)1 << 50);
    t->state = potzendai_mix(&seed) ^ potzendai_mix(&round) ^ potzendai_mix(&number);
    potzendai_yield_state = t->state + 1;
    potzendai_yields = (unsigned)run->options->yields;
    t->connection = potzendai_open_connection(run, run->map, t->number);
    atomic_fetch_add(&run->arrived, (uint64_t)1);
    if (run->is_scheduled)
        potzendai_scheduler->ready();
    while (!run->is_scheduled && !atomic_load(&run->has_begun))
        sched_yield();
    while (potzendai_may_call(t) && potzendai_draw_and_make(t) == 0)
        ;
    t->points = potzendai_points;
    if (run->map->close && (t->connection || !run->map->open))
        run->map->close(t->connection);
    atomic_fetch_sub(&run->arrived, (uint64_t)1);
    if (run->is_scheduled)
        potzendai_scheduler->leave();
    return NULL;
}

/* Frees the memory of the threads. */
static inline void potzendai_free_threads(struct potzendai_thread *threads, uint64_t count)
{
    for (uint64_t i = 0; threads && i < count; i++) {
        free(threads[i].seen);
        free(threads[i].pairs);
    }
    free(threads);
}

/* Memory for the threads of a run; NULL if it is refused. */
static inline struct potzendai_thread *potzendai_new_threads(struct potzendai_run *run)
{
    struct potzendai_thread *threads = (struct potzendai_thread *)calloc((size_t)run->threads, sizeof *threads);
    for (uint64_t i = 0; threads && i < run->threads; i++) {
        struct potzendai_thread *t = &threads[i];
        t->run = run;
        t->number = t->process = (unsigned)i;
        t->seen = (uint64_t *)calloc((size_t)run->options->keys, sizeof *t->seen);
        t->pairs = (struct recording_pair *)calloc(POTZENDAI_SPAN + 1, sizeof *t->pairs);
        atomic_store(&t->calls, (uint64_t)0);
        atomic_store(&t->refused, (uint64_t)0);
        if (!t->seen || !t->pairs) {
            potzendai_free_threads(threads, run->threads);
            return NULL;
        }
    }
    return threads;
}

/* Starts the threads, lets them all begin at once, and returns how many there are. If one cannot be started, the run fails. */
static inline uint64_t potzendai_start_threads(struct potzendai_run *run, struct potzendai_thread *threads)
{
    uint64_t started = 0;
    atomic_store(&run->arrived, (uint64_t)0);
    atomic_store(&run->has_begun, (uint64_t)0);
    atomic_store(&run->is_over, (uint64_t)0);
    while (started < run->threads && pthread_create(&threads[started].id, NULL, potzendai_thread_body, &threads[started]) == 0)
        started++;
    if (started < run->threads)
        potzendai_fail(run, POTZENDAI_NO_MEMORY, "memory: thread %" PRIu64 " was not started", started);
    if (run->is_scheduled) {
        if (started < run->threads) /* the started ones wait for the others, which never come */
            _exit(POTZENDAI_NO_MEMORY);
        potzendai_scheduler->run();
        return started;
    }
    for (unsigned times = 0; atomic_load(&run->arrived) < started;)
        streaming_rest(&times);
    atomic_store(&run->has_begun, (uint64_t)1);
    return started;
}

/* Waits for all threads, and adds up their calls and answers. */
static inline void potzendai_join_threads(struct potzendai_run *run, struct potzendai_thread *threads, uint64_t started)
{
    for (uint64_t i = 0; i < started; i++) {
        if (!run->is_scheduled) /* scheduled threads have left, and end with their process */
            pthread_join(threads[i].id, NULL);
        for (int said = 0; said < POTZENDAI_SAYINGS; said++)
            run->counts.sayings[said] += threads[i].sayings[said];
        for (int f = 0; f < POTZENDAI_FUNCTIONS; f++)
            run->counts.functions_called[f] += threads[i].functions_called[f];
        run->counts.hits += threads[i].hits;
        run->counts.misses += threads[i].misses;
        run->counts.losses += threads[i].losses;
        run->counts.points += threads[i].points;
    }
    run->counts.wrongs = atomic_load(&run->wrongs);
    run->counts.left_out += atomic_exchange(&run->left_out, (uint64_t)0);
}

#endif
