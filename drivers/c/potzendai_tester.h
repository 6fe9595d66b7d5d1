/* A run, its map, and what the map holds at rest. Included by potzendai_verdict.h. */
#ifndef POTZENDAI_TESTER_H
#define POTZENDAI_TESTER_H

#include "potzendai_batch.h"
#include "potzendai_threads.h"
#include <signal.h>

/* How often a map that refuses is asked at rest. */
enum { POTZENDAI_GETS = 1000 };

/* Whether the run was interrupted, as by Ctrl-C: then it ends with what is recorded. A second Ctrl-C ends the program. */
static recording_word potzendai_interrupted;

static inline bool potzendai_is_interrupted(void)
{
    return atomic_load(&potzendai_interrupted) != 0;
}

static inline void potzendai_interrupt(int number)
{
    (void)number;
    atomic_store(&potzendai_interrupted, (uint64_t)1);
}

/* Lets Ctrl-C end the run, unless the program has a handler of its own. */
static inline void potzendai_await_interrupt(void)
{
    struct sigaction action;
    if (sigaction(SIGINT, NULL, &action) || (action.sa_flags & SA_SIGINFO) || action.sa_handler != SIG_DFL)
        return;
    action.sa_handler = potzendai_interrupt;
    action.sa_flags = SA_RESETHAND | SA_RESTART;
    sigaction(SIGINT, &action, NULL);
}

/* A recording as a text, and the report of the library or the program on it. `is_left`: it is what a follower still had of a stream. */
struct potzendai_told { char *text, *report; size_t length, room; bool is_left; };

/* A recorded round that waits for its verdict: its number, and what was counted up to its end. */
struct potzendai_waiting { struct potzendai_told told; struct potzendai_counts counts; uint64_t round; };

struct potzendai_plan;

/* What was counted of kills: the calls that were open at one, what the verdict says of writes, and of a store that does not open. */
struct potzendai_kills { uint64_t open; char counted[160], ending[120]; };

/* A run and its results. `given` is the map of the program, and `opened` the one made of it that is tested now. `connection` belongs to the thread
 * that runs the test. A quiet run does not show a no. */
struct potzendai_tester {
    struct potzendai_run *run;
    const struct potzendai_map *given;
    struct potzendai_map opened;
    const struct potzendai_options *options;
    const char *program;
    void *connection;
    struct recording_pair *start, *next_start;
    size_t pairs_at_start, pairs_next;
    uint64_t rounds, refused, undecided, calls_judged;
    double began, told, overlap_a_call, waits_since;
    bool has_terminal, has_overlap, is_quiet, is_connected;
    struct potzendai_plan *plan; /* of a scheduled run */
    const char *ending;          /* how its last round ended, if that round has no recording */
    struct potzendai_kills kills;
    struct potzendai_waiting waiting[POTZENDAI_BATCH];
    size_t waiting_count;
};

static inline void potzendai_forget(struct potzendai_told *told)
{
    free(told->text);
    free(told->report);
    memset(told, 0, sizeof *told);
}

/* Opens the connection of this thread to the map that is tested now. */
static inline int potzendai_connect(struct potzendai_tester *tester)
{
    tester->connection = potzendai_open_connection(tester->run, &tester->opened, (unsigned)tester->run->threads);
    tester->is_connected = tester->connection || !tester->opened.open;
    return tester->is_connected ? 0 : -1;
}

static inline void potzendai_disconnect(struct potzendai_tester *tester)
{
    if (tester->opened.close && tester->is_connected)
        tester->opened.close(tester->connection);
    tester->is_connected = false;
}

/* Tests a map from now on that was made or opened again. NULL, which means that this failed, ends the run. */
static inline int potzendai_take_map(struct potzendai_tester *tester, void *map, const char *how)
{
    tester->opened.map = map;
    if (!map && errno == ENOMEM)
        return potzendai_fail(tester->run, POTZENDAI_NO_MEMORY, "memory: %s made no map", how);
    if (!map)
        return potzendai_fail(tester->run, POTZENDAI_BAD_WORDS, "%s made no map", how);
    return potzendai_connect(tester);
}

/* Begins with a map: a new one, if the program makes new ones. */
static inline int potzendai_begin_map(struct potzendai_tester *tester)
{
    errno = 0;
    return tester->given->begin ? potzendai_take_map(tester, tester->given->begin(tester->given->map), "begin") : potzendai_connect(tester);
}

static inline void potzendai_end_map(struct potzendai_tester *tester)
{
    potzendai_disconnect(tester);
    if (tester->given->begin && tester->given->end && tester->opened.map)
        tester->given->end(tester->opened.map);
}

/* Closes the map, at rest, and opens it again. */
static inline int potzendai_reopen_map(struct potzendai_tester *tester)
{
    potzendai_disconnect(tester);
    errno = 0;
    return potzendai_take_map(tester, tester->given->reopen(tester->opened.map), "reopen");
}

/* Calls the map itself, not the one made wrong, at rest: again while it refuses. A get is called again also while its answer is unknown. */
static inline void potzendai_ask_at_rest(struct potzendai_tester *tester, const struct potzendai_request *request, struct potzendai_answer *answer)
{
    bool is_get = request->function == POTZENDAI_GET;
    answer->said = MAP_REFUSED;
    for (int i = 0; i < POTZENDAI_GETS && (answer->said == MAP_REFUSED || (is_get && answer->said == MAP_UNKNOWN)); i++) {
        memset(answer, 0, sizeof *answer);
        potzendai_ask(tester->run->truly, tester->connection, request, answer);
    }
}

/* The write after which it is known what a key holds, if gets do not say: a put of a new value or, at every second key, a del. */
static inline void potzendai_write_at_rest(struct potzendai_run *run, uint64_t key, struct potzendai_request *request)
{
    bool is_del = run->truly->del && (!run->truly->put || (key + run->round) % 2 == 1);
    request->function = is_del ? POTZENDAI_DEL : POTZENDAI_PUT;
    request->key = key;
    request->value = is_del ? 0 : potzendai_new_value(run, 0);
    request->other = 0;
}

/* Whether an answer at rest says what the key holds, or that a write was done. */
static inline bool potzendai_is_known(const struct potzendai_options *o, const struct potzendai_request *request, enum map_said said)
{
    bool is_get = request->function == POTZENDAI_GET, is_none = said == MAP_NONE && !(is_get && o->cache == POTZENDAI_CACHE_LATE);
    return said == MAP_TOLD || is_none || (!is_get && (said == MAP_DONE || said == MAP_FOUND));
}

/* Asks at rest what a key holds: by a get, or by a write if the get does not say. The request is the call that says it. */
static inline int potzendai_find_out(struct potzendai_tester *tester, struct potzendai_request *request, struct potzendai_answer *answer)
{
    struct potzendai_run *run = tester->run;
    potzendai_ask_at_rest(tester, request, answer);
    bool is_late = answer->said == MAP_NONE && run->options->cache == POTZENDAI_CACHE_LATE;
    bool is_hidden = answer->said == MAP_DONE || answer->said == MAP_FOUND || is_late;
    if (is_hidden && (run->truly->put || run->truly->del)) {
        potzendai_write_at_rest(run, request->key, request);
        potzendai_ask_at_rest(tester, request, answer);
    }
    if (potzendai_is_known(run->options, request, answer->said))
        return 0;
    return potzendai_fail(run, POTZENDAI_BAD_WORDS, "%s of %" PRIu64 " said %s at rest: the run has to know what the key holds",
                          potzendai_functions[request->function], request->key,
                          (unsigned)answer->said < POTZENDAI_SAYINGS ? potzendai_sayings[answer->said] : "no answer");
}

/* Finds out at rest what a key holds. Unless `process` is NULL, these are its calls. */
static inline int potzendai_know(struct potzendai_tester *tester, uint64_t key, const unsigned *process, struct recording_pair *pair, bool *is_there)
{
    struct potzendai_run *run = tester->run;
    struct potzendai_request request = {POTZENDAI_GET, key, 0, 0};
    struct potzendai_answer answer;
    uint64_t words[3];
    if (process && recording_hold(run->recording, *process))
        return -1;
    if (potzendai_find_out(tester, &request, &answer))
        return -1;
    enum recording_note note;
    const struct potzendai_row *row = potzendai_row_of_cache(run->options->cache, request.function, answer.said,
                                                             &potzendai_rows[request.function][answer.said], &note);
    potzendai_words(&request, &answer, row->call, words);
    if (process)
        run->recording->logs[*process].note = note;
    run->counts.losses += process && note == RECORDING_GET_MISSED
        && atomic_exchange(&run->keys[key].held_at, (uint64_t)0) == potzendai_removals(run, key) + 1;
    if (process && (recording_add(run->recording, *process, row->call, words[0], words[1], words[2])
                    || recording_add(run->recording, *process, row->answer, answer.pair.value, 0, 0)))
        return -1;
    pair->key = key;
    pair->value = request.function == POTZENDAI_PUT ? request.value : answer.pair.value;
    *is_there = request.function == POTZENDAI_PUT || (request.function == POTZENDAI_GET && answer.said == MAP_TOLD);
    return 0;
}

/* Reads all keys at rest: the pairs that a recording starts from. */
static inline int potzendai_read_start(struct potzendai_tester *tester)
{
    tester->pairs_at_start = 0;
    for (uint64_t key = 0; key < tester->options->keys; key++) {
        struct recording_pair *pair = &tester->start[tester->pairs_at_start];
        bool is_there;
        if (potzendai_know(tester, key, NULL, pair, &is_there))
            return -1;
        if (is_there && tester->rounds == 0 && pair->value > tester->run->values_from)
            tester->run->values_from = pair->value;
        tester->pairs_at_start += is_there;
    }
    return 0;
}

/* The last calls of a round: one process gets all keys. The next round starts from the pairs that it finds. */
static inline int potzendai_get_all(struct potzendai_tester *tester, unsigned p)
{
    tester->pairs_next = 0;
    for (uint64_t key = 0; key < tester->options->keys; key++) {
        bool is_there;
        if (potzendai_know(tester, key, &p, &tester->next_start[tester->pairs_next], &is_there))
            return -1;
        tester->pairs_next += is_there;
    }
    return 0;
}

/* Replaces the map by a new one. Calls of the old map that have no answer cannot take effect in it. */
static inline int potzendai_renew(struct potzendai_tester *tester)
{
    potzendai_end_map(tester);
    atomic_store(&tester->run->open_count, (uint64_t)0);
    for (uint64_t key = 0; key < tester->options->keys; key++)
        tester->run->keys[key].is_loose = false;
    return potzendai_begin_map(tester) || potzendai_read_start(tester) ? -1 : 0;
}

/* Lets the writers remember the pairs that a round starts from. */
static inline void potzendai_remember_start(struct potzendai_tester *tester)
{
    struct potzendai_key *keys = tester->run->keys;
    for (uint64_t key = 0; key < tester->options->keys; key++) {
        keys[key].memory = POTZENDAI_ABSENT;
        atomic_store(&keys[key].held_at, (uint64_t)0);
    }
    for (size_t i = 0; i < tester->pairs_at_start; i++) {
        keys[tester->start[i].key].memory = POTZENDAI_PRESENT;
        keys[tester->start[i].key].value = tester->start[i].value;
        atomic_store(&keys[tester->start[i].key].held_at, potzendai_removals(tester->run, tester->start[i].key) + 1);
    }
}

#endif
