/* Rounds: each is recorded, and judged after its threads have ended. Included by potzendai_test.h. */
#ifndef POTZENDAI_ROUNDS_H
#define POTZENDAI_ROUNDS_H

#include "potzendai_break.h"
#include "potzendai_verdict.h"

/* A smaller round is tried so often, and all of them for so many seconds. Values of fewer bits may repeat. */
enum { POTZENDAI_TRIES = 8, POTZENDAI_TRIES_SECONDS = 5, POTZENDAI_BITS = 40 };

/* Opens the calls of earlier rounds that have no answer: each may still take effect. */
static inline int potzendai_carry_on(struct potzendai_run *run)
{
    uint64_t count = atomic_load(&run->open_count);
    for (uint64_t i = 0; i < count; i++) {
        uint64_t p = atomic_fetch_add(&run->next_process, (uint64_t)1);
        if (p >= atomic_load(&run->processes))
            return potzendai_fail(run, POTZENDAI_IS_UNDECIDED, "calls without an answer leave no room for others: %" PRIu64, count);
        if (recording_add(run->recording, (unsigned)p, run->open_calls[i].call, run->open_calls[i].words[0], run->open_calls[i].words[1],
                          run->open_calls[i].words[2]))
            return potzendai_fail(run, POTZENDAI_NO_MEMORY, "memory: no room for a round");
    }
    return 0;
}

/* Whether an answer contains a value. */
static inline bool potzendai_tells_value(const struct recording_log *log, const struct recording_event *event, uint64_t value)
{
    if (event->kind == RECORDING_VALUE)
        return event->words[0] == value;
    for (uint64_t i = 0; event->kind == RECORDING_LIST && i < event->words[1]; i++)
        if (log->pairs[event->words[0] + i].value == value)
            return true;
    return false;
}

/* Whether an answer of the round has the value that this call puts: then it was done. No other call puts that value unless values repeat. */
static inline bool potzendai_is_seen(const struct potzendai_run *run, const struct potzendai_open *open)
{
    uint64_t value = open->call == RECORDING_REPLACE ? open->words[2] : open->words[1];
    unsigned bits = run->truly->value_bits;
    if (open->call == RECORDING_REMOVE || (bits > 0 && bits < POTZENDAI_BITS))
        return false;
    for (unsigned p = 0; p < run->recording->processes; p++)
        for (size_t i = 0; i < run->recording->logs[p].length; i++)
            if (potzendai_tells_value(&run->recording->logs[p], &run->recording->logs[p].events[i], value))
                return true;
    return false;
}

/* Drops the calls without an answer that were done by the end of a round. */
static inline void potzendai_settle(struct potzendai_run *run)
{
    uint64_t kept = 0, count = atomic_load(&run->open_count);
    for (uint64_t i = 0; i < count && i < RECORDING_PROCESSES; i++)
        if (!potzendai_is_seen(run, &run->open_calls[i]))
            run->open_calls[kept++] = run->open_calls[i];
    atomic_store(&run->open_count, kept);
}

/* The most pairs in the answer of a call. */
static inline size_t potzendai_pairs_of_a_call(const struct potzendai_options *o)
{
    return o->shares[POTZENDAI_SCAN] > 0 ? (size_t)POTZENDAI_SPAN + 1 : (size_t)1;
}

/* Opens a recording with room for the threads, for the processes as which they go on after an unknown answer, and for the last gets. */
static inline int potzendai_open_recording(struct potzendai_tester *tester)
{
    struct potzendai_run *run = tester->run;
    uint64_t each = potzendai_calls_each(tester->options), processes = RECORDING_CALLS / each;
    if (processes > RECORDING_PROCESSES)
        processes = RECORDING_PROCESSES;
    size_t pairs_each = (size_t)each * potzendai_pairs_of_a_call(tester->options);
    atomic_store(&run->next_process, run->threads);
    atomic_store(&run->processes, processes - 1);
    if (recording_open(run->recording, (unsigned)processes, (unsigned)each, pairs_each)
        || recording_start(run->recording, tester->start, tester->pairs_at_start))
        return potzendai_fail(run, POTZENDAI_NO_MEMORY, "memory: no room for a round");
    return 0;
}

/* How many other calls were open at each invocation of a recording, added up; `kinds` has a byte for each stamp. A call without an answer does
 * not count as open: nobody makes it any more. */
static inline uint64_t potzendai_count_overlap(const struct recording *r, char *kinds, size_t stamps)
{
    uint64_t overlap = 0, open = 0;
    for (unsigned p = 0; p < r->processes; p++)
        for (size_t i = 0; i < r->logs[p].length; i++)
            kinds[r->logs[p].events[i].stamp] = r->logs[p].events[i].kind >= RECORDING_NONE ? 'a' : i + 1 < r->logs[p].length ? 'i' : 'd';
    for (size_t i = 0; i < stamps; i++) {
        overlap += kinds[i] == 'i' || kinds[i] == 'd' ? open : 0;
        open = kinds[i] == 'i' ? open + 1 : kinds[i] == 'a' ? open - 1 : open;
    }
    return overlap;
}

static inline int potzendai_add_overlap(struct potzendai_tester *tester)
{
    size_t stamps = (size_t)atomic_load(&tester->run->recording->stamps);
    char *kinds = (char *)calloc(stamps + 1, 1);
    if (!kinds)
        return potzendai_fail(tester->run, POTZENDAI_NO_MEMORY, "memory: no room for a round");
    tester->run->counts.overlap += potzendai_count_overlap(tester->run->recording, kinds, stamps);
    for (unsigned p = 0; p < tester->run->recording->processes; p++)
        tester->run->counts.calls += (tester->run->recording->logs[p].length + 1) / 2;
    free(kinds);
    return 0;
}

/* Writes the recording into memory. Memory may run out even if the stream closes without an error. */
static inline int potzendai_text_of(struct potzendai_tester *tester, struct potzendai_told *told)
{
    FILE *out = open_memstream(&told->text, &told->length);
    const struct potzendai_options *o = tester->options;
    struct potzendai_run *run = tester->run;
    bool is_late = o->cache == POTZENDAI_CACHE_LATE;
    int status = !out ? -1 : o->cache == POTZENDAI_NO_CACHE ? recording_write(run->recording, out)
                                                            : potzendai_write_cached(run->recording, out, o->keys, is_late, &run->counts.left_out);
    if (!out || fclose(out) || status || !told->text)
        return potzendai_fail(tester->run, POTZENDAI_NO_MEMORY, "memory: a round was not written");
    return 0;
}

/* Lets the threads make the calls of a round, and then gets all keys. Returns -1 if the run fails. */
static inline int potzendai_make_round(struct potzendai_tester *tester)
{
    struct potzendai_run *run = tester->run;
    struct potzendai_thread *threads = potzendai_new_threads(run);
    if (!threads)
        return potzendai_fail(run, POTZENDAI_NO_MEMORY, "memory: no room for threads");
    potzendai_remember_start(tester);
    if (potzendai_carry_on(run) == 0)
        potzendai_join_threads(run, threads, potzendai_start_threads(run, threads));
    potzendai_free_threads(threads, run->threads);
    if (atomic_load(&run->fault) || (run->options->is_reopened && potzendai_reopen_map(tester))
        || potzendai_get_all(tester, (unsigned)atomic_load(&run->processes)))
        return -1;
    potzendai_settle(run);
    return 0;
}

/* Records one round as a text. It starts from the pairs that were read. */
static inline int potzendai_record(struct potzendai_tester *tester, struct potzendai_told *told)
{
    if (potzendai_open_recording(tester))
        return -1;
    int status = potzendai_make_round(tester);
    status = status ? status : potzendai_add_overlap(tester);
    status = status ? status : potzendai_text_of(tester, told);
    recording_close(tester->run->recording);
    return status;
}

/* How many other calls were open at an invocation, on average. */
static inline double potzendai_overlap_a_call(const struct potzendai_tester *tester)
{
    const struct potzendai_counts *counts = &tester->run->counts;
    return tester->options->is_stream ? tester->overlap_a_call : (double)counts->overlap / (double)(counts->calls ? counts->calls : 1);
}

/* Prints once a second how far the run is, if standard error is a terminal. */
static inline void potzendai_progress(struct potzendai_tester *tester)
{
    double now = potzendai_now(), seconds = now - tester->began;
    uint64_t met = 0, calls = tester->run->counts.calls;
    if (!tester->has_terminal || now - tester->told < 1 || calls == 0)
        return;
    for (uint64_t key = 0; key < tester->options->keys; key++)
        met += atomic_load_explicit(&tester->run->keys[key].is_met, POTZENDAI_RELAXED);
    fprintf(stderr, "%" PRIu64 " call%s, %.0f a second, ", calls, potzendai_plural(calls), (double)calls / seconds);
    if (!tester->options->is_stream || tester->has_overlap)
        fprintf(stderr, "overlap %.1f a call, ", potzendai_overlap_a_call(tester));
    fprintf(stderr, "%.1f%% refused, two writers met on %" PRIu64 " of %" PRIu64 " key%s\n",
            100.0 * (double)tester->refused / (double)calls, met, tester->options->keys, potzendai_plural(tester->options->keys));
    tester->told = now;
}

/* Writes a history that nobody judges. The files are named in the line before the last. */
static inline int potzendai_write_round(struct potzendai_tester *tester, const struct potzendai_told *told)
{
    char path[POTZENDAI_PATH];
    if (strcmp(tester->options->out, "-") == 0)
        return fwrite(told->text, 1, told->length, stdout) == told->length && fflush(stdout) == 0
                   ? 0 : potzendai_fail(tester->run, POTZENDAI_BAD_FILE, "standard output: a history was not written");
    if (potzendai_write_file(tester, ".json", told->text, told->length, path) == 0)
        return 0;
    fprintf(stderr, "file: not written: %s\n", path);
    return potzendai_fail(tester->run, POTZENDAI_BAD_FILE, "a history was not written");
}

/* Records the round again, in the size that the run has now, of a new map if the program makes new ones: the failed round may have broken the old
 * one. Returns whether it has no order; then `told` has its text and report. */
static inline bool potzendai_fails_again(struct potzendai_tester *tester, struct potzendai_told *told)
{
    memset(told, 0, sizeof *told);
    bool is_ready = (tester->given->begin ? potzendai_renew(tester) : potzendai_read_start(tester)) == 0;
    bool fails = is_ready && potzendai_record(tester, told) == 0
        && potzendai_judged(tester->options, told) == POTZENDAI_IS_NO;
    if (!fails)
        potzendai_forget(told);
    return fails;
}

/* Halves the calls or the keys, or takes a thread away: 0, or -1 if that cannot be done. */
static inline int potzendai_lessen(struct potzendai_run *run, int how)
{
    uint64_t least_keys = run->options->void_puts == POTZENDAI_VOID_OWN ? run->threads : 1;
    uint64_t *what = how == 0 ? &run->calls : how == 1 ? &run->keys_drawn : &run->threads;
    uint64_t less = how == 2 ? *what - 1 : *what / 2;
    if (less < (how == 1 ? least_keys : 1))
        return -1;
    *what = less;
    return 0;
}

/* Whether a round with less of one of these fails again, in some tries. If not, the size is as before. */
static inline bool potzendai_fails_with_less(struct potzendai_tester *tester, int how, struct potzendai_told *told, double until)
{
    struct potzendai_run *run = tester->run;
    uint64_t calls = run->calls, keys = run->keys_drawn, threads = run->threads;
    struct potzendai_told smaller;
    bool fails = false;
    if (potzendai_lessen(run, how))
        return false;
    for (int i = 0; i < POTZENDAI_TRIES && !fails && potzendai_now() < until && !potzendai_is_interrupted(); i++)
        fails = potzendai_fails_again(tester, &smaller);
    if (fails) {
        potzendai_forget(told);
        *told = smaller;
    } else {
        run->calls = calls;
        run->keys_drawn = keys;
        run->threads = threads;
    }
    return fails;
}

/* Makes a failed round again with fewer calls, keys and threads as long as it fails, and keeps the smallest recording. Threads interleave freely,
 * so a smaller round may pass by chance. */
static inline void potzendai_smaller(struct potzendai_tester *tester, struct potzendai_told *told)
{
    double until = potzendai_now() + (double)POTZENDAI_TRIES_SECONDS;
    bool is_less = true;
    while (is_less) {
        is_less = false;
        for (int how = 0; how < 3; how++)
            is_less = potzendai_fails_with_less(tester, how, told, until) || is_less;
    }
}

/* Shows a round that has no order, and how to draw its calls again. */
static inline int potzendai_refuted(struct potzendai_tester *tester, struct potzendai_told *told)
{
    struct potzendai_run *run = tester->run;
    struct potzendai_counts counts = run->counts;
    fprintf(stderr, "round %" PRIu64 " has no order\n", run->round);
    potzendai_smaller(tester, told);
    fprintf(stderr, "the smallest of some tries that failed: threads %" PRIu64 ", keys %" PRIu64 ", calls %" PRIu64 "\n",
            run->threads, run->keys_drawn, run->calls);
    potzendai_tell_round(tester, told);
    run->counts = counts;
    potzendai_tell_again(tester, run->round + 1);
    return POTZENDAI_IS_NO;
}

/* Shows a scheduled round that has no order: potzendai_shrink.h. */
static inline int potzendai_refuted_by_schedule(struct potzendai_tester *tester, struct potzendai_told *told);

/* Takes the verdict on a round: 0 if the run goes on, the status that ends it, or -1 if it fails. */
static inline int potzendai_take_round(struct potzendai_tester *tester, struct potzendai_told *told)
{
    enum potzendai_status status = potzendai_judged(tester->options, told);
    switch (status) {
    case POTZENDAI_IS_YES: return POTZENDAI_IS_YES;
    case POTZENDAI_IS_NO:
        if (tester->is_quiet)
            return POTZENDAI_IS_NO;
        return tester->run->is_scheduled ? potzendai_refuted_by_schedule(tester, told) : potzendai_refuted(tester, told);
    case POTZENDAI_IS_UNDECIDED: tester->undecided++; return POTZENDAI_IS_YES;
    case POTZENDAI_NO_MEMORY: return potzendai_fail(tester->run, POTZENDAI_NO_MEMORY, "memory: a round was not judged");
    default:
        potzendai_keep(tester, ".json", told->text, told->length);
        return potzendai_fail(tester->run, status, "%.150s", told->report);
    }
}

/* Lets the next round start from the pairs that this one found last. */
static inline void potzendai_go_on(struct potzendai_tester *tester)
{
    struct recording_pair *start = tester->start;
    tester->start = tester->next_start;
    tester->pairs_at_start = tester->pairs_next;
    tester->next_start = start;
    tester->rounds++;
}

/* The verdict on all rounds that wait, as one history. Any other than yes says nothing of a single round. `is_in` says which rounds the history
 * has; the others are judged on their own. */
static inline enum potzendai_status potzendai_judge_together(struct potzendai_tester *tester, bool is_in[POTZENDAI_BATCH])
{
    struct potzendai_batch batch;
    struct potzendai_told told;
    int added = 0;
    memset(&batch, 0, sizeof batch);
    memset(&told, 0, sizeof told);
    for (size_t i = 0; i < tester->waiting_count && added >= 0; i++) {
        added = potzendai_add_round(&batch, tester->waiting[i].told.text, tester->options->keys);
        is_in[i] = added == 0;
    }
    bool is_batch = batch.rounds > 1;
    told.text = added >= 0 && is_batch ? potzendai_text_of_batch(&batch, &told.length) : NULL;
    potzendai_close_batch(&batch);
    if (added >= 0 && !is_batch)
        return POTZENDAI_IS_UNDECIDED;
    enum potzendai_status status = told.text ? potzendai_judged_once(tester->options, &told) : POTZENDAI_NO_MEMORY;
    potzendai_forget(&told);
    return status;
}

/* Judges one round that waits. If it ends the run, the counts are those up to its end. */
static inline int potzendai_take_waiting(struct potzendai_tester *tester, struct potzendai_waiting *waiting)
{
    struct potzendai_counts counts = tester->run->counts;
    uint64_t rounds = tester->rounds;
    tester->run->counts = waiting->counts;
    tester->run->round = waiting->round;
    tester->rounds = tester->options->schedule.has_replay ? 1 : waiting->round + 1;
    int status = potzendai_take_round(tester, &waiting->told);
    if (status)
        return status;
    tester->run->counts = counts;
    tester->rounds = rounds;
    return 0;
}

static inline void potzendai_forget_waiting(struct potzendai_tester *tester)
{
    for (size_t i = 0; i < tester->waiting_count; i++)
        potzendai_forget(&tester->waiting[i].told);
    tester->waiting_count = 0;
}

/* Judges all rounds that wait together. Unless that is a yes, judges them one by one, and names the first that has no order. */
static inline int potzendai_judge_waiting(struct potzendai_tester *tester)
{
    bool is_in[POTZENDAI_BATCH] = {false};
    int status = 0;
    enum potzendai_status all = tester->waiting_count > 1 ? potzendai_judge_together(tester, is_in) : POTZENDAI_IS_UNDECIDED;
    if (all == POTZENDAI_NO_MEMORY)
        status = potzendai_fail(tester->run, POTZENDAI_NO_MEMORY, "memory: a round was not judged");
    for (size_t i = 0; i < tester->waiting_count && status == 0; i++)
        if (all != POTZENDAI_IS_YES || !is_in[i])
            status = potzendai_take_waiting(tester, &tester->waiting[i]);
    potzendai_forget_waiting(tester);
    return status;
}

/* Takes a round, whose text then belongs to the batch. All rounds that wait are judged once another may have no room, or after a second. */
static inline int potzendai_await(struct potzendai_tester *tester, struct potzendai_told *told)
{
    const struct potzendai_options *o = tester->options;
    struct potzendai_waiting *waiting = &tester->waiting[tester->waiting_count];
    uint64_t calls = tester->run->counts.calls;
    if (tester->waiting_count == 0)
        tester->waits_since = potzendai_now();
    waiting->told = *told;
    waiting->counts = tester->run->counts;
    waiting->round = tester->run->round;
    tester->waiting_count++;
    memset(told, 0, sizeof *told);
    uint64_t more = o->threads * o->calls + o->keys;
    bool is_full = tester->waiting_count == POTZENDAI_BATCH || calls - tester->calls_judged + more > RECORDING_CALLS;
    if (!is_full && potzendai_now() - tester->waits_since < 1)
        return 0;
    tester->calls_judged = calls;
    return potzendai_judge_waiting(tester);
}

/* Whether the words ask for another round. */
static inline bool potzendai_is_more(const struct potzendai_tester *tester)
{
    const struct potzendai_options *o = tester->options;
    double until = tester->began + (double)o->seconds;
    return (o->rounds == 0 || tester->rounds < o->rounds) && (tester->rounds == 0 || potzendai_now() < until)
        && !potzendai_is_interrupted();
}

/* Makes rounds until one has no order, the time is over, or the run fails. Returns the status, or -1 if the run fails. */
static inline int potzendai_rounds(struct potzendai_tester *tester)
{
    int status = potzendai_read_start(tester);
    while (status == 0 && potzendai_is_more(tester)) {
        struct potzendai_told told;
        memset(&told, 0, sizeof told);
        tester->run->round = tester->rounds;
        if (tester->rounds > 0 && tester->options->fresh && tester->rounds % tester->options->fresh == 0)
            status = potzendai_renew(tester);
        status = status ? status : potzendai_record(tester, &told);
        potzendai_go_on(tester);
        if (status == 0)
            status = potzendai_is_unjudged(tester->options) ? potzendai_write_round(tester, &told) : potzendai_await(tester, &told);
        potzendai_forget(&told);
        tester->refused = tester->run->counts.sayings[MAP_REFUSED];
        potzendai_progress(tester);
    }
    status = status ? status : potzendai_judge_waiting(tester);
    potzendai_forget_waiting(tester);
    return status == 0 && tester->undecided > 0 ? POTZENDAI_IS_UNDECIDED : status;
}

#endif
