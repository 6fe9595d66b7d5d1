/* Tests your ordered map: threads call its functions, their calls are recorded, and each recording is judged.
 *
 * It needs C11 or C++11, POSIX threads, and libpotzendai.a with potzendai.h. Copy the headers of this folder, and include this one first in the
 * source that has `main`:
 *
 *     #include "potzendai_test.h"
 *     static enum map_said get(void *connection, uint64_t key, uint64_t *found) { .. }
 *     static enum map_said put(void *connection, uint64_t key, uint64_t value, uint64_t *found) { .. }
 *     int main(int argc, char **argv)
 *     {
 *         struct potzendai_map map = {.name = "mine", .map = &mine, .get = get, .put = put};
 *         return potzendai_test_main(argc, argv, &map);
 *     }
 *
 * README.md describes the words and the statuses. With the macro POTZENDAI_NO_LIBRARY the archive is not needed: --bench names the program that
 * judges. Without --bench, histories or a stream are only written. The verdict on a text is proved; that these headers record the map correctly is
 * tested. */
#ifndef POTZENDAI_TEST_H
#define POTZENDAI_TEST_H

#ifndef _POSIX_C_SOURCE
#define _POSIX_C_SOURCE 200809L
#endif
#include "potzendai_follow.h"
#include "potzendai_kill.h"
#include "potzendai_scheduled.h"
#include <signal.h>

static const char *const potzendai_verdicts[] = {"yes", "no", "undecided"};

/* Writes the line before the last: how often each function of the map was called, and which it does not have. */
static inline void potzendai_tell_calls(FILE *out, const struct potzendai_run *run)
{
    const char *comma = "calls: ";
    for (int is_there = 1; is_there >= 0; is_there--) {
        for (int f = 0; f < POTZENDAI_FUNCTIONS; f++) {
            if (potzendai_has(run->truly, (enum potzendai_function)f) != (is_there == 1))
                continue;
            fprintf(out, "%s%s", comma, potzendai_functions[f]);
            if (is_there)
                fprintf(out, " %" PRIu64, run->counts.functions_called[f]);
            comma = ", ";
        }
        comma = "; not there: ";
    }
    fputc('\n', out);
}

/* Writes a number with a comma before each three digits. */
static inline void potzendai_tell_number(FILE *out, uint64_t number)
{
    if (number >= 1000) {
        potzendai_tell_number(out, number / 1000);
        fprintf(out, ",%03" PRIu64, number % 1000);
    } else
        fprintf(out, "%" PRIu64, number);
}

/* Writes why a yes of a cache says little, or nothing. */
static inline void potzendai_tell_misses(FILE *out, enum potzendai_cache how, const struct potzendai_counts *counts)
{
    uint64_t gets = counts->functions_called[POTZENDAI_GET];
    if (counts->hits == 0)
        fputs("; no get hit: a yes says nothing", out);
    else if (20 * counts->hits < gets) {
        fprintf(out, "; %" PRIu64 " hit%s in ", counts->hits, potzendai_plural(counts->hits));
        potzendai_tell_number(out, gets);
        fputs(" gets: a yes says little", out);
    }
    if (counts->losses == 0 && how != POTZENDAI_CACHE_LATE)
        fputs("; no key was lost: eviction was not tested", out);
    if (counts->left_out > 0)
        fprintf(out, "; %" PRIu64 " scan%s without some of the keys left out", counts->left_out, potzendai_plural(counts->left_out));
}

/* Writes why a yes of this run says little. */
static inline void potzendai_tell_cautions(FILE *out, const struct potzendai_tester *tester)
{
    const struct potzendai_options *o = tester->options;
    const struct potzendai_counts *counts = &tester->run->counts;
    uint64_t said = 0;
    for (int i = 0; i < POTZENDAI_SAYINGS; i++)
        said += counts->sayings[i];
    if (2 * counts->sayings[MAP_REFUSED] > said)
        fputs("; most calls were refused: a yes says little", out);
    if (o->cache != POTZENDAI_NO_CACHE)
        potzendai_tell_misses(out, o->cache, counts);
    else if (counts->functions_called[POTZENDAI_GET] > 0 && counts->hits == 0)
        fputs("; no get found a value: a yes says little", out);
    if ((!o->is_stream || tester->has_overlap) && counts->calls > 0 && potzendai_overlap_a_call(tester) < 0.05)
        fputs("; overlap below 0.05: the threads hardly met, and a yes says little: call potzendai_point() in the map, and run with --yield 200",
              out);
    if (o->yields > 0 && counts->points == 0 && counts->calls > 0 && o->kill == 0)
        fputs("; --yield acted only between calls, since the map called no potzendai_point()", out);
}

/* Writes the last line: the verdict, and what it rests on. */
static inline void potzendai_tell_all(FILE *out, const struct potzendai_tester *tester, const char *verdict)
{
    const char *comma = ": ";
    const struct potzendai_counts *counts = &tester->run->counts;
    uint64_t calls = counts->calls;
    fprintf(out, "%s: ", verdict);
    if (tester->options->kill > 0)
        fprintf(out, "%" PRIu64 " %s, ", tester->rounds, tester->rounds == 1 ? "life" : "lives");
    else if (!tester->options->is_stream)
        fprintf(out, "%" PRIu64 " round%s, ", tester->rounds, potzendai_plural(tester->rounds));
    fprintf(out, "%" PRIu64 " call%s in %.1f seconds", calls, potzendai_plural(calls), potzendai_now() - tester->began);
    if (!tester->options->is_stream || tester->has_overlap)
        fprintf(out, ", overlap %.2f a call", potzendai_overlap_a_call(tester));
    for (int said = 0; said < POTZENDAI_SAYINGS; said++)
        if (counts->sayings[said] > 0) {
            fprintf(out, "%s%" PRIu64 " %s", comma, counts->sayings[said], potzendai_sayings[said]);
            comma = ", ";
        }
    if (tester->options->kill > 0)
        fprintf(out, "; %" PRIu64 " open at a kill%s", tester->kills.open, tester->kills.counted);
    if (tester->undecided > 0)
        fprintf(out, "; %" PRIu64 " undecided", tester->undecided);
    if (tester->options->cache != POTZENDAI_NO_CACHE)
        fprintf(out, "; %" PRIu64 " hit%s, %" PRIu64 " miss%s", counts->hits, potzendai_plural(counts->hits), counts->misses,
                counts->misses == 1 ? "" : "es");
    /* a late miss is no loss: its write may not have appeared yet */
    if (tester->options->cache != POTZENDAI_NO_CACHE && tester->options->cache != POTZENDAI_CACHE_LATE)
        fprintf(out, ", %" PRIu64 " loss%s", counts->losses, counts->losses == 1 ? "" : "es");
    if (strncmp(verdict, "no", 2) != 0 && strncmp(verdict, "does", 4) != 0)
        potzendai_tell_cautions(out, tester);
    fputc('\n', out);
}

/* Prints which files of rounds were written, if nobody judges here. The file of a stream was named as it was opened. */
static inline void potzendai_tell_files(const struct potzendai_tester *tester)
{
    const struct potzendai_options *o = tester->options;
    if (strcmp(o->out, "-") == 0 || o->is_stream || tester->rounds == 0)
        return;
    fprintf(stderr, "  file%s: %s/%s-%" PRIu64 "-0.json", potzendai_plural(tester->rounds), o->out, tester->run->truly->name, o->seed);
    if (tester->rounds > 1)
        fprintf(stderr, " to -%" PRIu64 ".json", tester->rounds - 1);
    fputs(", each for one bench judge\n", stderr);
}

/* Prints how the run went. Returns the status of the program. */
static inline int potzendai_finish(const struct potzendai_tester *tester, int status)
{
    struct potzendai_run *run = tester->run;
    if (status < 0) {
        status = (int)atomic_load(&run->fault);
        fprintf(stderr, "%s: %s\n", run->truly->name, run->complaint);
        if (status == POTZENDAI_IS_UNDECIDED) {
            potzendai_tell_calls(stderr, run);
            potzendai_tell_all(stdout, tester, potzendai_verdicts[status]);
        }
        return status;
    }
    potzendai_tell_calls(stderr, run);
    if (status == POTZENDAI_IS_YES && tester->options->cache != POTZENDAI_NO_CACHE && run->counts.hits == 0
        && !potzendai_is_unjudged(tester->options))
        status = POTZENDAI_IS_UNDECIDED;
    if (potzendai_is_unjudged(tester->options)) {
        potzendai_tell_files(tester);
        potzendai_tell_all(stderr, tester, "not judged");
        return status;
    }
    if (status == POTZENDAI_IS_NO && tester->options->broken != POTZENDAI_UNBROKEN && run->counts.wrongs == 0)
        fprintf(stderr, "--break %s: no bug was injected by then, so this no is of the map itself\n",
                potzendai_breaks[tester->options->broken]);
    if (status == POTZENDAI_IS_YES && tester->options->broken != POTZENDAI_UNBROKEN)
        fprintf(stderr, "--break %s: the map was wrong now and then, and these calls did not show it\n",
                potzendai_breaks[tester->options->broken]);
    potzendai_tell_all(stdout, tester, tester->ending ? tester->ending : potzendai_verdicts[status]);
    if (fflush(stdout) == 0)
        return status;
    fputs("standard output: not written\n", stderr);
    return status == POTZENDAI_IS_YES ? POTZENDAI_BAD_FILE : status;
}

/* Prints in one line how a run went that is one of several ways to be wrong. Returns its status. A no of a map that was not made wrong refutes
 * nothing: then the status is yes. */
static inline int potzendai_finish_quietly(const struct potzendai_tester *tester, int status)
{
    struct potzendai_run *run = tester->run;
    bool is_as_it_is = status == POTZENDAI_IS_NO && run->counts.wrongs == 0;
    fprintf(stderr, "%s: ", potzendai_breaks[tester->options->broken]);
    if (status >= 0)
        potzendai_tell_all(stderr, tester, is_as_it_is ? "no of the map itself" : potzendai_verdicts[status]);
    else
        fprintf(stderr, "%s\n", run->complaint);
    return status < 0 ? (int)atomic_load(&run->fault) : is_as_it_is ? (int)POTZENDAI_IS_YES : status;
}

static inline void potzendai_close_tester(struct potzendai_tester *tester)
{
    struct potzendai_run *run = tester->run;
    for (uint64_t key = 0; run && run->keys && key < tester->options->keys; key++)
        pthread_mutex_destroy(&run->keys[key].lock);
    if (run) {
        free(run->keys);
        free(run->recording);
    }
    free(run);
    free(tester->start);
    free(tester->next_start);
}

/* Takes memory for a run: 0, or -1 if it is refused. */
static inline int potzendai_open_tester(struct potzendai_tester *tester, const struct potzendai_options *o)
{
    struct potzendai_run *run = (struct potzendai_run *)calloc(1, sizeof *run);
    tester->run = run;
    tester->options = o;
    tester->start = (struct recording_pair *)calloc((size_t)o->keys, sizeof *tester->start);
    tester->next_start = (struct recording_pair *)calloc((size_t)o->keys, sizeof *tester->next_start);
    if (run) {
        run->recording = (struct recording *)calloc(1, sizeof *run->recording);
        run->keys = (struct potzendai_key *)calloc((size_t)o->keys, sizeof *run->keys);
    }
    for (uint64_t key = 0; run && run->keys && key < o->keys; key++)
        pthread_mutex_init(&run->keys[key].lock, NULL);
    return run && run->recording && run->keys && tester->start && tester->next_start ? 0 : -1;
}

/* Makes the map if needed, runs rounds or a stream, and ends the map. */
static inline int potzendai_run_all(struct potzendai_tester *tester)
{
    if (tester->options->kill > 0)
        return potzendai_store() ? potzendai_live(tester) : potzendai_kill_lives(tester);
    int status = potzendai_begin_map(tester);
    if (status == 0)
        status = tester->options->is_stream ? potzendai_stream(tester)
               : tester->options->schedule.way != POTZENDAI_FREE ? potzendai_schedule_rounds(tester) : potzendai_rounds(tester);
    potzendai_end_map(tester);
    return status;
}

/* Tests the map by these words, and returns the status. A quiet run only prints the verdict. */
static inline int potzendai_test(const struct potzendai_options *options, const char *program, const struct potzendai_map *map, bool is_quiet)
{
    struct potzendai_broken broken;
    struct potzendai_tester tester;
    memset(&tester, 0, sizeof tester);
    memset(&broken, 0, sizeof broken);
    if (potzendai_open_tester(&tester, options)) {
        potzendai_close_tester(&tester);
        fputs("memory: no room for a run\n", stderr);
        return POTZENDAI_NO_MEMORY;
    }
    tester.program = program;
    tester.is_quiet = is_quiet;
    tester.has_terminal = isatty(2);
    tester.began = tester.told = potzendai_now();
    tester.run->options = options;
    tester.given = map;
    tester.opened = *map;
    tester.opened.map = map->begin ? NULL : map->map;
    tester.run->truly = &tester.opened;
    tester.run->map = potzendai_break_map(&broken, &tester.opened, options, &tester.run->round, &tester.run->wrongs);
    tester.run->threads = options->threads;
    tester.run->keys_drawn = options->keys;
    tester.run->calls = options->calls;
    int status = potzendai_run_all(&tester);
    status = is_quiet ? potzendai_finish_quietly(&tester, status) : potzendai_finish(&tester, status);
    potzendai_close_tester(&tester);
    return status;
}

/* Tests the map made wrong in each way that the drawn calls can show. If each was refuted, the status is no. */
static inline int potzendai_test_each(const struct potzendai_options *options, const char *program, const struct potzendai_map *map)
{
    struct potzendai_options one = *options;
    int missed = 0;
    for (int how = 0; how < POTZENDAI_EACH_BREAK; how++) {
        one.broken = (enum potzendai_break)how;
        if (!potzendai_is_called(&one, one.broken)) {
            fprintf(stderr, "%s: no call that it would break is made\n", potzendai_breaks[how]);
            continue;
        }
        int status = potzendai_test(&one, program, map, true);
        if (potzendai_is_interrupted())
            return POTZENDAI_IS_UNDECIDED;
        if (status > POTZENDAI_IS_UNDECIDED)
            return status;
        missed += status != POTZENDAI_IS_NO;
    }
    fputs("this shows that calls and answers reach the judge; it does not show that threads meet: see the overlap\n", stderr);
    if (missed > 0)
        printf("yes: %d of the broken maps were not refuted\n", missed);
    else
        puts("no: each broken map was refuted");
    if (fflush(stdout)) {
        fputs("standard output: not written\n", stderr);
        return missed > 0 ? POTZENDAI_BAD_FILE : POTZENDAI_IS_NO;
    }
    return missed > 0 ? POTZENDAI_IS_YES : POTZENDAI_IS_NO;
}

/* The whole program: reads the words, tests the map, prints the verdict, and returns the status. The map has to be at rest, and to hold only keys
 * below the number of keys. */
static inline int potzendai_test_main(int argc, char **argv, const struct potzendai_map *map)
{
    struct potzendai_options options;
    if (potzendai_asks_help(argc, argv))
        return potzendai_help(argv[0]);
    if (potzendai_store())
        return potzendai_read_life(&options, argc, argv, map) ? POTZENDAI_BAD_WORDS : potzendai_test(&options, argv[0], map, false);
    int status = potzendai_read_words(&options, argc, argv, map);
    if (status)
        return status;
    if (potzendai_is_unjudged(&options) && options.kill > 0)
        return potzendai_complain("--kill", "each life is judged, and nobody judges here");
    if (potzendai_is_unjudged(&options) && options.broken == POTZENDAI_EACH_BREAK)
        return potzendai_complain("--break", "all: each is judged, and nobody judges here");
    if (potzendai_is_unjudged(&options) || options.bench)
        signal(SIGPIPE, SIG_IGN);
#ifdef POTZENDAI_NO_LIBRARY
    if (!potzendai_is_unjudged(&options))
        status = potzendai_open_bench(options.bench, options.is_stream || options.kill > 0);
    if (status)
        return status;
#endif
    potzendai_await_interrupt();
    potzendai_has_own_values = options.cache != POTZENDAI_NO_CACHE;
    if (options.broken == POTZENDAI_EACH_BREAK)
        return potzendai_test_each(&options, argv[0], map);
    return potzendai_test(&options, argv[0], map, false);
}

#endif
