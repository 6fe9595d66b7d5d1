/* The words of a run, and what they mean. Included by potzendai_test.h. */
#ifndef POTZENDAI_WORDS_H
#define POTZENDAI_WORDS_H

#include "potzendai_map.h"
#include <errno.h>
#include <stdarg.h>
#include <stdlib.h>
#include <unistd.h>

/* Statuses of a run, which are those of the program. */
enum potzendai_status {
    POTZENDAI_IS_YES, POTZENDAI_IS_NO, POTZENDAI_IS_UNDECIDED, POTZENDAI_IS_REFUSED, POTZENDAI_NO_MEMORY, POTZENDAI_BAD_WORDS,
    POTZENDAI_BAD_FILE
};

/* How a put or a del that answers `done` is recorded: as done; not at all, since it has to say the value before; with what the one writer of its
 * key remembers; or with what a get found before it, under the key's own lock. */
enum potzendai_void { POTZENDAI_VOID_DONE, POTZENDAI_VOID_TOLD, POTZENDAI_VOID_OWN, POTZENDAI_VOID_LOCK };

enum potzendai_break {
    POTZENDAI_DROP, POTZENDAI_RACE, POTZENDAI_REPLAY, POTZENDAI_STALE, POTZENDAI_ZOMBIE, POTZENDAI_TORN, POTZENDAI_CAS,
    POTZENDAI_EACH_BREAK, POTZENDAI_UNBROKEN
};

/* Whether the map is a cache, which may lose any key at any time. Of a late one, a miss says nothing. */
enum potzendai_cache { POTZENDAI_NO_CACHE, POTZENDAI_CACHE, POTZENDAI_CACHE_LATE };

static const char *const potzendai_voids[] = {"done", "told", "own", "lock", NULL};
static const char *const potzendai_breaks[] = {"drop", "race", "replay", "stale", "zombie", "torn", "cas", "all", NULL};
static const char *const potzendai_scans[] = {"snapshot", "steps", NULL};

/* Which strategy rounds have: none, all of them in turn, or one. */
enum potzendai_way { POTZENDAI_FREE, POTZENDAI_MIX, POTZENDAI_ONLY_POS, POTZENDAI_ONLY_PCT, POTZENDAI_ONLY_WALK };

static const char *const potzendai_ways[] = {"free", "mix", "pos", "pct", "walk", NULL};

/* By `enum potzendai_points`; no word asks for those that learn. */
static const char *const potzendai_point_names[] = {"all", "atomics", "", "learned", NULL};

/* What the words say of schedules. Learned points are used in every second round. */
struct potzendai_schedule_words {
    enum potzendai_way way;
    uint64_t depth, jobs, replay;
    enum potzendai_points points;
    bool has_replay, has_buffers, has_kernel_threads;
    const char *first; /* one of these words, or NULL */
};

struct potzendai_options {
    uint64_t seconds, threads, keys, hot, calls, seed, rounds, yields, budget, fresh, span;
    uint64_t shares[POTZENDAI_FUNCTIONS];
    enum potzendai_void void_puts;
    enum potzendai_break broken;
    enum potzendai_cache cache;
    bool is_steps, is_stream, has_mix, has_void, has_seed, is_reopened, is_killed_at_write, has_power;
    double kill;          /* seconds, or 0 */
    bool is_reading;      /* of a process that is killed: whether it reads the keys, */
    uint64_t life;        /* and which life it is of, or which reading it is */
    struct potzendai_schedule_words schedule;
    const char *out, *bench;
};

/* The most keys in the range of a scan; and the usual numbers: calls of a thread in a round, and keys. A stream has more keys. Its follower searches
 * the calls that are left of a key, and there are fewer of these the fewer overlap. */
enum { POTZENDAI_SPAN = 16, POTZENDAI_CALLS = 200, POTZENDAI_KEYS = 16, POTZENDAI_STREAM_KEYS = 1000 };
enum { POTZENDAI_SCHEDULED_CALLS = 12, POTZENDAI_SCHEDULED_KEYS = 4 };

/* The most bytes of a path; the usual and the greatest budget of a search. */
enum { POTZENDAI_PATH = 4096, POTZENDAI_USUAL = 100000, POTZENDAI_MOST = 1000000 };

static const char potzendai_usage[] =
    "  --seconds N       how long (10, or as long as --rounds take)\n"
    "  --rounds N        at most N rounds\n"
    "  --threads N       threads that call the map (4)\n"
    "  --keys N          keys, from 0 (16; of a stream 1000)\n"
    "  --hot N           nine calls in ten use one of the first N keys\n"
    "  --calls N         calls of each thread in a round, or in a stream (200; no limit)\n"
    "  --seed N          what the calls are drawn from (the clock)\n"
    "  --mix LIST        shares, such as get=50,put=30,del=10,scan=10; also replace, put_if_absent, floor, ceiling, pop_first\n"
    "  --void HOW        done: a put or del may answer done; told: it must say the value before; own: one writer for each key remembers\n"
    "                    what it put; lock: a lock for each key around a get and the put after it (done)\n"
    "  --scan HOW        snapshot: a scan is of one moment; steps: steps of ceiling (snapshot)\n"
    "  --yield N         of a thousand points in and between calls, N let another thread run (0)\n"
    "  --break HOW       makes the map wrong now and then: drop, race, replay, stale, zombie, torn or cas; all: in each of these ways\n"
    "  --cache [late]    the map is a cache, which may lose any key at any time; late: its writes appear later, so a miss says nothing\n"
    "  --fresh N         a new map after each N rounds (one map)\n"
    "  --reopen          the map is closed and opened again after each round\n"
    "  --kill SECONDS    a process makes the calls of a round, and is killed 0.5 to 1.5 times as long after its first call\n"
    "  --kill-at-write   it is killed before a random write of its store\n"
    "  --power           after a kill each file has what it had at its last sync\n"
    "  --stream          one stream, judged while it is recorded, in place of rounds\n"
    "  --schedule [HOW]  the scheduler says which thread runs: mix, pos, pct or walk (mix); with 12 calls and 4 keys\n"
    "  --depth N         of pct: at N - 1 drawn points a priority changes (3)\n"
    "  --points WHICH    where threads may give way: learned, all or atomics (learned, in every second round)\n"
    "  --tso             scheduled atomic stores below seq_cst reach other threads later\n"
    "  --replay N        makes the scheduled round N of --seed again\n"
    "  --jobs N          makes N scheduled rounds at a time (1)\n"
    "  --kernel-threads  each scheduled thread runs on its own kernel thread, as debuggers expect\n"
    "  --budget N        states that a search may meet (100000); an undecided round is asked again at ten times as many\n"
#ifdef POTZENDAI_NO_LIBRARY
    "  --bench PATH      the program that judges, by a path with a slash or its name on the PATH; without it nobody judges\n"
    "  --out FOLDER      where files are written (.; without --bench you must name it); -: all histories, or the stream, on standard output,\n"
    "                    judged by nobody\n";
#else
    "  --out FOLDER      where files are written (.); -: all histories, or the stream, on standard output, judged by nobody\n";
#endif

static inline int potzendai_complain(const char *word, const char *what)
{
    fprintf(stderr, "%s: %s\n", word, what);
    return POTZENDAI_BAD_WORDS;
}

/* The ending of a noun after a number. */
static inline const char *potzendai_plural(uint64_t count)
{
    return count == 1 ? "" : "s";
}

/* Reads a number up to a limit; -1 if the text is none. */
static inline int potzendai_read_number(const char *text, uint64_t most, uint64_t *number)
{
    *number = 0;
    if (!*text)
        return -1;
    for (; *text; text++) {
        if (*text < '0' || *text > '9' || *number > (most - (uint64_t)(*text - '0')) / 10)
            return -1;
        *number = *number * 10 + (uint64_t)(*text - '0');
    }
    return *number <= most ? 0 : -1;
}

/* The place of a word in a list of names that NULL ends; -1 if it is none of them. */
static inline int potzendai_place(const char *const *names, const char *word, size_t length)
{
    for (int i = 0; names[i]; i++)
        if (strlen(names[i]) == length && memcmp(names[i], word, length) == 0)
            return i;
    return -1;
}

static inline int potzendai_read_mix(struct potzendai_options *o, const char *text)
{
    memset(o->shares, 0, sizeof o->shares);
    o->has_mix = true;
    for (;;) {
        const char *is = strchr(text, '=');
        int function = is ? potzendai_place(potzendai_functions, text, (size_t)(is - text)) : -1;
        uint64_t share = 0;
        size_t digits = is ? strspn(is + 1, "0123456789") : 0;
        if (function < 0 || digits < 1 || digits > 6 || (is[digits + 1] && is[digits + 1] != ','))
            return potzendai_complain("--mix", "shares, such as get=50,put=30,del=10,scan=10");
        for (size_t i = 1; i <= digits; i++)
            share = share * 10 + (uint64_t)(is[i] - '0');
        o->shares[function] = share;
        if (!is[digits + 1])
            return 0;
        text = is + digits + 2;
    }
}

struct potzendai_numbered { const char *name; uint64_t least, most, *to; };
struct potzendai_named { const char *name; const char *const *names; };

/* Reads a word that a number follows; -1 if it is none of these. */
static inline int potzendai_read_numbered(struct potzendai_options *o, const char *word, const char *text)
{
    const struct potzendai_numbered all[] = {
        {"--seconds", 1, 1000000000, &o->seconds}, {"--rounds", 1, UINT64_MAX, &o->rounds}, {"--threads", 1, 1024, &o->threads},
        {"--keys", 1, 16384, &o->keys}, {"--hot", 1, 16384, &o->hot}, {"--calls", 1, UINT64_MAX, &o->calls},
        {"--seed", 0, UINT64_MAX, &o->seed}, {"--yield", 0, 1000, &o->yields}, {"--budget", 1, POTZENDAI_MOST, &o->budget},
        {"--fresh", 1, UINT64_MAX, &o->fresh}
    };
    for (size_t i = 0; i < sizeof all / sizeof *all; i++)
        if (strcmp(word, all[i].name) == 0) {
            char range[80];
            snprintf(range, sizeof range, "a number from %" PRIu64 " to %" PRIu64, all[i].least, all[i].most);
            bool is_one = text && potzendai_read_number(text, all[i].most, all[i].to) == 0 && *all[i].to >= all[i].least;
            return is_one ? 0 : potzendai_complain(word, range);
        }
    return -1;
}

/* Reads a word that a name follows; -1 if it is none of these. */
static inline int potzendai_read_named(struct potzendai_options *o, const char *word, const char *text)
{
    const struct potzendai_named all[] = {{"--void", potzendai_voids}, {"--break", potzendai_breaks}, {"--scan", potzendai_scans}};
    for (size_t i = 0; i < sizeof all / sizeof *all; i++)
        if (strcmp(word, all[i].name) == 0) {
            int place = text ? potzendai_place(all[i].names, text, strlen(text)) : -1;
            if (place < 0)
                return potzendai_complain(word, "not one of its names; see --help");
            o->has_void = o->has_void || i == 0;
            if (i == 0)
                o->void_puts = (enum potzendai_void)place;
            else if (i == 1)
                o->broken = (enum potzendai_break)place;
            else
                o->is_steps = place == 1;
            return 0;
        }
    return -1;
}

/* Reads an option of schedules that takes no value. Returns -1 if it is none of these. */
static inline int potzendai_read_schedule_flag(struct potzendai_schedule_words *s, const char *word)
{
    bool is_buffers = strcmp(word, "--tso") == 0;
    if (!is_buffers && strcmp(word, "--kernel-threads") != 0)
        return -1;
    s->has_buffers = s->has_buffers || is_buffers;
    s->has_kernel_threads = s->has_kernel_threads || !is_buffers;
    s->first = s->first ? s->first : word;
    return 0;
}

/* Reads a word of schedules that a name or a number follows; -1 if it is none of these. */
static inline int potzendai_read_schedule_word(struct potzendai_schedule_words *s, const char *word, const char *text)
{
    const char *found = text ? text : "";
    bool is_way = strcmp(word, "--schedule") == 0, is_right;
    if (is_way) {
        int way = potzendai_place(potzendai_ways, found, strlen(found));
        is_right = way > POTZENDAI_FREE;
        s->way = is_right ? (enum potzendai_way)way : s->way;
    } else if (strcmp(word, "--points") == 0) {
        int place = *found ? potzendai_place(potzendai_point_names, found, strlen(found)) : -1;
        is_right = place >= 0;
        s->points = is_right ? (enum potzendai_points)place : s->points;
    } else if (strcmp(word, "--depth") == 0)
        is_right = potzendai_read_number(found, 64, &s->depth) == 0 && s->depth > 0;
    else if (strcmp(word, "--jobs") == 0)
        is_right = potzendai_read_number(found, 64, &s->jobs) == 0 && s->jobs > 0;
    else if (strcmp(word, "--replay") == 0)
        is_right = s->has_replay = potzendai_read_number(found, (uint64_t)1 << 62, &s->replay) == 0;
    else
        return -1;
    s->first = s->first || is_way ? s->first : word;
    return is_right ? 0 : potzendai_complain(word, "not one of its names or numbers; see --help");
}

/* Reads an option of kills that takes no value. Returns -1 if it is none of these. */
static inline int potzendai_read_kill_flag(struct potzendai_options *o, const char *word)
{
    bool is_power = strcmp(word, "--power") == 0;
    if (!is_power && strcmp(word, "--kill-at-write") != 0)
        return -1;
    o->has_power = o->has_power || is_power;
    o->is_killed_at_write = o->is_killed_at_write || !is_power;
    return 0;
}

/* Reads the seconds after which a process is killed. */
static inline int potzendai_read_kill(struct potzendai_options *o, const char *text)
{
    char *end = NULL;
    o->kill = text ? strtod(text, &end) : 0;
    bool is_number = end && end > text && *end == 0 && o->kill >= 0.001 && o->kill <= 1e6;
    return is_number ? 0 : potzendai_complain("--kill", "seconds from 0.001 to 1000000");
}

static inline int potzendai_read_word(struct potzendai_options *o, char **words, int *at)
{
    const char *word = words[*at];
    if (potzendai_read_schedule_flag(&o->schedule, word) == 0 || potzendai_read_kill_flag(o, word) == 0)
        return 0;
    o->has_seed = o->has_seed || strcmp(word, "--seed") == 0;
    if (strcmp(word, "--stream") == 0 || strcmp(word, "--reopen") == 0) {
        o->is_stream = o->is_stream || word[2] == 's';
        o->is_reopened = o->is_reopened || word[2] == 'r';
        return 0;
    }
    if (strcmp(word, "--cache") == 0) {
        bool is_late = words[*at + 1] && strcmp(words[*at + 1], "late") == 0;
        o->cache = is_late ? POTZENDAI_CACHE_LATE : POTZENDAI_CACHE;
        *at += is_late;
        return 0;
    }
    if (strcmp(word, "--schedule") == 0 && (!words[*at + 1] || strncmp(words[*at + 1], "--", 2) == 0)) {
        o->schedule.way = POTZENDAI_MIX;
        return 0;
    }
    const char *text = words[++*at];
    if (strcmp(word, "--kill") == 0)
        return potzendai_read_kill(o, text);
    if (strcmp(word, "--mix") == 0)
        return text ? potzendai_read_mix(o, text) : potzendai_complain(word, "shares, such as get=50,put=30,del=10,scan=10");
    if (strcmp(word, "--out") == 0) {
        o->out = text;
        return text ? 0 : potzendai_complain(word, "a folder, or -");
    }
#ifdef POTZENDAI_NO_LIBRARY
    if (strcmp(word, "--bench") == 0) {
        o->bench = text;
        return text ? 0 : potzendai_complain(word, "the path of the program");
    }
#endif
    int status = potzendai_read_schedule_word(&o->schedule, word, text);
    status = status < 0 ? potzendai_read_numbered(o, word, text) : status;
    status = status < 0 ? potzendai_read_named(o, word, text) : status;
    return status < 0 ? potzendai_complain(word, "no such option; see --help") : status;
}

/* Whether at most one thread at a time writes a key. */
static inline bool potzendai_has_one_writer(const struct potzendai_options *o)
{
    return o->void_puts == POTZENDAI_VOID_OWN || o->void_puts == POTZENDAI_VOID_LOCK;
}

/* The usual shares of the functions that the map has, if no shares are given. */
static inline void potzendai_take_shares(struct potzendai_options *o, const struct potzendai_map *map)
{
    static const unsigned usual[POTZENDAI_FUNCTIONS] = {40, 30, 10, 5, 10, 5, 3, 3, 2};
    for (int f = 0; f < POTZENDAI_FUNCTIONS; f++)
        o->shares[f] = potzendai_has(map, (enum potzendai_function)f) ? usual[f] : 0;
    if (potzendai_has_one_writer(o))
        o->shares[POTZENDAI_POP_FIRST] = 0;
    for (int f = POTZENDAI_PUT_IF_ABSENT; o->kill > 0 && f < POTZENDAI_FUNCTIONS; f++)
        o->shares[f] = 0;
    if (o->is_steps)
        o->shares[POTZENDAI_SCAN] = usual[POTZENDAI_SCAN];
}

/* Whether the map has each function that has a share, and these words allow it. */
static inline int potzendai_check_shares(const struct potzendai_options *o, const struct potzendai_map *map)
{
    uint64_t total = 0;
    if (o->is_steps && !map->ceiling)
        return potzendai_complain("--scan", "steps need the function ceiling, which the map does not have");
    for (int f = 0; f < POTZENDAI_FUNCTIONS; f++) {
        bool is_steps = f == POTZENDAI_SCAN && o->is_steps;
        total += o->shares[f];
        if (o->shares[f] > 0 && !is_steps && !potzendai_has(map, (enum potzendai_function)f))
            return potzendai_complain(potzendai_functions[f], "no such function of the map");
    }
    if (total == 0)
        return potzendai_complain("--mix", "no share");
    if (o->shares[POTZENDAI_POP_FIRST] > 0 && potzendai_has_one_writer(o))
        return potzendai_complain("pop_first", "takes keys of other threads, so not with --void own or lock");
    return 0;
}

/* Whether a function is called that this way to break the map makes wrong. */
static inline bool potzendai_is_called(const struct potzendai_options *o, enum potzendai_break how)
{
    static const enum potzendai_function needed[] = {
        POTZENDAI_PUT, POTZENDAI_PUT, POTZENDAI_PUT, POTZENDAI_GET, POTZENDAI_DEL, POTZENDAI_SCAN, POTZENDAI_REPLACE
    };
    return o->shares[needed[how]] > 0 && !(how == POTZENDAI_TORN && o->is_steps);
}

/* Whether a function is called that --break makes wrong; of all ways in turn, that one of them does. */
static inline int potzendai_check_break(const struct potzendai_options *o)
{
    if (o->broken == POTZENDAI_UNBROKEN)
        return 0;
    for (int how = 0; how < POTZENDAI_EACH_BREAK; how++)
        if ((o->broken == (enum potzendai_break)how || o->broken == POTZENDAI_EACH_BREAK)
            && potzendai_is_called(o, (enum potzendai_break)how))
            return 0;
    return potzendai_complain("--break", "no call that it would break is made");
}

/* Whether the map has the functions that --fresh and --reopen need. */
static inline int potzendai_check_maps(const struct potzendai_options *o, const struct potzendai_map *map)
{
    if (o->is_stream && (o->fresh || o->is_reopened))
        return potzendai_complain(o->fresh ? "--fresh" : "--reopen", "not with --stream, which is of one map");
    if (o->fresh && !map->begin)
        return potzendai_complain("--fresh", "the map has no function begin, which makes a new one");
    return o->is_reopened && !map->reopen ? potzendai_complain("--reopen", "the map has no function reopen") : 0;
}

/* Whether the words let a store be killed. */
static inline int potzendai_check_kill(const struct potzendai_options *o, const struct potzendai_map *map)
{
    const char *other = o->is_stream ? "--stream" : o->schedule.way != POTZENDAI_FREE ? "--schedule" : o->fresh ? "--fresh"
                      : o->is_reopened ? "--reopen" : o->broken != POTZENDAI_UNBROKEN ? "--break" : o->cache != POTZENDAI_NO_CACHE ? "--cache"
                      : o->is_steps ? "--scan steps" : potzendai_has_one_writer(o) ? "--void own or lock" : NULL;
    if (o->kill == 0)
        return o->has_power || o->is_killed_at_write ? potzendai_complain(o->has_power ? "--power" : "--kill-at-write", "only with --kill") : 0;
    if (!map->begin)
        return potzendai_complain("--kill", "the map has no function begin, which opens its store");
    if (other) {
        fprintf(stderr, "--kill: not with %s\n", other);
        return POTZENDAI_BAD_WORDS;
    }
    for (int f = POTZENDAI_PUT_IF_ABSENT; f < POTZENDAI_FUNCTIONS; f++)
        if (o->shares[f] > 0)
            return potzendai_complain(potzendai_functions[f], "not with --kill, since only its answer says which call it was");
    return 0;
}

/* The most calls of a process in a round: those of a thread, or the last gets of all keys. */
static inline uint64_t potzendai_calls_each(const struct potzendai_options *o)
{
    return o->calls > o->keys ? o->calls : o->keys;
}

/* The calls of a thread in a round if no number is given: as many as have room with spare processes. */
static inline uint64_t potzendai_calls_where_none(const struct potzendai_options *o)
{
    uint64_t calls = RECORDING_CALLS / (o->threads + 2);
    return calls < POTZENDAI_CALLS ? calls : (uint64_t)POTZENDAI_CALLS;
}

/* Complains of a number that is too large for a round, whose recording has a limit. */
static inline int potzendai_complain_of_round(const struct potzendai_options *o, const char *word, const char *behind)
{
    char text[160];
    snprintf(text, sizeof text, "at most %" PRIu64 " with %" PRIu64 " threads, since a round has at most %d calls%s; --stream has no such limit",
             RECORDING_CALLS / (o->threads + 1), o->threads, RECORDING_CALLS, behind);
    return potzendai_complain(word, text);
}

/* The most keys in the range of a scan. In the recording of a cache, each key that a scan does not have takes a process of its own. */
static inline uint64_t potzendai_span(const struct potzendai_options *o)
{
    uint64_t span = (RECORDING_PROCESSES - 1 - o->threads % RECORDING_PROCESSES) / (o->threads ? o->threads : 1);
    bool is_less = o->cache != POTZENDAI_NO_CACHE && !o->is_stream && span < POTZENDAI_SPAN;
    return !is_less ? (uint64_t)POTZENDAI_SPAN : span > 0 ? span : 1;
}

static inline int potzendai_check_sizes(struct potzendai_options *o)
{
    if (o->cache != POTZENDAI_NO_CACHE && o->void_puts == POTZENDAI_VOID_OWN)
        return potzendai_complain("--cache", "not with --void own, since the writer of a key does not see that the key was lost");
    if (o->hot > o->keys)
        return potzendai_complain("--hot", "more than there are keys");
    if (o->void_puts == POTZENDAI_VOID_OWN && o->keys < o->threads)
        return potzendai_complain("--void", "own: each thread needs a key");
    if (o->kill > 0)
        return 0;
    if (o->is_stream)
        return o->rounds > 0 ? potzendai_complain("--rounds", "a stream has no rounds; use --seconds, or --calls for each thread") : 0;
    if (o->calls == 0)
        o->calls = potzendai_calls_where_none(o);
    if (o->threads >= RECORDING_PROCESSES)
        return potzendai_complain("--threads", "at most 63 in rounds; --stream has no such limit");
    if (o->keys > RECORDING_CALLS / (o->threads + 1))
        return potzendai_complain_of_round(o, "--keys", ", with a get of each key at its end");
    return o->calls > RECORDING_CALLS / (o->threads + 1) ? potzendai_complain_of_round(o, "--calls", "") : 0;
}

/* Whether the folder for files takes a file: one with a new name is made there, and removed. */
static inline int potzendai_check_out(const struct potzendai_options *o)
{
    char path[POTZENDAI_PATH];
    if (!o->out)
        return potzendai_complain("--bench", "name the program that judges, such as ../bench; or --out FOLDER for files that nobody judges here, and "
                                             "--out - for standard output");
    if (strcmp(o->out, "-") == 0)
        return 0;
    int length = snprintf(path, sizeof path, "%s/.potzendai-XXXXXX", o->out);
    errno = ENAMETOOLONG;
    int file = length > 0 && length < POTZENDAI_PATH ? mkstemp(path) : -1;
    if (file >= 0 && close(file) == 0 && unlink(path) == 0)
        return 0;
    fprintf(stderr, "--out: no file can be written into %s: %s\n", o->out, strerror(errno));
    return POTZENDAI_BAD_FILE;
}

/* Whether the words of schedules fit each other, the other words, and the program. */
static inline int potzendai_check_schedule(const struct potzendai_options *o)
{
    const struct potzendai_schedule_words *s = &o->schedule;
    if (s->way == POTZENDAI_FREE)
        return s->first ? potzendai_complain(s->first, "only with --schedule") : 0;
    if (!potzendai_scheduler)
        return potzendai_complain("--schedule", "this program is linked without potzendai_schedule.c, which has the scheduler");
    if (o->is_stream)
        return potzendai_complain("--schedule", "not with --stream: schedules are of rounds");
    if (o->yields > 0)
        return potzendai_complain("--schedule", "not with --yield: the scheduler says which thread gives way");
    if (o->fresh > 0 || o->is_reopened)
        return potzendai_complain("--schedule", "not with --fresh or --reopen: each round begins with the map as it was at first");
    if (s->has_replay && !o->has_seed)
        return potzendai_complain("--replay", "needs --seed: a round is the same again only with its seed");
    if (s->has_replay && s->jobs > 1)
        return potzendai_complain("--replay", "not with --jobs: it is one round");
    return 0;
}

/* The sizes of scheduled rounds if no number is given: those that find the most, since what goes wrong is shrunk. */
static inline void potzendai_take_schedule_sizes(struct potzendai_options *o)
{
    struct potzendai_schedule_words *s = &o->schedule;
    if (s->way == POTZENDAI_FREE)
        return;
    o->keys = o->keys ? o->keys : (uint64_t)POTZENDAI_SCHEDULED_KEYS;
    o->calls = o->calls ? o->calls : (uint64_t)POTZENDAI_SCHEDULED_CALLS;
    s->depth = s->depth ? s->depth : 3;
    s->jobs = s->jobs ? s->jobs : 1;
}

/* Whether the words ask for help. */
static inline bool potzendai_asks_help(int argc, char **argv)
{
    for (int at = 1; at < argc; at++)
        if (strcmp(argv[at], "--help") == 0 || strcmp(argv[at], "-h") == 0)
            return true;
    return false;
}

/* Prints the help: 0, or a status if standard output does not take it. */
static inline int potzendai_help(const char *program)
{
    printf("usage: %s [OPTIONS]\n%s", program, potzendai_usage);
    if (fflush(stdout) == 0)
        return POTZENDAI_IS_YES;
    fputs("standard output: not written\n", stderr);
    return POTZENDAI_BAD_FILE;
}

/* Reads all words: 0, or the status of what is wrong with them. */
static inline int potzendai_read_words(struct potzendai_options *o, int argc, char **argv, const struct potzendai_map *map)
{
    struct timespec now;
    memset(o, 0, sizeof *o);
    potzendai_clock(CLOCK_REALTIME, &now);
    o->threads = 4;
    o->schedule.points = POTZENDAI_LEARNED;
    o->budget = POTZENDAI_USUAL;
    o->seed = ((uint64_t)now.tv_sec * 1000003u + (uint64_t)now.tv_nsec) % 1000000007u;
    o->broken = POTZENDAI_UNBROKEN;
#ifndef POTZENDAI_NO_LIBRARY
    o->out = ".";
#endif
    for (int at = 1; at < argc; at++) {
        int status = potzendai_read_word(o, argv, &at);
        if (status)
            return status;
    }
    if (o->bench && !o->out)
        o->out = ".";
    if (potzendai_store() && o->kill == 0)
        o->kill = 1;
    potzendai_take_schedule_sizes(o);
    if (o->keys == 0)
        o->keys = o->is_stream ? POTZENDAI_STREAM_KEYS : POTZENDAI_KEYS;
    if (o->seconds == 0)
        o->seconds = o->rounds > 0 ? 1000000000 : 10;
    if (!map->get || (!map->put && !map->put_if_absent))
        return potzendai_complain(map->name, "a map needs the functions get, and put or put_if_absent");
    if (!o->has_mix)
        potzendai_take_shares(o, map);
    int status = potzendai_check_schedule(o);
    status = status ? status : potzendai_check_shares(o, map);
    status = status ? status : potzendai_check_break(o);
    status = status ? status : potzendai_check_kill(o, map);
    status = status ? status : potzendai_check_maps(o, map);
    status = status ? status : potzendai_check_sizes(o);
    o->span = potzendai_span(o);
    return status || potzendai_store() ? status : potzendai_check_out(o);
}

/* Writes the words that make a scheduled round again. */
static inline void potzendai_write_schedule_words(FILE *out, const struct potzendai_schedule_words *s, uint64_t round)
{
    fprintf(out, " --schedule %s", potzendai_ways[s->way]);
    if (s->depth != 3)
        fprintf(out, " --depth %" PRIu64, s->depth);
    if (s->points != POTZENDAI_LEARNED)
        fprintf(out, " --points %s", potzendai_point_names[s->points]);
    fputs(s->has_buffers ? " --tso" : "", out);
    fputs(s->has_kernel_threads ? " --kernel-threads" : "", out);
    fprintf(out, " --replay %" PRIu64, round);
}

/* Writes the words that draw the calls of a run of so many rounds again; of a scheduled run, those of its last round. */
static inline void potzendai_write_words(FILE *out, const struct potzendai_options *o, const char *program, uint64_t rounds)
{
    const char *comma = "";
    fprintf(out, "%s --seed %" PRIu64 " --threads %" PRIu64 " --keys %" PRIu64, program, o->seed, o->threads, o->keys);
    if (o->hot)
        fprintf(out, " --hot %" PRIu64, o->hot);
    if (o->calls)
        fprintf(out, " --calls %" PRIu64, o->calls);
    fputs(" --mix ", out);
    for (int f = 0; f < POTZENDAI_FUNCTIONS; f++)
        if (o->shares[f] > 0) {
            fprintf(out, "%s%s=%" PRIu64, comma, potzendai_functions[f], o->shares[f]);
            comma = ",";
        }
    if (o->has_void || !o->is_stream)
        fprintf(out, " --void %s", potzendai_voids[o->void_puts]);
    fprintf(out, " --scan %s", potzendai_scans[o->is_steps]);
    if (o->yields)
        fprintf(out, " --yield %" PRIu64, o->yields);
    if (o->cache != POTZENDAI_NO_CACHE)
        fprintf(out, " --cache%s", o->cache == POTZENDAI_CACHE_LATE ? " late" : "");
    if (o->fresh)
        fprintf(out, " --fresh %" PRIu64, o->fresh);
    if (o->is_reopened)
        fputs(" --reopen", out);
    if (o->kill > 0)
        fprintf(out, " --kill %g%s%s", o->kill, o->is_killed_at_write ? " --kill-at-write" : "", o->has_power ? " --power" : "");
    if (o->broken != POTZENDAI_UNBROKEN)
        fprintf(out, " --break %s", potzendai_breaks[o->broken]);
    if (o->schedule.way != POTZENDAI_FREE)
        potzendai_write_schedule_words(out, &o->schedule, rounds - 1);
    else if (o->is_stream)
        fprintf(out, " --stream --seconds %" PRIu64, o->seconds);
    else if (rounds > 0)
        fprintf(out, " --rounds %" PRIu64, rounds);
    if (o->budget != POTZENDAI_USUAL)
        fprintf(out, " --budget %" PRIu64, o->budget);
    if (o->bench)
        fprintf(out, " --bench %s", o->bench);
    fputc('\n', out);
}

#endif
