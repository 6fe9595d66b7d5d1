/* Records what the threads of a program do at an ordered map, and writes it as a history for `bench judge`.
 *
 * Copy this header: it needs only C11 or C++11 and the C library. While it records, it takes no lock and no memory. An event is one
 * atomic fetch_add, which draws its stamp, and one entry in the log of its process, which no other thread touches.
 *
 *     struct recording r;
 *     recording_open(&r, 4, 1000, 0);               // 4 processes, up to 1,000 calls each, no room for scans
 *     ...
 *     recording_invoke_insert(&r, p, key, value);   // before the call does anything
 *     found = map_insert(map, key, value, &old);
 *     recording_answer(&r, p, found, old);          // after all that it does
 *     ...
 *     recording_write(&r, stdout);                  // once all threads are joined
 *     recording_close(&r);
 *
 * A process is one thread, or what one thread at a time does. It makes one call at a time, under its own number p, from 0. These
 * functions return 0, or -1 if they refuse: then nothing is recorded and no stamp is drawn. A process whose answer was refused
 * has to stop. Its call stays without an answer, which is never wrong.
 *
 * Sometimes only the answer shows which call it was, as with an insert that leaves a present key as it was:
 *
 *     recording_hold(&r, p);                        // before the call does anything
 *     found = map_insert_if_absent(map, key, value, &old);
 *     if (found) recording_invoke_get(&r, p, key); else recording_invoke_insert(&r, p, key, value);
 *     recording_answer(&r, p, found, old);
 *
 * If the answer does not give the value, say as much as it does:
 *
 *     recording_invoke_insert(&r, p, key, value);
 *     map_put(map, key, value);                     // does not say what it found
 *     recording_answer_done(&r, p);                 // or _found: there was a value; or _other: a replace found another one
 *
 * docs/RECORDING.md says what has to hold of a recording for its verdict to mean something. streaming.h writes the events out while
 * the program runs.
 */
#ifndef RECORDING_H
#define RECORDING_H

#include <stdbool.h>
#include <stddef.h>
#include <stdint.h>
#include <stdio.h>
#include <stdlib.h>
#include <string.h>
#ifdef __cplusplus
#include <atomic>
typedef std::atomic<uint64_t> recording_word;
#else
#include <stdatomic.h>
typedef _Atomic uint64_t recording_word;
#endif

/* Limits of a history; and of its text: a pair has at most 44 bytes with its comma, and an event 320 besides its pairs. */
enum {
    RECORDING_PROCESSES = 64, RECORDING_CALLS = 4096, RECORDING_PAIRS = 4096,
    RECORDING_PAIR_TEXT = 44, RECORDING_EVENT_TEXT = 320
};

struct recording_pair { uint64_t key, value; };

enum recording_kind { /* calls, then answers */
    RECORDING_GET, RECORDING_INSERT, RECORDING_REMOVE, RECORDING_SCAN, RECORDING_REPLACE,
    RECORDING_NONE, RECORDING_VALUE, RECORDING_LIST, RECORDING_REFUSED, RECORDING_DONE, RECORDING_FOUND, RECORDING_OTHER
};

/* How a call of a cache was made that is recorded as another one. It found no value, or it is a put or a remove that did so of a cache whose misses
 * say nothing; or a replace found another value; or a scan did not have a key, or had it. The words of its event are the key, then those of the call
 * that was made: the old and the new value of a replace, the ends of a scan. */
enum recording_note {
    RECORDING_AS_MADE, RECORDING_GET_MISSED, RECORDING_PUT_MISSED, RECORDING_REMOVE_MISSED, RECORDING_REPLACE_MISSED, RECORDING_PUT_LATE,
    RECORDING_REMOVE_LATE, RECORDING_REPLACE_OTHER,
    RECORDING_SCAN_MISSED, RECORDING_SCAN_LISTED
};

/* A replace that found another value is recorded with a new value that nobody puts: its own with this bit. */
#define RECORDING_NOBODY ((uint64_t)1 << 63)

/* An event. Its words are those of the call; or the value; or where a list of pairs begins, and how many they are. */
struct recording_event { uint64_t stamp, words[3]; enum recording_kind kind; unsigned process; enum recording_note note; };

/* What one process has recorded. The logs of two processes share no cache line. */
struct recording_log {
    struct recording_event *events;
    struct recording_pair *pairs;
    size_t length, pairs_held;
    uint64_t stamp_held, stamp_taken;
    bool is_held, is_taken;
    enum recording_note note; /* of the next call */
    char apart[128];
};

struct recording {
    recording_word stamps;
    char apart[128];
    unsigned processes, calls_each;
    size_t pairs_each, pairs_at_start;
    const struct recording_pair *start;
    struct recording_log logs[RECORDING_PROCESSES];
};

/* Frees all memory. */
static inline void recording_close(struct recording *r)
{
    for (unsigned p = 0; p < r->processes; p++) {
        free(r->logs[p].events);
        free(r->logs[p].pairs);
    }
    r->processes = 0;
}

/* Opens a recording of so many processes (1 to 64), with at most so many calls each (4,096 in all). The scans of each process have room
 * for so many pairs in their answers. */
static inline int recording_open(struct recording *r, unsigned processes, unsigned calls_each, size_t pairs_each)
{
    r->processes = 0;
    if (processes < 1 || processes > RECORDING_PROCESSES || calls_each > RECORDING_CALLS / processes
        || pairs_each > SIZE_MAX / sizeof(struct recording_pair) - 1)
        return -1;
    atomic_store(&r->stamps, (uint64_t)0);
    memset(r->logs, 0, sizeof r->logs);
    r->processes = processes;
    r->calls_each = calls_each;
    r->pairs_each = pairs_each;
    r->start = NULL;
    r->pairs_at_start = 0;
    for (unsigned p = 0; p < processes; p++) {
        r->logs[p].events = (struct recording_event *)malloc((2 * (size_t)calls_each + 1) * sizeof(struct recording_event));
        r->logs[p].pairs = (struct recording_pair *)malloc((pairs_each + 1) * sizeof(struct recording_pair));
        if (!r->logs[p].events || !r->logs[p].pairs) {
            recording_close(r);
            return -1;
        }
    }
    return 0;
}

/* Says what the map holds before the first call: pairs by rising key. They are not copied, and have to stay until the history is
 * written. */
static inline int recording_start(struct recording *r, const struct recording_pair *pairs, size_t count)
{
    if (count > RECORDING_PAIRS)
        return -1;
    for (size_t i = 1; i < count; i++)
        if (pairs[i - 1].key >= pairs[i].key)
            return -1;
    r->start = pairs;
    r->pairs_at_start = count;
    return 0;
}

/* Invocations and answers alternate, so no call is open if the length is even. */
static inline bool recording_may(const struct recording *r, unsigned p, bool answer)
{
    return p < r->processes && r->logs[p].length < 2 * (size_t)r->calls_each && r->logs[p].length % 2 == answer;
}

/* Whether process p has a call of this kind open. */
static inline bool recording_is_open(const struct recording *r, unsigned p, enum recording_kind call)
{
    return recording_may(r, p, true) && r->logs[p].events[r->logs[p].length - 1].kind == call;
}

static inline int recording_add(struct recording *r, unsigned p, enum recording_kind kind, uint64_t a, uint64_t b, uint64_t c)
{
    if (!recording_may(r, p, kind >= RECORDING_NONE))
        return -1;
    struct recording_log *log = &r->logs[p];
    bool is_call = kind < RECORDING_NONE;
    struct recording_event e = {is_call ? log->stamp_held : log->stamp_taken, {a, b, c}, kind, p, log->note};
    log->note = RECORDING_AS_MADE;
    if (!(is_call ? log->is_held : log->is_taken))
        e.stamp = atomic_fetch_add(&r->stamps, (uint64_t)1);
    if (is_call)
        log->is_held = false;
    else
        log->is_taken = false;
    log->events[log->length++] = e;
    return 0;
}

/* Process p begins a call of which only the answer shows which one it was. The next invocation of p says so, under the stamp that is
 * drawn here. Call this before the call does anything. */
static inline int recording_hold(struct recording *r, unsigned p)
{
    if (!recording_may(r, p, false) || r->logs[p].is_held)
        return -1;
    r->logs[p].stamp_held = atomic_fetch_add(&r->stamps, (uint64_t)1);
    r->logs[p].is_held = true;
    return 0;
}

/* The call that process p holds or has open only reads, and has taken its snapshot: its answer is of this moment, under the stamp that is drawn
 * here, though it is noted later. If this is called several times, the last one counts. */
static inline int recording_taken(struct recording *r, unsigned p)
{
    if (!recording_may(r, p, true) && !(recording_may(r, p, false) && r->logs[p].is_held))
        return -1;
    r->logs[p].stamp_taken = atomic_fetch_add(&r->stamps, (uint64_t)1);
    r->logs[p].is_taken = true;
    return 0;
}

/* The call that process p holds is left out: it has changed nothing. */
static inline int recording_drop(struct recording *r, unsigned p)
{
    if (p >= r->processes || !r->logs[p].is_held)
        return -1;
    r->logs[p].is_held = r->logs[p].is_taken = false;
    return 0;
}

/* Process p begins a call. Call this before the call does anything. */
static inline int recording_invoke_get(struct recording *r, unsigned p, uint64_t key)
{
    return recording_add(r, p, RECORDING_GET, key, 0, 0);
}

static inline int recording_invoke_insert(struct recording *r, unsigned p, uint64_t key, uint64_t value)
{
    return recording_add(r, p, RECORDING_INSERT, key, value, 0);
}

static inline int recording_invoke_remove(struct recording *r, unsigned p, uint64_t key)
{
    return recording_add(r, p, RECORDING_REMOVE, key, 0, 0);
}

/* All pairs from one key to another, both included, at one moment. */
static inline int recording_invoke_scan(struct recording *r, unsigned p, uint64_t low, uint64_t high)
{
    return low > high ? -1 : recording_add(r, p, RECORDING_SCAN, low, high, 0);
}

/* If the key holds `old`, it holds `new_value` from then on; else nothing changes. */
static inline int recording_invoke_replace(struct recording *r, unsigned p, uint64_t key, uint64_t old, uint64_t new_value)
{
    return recording_add(r, p, RECORDING_REPLACE, key, old, new_value);
}

/* The open call of process p was answered by the value that had been at its key, or found none there. Call this after all that the
 * call does. */
static inline int recording_answer(struct recording *r, unsigned p, bool found, uint64_t value)
{
    return recording_add(r, p, found ? RECORDING_VALUE : RECORDING_NONE, value, 0, 0);
}

/* The open scan was answered by these pairs, which are copied as they are. */
static inline int recording_answer_pairs(struct recording *r, unsigned p, const struct recording_pair *pairs, size_t count)
{
    if (!recording_may(r, p, true) || count > RECORDING_PAIRS || count > r->pairs_each - r->logs[p].pairs_held)
        return -1;
    struct recording_log *log = &r->logs[p];
    size_t first = log->pairs_held;
    if (count > 0)
        memcpy(log->pairs + first, pairs, count * sizeof *pairs);
    log->pairs_held += count;
    return recording_add(r, p, RECORDING_LIST, first, count, 0);
}

/* The open call was refused and changed nothing. */
static inline int recording_answer_refused(struct recording *r, unsigned p)
{
    return recording_add(r, p, RECORDING_REFUSED, 0, 0, 0);
}

/* The open call was done; what it found is not said. */
static inline int recording_answer_done(struct recording *r, unsigned p)
{
    return recording_add(r, p, RECORDING_DONE, 0, 0, 0);
}

/* The open call was done, and there was a value at its key; which one is not said. Not for a scan. */
static inline int recording_answer_found(struct recording *r, unsigned p)
{
    return recording_is_open(r, p, RECORDING_SCAN) ? -1 : recording_add(r, p, RECORDING_FOUND, 0, 0, 0);
}

/* The open replace found another value than `old`, or none, and changed nothing. Only for a replace. */
static inline int recording_answer_other(struct recording *r, unsigned p)
{
    return recording_is_open(r, p, RECORDING_REPLACE) ? recording_add(r, p, RECORDING_OTHER, 0, 0, 0) : -1;
}

/* Each of these writes into room that suffices, and returns where its text ends. */
static inline char *recording_put(char *to, const char *text)
{
    size_t length = strlen(text);
    memcpy(to, text, length);
    return to + length;
}

static inline char *recording_put_number(char *to, uint64_t number)
{
    char digits[20];
    int count = 0;
    do
        digits[count++] = (char)('0' + number % 10);
    while (number /= 10);
    while (count)
        *to++ = digits[--count];
    return to;
}

/* How many digits a number has. */
static inline size_t recording_digits(uint64_t number)
{
    size_t count = 1;
    for (; number >= 10000; number /= 10000)
        count += 4;
    return count + (number >= 10) + (number >= 100) + (number >= 1000);
}

static inline char *recording_put_pairs(char *to, const struct recording_pair *pairs, size_t count)
{
    *to++ = '[';
    for (size_t i = 0; i < count; i++) {
        to = recording_put_number(recording_put(to, i ? ",[" : "["), pairs[i].key);
        *to++ = ',';
        to = recording_put_number(to, pairs[i].value);
        *to++ = ']';
    }
    *to++ = ']';
    return to;
}

/* The call as it was made. */
static inline char *recording_put_note(char *to, const struct recording_event *e)
{
    const uint64_t *words = e->words;
    bool is_replace = e->note == RECORDING_REPLACE_MISSED || e->note == RECORDING_REPLACE_OTHER;
    bool is_scan = e->note >= RECORDING_SCAN_MISSED, is_late = e->note == RECORDING_PUT_LATE || e->note == RECORDING_REMOVE_LATE;
    to = recording_put(to, ",\"note\":\"");
    if (is_replace) {
        to = recording_put_number(recording_put(to, "replace "), words[1]);
        to = recording_put_number(recording_put(to, " at "), words[0]);
        to = recording_put_number(recording_put(to, " by "), words[2] & ~RECORDING_NOBODY);
    } else if (is_scan) {
        to = recording_put_number(recording_put(to, "scan from "), words[1]);
        to = recording_put_number(recording_put(to, " to "), words[2]);
    } else if (e->note == RECORDING_PUT_MISSED || e->note == RECORDING_PUT_LATE) {
        to = recording_put_number(recording_put(to, "put "), words[1]);
        to = recording_put_number(recording_put(to, " at "), words[0]);
    } else
        to = recording_put_number(recording_put(to, e->note == RECORDING_GET_MISSED ? "get " : "remove "), words[0]);
    if (is_scan)
        to = recording_put_number(recording_put(to, e->note == RECORDING_SCAN_LISTED ? ", which had " : ", which did not have "), words[0]);
    if (e->note == RECORDING_REPLACE_OTHER)
        to = recording_put(to, ", answered another value");
    else if (e->note != RECORDING_SCAN_LISTED)
        to = recording_put(to, is_scan ? ": the key was gone" : is_late ? ", answered none" : ", answered none: the key was gone");
    return recording_put(to, "\"");
}

/* How many words a call of each kind has. */
static const int recording_call_words[] = {1, 2, 1, 2, 3};

/* `pairs` are those of a list. */
static inline char *recording_put_event(char *to, const struct recording_event *e, const struct recording_pair *pairs)
{
    static const char *const calls[] = {"get", "insert", "remove", "scan", "replace"};
    static const char *const answers[] = {"null", "", "", "\"refused\"", "\"done\"", "\"found\"", "\"other\""};
    if (e->kind < RECORDING_NONE) {
        to = recording_put(recording_put(recording_put(to, "{\"invoke\":[\""), calls[e->kind]), "\"");
        for (int i = 0; i < recording_call_words[e->kind]; i++) {
            *to++ = ',';
            to = recording_put_number(to, e->words[i]);
        }
        *to++ = ']';
        to = e->note ? recording_put_note(to, e) : to;
    } else {
        to = recording_put(to, "{\"answer\":");
        if (e->kind == RECORDING_VALUE)
            to = recording_put_number(to, e->words[0]);
        else if (e->kind == RECORDING_LIST)
            to = recording_put_pairs(to, pairs, (size_t)e->words[1]);
        else
            to = recording_put(to, answers[e->kind - RECORDING_NONE]);
    }
    to = recording_put_number(recording_put(to, ",\"process\":"), e->process);
    *to++ = '}';
    return to;
}

/* The version of a history with this event, if that of its other events is `version`. */
static inline unsigned recording_version(unsigned version, enum recording_kind kind)
{
    return kind > RECORDING_REFUSED ? 3 : kind == RECORDING_REPLACE && version < 2 ? 2 : version;
}

/* Writes the history into given room: for the text of an event, and for an event of each stamp. Stamps of calls left out have no event. */
static inline void recording_write_all(const struct recording *r, FILE *out, char *text, const struct recording_event **by_stamp)
{
    size_t count = (size_t)atomic_load(&r->stamps);
    unsigned version = r->pairs_at_start == 0 ? 1 : 2;
    bool is_first = true;
    for (unsigned p = 0; p < r->processes; p++)
        for (size_t i = 0; i < r->logs[p].length; i++) {
            const struct recording_event *e = &r->logs[p].events[i];
            by_stamp[e->stamp] = e;
            version = recording_version(version, e->kind);
        }
    fputs("{\"events\":[", out);
    for (size_t i = 0; i < count; i++) {
        const struct recording_event *e = by_stamp[i];
        if (!e)
            continue;
        const struct recording_pair *pairs = e->kind == RECORDING_LIST ? r->logs[e->process].pairs + e->words[0] : NULL;
        fputs(is_first ? "" : ",", out);
        fwrite(text, 1, (size_t)(recording_put_event(text, e, pairs) - text), out);
        is_first = false;
    }
    fputc(']', out);
    if (version > 1) {
        fputs(",\"start\":", out);
        fwrite(text, 1, (size_t)(recording_put_pairs(text, r->start, r->pairs_at_start) - text), out);
    }
    fprintf(out, ",\"version\":%u}\n", version);
}

/* Writes the history. Call this once no thread records any more. Returns -1 if a process holds a call that was neither made known nor
 * left out, if memory is refused, or if a write fails. */
static inline int recording_write(const struct recording *r, FILE *out)
{
    for (unsigned p = 0; p < r->processes; p++)
        if (r->logs[p].is_held)
            return -1;
    size_t room = (size_t)atomic_load(&r->stamps) + 1;
    const struct recording_event **by_stamp = (const struct recording_event **)calloc(room, sizeof *by_stamp);
    char *text = (char *)malloc(RECORDING_PAIRS * RECORDING_PAIR_TEXT + RECORDING_EVENT_TEXT);
    bool has_room = by_stamp && text;
    if (has_room)
        recording_write_all(r, out, text, by_stamp);
    free((void *)by_stamp);
    free(text);
    return has_room && fflush(out) == 0 && !ferror(out) ? 0 : -1;
}

#endif
