/* A cache, which may lose any key at any time. A miss is recorded as a removal of its key. So the recording has an order exactly if the calls have
 * one in which keys may be lost between any two steps. If the writes of a cache appear later, a miss says nothing. Included by potzendai_test.h. */
#ifndef POTZENDAI_CACHE_H
#define POTZENDAI_CACHE_H

#include "potzendai_words.h"

/* What is recorded of a call that finds nothing: that its key is gone, or that its value was put, or nothing. A replace that finds another value is
 * recorded with a new value that nobody puts. */
static const struct potzendai_row potzendai_gone = POTZENDAI_ROW(REMOVE, DONE), potzendai_put_there = POTZENDAI_ROW(INSERT, DONE),
                                  potzendai_replaced = POTZENDAI_ROW(REPLACE, DONE), potzendai_no_word = POTZENDAI_OUT;

/* How a cache's call is recorded, and a note of how it was made if that differs. `row` is how the same call of other maps is recorded. */
static inline const struct potzendai_row *potzendai_row_of_cache(enum potzendai_cache how, enum potzendai_function function, enum map_said said,
                                                                 const struct potzendai_row *row, enum recording_note *note)
{
    bool is_late = how == POTZENDAI_CACHE_LATE, is_read = function == POTZENDAI_GET || function == POTZENDAI_REPLACE;
    *note = RECORDING_AS_MADE;
    if (how == POTZENDAI_NO_CACHE || (said != MAP_NONE && said != MAP_OTHER) || row->call == RECORDING_SCAN)
        return row;
    if (is_late && is_read)
        return &potzendai_no_word;
    if (said == MAP_OTHER) {
        *note = RECORDING_REPLACE_OTHER;
        return &potzendai_replaced;
    }
    if (!is_read && function != POTZENDAI_DEL) {
        *note = is_late ? RECORDING_PUT_LATE : RECORDING_PUT_MISSED;
        return &potzendai_put_there;
    }
    *note = function == POTZENDAI_GET ? RECORDING_GET_MISSED : function == POTZENDAI_REPLACE ? RECORDING_REPLACE_MISSED
        : is_late ? RECORDING_REMOVE_LATE : RECORDING_REMOVE_MISSED;
    return &potzendai_gone;
}

/* Sets the words of a call that is recorded as another one. */
static inline void potzendai_words_of_cache(const struct potzendai_request *request, enum recording_note note, uint64_t words[3])
{
    if (note != RECORDING_REPLACE_MISSED && note != RECORDING_REPLACE_OTHER)
        return;
    words[1] = request->other;
    words[2] = request->value | (note == RECORDING_REPLACE_OTHER ? RECORDING_NOBODY : 0);
}

/* Whether a list has a key. */
static inline bool potzendai_lists(const struct recording_pair *pairs, size_t count, uint64_t key)
{
    for (size_t i = 0; i < count; i++)
        if (pairs[i].key == key)
            return true;
    return false;
}

/* How many keys a list does not have, of those from `low` to `high` that are below `keys`. */
static inline size_t potzendai_missing(const struct recording_pair *pairs, size_t count, uint64_t low, uint64_t high, uint64_t keys)
{
    size_t missing = 0;
    for (uint64_t key = low; key <= high && key < keys; key++)
        missing += !potzendai_lists(pairs, count, key);
    return missing;
}

/* The recording of a cache while it is written. The processes in `free` have no calls of their own: they make those added to scans. Those in
 * `beside` do so for the open scan of each process. `is_out`: that scan is left out. `left_out` counts such scans, but for those that say nothing. */
struct potzendai_cached {
    const struct recording *recording;
    FILE *out;
    char *text;
    uint64_t keys, free, beside[RECORDING_PROCESSES];
    bool is_late, is_written, is_out[RECORDING_PROCESSES], is_listed[RECORDING_PROCESSES];
    size_t calls, left_out;
};

static inline void potzendai_put_cached(struct potzendai_cached *c, const struct recording_event *event, const struct recording_pair *pairs)
{
    fputs(c->is_written ? "," : "", c->out);
    fwrite(c->text, 1, (size_t)(recording_put_event(c->text, event, pairs) - c->text), c->out);
    c->is_written = true;
}

/* Takes the lowest free process, for a call that is added to the open scan of another. */
static inline unsigned potzendai_take_free(struct potzendai_cached *c, unsigned process)
{
    unsigned p = 0;
    while (!(c->free >> p & 1))
        p++;
    c->free &= ~((uint64_t)1 << p);
    c->beside[process] |= (uint64_t)1 << p;
    c->calls++;
    return p;
}

static inline size_t potzendai_count_free(uint64_t free)
{
    size_t count = 0;
    for (; free; free &= free - 1)
        count++;
    return count;
}

/* Begins a scan, with a remove of each key that it does not have. If a miss says nothing, gets of the keys that it has replace the scan. It is left
 * out if there are too few processes for these calls, or would be too many calls. */
static inline void potzendai_begin_scan(struct potzendai_cached *c, const struct recording_event *scan)
{
    const struct recording_pair *pairs = c->recording->logs[scan->process].pairs + scan[1].words[0];
    size_t count = (size_t)scan[1].words[1], missing = potzendai_missing(pairs, count, scan->words[0], scan->words[1], c->keys);
    bool is_listed = c->is_late && missing > 0;
    size_t beside = is_listed ? (count > 0 ? count - 1 : 0) : missing;
    c->is_listed[scan->process] = is_listed;
    c->is_out[scan->process] = (is_listed && count == 0) || beside > potzendai_count_free(c->free) || c->calls + beside > RECORDING_CALLS;
    if (c->is_out[scan->process]) {
        c->left_out += !(is_listed && count == 0);
        c->calls--;
        return;
    }
    if (!is_listed)
        potzendai_put_cached(c, scan, NULL);
    for (size_t i = 0; is_listed && i < count; i++) {
        struct recording_event get = {0, {pairs[i].key, scan->words[0], scan->words[1]}, RECORDING_GET, scan->process, RECORDING_SCAN_LISTED};
        get.process = i ? potzendai_take_free(c, scan->process) : scan->process;
        potzendai_put_cached(c, &get, NULL);
    }
    for (uint64_t key = scan->words[0]; !is_listed && key <= scan->words[1] && key < c->keys; key++)
        if (!potzendai_lists(pairs, count, key)) {
            struct recording_event gone = {0, {key, scan->words[0], scan->words[1]}, RECORDING_REMOVE, 0, RECORDING_SCAN_MISSED};
            gone.process = potzendai_take_free(c, scan->process);
            potzendai_put_cached(c, &gone, NULL);
        }
}

/* Answers a scan and the calls added to it. */
static inline void potzendai_end_scan(struct potzendai_cached *c, const struct recording_event *list)
{
    const struct recording_pair *pairs = c->recording->logs[list->process].pairs + list->words[0];
    struct recording_event answer = *list;
    if (c->is_out[list->process])
        return;
    if (c->is_listed[list->process]) {
        answer.kind = RECORDING_VALUE;
        answer.words[0] = pairs[0].value;
    }
    potzendai_put_cached(c, &answer, pairs);
    size_t i = 1;
    for (unsigned p = 0; p < RECORDING_PROCESSES; p++)
        if (c->beside[list->process] >> p & 1) {
            answer.process = p;
            answer.kind = c->is_listed[list->process] ? RECORDING_VALUE : RECORDING_DONE;
            answer.words[0] = c->is_listed[list->process] ? pairs[i++].value : 0;
            potzendai_put_cached(c, &answer, NULL);
        }
    c->free |= c->beside[list->process];
    c->beside[list->process] = 0;
}

/* Writes the events by rising stamp, with those added to scans. */
static inline void potzendai_write_events(struct potzendai_cached *c, const struct recording_event **by_stamp, size_t stamps)
{
    for (unsigned p = 0; p < RECORDING_PROCESSES; p++) {
        const struct recording_log *log = &c->recording->logs[p];
        size_t length = p < c->recording->processes ? log->length : 0;
        c->free |= (uint64_t)(length == 0) << p;
        c->calls += (length + 1) / 2;
        for (size_t i = 0; i < length; i++)
            by_stamp[log->events[i].stamp] = &log->events[i];
    }
    for (size_t i = 0; i < stamps; i++) {
        if (by_stamp[i] && by_stamp[i]->kind == RECORDING_SCAN)
            potzendai_begin_scan(c, by_stamp[i]);
        else if (by_stamp[i] && by_stamp[i]->kind == RECORDING_LIST)
            potzendai_end_scan(c, by_stamp[i]);
        else if (by_stamp[i])
            potzendai_put_cached(c, by_stamp[i], NULL);
    }
}

/* Writes the recording of a cache as a history, as recording_write does for other maps. Each of its scans has an answer. */
static inline int potzendai_write_cached(const struct recording *r, FILE *out, uint64_t keys, bool is_late, uint64_t *left_out)
{
    size_t stamps = (size_t)atomic_load(&r->stamps);
    const struct recording_event **by_stamp = (const struct recording_event **)calloc(stamps + 1, sizeof *by_stamp);
    struct potzendai_cached c;
    memset(&c, 0, sizeof c);
    c.recording = r;
    c.out = out;
    c.keys = keys;
    c.is_late = is_late;
    c.text = (char *)malloc(RECORDING_PAIRS * RECORDING_PAIR_TEXT + RECORDING_EVENT_TEXT);
    bool has_room = by_stamp && c.text;
    if (has_room) {
        fputs("{\"events\":[", out);
        potzendai_write_events(&c, by_stamp, stamps);
        fputs("],\"start\":", out);
        fwrite(c.text, 1, (size_t)(recording_put_pairs(c.text, r->start, r->pairs_at_start) - c.text), out);
        fputs(",\"version\":3}\n", out);
    }
    *left_out += c.left_out;
    free((void *)by_stamp);
    free(c.text);
    return has_room && fflush(out) == 0 && !ferror(out) ? 0 : -1;
}

#endif
