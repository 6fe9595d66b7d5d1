/* Records what the threads of a program do at an ordered map, and writes it while they run, as a stream for `bench follow`.
 *
 * Copy this header and recording.h: they need only C11 or C++11, the C library and POSIX. A run may go on without end. All memory is
 * taken before it. An event is one atomic fetch_add, which draws its stamp, and one slot.
 *
 *     struct streaming s;
 *     streaming_open(&s, 4, 65536, 0, 1);           // 4 processes, 65,536 slots, no room for scans, to descriptor 1
 *     ...                                           // a thread of its own: status = streaming_write(&s);
 *     streaming_invoke_insert(&s, p, key, value);   // before the call does anything
 *     found = map_insert(map, key, value, &old);
 *     streaming_answer(&s, p, found, old);          // after all that it does
 *     ...
 *     streaming_end(&s);                            // once all threads that record are joined; then the one that writes is joined
 *     streaming_close(&s);
 *
 * A process is one thread, or what one thread at a time does. It makes one call at a time, under its own number p, from 0. These
 * functions return 0, or -1 if they refuse: then nothing is recorded, and the process has to stop. Its call stays without an answer,
 * as does that of a thread that dies. Neither makes others wait. streaming_hold, _drop and _taken are as in recording.h, and so are
 * streaming_answer_done, _found and _other after streaming_tell_less, which makes the stream one of version 3.
 *
 * Nothing is lost: if all slots are taken, a thread that records waits for the writer, and so for the reader of the stream. If a
 * write fails, the stream ends there, streaming_write returns -1 with errno, and nothing more is recorded. If the reader has ended,
 * SIGPIPE ends the program at that write, unless it ignores the signal.
 *
 * Why the lines come by rising stamp, and none is left out. Stamps are the numbers from 0, each drawn once: that of an invocation
 * before its call does anything, that of an answer after all that the call does. The event of stamp n goes to slot n modulo the
 * number of slots, and the writer takes slot after slot. It waits at the first stamp whose event has not come yet. That stamp is the
 * horizon: no thread can draw a lower stamp any more, and all events of lower stamps are written. A process that is idle, or within a
 * call, has no stamp whose event is still to come, so it does not stop the horizon. A process that holds a call stops it until the
 * call is known. A process whose call has taken its snapshot stops it until the call is answered.
 *
 * Why the stream does not stop. Between drawing a stamp and storing its event, a process waits only for the slot, which the event of a
 * lower stamp may have. The slot of the least stamp that is not written is free. So its event comes, the writer takes it, and the slot
 * of the next one is free. A process waits for room for a list before it draws a stamp. While a call is held, others may wait until it
 * is known. So a held call must not wait for calls that others have yet to begin.
 */
#ifndef STREAMING_H
#define STREAMING_H

#include "recording.h"
#include <errno.h>
#include <poll.h>
#include <sched.h>
#include <unistd.h>

/* So many pairs fit in a line, which has at most 1,048,576 bytes. */
enum { STREAMING_PROCESSES = 65536, STREAMING_PAIRS = 23000, STREAMING_LINE = 1048576, STREAMING_BATCH = 65536 };

enum streaming_state { STREAMING_IDLE, STREAMING_HELD, STREAMING_OPEN };

/* The slot of stamp n has turn n while it is free, n + 1 while it holds the event, and n + room once that is written. The event of a
 * call left out has a stamp, and no line. */
struct streaming_slot {
    recording_word turn;
    struct recording_event event;
    bool is_left_out;
};

/* What only one process reads and writes, but for how far its lists are written. The lists are in a ring of twice the room for one. */
struct streaming_process {
    enum streaming_state state;
    enum recording_kind call;
    uint64_t stamp_held, stamp_taken, pairs_put;
    bool is_taken;
    enum recording_note note; /* of the next call */
    struct recording_pair *pairs;
    recording_word pairs_written;
    char apart[128];
};

struct streaming {
    recording_word stamps;
    char apart[128];
    recording_word is_ended, is_failed;
    uint64_t slots_held;
    unsigned count, version;
    size_t pairs_each, pairs_at_start, length;
    const struct recording_pair *start;
    struct streaming_slot *slots;
    struct streaming_process *processes;
    char *text;
    int descriptor;
    int (*hand)(void *to, const char *text, size_t length);
    int (*take)(void *to, const struct recording_event *event, const struct recording_pair *pairs);
    void *to;
};

/* Frees all memory. */
static inline void streaming_close(struct streaming *s)
{
    for (unsigned p = 0; p < s->count; p++)
        free(s->processes[p].pairs);
    free(s->processes);
    free(s->slots);
    free(s->text);
    s->processes = NULL;
    s->slots = NULL;
    s->text = NULL;
    s->count = 0;
}

/* Opens a stream of so many processes (1 to 65,536) to a descriptor, with so many slots and lists of at most so many pairs (23,000).
 * There are at least 2 slots; with some 10,000, threads hardly wait for one another. */
static inline int streaming_open(struct streaming *s, unsigned processes, size_t slots, size_t pairs_each, int descriptor)
{
    s->count = 0;
    s->slots = NULL;
    s->processes = NULL;
    s->text = NULL;
    if (processes < 1 || processes > STREAMING_PROCESSES || slots < 2 || pairs_each > STREAMING_PAIRS)
        return -1;
    s->slots_held = slots;
    s->pairs_each = pairs_each;
    s->pairs_at_start = s->length = 0;
    s->start = NULL;
    s->version = 2;
    s->descriptor = descriptor;
    s->hand = NULL;
    s->take = NULL;
    s->to = NULL;
    s->slots = (struct streaming_slot *)calloc(slots, sizeof *s->slots);
    s->processes = (struct streaming_process *)calloc(processes, sizeof *s->processes);
    s->text = (char *)malloc(STREAMING_BATCH + STREAMING_LINE + 1);
    bool has_room = s->slots && s->processes && s->text;
    for (s->count = 0; has_room && s->count < processes; s->count++) {
        s->processes[s->count].pairs = (struct recording_pair *)malloc((2 * pairs_each + 1) * sizeof(struct recording_pair));
        has_room = s->processes[s->count].pairs;
        atomic_store(&s->processes[s->count].pairs_written, (uint64_t)0);
    }
    if (!has_room) {
        streaming_close(s);
        return -1;
    }
    for (size_t i = 0; i < slots; i++)
        atomic_store(&s->slots[i].turn, (uint64_t)i);
    atomic_store(&s->stamps, (uint64_t)0);
    atomic_store(&s->is_ended, (uint64_t)0);
    atomic_store(&s->is_failed, (uint64_t)0);
    return 0;
}

/* Says what the map holds before the first call: at most 23,000 pairs by rising key. They are not copied, and have to stay until they
 * are written. Call this before streaming_write. */
static inline int streaming_start(struct streaming *s, const struct recording_pair *pairs, size_t count)
{
    if (count > STREAMING_PAIRS)
        return -1;
    for (size_t i = 1; i < count; i++)
        if (pairs[i - 1].key >= pairs[i].key)
            return -1;
    s->start = pairs;
    s->pairs_at_start = count;
    return 0;
}

/* Allows the answers done, found and other, which do not give the value. The stream is then of version 3. Call this before
 * streaming_write and the first call. */
static inline void streaming_tell_less(struct streaming *s)
{
    s->version = 3;
}

/* Passes the lines to a function in place of the descriptor: some at a time, each with its line feed. If it returns other than 0, that
 * counts as a write that fails. Call this before streaming_write. */
static inline void streaming_hand(struct streaming *s, int (*hand)(void *to, const char *text, size_t length), void *to)
{
    s->hand = hand;
    s->to = to;
}

/* Passes each event to a function, and only the first line to the one of streaming_hand, which gets the same `to`. No other line is written.
 * `pairs` are those of a list, for the time of the call. If the function returns other than 0, that counts as a write that fails. Call this
 * after streaming_hand. */
static inline void streaming_hand_events(struct streaming *s, int (*take)(void *to, const struct recording_event *event,
                                                                          const struct recording_pair *pairs))
{
    s->take = take;
}

/* Lets other threads run: mostly by a yield, sometimes by a sleep of a millisecond. */
static inline void streaming_rest(unsigned *times)
{
    if (++*times % 64)
        sched_yield();
    else
        poll(NULL, 0, 1);
}

static inline bool streaming_may(struct streaming *s, unsigned p, enum streaming_state state)
{
    return p < s->count && s->processes[p].state == state && !atomic_load(&s->is_failed);
}

/* Puts the event of a stamp into its slot, once that is free. */
static inline int streaming_put(struct streaming *s, const struct recording_event *event, bool is_left_out)
{
    struct streaming_slot *slot = &s->slots[event->stamp % s->slots_held];
    for (unsigned times = 0; atomic_load(&slot->turn) != event->stamp; streaming_rest(&times))
        if (atomic_load(&s->is_failed))
            return -1;
    slot->event = *event;
    slot->is_left_out = is_left_out;
    atomic_store(&slot->turn, event->stamp + 1);
    return 0;
}

static inline uint64_t streaming_stamp(struct streaming *s)
{
    return atomic_fetch_add(&s->stamps, (uint64_t)1);
}

static inline int streaming_invoke(struct streaming *s, unsigned p, enum recording_kind kind, uint64_t a, uint64_t b, uint64_t c)
{
    bool is_held = streaming_may(s, p, STREAMING_HELD);
    if (!is_held && !streaming_may(s, p, STREAMING_IDLE))
        return -1;
    struct recording_event event = {is_held ? s->processes[p].stamp_held : streaming_stamp(s), {a, b, c}, kind, p, s->processes[p].note};
    s->processes[p].note = RECORDING_AS_MADE;
    s->processes[p].state = STREAMING_OPEN;
    s->processes[p].call = kind;
    return streaming_put(s, &event, false);
}

/* Process p begins a call. Call this before the call does anything. */
static inline int streaming_invoke_get(struct streaming *s, unsigned p, uint64_t key)
{
    return streaming_invoke(s, p, RECORDING_GET, key, 0, 0);
}

static inline int streaming_invoke_insert(struct streaming *s, unsigned p, uint64_t key, uint64_t value)
{
    return streaming_invoke(s, p, RECORDING_INSERT, key, value, 0);
}

static inline int streaming_invoke_remove(struct streaming *s, unsigned p, uint64_t key)
{
    return streaming_invoke(s, p, RECORDING_REMOVE, key, 0, 0);
}

/* All pairs from one key to another, both included, at one moment. */
static inline int streaming_invoke_scan(struct streaming *s, unsigned p, uint64_t low, uint64_t high)
{
    return low > high ? -1 : streaming_invoke(s, p, RECORDING_SCAN, low, high, 0);
}

/* If the key holds `old`, it holds `new_value` from then on; else nothing changes. */
static inline int streaming_invoke_replace(struct streaming *s, unsigned p, uint64_t key, uint64_t old, uint64_t new_value)
{
    return streaming_invoke(s, p, RECORDING_REPLACE, key, old, new_value);
}

/* Process p begins a call of which only the answer shows which one it was. The next invocation of p says so, under the stamp that is
 * drawn here. Call this before the call does anything. If the thread dies in it, another one has to say what the call may have been. */
static inline int streaming_hold(struct streaming *s, unsigned p)
{
    if (!streaming_may(s, p, STREAMING_IDLE))
        return -1;
    s->processes[p].stamp_held = streaming_stamp(s);
    s->processes[p].state = STREAMING_HELD;
    return 0;
}

/* The call that process p holds is left out: it has changed nothing. */
static inline int streaming_drop(struct streaming *s, unsigned p)
{
    if (!streaming_may(s, p, STREAMING_HELD))
        return -1;
    struct recording_event event = {s->processes[p].stamp_held, {0, 0, 0}, RECORDING_NONE, p, RECORDING_AS_MADE};
    s->processes[p].state = STREAMING_IDLE;
    return streaming_put(s, &event, true);
}

/* The open call of process p only reads, and has taken its snapshot: its answer is of this moment, under the stamp that is drawn here, though it is
 * noted later. If this is called several times, the last one counts. It does nothing for a call that is held: its own stamp has no event yet, so no
 * later event of it may wait for room. Others may wait until the call is answered. */
static inline int streaming_taken(struct streaming *s, unsigned p)
{
    if (streaming_may(s, p, STREAMING_HELD))
        return 0;
    if (!streaming_may(s, p, STREAMING_OPEN))
        return -1;
    struct recording_event none = {s->processes[p].stamp_taken, {0, 0, 0}, RECORDING_NONE, p, RECORDING_AS_MADE};
    if (s->processes[p].is_taken && streaming_put(s, &none, true))
        return -1;
    s->processes[p].stamp_taken = streaming_stamp(s);
    s->processes[p].is_taken = true;
    return 0;
}

static inline int streaming_respond(struct streaming *s, unsigned p, enum recording_kind kind, uint64_t a, uint64_t b)
{
    if (!streaming_may(s, p, STREAMING_OPEN))
        return -1;
    bool is_taken = s->processes[p].is_taken;
    struct recording_event event = {is_taken ? s->processes[p].stamp_taken : streaming_stamp(s), {a, b, 0}, kind, p, RECORDING_AS_MADE};
    s->processes[p].is_taken = false;
    s->processes[p].state = STREAMING_IDLE;
    return streaming_put(s, &event, false);
}

/* The open call of process p was answered by the value that had been at its key, or found none there. Call this after all that the
 * call does. */
static inline int streaming_answer(struct streaming *s, unsigned p, bool found, uint64_t value)
{
    return streaming_respond(s, p, found ? RECORDING_VALUE : RECORDING_NONE, value, 0);
}

/* The open scan was answered by these pairs, which are copied as they are, once there is room for them. */
static inline int streaming_answer_pairs(struct streaming *s, unsigned p, const struct recording_pair *pairs, size_t count)
{
    if (!streaming_may(s, p, STREAMING_OPEN) || count > s->pairs_each)
        return -1;
    if (count == 0)
        return streaming_respond(s, p, RECORDING_LIST, s->processes[p].pairs_put, 0);
    struct streaming_process *own = &s->processes[p];
    uint64_t room = 2 * s->pairs_each, first = own->pairs_put;
    if (first % room + count > room)
        first += room - first % room;
    for (unsigned times = 0; first + count - atomic_load(&own->pairs_written) > room; streaming_rest(&times))
        if (atomic_load(&s->is_failed))
            return -1;
    memcpy(own->pairs + first % room, pairs, count * sizeof *pairs);
    own->pairs_put = first + count;
    return streaming_respond(s, p, RECORDING_LIST, first, count);
}

/* The open call was refused and changed nothing. */
static inline int streaming_answer_refused(struct streaming *s, unsigned p)
{
    return streaming_respond(s, p, RECORDING_REFUSED, 0, 0);
}

/* The open call was done; what it found is not said. */
static inline int streaming_answer_done(struct streaming *s, unsigned p)
{
    return s->version < 3 ? -1 : streaming_respond(s, p, RECORDING_DONE, 0, 0);
}

/* The open call was done, and there was a value at its key; which one is not said. Not for a scan. */
static inline int streaming_answer_found(struct streaming *s, unsigned p)
{
    if (s->version < 3 || !streaming_may(s, p, STREAMING_OPEN) || s->processes[p].call == RECORDING_SCAN)
        return -1;
    return streaming_respond(s, p, RECORDING_FOUND, 0, 0);
}

/* The open replace found another value than `old`, or none, and changed nothing. Only for a replace. */
static inline int streaming_answer_other(struct streaming *s, unsigned p)
{
    if (s->version < 3 || !streaming_may(s, p, STREAMING_OPEN) || s->processes[p].call != RECORDING_REPLACE)
        return -1;
    return streaming_respond(s, p, RECORDING_OTHER, 0, 0);
}

/* Says that no process records any more. Call this once the threads that do are joined, or dead. */
static inline void streaming_end(struct streaming *s)
{
    atomic_store(&s->is_ended, (uint64_t)1);
}

/* Writes out the lines that wait. */
static inline int streaming_flush(struct streaming *s)
{
    if (s->hand && s->length > 0 && s->hand(s->to, s->text, s->length))
        return -1;
    for (size_t at = s->hand ? s->length : 0; at < s->length;) {
        ssize_t written = write(s->descriptor, s->text + at, s->length - at);
        if (written < 0 && errno != EINTR)
            return -1;
        at += written < 0 ? 0 : (size_t)written;
    }
    s->length = 0;
    return 0;
}

/* Adds an event to the lines that wait, or passes it on. */
static inline int streaming_add(struct streaming *s, const struct recording_event *event, const struct recording_pair *pairs)
{
    if (s->take)
        return s->take(s->to, event, pairs);
    char *end = recording_put_event(s->text + s->length, event, pairs);
    *end++ = '\n';
    s->length = (size_t)(end - s->text);
    return 0;
}

/* Takes the event of a slot, and frees the slot and the room of its list. */
static inline int streaming_take(struct streaming *s, struct streaming_slot *slot)
{
    const struct recording_event *event = &slot->event;
    struct streaming_process *own = &s->processes[event->process];
    bool has_pairs = event->kind == RECORDING_LIST && event->words[1] > 0;
    const struct recording_pair *pairs = has_pairs ? own->pairs + event->words[0] % (2 * s->pairs_each) : NULL;
    int status = slot->is_left_out ? 0 : streaming_add(s, event, pairs);
    if (has_pairs)
        atomic_store(&own->pairs_written, event->words[0] + event->words[1]);
    atomic_store(&slot->turn, event->stamp + s->slots_held);
    return status;
}

/* Writes the first line, and then line after line until the stream ends. */
static inline int streaming_write_lines(struct streaming *s)
{
    char *end = recording_put_pairs(recording_put(s->text, "{\"start\":"), s->start, s->pairs_at_start);
    end = recording_put_number(recording_put(end, ",\"version\":"), s->version);
    s->length = (size_t)(recording_put(end, "}\n") - s->text);
    if (s->take && streaming_flush(s))
        return -1;
    uint64_t next = 0;
    for (unsigned times = 0;;) {
        bool is_ended = atomic_load(&s->is_ended);
        struct streaming_slot *slot = &s->slots[next % s->slots_held];
        if (atomic_load(&slot->turn) == next + 1) {
            if (streaming_take(s, slot))
                return -1;
            next++;
            times = 0;
            if (s->length >= STREAMING_BATCH && streaming_flush(s))
                return -1;
        } else {
            if (streaming_flush(s))
                return -1;
            if (is_ended)
                return next == atomic_load(&s->stamps) ? 0 : -1;
            streaming_rest(&times);
        }
    }
}

/* Writes the stream. Returns 0 once it has ended and all is written, or -1 if a write failed. If a process still holds a call at the
 * end, the stream ends before that call, and this returns -1 too. Call this once, in a thread of its own. */
static inline int streaming_write(struct streaming *s)
{
    int status = streaming_write_lines(s);
    if (status)
        atomic_store(&s->is_failed, (uint64_t)1);
    return status;
}

#endif
