/* A stream that is followed while the threads run. Included by potzendai_test.h. */
#ifndef POTZENDAI_FOLLOW_H
#define POTZENDAI_FOLLOW_H

#include "potzendai_rounds.h"

/* Slots of the stream; processes as which threads go on after an unknown answer; characters of a report that are shown; the most bytes of a stream
 * that are kept for a file, and the first room for them. */
enum { POTZENDAI_SLOTS = 8192, POTZENDAI_OTHERS = 4096, POTZENDAI_SHOWN = 1000, POTZENDAI_KEPT = 1 << 26, POTZENDAI_KEPT_FIRST = 1 << 16 };

/* How calls of a stream meet: how many there are, how many are open, and how many others were open at each invocation, added up. `with` has for each
 * process with an open call how many calls there were up to that one, and 0 for other processes. */
struct potzendai_meetings { uint64_t calls, open, overlap, *with, processes; };

/* A stream, its follower, and how far it is. */
struct potzendai_following {
    struct potzendai_tester *tester;
    struct potzendai_thread *threads;
    struct streaming stream;
    recording_word is_done;
    int written;
    FILE *file;
    struct potzendai_follower follower;
    struct potzendai_told told;
    struct potzendai_meetings meetings;
    char *kept; /* the lines of the stream so far, while they are kept */
    size_t kept_length, kept_room;
    uint64_t *events; /* events after them, whose lines are not written yet: the words of each, after one that says what they are */
    size_t events_used, events_room, events_length; /* the last is that of their lines */
    uint64_t taken;
    bool is_long, is_unkept;
};

/* The calls that the threads have made so far. */
static inline void potzendai_count_calls(struct potzendai_following *f)
{
    f->tester->run->counts.calls = f->tester->refused = 0;
    for (uint64_t i = 0; i < f->tester->run->threads; i++) {
        f->tester->run->counts.calls += atomic_load_explicit(&f->threads[i].calls, POTZENDAI_RELAXED);
        f->tester->refused += atomic_load_explicit(&f->threads[i].refused, POTZENDAI_RELAXED);
    }
}

/* Counts an event. */
static inline void potzendai_meet_event(struct potzendai_meetings *m, bool is_call, uint64_t process)
{
    if (process >= m->processes)
        return;
    m->overlap += is_call ? m->open : 0;
    m->calls += is_call;
    m->open = is_call ? m->open + 1 : m->open - 1;
    m->with[process] = is_call ? m->calls : 0;
}

/* Counts the events of some lines. Each line ends with its process. */
static inline void potzendai_meet(struct potzendai_meetings *m, const char *text, size_t length)
{
    for (const char *line = text, *end; (end = (const char *)memchr(line, '\n', (size_t)(text + length - line))) != NULL; line = end + 1) {
        const char *digits = end - 1;
        while (digits > line && digits[-1] >= '0' && digits[-1] <= '9')
            digits--;
        uint64_t process = strtoull(digits, NULL, 10);
        bool is_call = strncmp(line, "{\"invoke\":", 10) == 0, is_event = is_call || strncmp(line, "{\"answer\":", 10) == 0;
        if (is_event)
            potzendai_meet_event(m, is_call, process);
    }
}

/* How many other calls were open at an invocation, on average. A call without an answer does not count as open: nobody makes it any more. */
static inline double potzendai_met_a_call(const struct potzendai_meetings *m)
{
    uint64_t overlap = m->overlap;
    for (uint64_t p = 0; p < m->processes; p++)
        overlap -= m->with[p] > 0 ? m->calls - m->with[p] : 0;
    return (double)overlap / (double)(m->calls ? m->calls : 1);
}

/* Prints once a second how far the stream is, if standard error is a terminal. */
static inline void potzendai_follow_progress(struct potzendai_following *f)
{
    if (!f->tester->has_terminal || potzendai_now() - f->tester->told < 1)
        return;
    f->tester->has_overlap = true;
    f->tester->overlap_a_call = potzendai_met_a_call(&f->meetings);
    potzendai_count_calls(f);
    potzendai_progress(f->tester);
}

/* Makes room for so many more bytes of a block that is twice as large each time: NULL if memory is refused. */
static inline void *potzendai_grow(void *block, size_t *room, size_t needed)
{
    size_t wanted = *room ? *room : (size_t)POTZENDAI_KEPT_FIRST;
    while (wanted < needed)
        wanted *= 2;
    void *grown = wanted == *room ? block : realloc(block, wanted);
    *room = grown ? wanted : *room;
    return grown;
}

/* Drops all lines that are kept: they are too many, or memory for them was refused. The stream is still followed. */
static inline void potzendai_drop_kept(struct potzendai_following *f)
{
    free(f->kept);
    free(f->events);
    f->kept = NULL;
    f->events = NULL;
    f->is_unkept = true;
}

/* Whether so many more bytes of lines may be kept. */
static inline bool potzendai_may_keep(struct potzendai_following *f, size_t length)
{
    f->is_long = f->is_long || length > (size_t)POTZENDAI_KEPT - f->kept_length - f->events_length;
    return !f->is_unkept && !f->is_long;
}

/* Keeps lines of the stream for a file. If there is no room, drops all that was kept. */
static inline void potzendai_keep_lines(struct potzendai_following *f, const char *text, size_t length)
{
    if (f->is_unkept)
        return;
    char *kept = potzendai_may_keep(f, length) ? (char *)potzendai_grow(f->kept, &f->kept_room, f->kept_length + length) : NULL;
    if (!kept) {
        potzendai_drop_kept(f);
        return;
    }
    f->kept = kept;
    memcpy(f->kept + f->kept_length, text, length);
    f->kept_length += length;
}

/* Takes lines: 0 as long as the verdict may be yes. */
static inline int potzendai_take_lines(void *to, const char *text, size_t length)
{
    struct potzendai_following *f = (struct potzendai_following *)to;
    uint32_t status = potzendai_follow_event(&f->follower, text, length);
    potzendai_keep_lines(f, text, length);
    potzendai_meet(&f->meetings, text, length);
    potzendai_follow_progress(f);
    return status == POTZENDAI_IS_YES ? 0 : -1;
}

#ifndef POTZENDAI_NO_LIBRARY
/* Events are kept as the words of `recording_event` that they need, after one with the kind, the note, the process and the number of pairs; then come
 * the pairs. A line is written of them only if it is shown or saved. */

/* How many of its words an event needs: a call with a note needs all. */
static inline size_t potzendai_words_needed(const struct recording_event *event)
{
    if (event->kind < RECORDING_NONE)
        return event->note ? 3 : (size_t)recording_call_words[event->kind];
    return event->kind == RECORDING_VALUE;
}

static inline size_t potzendai_pairs_listed(const struct recording_event *event)
{
    return event->kind == RECORDING_LIST ? (size_t)event->words[1] : 0;
}

/* How long the line of an event is, with its line feed. A note is rare: its line is written for that. */
static inline size_t potzendai_line_length(const struct recording_event *event, const struct recording_pair *pairs)
{
    static const size_t plain[] = {32, 36, 35, 34, 38, 28, 24, 26, 33, 30, 31, 31}; /* with one digit of the process, without the words */
    char line[RECORDING_EVENT_TEXT];
    if (event->note)
        return (size_t)(recording_put_event(line, event, pairs) - line) + 1;
    size_t length = plain[event->kind];
    for (size_t i = 0, count = potzendai_words_needed(event); i < count; i++)
        length += recording_digits(event->words[i]);
    for (size_t i = 0, count = potzendai_pairs_listed(event); i < count; i++)
        length += (i > 0) + 3 + recording_digits(pairs[i].key) + recording_digits(pairs[i].value);
    return length + recording_digits(event->process) - 1;
}

/* Keeps an event of the stream for a file. If there is no room, drops all that was kept. */
static inline void potzendai_keep_event(struct potzendai_following *f, const struct recording_event *event, const struct recording_pair *pairs)
{
    if (f->is_unkept)
        return;
    size_t words = potzendai_words_needed(event), listed = potzendai_pairs_listed(event), length = potzendai_line_length(event, pairs);
    size_t used = f->events_used + (1 + words + 2 * listed) * sizeof *f->events;
    uint64_t *events = potzendai_may_keep(f, length) ? (uint64_t *)potzendai_grow(f->events, &f->events_room, used) : NULL;
    if (!events) {
        potzendai_drop_kept(f);
        return;
    }
    uint64_t *to = events + f->events_used / sizeof *events;
    *to++ = (uint64_t)event->kind | (uint64_t)event->note << 8 | (uint64_t)event->process << 16 | (uint64_t)listed << 32;
    memcpy(to, event->words, words * sizeof *to);
    if (listed)
        memcpy(to + words, pairs, listed * sizeof *pairs);
    f->events = events;
    f->events_used = used;
    f->events_length += length;
}

/* Writes the lines of the events that are kept after those that are written. */
static inline void potzendai_write_kept(struct potzendai_following *f)
{
    if (f->is_unkept || f->events_length == 0)
        return;
    char *kept = (char *)potzendai_grow(f->kept, &f->kept_room, f->kept_length + f->events_length), *to;
    if (!kept) {
        potzendai_drop_kept(f);
        return;
    }
    to = kept + f->kept_length;
    for (const uint64_t *from = f->events, *end = from + f->events_used / sizeof *from; from < end;) {
        struct recording_event event;
        memset(&event, 0, sizeof event);
        event.kind = (enum recording_kind)(*from & 255);
        event.note = (enum recording_note)(*from >> 8 & 255);
        event.process = (unsigned)(*from >> 16 & 65535);
        size_t listed = (size_t)(*from++ >> 32), words = potzendai_words_needed(&event);
        memcpy(event.words, from, words * sizeof *from);
        event.words[1] = event.kind == RECORDING_LIST ? listed : event.words[1];
        to = recording_put_event(to, &event, (const struct recording_pair *)(const void *)(from + words));
        *to++ = '\n';
        from += words + 2 * listed;
    }
    f->kept = kept;
    f->kept_length += f->events_length;
    f->events_used = f->events_length = 0;
}

/* Hands an event to the library by its values, and returns the status of the stream. */
static inline uint32_t potzendai_follow_values(struct potzendai_follower *follower, const struct recording_event *e, const struct recording_pair *pairs)
{
    static const uint32_t kinds[] = {
        POTZENDAI_INVOKE_GET, POTZENDAI_INVOKE_INSERT, POTZENDAI_INVOKE_REMOVE, POTZENDAI_INVOKE_SCAN, POTZENDAI_INVOKE_REPLACE,
        POTZENDAI_ANSWER_NONE, POTZENDAI_ANSWER_VALUE, POTZENDAI_ANSWER_PAIRS, POTZENDAI_ANSWER_REFUSED, POTZENDAI_ANSWER_DONE,
        POTZENDAI_ANSWER_FOUND, POTZENDAI_ANSWER_OTHER
    };
    uint32_t kind = kinds[e->kind];
    if (e->kind < RECORDING_NONE)
        return potzendai_follow_invoke(follower, e->process, kind, e->words[0], e->words[1], e->words[2]);
    return potzendai_follow_answer(follower, e->process, kind, e->words[0], (const struct potzendai_pair *)(const void *)pairs,
                                   potzendai_pairs_listed(e));
}

/* Takes an event: 0 as long as the verdict may be yes. */
static inline int potzendai_take_event(void *to, const struct recording_event *event, const struct recording_pair *pairs)
{
    struct potzendai_following *f = (struct potzendai_following *)to;
    uint32_t status = potzendai_follow_values(&f->follower, event, pairs);
    potzendai_keep_event(f, event, pairs);
    potzendai_meet_event(&f->meetings, event->kind < RECORDING_NONE, event->process);
    if (++f->taken % 1024 == 0)
        potzendai_follow_progress(f);
    return status == POTZENDAI_IS_YES ? 0 : -1;
}
#endif

/* The verdict on the stream, with its whole report. */
static inline enum potzendai_status potzendai_stream_verdict(struct potzendai_following *f)
{
    size_t length = 0;
    enum potzendai_status status = POTZENDAI_NO_MEMORY;
    for (size_t wanted = POTZENDAI_REPORT; wanted > f->told.room; wanted = length + 1) {
        free(f->told.report);
        f->told.report = (char *)calloc(1, wanted);
        f->told.room = f->told.report ? wanted : 0;
        if (!f->told.report)
            return POTZENDAI_NO_MEMORY;
        status = (enum potzendai_status)potzendai_follow_verdict(&f->follower, f->told.report, f->told.room, &length);
    }
    return status;
}

/* A kept line of the stream, and the number of its event; the first line has none. */
struct potzendai_kept { const char *line, *end; uint64_t event; };

/* Copies the line of an event; nothing if it is not kept. For a later event than last time, the search goes on from there. */
static inline void potzendai_find_kept(const struct potzendai_following *f, struct potzendai_kept *k, uint64_t event, char room[RECORDING_EVENT_TEXT])
{
    if (!k->line || event < k->event) {
        k->line = f->kept;
        k->end = f->kept ? f->kept + f->kept_length : NULL;
        k->event = UINT64_MAX;
    }
    while (k->line && k->event != event) {
        k->line = (const char *)memchr(k->line, '\n', (size_t)(k->end - k->line));
        k->line = k->line && k->line + 1 < k->end ? k->line + 1 : NULL;
        k->event++;
    }
    size_t length = 0;
    while (k->line && length + 1 < RECORDING_EVENT_TEXT && k->line[length] != '\n') {
        room[length] = k->line[length];
        length++;
    }
    room[length] = 0;
}

static inline size_t potzendai_count_text(const char *text, const char *what)
{
    size_t count = 0;
    for (const char *at = strstr(text, what); at; at = strstr(at + 1, what))
        count++;
    return count;
}

/* Compares two events, for qsort. */
static inline int potzendai_compare_events(const void *one, const void *other)
{
    uint64_t a = *(const uint64_t *)one, b = *(const uint64_t *)other;
    return (a > b) - (a < b);
}

/* The events "invoked" of all keys of a report, each once and rising; NULL if memory is refused. */
static inline uint64_t *potzendai_invoked(const char *report, size_t *count)
{
    const char *at = report, *end = report + strcspn(report, "\n");
    size_t room = 1, all = 0;
    for (const char *comma = report; comma < end; comma++)
        room += *comma == ',';
    uint64_t *events = (uint64_t *)calloc(room, sizeof *events);
    *count = 0;
    if (!events)
        return NULL;
    while ((at = potzendai_next_named(at, end, "\"invoked\":[")) != NULL)
        for (char *next; *at >= '0' && *at <= '9'; at = next + (*next == ','))
            events[all++] = strtoull(at, &next, 10);
    qsort(events, all, sizeof *events, potzendai_compare_events);
    for (size_t i = 0; i < all; i++)
        if (i == 0 || events[i] != events[i - 1])
            events[(*count)++] = events[i];
    return events;
}

/* The history of the calls that are left, with the notes that the stream has of them; NULL if the stream has no notes, or not all of these calls. */
static inline char *potzendai_note_left(const struct potzendai_following *f, const char *text)
{
    size_t calls = potzendai_count_text(text, "{\"invoke\":"), count = 0, call = 0;
    uint64_t *invoked = f->kept && strstr(text, "\"version\":3}") ? potzendai_invoked(f->told.report, &count) : NULL;
    char *noted = invoked && calls == count ? (char *)calloc(1, strlen(text) + calls * RECORDING_EVENT_TEXT + 1) : NULL, *to = noted;
    const char *from = text;
    struct potzendai_kept kept = {NULL, NULL, 0};
    for (const char *at = potzendai_event_from(text); noted && at; at = potzendai_event_from(at + 1)) {
        char line[RECORDING_EVENT_TEXT];
        if (strncmp(at, "{\"invoke\":", 10) != 0)
            continue;
        potzendai_find_kept(f, &kept, invoked[call++], line);
        const char *note = potzendai_note_of(line), *member = strstr(at, ",\"process\":");
        if (!note || !member)
            continue;
        memcpy(to, from, (size_t)(member - from));
        to += member - from;
        to += snprintf(to, RECORDING_EVENT_TEXT, ",\"note\":\"%.*s\"", (int)strcspn(note, "\""), note);
        from = member;
    }
    if (noted)
        recording_put(to, from);
    free(invoked);
    return noted;
}

/* Shows a few of the calls left that have no order, and saves the history of all. If no few calls are found, saves only that history. */
static inline void potzendai_tell_left(struct potzendai_following *f, const char *text)
{
    struct potzendai_told left;
    memset(&left, 0, sizeof left);
    left.is_left = true;
    left.text = potzendai_note_left(f, text);
    if (!left.text && (left.text = (char *)calloc(1, strlen(text) + 1)) != NULL)
        recording_put(left.text, text);
    left.length = left.text ? strlen(left.text) : 0;
    enum potzendai_status status = left.text ? potzendai_explained(f->tester->options, &left) : POTZENDAI_NO_MEMORY;
    if (status <= POTZENDAI_IS_UNDECIDED && strstr(left.report, "\n{\"answer\":")) {
        fputs("here and in the files, events and processes have new numbers. The calls are those \"invoked\" above, by rising event:\n", stderr);
        potzendai_tell_no(f->tester, &left, false);
    } else {
        potzendai_tell_unexplained(f->tester->options, status, left.report);
        potzendai_keep(f->tester, ".json", text, strlen(text));
    }
    potzendai_forget(&left);
}

/* Shows a stream that has no order. If the calls that are left say why, they are a history, which is explained; if not, a line says so. Saves the
 * stream so far, unless it is long. Saves the report if not all of it is shown, or if nothing else is saved. */
static inline void potzendai_tell_stream(struct potzendai_following *f)
{
#ifndef POTZENDAI_NO_LIBRARY
    potzendai_write_kept(f);
#endif
    const char *left = potzendai_next_line(f->told.report);
    bool is_whole = potzendai_tell_lost(stderr, f->told.report, (size_t)POTZENDAI_SHOWN);
    if (left)
        potzendai_tell_left(f, left);
    else
        fprintf(stderr, "the few calls are not shown: %s\n", potzendai_why_not_few(f->told.report));
    if (!f->is_unkept)
        potzendai_keep(f->tester, ".jsonl", f->kept ? f->kept : "", f->kept_length);
    else if (f->is_long)
        fprintf(stderr, "the stream is not saved, since it is longer than %d bytes\n", POTZENDAI_KEPT);
    else
        fputs("the stream is not saved, since memory for it was refused\n", stderr);
    if (!is_whole || (!left && f->is_unkept))
        potzendai_keep(f->tester, "-report.json", f->told.report, strcspn(f->told.report, "\n"));
    potzendai_tell_again(f->tester, 0);
}

/* The verdict of the follower at the end. A stream that was cut off gets no yes. */
static inline int potzendai_end_stream(struct potzendai_following *f)
{
    struct potzendai_run *run = f->tester->run;
    enum potzendai_status status = potzendai_stream_verdict(f);
    f->tester->has_overlap = f->told.report && potzendai_member(f->told.report, "\"overlap\":");
    f->tester->overlap_a_call = potzendai_met_a_call(&f->meetings);
    if (atomic_load(&run->fault))
        return -1;
    if (status == POTZENDAI_IS_YES && f->written)
        return potzendai_fail(run, POTZENDAI_BAD_FILE, "the stream was cut off");
    if (status == POTZENDAI_IS_YES && atomic_load(&run->next_process) > atomic_load(&run->processes))
        return potzendai_fail(run, POTZENDAI_IS_UNDECIDED, "calls without an answer leave no room for others");
    if (status == POTZENDAI_NO_MEMORY)
        return potzendai_fail(run, POTZENDAI_NO_MEMORY, "memory: the stream was not followed to its end");
    if (status > POTZENDAI_NO_MEMORY || status == POTZENDAI_IS_REFUSED)
        return potzendai_fail(run, status, "%.150s", f->told.report);
    if (status == POTZENDAI_IS_NO && !f->tester->is_quiet)
        potzendai_tell_stream(f);
    f->tester->undecided += status == POTZENDAI_IS_UNDECIDED;
    return status;
}

static inline void potzendai_close_follower(struct potzendai_following *f)
{
    potzendai_follow_close(&f->follower);
    potzendai_forget(&f->told);
}

/* The thread that writes the stream: to the follower, which only this thread uses, or to standard output or a file. */
static inline void *potzendai_write_stream(void *own)
{
    struct potzendai_following *f = (struct potzendai_following *)own;
    int status = 0;
    if (!potzendai_is_unjudged(f->tester->options)) {
        streaming_hand(&f->stream, potzendai_take_lines, f);
#ifndef POTZENDAI_NO_LIBRARY
        streaming_hand_events(&f->stream, potzendai_take_event);
#endif
        if (potzendai_follow_open(&f->follower, (uint32_t)f->tester->options->budget))
            potzendai_fail(f->tester->run, POTZENDAI_NO_MEMORY, "memory: no follower");
        f->written = streaming_write(&f->stream);
        status = potzendai_end_stream(f);
        potzendai_close_follower(f);
        atomic_store(&f->is_done, (uint64_t)1);
        return (void *)(intptr_t)status;
    }
    f->written = streaming_write(&f->stream);
    if (f->written)
        status = potzendai_fail(f->tester->run, POTZENDAI_BAD_FILE, "the stream was cut off, as a write failed");
    atomic_store(&f->is_done, (uint64_t)1);
    return (void *)(intptr_t)status;
}

/* Waits until the time is over, all threads have made their calls, or the stream has ended. */
static inline void potzendai_wait(struct potzendai_following *f)
{
    struct potzendai_run *run = f->tester->run;
    double until = f->tester->began + (double)f->tester->options->seconds;
    struct timespec some_time = {0, 10000000};
    while (potzendai_now() < until && !potzendai_is_interrupted() && !atomic_load(&run->fault) && !atomic_load(&f->is_done)
           && atomic_load(&run->arrived))
        nanosleep(&some_time, NULL);
}

/* Opens a stream that nobody follows: to standard output, or to a file. */
static inline int potzendai_open_unjudged(struct potzendai_following *f)
{
    const struct potzendai_options *o = f->tester->options;
    char path[POTZENDAI_PATH];
    if (strcmp(o->out, "-") == 0)
        return 0;
    f->file = potzendai_path(f->tester, path, ".jsonl") ? NULL : fopen(path, "w");
    if (!f->file)
        return potzendai_fail(f->tester->run, POTZENDAI_BAD_FILE, "no file for the stream in %.100s", o->out);
    f->stream.descriptor = fileno(f->file);
    fprintf(stderr, "  file: %s\n", path);
    return 0;
}

static inline int potzendai_open_stream(struct potzendai_following *f)
{
    struct potzendai_run *run = f->tester->run;
    uint64_t processes = run->threads + POTZENDAI_OTHERS;
    size_t pairs = potzendai_pairs_of_a_call(run->options);
    atomic_store(&run->next_process, run->threads);
    atomic_store(&run->processes, processes);
    atomic_store(&f->is_done, (uint64_t)0);
    if (potzendai_read_start(f->tester))
        return -1;
    potzendai_remember_start(f->tester);
    f->meetings.processes = processes;
    f->meetings.with = (uint64_t *)calloc((size_t)processes, sizeof *f->meetings.with);
    if (!f->meetings.with)
        return potzendai_fail(run, POTZENDAI_NO_MEMORY, "memory: no room for a stream");
    if (streaming_open(&f->stream, (unsigned)processes, POTZENDAI_SLOTS, pairs, 1)
        || streaming_start(&f->stream, f->tester->start, f->tester->pairs_at_start))
        return potzendai_fail(run, POTZENDAI_NO_MEMORY, "memory: no room for a stream");
    streaming_tell_less(&f->stream);
    run->stream = &f->stream;
    return potzendai_is_unjudged(run->options) ? potzendai_open_unjudged(f) : 0;
}

/* Lets the threads run and waits for all of them. */
static inline int potzendai_run_stream(struct potzendai_following *f)
{
    struct potzendai_run *run = f->tester->run;
    pthread_t writer;
    void *status = NULL;
    f->threads = potzendai_new_threads(run);
    if (!f->threads || pthread_create(&writer, NULL, potzendai_write_stream, f)) {
        potzendai_free_threads(f->threads, run->threads);
        return potzendai_fail(run, POTZENDAI_NO_MEMORY, "memory: no room for threads");
    }
    uint64_t started = potzendai_start_threads(run, f->threads);
    potzendai_wait(f);
    atomic_store(&run->is_over, (uint64_t)1);
    potzendai_join_threads(run, f->threads, started);
    streaming_end(&f->stream);
    pthread_join(writer, &status);
    potzendai_count_calls(f);
    potzendai_free_threads(f->threads, run->threads);
    return (int)(intptr_t)status;
}

/* Runs one stream: the status of its verdict, or -1 if the run fails. */
static inline int potzendai_stream(struct potzendai_tester *tester)
{
    struct potzendai_following *f = (struct potzendai_following *)calloc(1, sizeof *f);
    if (!f)
        return potzendai_fail(tester->run, POTZENDAI_NO_MEMORY, "memory: no room for a stream");
    f->tester = tester;
    int status = potzendai_open_stream(f);
    status = status ? status : potzendai_run_stream(f);
    streaming_close(&f->stream);
    if (f->file && fclose(f->file) && status == 0)
        status = potzendai_fail(tester->run, POTZENDAI_BAD_FILE, "the stream was not written");
    free(f->kept);
    free(f->events);
    free(f->meetings.with);
    free(f);
    return status;
}

#endif
