/* Shows in words what `explain` reports, in lines of the compact form of docs/FORMATS.md. Included by potzendai_test.h. */
#ifndef POTZENDAI_TELL_H
#define POTZENDAI_TELL_H

#include <inttypes.h>
#include <stdbool.h>
#include <stdint.h>
#include <stdio.h>
#include <stdlib.h>
#include <string.h>

/* How many of the other open calls are shown. */
enum { POTZENDAI_OPEN_SHOWN = 6 };

/* What follows the name of a member in a line; NULL if the line has no such member. */
static inline const char *potzendai_member(const char *line, const char *name)
{
    const char *end = strchr(line, '\n');
    const char *at = strstr(line, name);
    return at && (!end || at < end) ? at + strlen(name) : NULL;
}

/* A member that is a number, or 0. */
static inline uint64_t potzendai_number(const char *line, const char *name)
{
    const char *at = potzendai_member(line, name);
    return at ? strtoull(at, NULL, 10) : 0;
}

/* The next line, or NULL. */
static inline const char *potzendai_next_line(const char *line)
{
    const char *end = strchr(line, '\n');
    return end && end[1] ? end + 1 : NULL;
}

static inline const char *potzendai_behind_number(const char *at)
{
    return at + strspn(at, "0123456789");
}

/* Whether the map is a cache. Its recordings have values from 2^63 on, which the driver makes up and no call puts. */
static bool potzendai_has_own_values;

/* Writes a value in words. */
static inline void potzendai_tell_value(FILE *out, const char *at)
{
    int digits = (int)strspn(at, "0123456789");
    bool is_own = potzendai_has_own_values && digits >= 19 && strtoull(at, NULL, 10) >> 63;
    fprintf(out, "%.*s", is_own ? (int)strlen("a value that no call puts") : digits, is_own ? "a value that no call puts" : at);
}

/* Writes pairs in words. Returns where their text ends. */
static inline const char *potzendai_tell_pairs(FILE *out, const char *at)
{
    const char *comma = "";
    if (at[1] == ']')
        fputs("nothing", out);
    for (at++; *at == '['; at += *at == ',') {
        const char *value = potzendai_behind_number(at + 1) + 1;
        fprintf(out, "%s%.*s: ", comma, (int)(value - at - 2), at + 1);
        potzendai_tell_value(out, value);
        comma = ", ";
        at = potzendai_behind_number(value) + 1;
    }
    return at;
}

/* Writes the answer of a call, or the one that it would get. */
static inline void potzendai_tell_answer(FILE *out, const char *at)
{
    static const char *const names[][2] = {
        {"null", "none"}, {"\"done\"", "that it was done"}, {"\"found\"", "that there was a value"}, {"\"other\"", "another value"},
        {"\"refused\"", "that it was refused"}, {"\"open\"", "nothing"}
    };
    for (size_t i = 0; i < sizeof names / sizeof *names; i++)
        if (strncmp(at, names[i][0], strlen(names[i][0])) == 0) {
            fputs(names[i][1], out);
            return;
        }
    if (*at == '[')
        potzendai_tell_pairs(out, at);
    else
        potzendai_tell_value(out, at);
}

/* Writes a call in words, from a text such as ["insert",5,7]. */
static inline void potzendai_tell_call(FILE *out, const char *at)
{
    char name[9] = "", numbers[3][21] = {"", "", ""};
    sscanf(at, "[\"%8[a-z]\",%20[0-9],%20[0-9],%20[0-9]", name, numbers[0], numbers[1], numbers[2]);
    if (strcmp(name, "insert") == 0)
        fprintf(out, "put %s at %s", numbers[1], numbers[0]);
    else if (strcmp(name, "replace") == 0)
        fprintf(out, "replace %s at %s by %s", numbers[1], numbers[0], numbers[2]);
    else if (strcmp(name, "scan") == 0)
        fprintf(out, "scan from %s to %s", numbers[0], numbers[1]);
    else
        fprintf(out, "%s %s", name, numbers[0]);
}

/* The first event in a history's text from here on, or NULL. */
static inline const char *potzendai_event_from(const char *at)
{
    while (at && strncmp(at, "{\"invoke\":", 10) != 0 && strncmp(at, "{\"answer\":", 10) != 0)
        at = strstr(at + 1, "{\"");
    return at;
}

/* The note of an event, or NULL. It says how a call was made that is recorded as another one. */
static inline const char *potzendai_note_of(const char *event)
{
    const char *note = event ? strstr(event, "\"note\":\"") : NULL;
    return note && note < event + strcspn(event, "}") ? note + strlen("\"note\":\"") : NULL;
}

/* The event of this number, or NULL. */
static inline const char *potzendai_event_at(const char *text, uint64_t event)
{
    const char *at = potzendai_event_from(text);
    for (; at && event > 0; event--)
        at = potzendai_event_from(at + 1);
    return at;
}

/* Writes the call of an event in words, as it was made. `call` is the text of the call. */
static inline void potzendai_tell_made(FILE *out, const char *event, const char *call)
{
    const char *note = potzendai_note_of(event);
    if (note)
        fprintf(out, "%.*s", (int)strcspn(note, ",\""), note);
    else
        potzendai_tell_call(out, call);
}

/* Writes what a call found, if its event has a note of that. */
static inline void potzendai_tell_found(FILE *out, const char *event)
{
    const char *note = potzendai_note_of(event), *found = note ? note + strcspn(note, ",\"") : "\"";
    fprintf(out, "%.*s", (int)strcspn(found, "\""), found);
}

/* Writes the events of a call: its invocation by a process, and its answer if it has one. */
static inline void potzendai_tell_events(FILE *out, const char *text, uint64_t invoked, uint64_t process)
{
    char events[64];
    uint64_t event = 0;
    const char *at = potzendai_event_from(text);
    snprintf(events, sizeof events, "event %" PRIu64 " on", invoked);
    for (; at && (event <= invoked || potzendai_number(at, "\"process\":") != process); event++)
        at = potzendai_event_from(at + 1);
    if (at)
        snprintf(events, sizeof events, "events %" PRIu64 " to %" PRIu64, invoked, event);
    fprintf(out, "  %-19s process %-3" PRIu64 " ", events, process);
}

/* Whether a pair that the history starts from has this value. */
static inline bool potzendai_is_at_start(const char *text, const char *value, size_t digits)
{
    const char *start = strstr(text, "\"start\":[");
    for (const char *at = start ? strchr(start, ',') : NULL; at; at = strchr(at + 1, ','))
        if (strncmp(at + 1, value, digits) == 0 && at[digits + 1] == ']')
            return true;
    return false;
}

/* When the starting pairs were there, and who put a value that no call puts: in the history of a round, or in what a follower still had of a
 * stream. */
static inline const char *potzendai_at_start(bool is_left)
{
    return is_left ? "was there before these calls" : "was there at the start";
}

static inline const char *potzendai_nobody(bool is_left)
{
    return is_left ? "what none of these calls put" : "what nobody put";
}

/* Writes who put a value. `text` is the whole history. */
static inline void potzendai_tell_writer(FILE *out, const char *text, const char *value, bool is_left)
{
    size_t digits = strspn(value, "0123456789");
    uint64_t event = 0;
    for (const char *at = potzendai_event_from(text); at && digits > 0; at = potzendai_event_from(at + 1), event++) {
        const char *call = strncmp(at, "{\"invoke\":", 10) == 0 ? at + 10 : NULL;
        const char *end = call ? strchr(call, ']') : NULL;
        bool puts = call && (strncmp(call, "[\"insert", 8) == 0 || strncmp(call, "[\"replace", 9) == 0);
        if (puts && end && (size_t)(end - call) > digits && end[-(int)digits - 1] == ','
            && memcmp(end - digits, value, digits) == 0) {
            fprintf(out, "; %.*s is what process %" PRIu64 " put (event %" PRIu64 ")", (int)digits, value,
                    potzendai_number(end, "\"process\":"), event);
            return;
        }
    }
    if (digits > 0 && potzendai_is_at_start(text, value, digits))
        fprintf(out, "; %.*s %s", (int)digits, value, potzendai_at_start(is_left));
    else if (digits > 0)
        fprintf(out, "; %.*s is %s", (int)digits, value, potzendai_nobody(is_left));
}

/* Writes the answer of a line's call and who put that value, or that the line leaves the answer out. */
static inline void potzendai_tell_answered(FILE *out, const char *text, const char *answer, bool is_left)
{
    if (strncmp(answer, "\"left out\"", 10) == 0) {
        fputs(", whatever its answer", out);
        return;
    }
    fputs(", answered ", out);
    potzendai_tell_answer(out, answer);
    potzendai_tell_writer(out, text, answer, is_left);
}

/* Writes who put a value that the few calls read and none of them put. */
static inline void potzendai_tell_origin(FILE *out, const char *line, bool is_left)
{
    const char *at = potzendai_member(line, "\"puts\":["), *comma = "";
    fprintf(out, "  %" PRIu64 " at %" PRIu64 " is ", potzendai_number(line, "\"value\":"), potzendai_number(line, "\"key\":"));
    if (potzendai_member(line, "\"start\":true")) {
        fprintf(out, "what %s", potzendai_at_start(is_left));
        comma = ", ";
    }
    for (; at && *at == '{'; at = strchr(at, '}') + 1, at += *at == ',') {
        fprintf(out, "%swhat process %" PRIu64 " put (event %" PRIu64 ")", comma, potzendai_number(at, "\"process\":"),
                potzendai_number(at, "\"event\":"));
        comma = ", ";
    }
    fprintf(out, "%s\n", *comma ? "" : potzendai_nobody(is_left));
}

/* Writes from which value of a key the few calls have no order. Only an undecided report has such lines. */
static inline void potzendai_tell_from(FILE *out, const char *line)
{
    const char *value = line + strlen("{\"from\":"), *put = potzendai_member(line, "\"put\":{");
    size_t digits = strspn(value, "0123456789");
    fprintf(out, "  from key %" PRIu64 " holding %.*s", potzendai_number(line, "\"key\":"), digits ? (int)digits : 7, digits ? value : "nothing");
    if (put)
        fprintf(out, ", which process %" PRIu64 " put (event %" PRIu64 ")", potzendai_number(put, "\"process\":"),
                potzendai_number(put, "\"event\":"));
    else if (digits)
        fputs(", which was there before these calls", out);
    fputs("\n", out);
}

/* Writes which calls one misses: `at` is the text of their list, or NULL. */
static inline void potzendai_tell_missed(FILE *out, const char *text, const char *at)
{
    for (; at && *at == '{'; at = strchr(at, '}') + 1, at += *at == ',') {
        const char *call = potzendai_member(at, "\"call\":");
        if (!call)
            break;
        fputs("; it misses ", out);
        const char *event = potzendai_event_at(text, potzendai_number(at, "\"event\":"));
        potzendai_tell_made(out, event, call);
        fprintf(out, " of process %" PRIu64 " (event %" PRIu64 ")", potzendai_number(at, "\"process\":"), potzendai_number(at, "\"event\":"));
        potzendai_tell_found(out, event);
    }
}

/* Writes how far an order of the few calls gets, and what the map would answer to each call that could come next. */
static inline void potzendai_tell_front(FILE *out, const char *text, const char *line, bool is_left)
{
    const char *front = potzendai_member(line, "\"front\":["), *holds = potzendai_member(line, "\"holds\":");
    const char *next = potzendai_member(line, "\"next\":[");
    if (!front || !holds || !next)
        return;
    if (*front == ']')
        fputs("  no call of them can come first; the map holds ", out);
    else
        fprintf(out, "  an order of them gets as far as the events [%.*s; the map then holds ", (int)strcspn(front, "]") + 1, front);
    potzendai_tell_pairs(out, holds);
    fputs("\n", out);
    for (const char *at = strchr(next, '{'); at; at = strstr(at + 1, "{\"answer\":")) {
        const char *answer = at + strlen("{\"answer\":"), *would = potzendai_member(at, "\"would\":");
        fprintf(out, "  the call of event %" PRIu64 " was answered ", potzendai_number(at, "\"event\":"));
        potzendai_tell_answer(out, answer);
        fputs(", and would be answered ", out);
        if (would)
            potzendai_tell_answer(out, would);
        potzendai_tell_writer(out, text, answer, is_left);
        fputs("\n", out);
    }
}

/* The text after the next such name before an end, or NULL. */
static inline const char *potzendai_next_named(const char *at, const char *end, const char *name)
{
    at = strstr(at, name);
    return at && at < end ? at + strlen(name) : NULL;
}

/* Why the report of a stream without order has no history of few calls. */
static inline const char *potzendai_why_not_few(const char *report)
{
    const char *at = report, *end = report + strcspn(report, "\n");
    bool is_key = false, is_value = false, is_more = false;
    while ((at = potzendai_next_named(at, end, "\"values\":[")) != NULL) {
        is_key = true;
        is_value = is_value || *at != ']';
        is_more = is_more || at[strcspn(at, ",]")] == ',';
    }
    if (!is_key)
        return "no map gives a scan the answer of this event";
    if (!is_value)
        return "the call had taken effect by then, and its answer contradicts what it found";
    if (is_more)
        return "a key may have had any of the listed values before the calls \"invoked\"";
    return "the calls \"invoked\" may have taken effect in several ways, or they fit no history: they are too many, or too many are open at once";
}

/* Writes the report of a stream without order, up to so many characters. Returns whether that is the whole report. */
static inline bool potzendai_tell_lost(FILE *out, const char *report, size_t most)
{
    size_t length = strcspn(report, "\n");
    fprintf(out, "%.*s%s\n", (int)(length < most ? length : most), report, length > most ? ".." : "");
    return length <= most;
}

/* Writes the first line of a report; a long list of calls in it as "..". */
static inline void potzendai_tell_verdict(FILE *out, const char *report)
{
    size_t length = strcspn(report, "\n");
    const char *calls = potzendai_member(report, "\"calls\":["), *end = calls ? strchr(calls, ']') : NULL;
    if (end && end < report + length && end - calls >= 80)
        fprintf(out, "%.*s..%.*s\n", (int)(calls - report), report, (int)(report + length - end), end);
    else
        fprintf(out, "%.*s\n", (int)length, report);
}

/* An event of a history: its text and its process. `answered` is the number of an invocation's answer, or of all events if it has none. */
struct potzendai_event { const char *at; uint64_t process; size_t answered; bool is_shown, is_late; };

/* The least and the greatest key of a call, by the text of its event. */
static inline void potzendai_keys_of(const char *at, uint64_t keys[2])
{
    const char *words = at + strcspn(at, ",]");
    char *end = NULL;
    keys[0] = keys[1] = *words == ',' ? strtoull(words + 1, &end, 10) : 0;
    if (strncmp(at, "{\"invoke\":[\"scan\"", 17) == 0 && end && *end == ',')
        keys[1] = strtoull(end + 1, NULL, 10);
}

/* Whether two calls were open at once and have a key in common. */
static inline bool potzendai_meets(const struct potzendai_event *events, size_t one, size_t other)
{
    uint64_t a[2], b[2];
    if (one >= events[other].answered || other >= events[one].answered)
        return false;
    potzendai_keys_of(events[one].at, a);
    potzendai_keys_of(events[other].at, b);
    return a[0] <= b[1] && b[0] <= a[1];
}

/* Lists the events of a history; NULL if memory is refused. */
static inline struct potzendai_event *potzendai_events_of(const char *text, size_t *count)
{
    size_t open[64] = {0};
    *count = 0;
    for (const char *at = potzendai_event_from(text); at; at = potzendai_event_from(at + 1))
        ++*count;
    struct potzendai_event *events = (struct potzendai_event *)calloc(*count + 1, sizeof *events);
    size_t i = 0;
    for (const char *at = potzendai_event_from(text); events && at; at = potzendai_event_from(at + 1), i++) {
        const char *member = strstr(at, "\"process\":");
        events[i].at = at;
        events[i].process = member ? strtoull(member + 10, NULL, 10) : 0;
        events[i].answered = *count;
        if (strncmp(at, "{\"invoke\":", 10) == 0)
            open[events[i].process % 64] = i;
        else
            events[open[events[i].process % 64]].answered = i;
    }
    return events;
}

/* Marks the calls that a report shows as shown. Marks those that could come next, or else the last one shown, as late. */
static inline void potzendai_mark_events(struct potzendai_event *events, size_t count, const char *report)
{
    size_t last = count;
    bool is_any = false;
    for (const char *line = report; line; line = potzendai_next_line(line)) {
        if (strncmp(line, "{\"answer\":", 10) == 0) {
            last = (size_t)potzendai_number(line, "\"event\":");
            if (last < count)
                events[last].is_shown = true;
        }
        const char *next = strncmp(line, "{\"front\"", 8) == 0 ? potzendai_member(line, "\"next\":[") : NULL;
        for (const char *at = next ? strchr(next, '{') : NULL; at; at = strstr(at + 1, "{\"answer\":")) {
            size_t event = (size_t)potzendai_number(at, "\"event\":");
            if (event < count)
                events[event].is_late = is_any = true;
        }
    }
    if (!is_any && last < count)
        events[last].is_late = true;
}

/* Writes which other calls were open meanwhile on the keys of the late ones: some of them, and how many more there are. */
static inline void potzendai_tell_open(FILE *out, const char *text, const char *report)
{
    size_t count, told = 0;
    struct potzendai_event *events = potzendai_events_of(text, &count);
    if (!events)
        return;
    potzendai_mark_events(events, count, report);
    for (size_t i = 0; i < count; i++) {
        bool is_open = false;
        bool is_call = strncmp(events[i].at, "{\"invoke\":", 10) == 0 && !events[i].is_shown;
        for (size_t late = 0; is_call && !is_open && late < count; late++)
            is_open = events[late].is_late && potzendai_meets(events, i, late);
        if (!is_open || ++told > POTZENDAI_OPEN_SHOWN)
            continue;
        fputs(told == 1 ? "  also open on the same keys meanwhile: " : ", ", out);
        potzendai_tell_made(out, events[i].at, events[i].at + 10);
        fprintf(out, " of process %" PRIu64 " (event", events[i].process);
        if (events[i].answered < count)
            fprintf(out, "s %zu to %zu)", i, events[i].answered);
        else
            fprintf(out, " %zu on)", i);
        potzendai_tell_found(out, events[i].at);
    }
    if (told > POTZENDAI_OPEN_SHOWN)
        fprintf(out, ", and %zu more", told - POTZENDAI_OPEN_SHOWN);
    if (told > 0)
        fputs("\n", out);
    free(events);
}

/* Writes a report of `explain` in words. `text` is the history of a round, or of what a follower still had. If `explain` is
 * undecided, a line with the verdict of `locate` may follow, which is skipped. Returns the line that is the history of the few calls, or NULL. */
static inline const char *potzendai_tell(FILE *out, const char *text, const char *report, bool is_left)
{
    const char *few = NULL, *line = potzendai_next_line(report);
    potzendai_tell_verdict(out, report);
    while (line && potzendai_member(line, "\"verdict\":"))
        line = potzendai_next_line(line);
    bool is_told = line != NULL;
    if (is_told)
        fputs("these calls have no order, and no other could mend that:\n", out);
    for (; line; line = potzendai_next_line(line)) {
        const char *answer = potzendai_member(line, "{\"answer\":"), *call = potzendai_member(line, "\"call\":");
        if (strncmp(line, "{\"events\"", 9) == 0)
            few = line;
        else if (strncmp(line, "{\"front\"", 8) == 0)
            potzendai_tell_front(out, text, line, is_left);
        else if (strncmp(line, "{\"from\"", 7) == 0)
            potzendai_tell_from(out, line);
        else if (strncmp(line, "{\"key\"", 6) == 0)
            potzendai_tell_origin(out, line, is_left);
        else if (answer && call) {
            /* the missed calls come before its own process in the line */
            const char *missed = potzendai_member(line, "\"misses\":["), *behind = missed ? strstr(missed, "}],") : line;
            potzendai_tell_events(out, text, potzendai_number(line, "\"event\":"), behind ? potzendai_number(behind, "\"process\":") : 0);
            const char *event = potzendai_event_at(text, potzendai_number(line, "\"event\":"));
            potzendai_tell_made(out, event, call);
            potzendai_tell_found(out, event);
            if (*answer != '"' || !potzendai_note_of(event))
                potzendai_tell_answered(out, text, answer, is_left);
            potzendai_tell_missed(out, text, missed);
            fputs("\n", out);
        }
    }
    if (is_told)
        potzendai_tell_open(out, text, report);
    return few;
}

#endif
