/* Rounds that are judged together. The keys of each round are moved up, so that no two rounds have a key in common, and one history has all of
 * them. It has an order exactly if each round has one, since linearizability is local: a call says nothing of keys that it does not touch
 * (Herlihy and Wing, 1990). Included by potzendai_test.h. */
#ifndef POTZENDAI_BATCH_H
#define POTZENDAI_BATCH_H

#include "recording.h"

/* The most rounds of a batch; and how many times longer a text may become as its keys are moved up. A key becomes one of at most 20 digits. The
 * shortest text with one key is a pair of five bytes. */
enum { POTZENDAI_BATCH = 64, POTZENDAI_BATCH_GROWS = 5 };

struct potzendai_list { char *text; size_t length, room; };

/* The events and the starting pairs of so many rounds, each list without its brackets, and the version of their text. */
struct potzendai_batch {
    struct potzendai_list events, start;
    unsigned version;
    size_t rounds, calls, pairs;
    uint64_t by;
};

/* How far moving has come in a round's text: how far its keys go up, how many keys it may have, and whether it has no others. */
struct potzendai_moved {
    const char *at;
    char *to;
    uint64_t by, keys;
    bool fits;
    size_t invoked, answered, pairs;
};

static inline void potzendai_close_batch(struct potzendai_batch *b)
{
    free(b->events.text);
    free(b->start.text);
    memset(b, 0, sizeof *b);
}

/* Makes room for so many more bytes: 0, or -1 if memory is refused. */
static inline int potzendai_make_room(struct potzendai_list *list, size_t length)
{
    size_t room = list->room ? list->room : (size_t)1 << 16;
    while (room - list->length < length)
        room *= 2;
    char *text = room > list->room ? (char *)realloc(list->text, room) : list->text;
    if (!text)
        return -1;
    list->text = text;
    list->room = room;
    return 0;
}

static inline void potzendai_copy(struct potzendai_moved *m, size_t length)
{
    memcpy(m->to, m->at, length);
    m->to += length;
    m->at += length;
}

/* Moves a key up. A range may end past the keys of its round: then it ends at the last of them. */
static inline void potzendai_move_key(struct potzendai_moved *m, bool is_end)
{
    uint64_t key = 0;
    for (; *m->at >= '0' && *m->at <= '9'; m->at++)
        key = 10 * key + (uint64_t)(*m->at - '0');
    key = is_end && key >= m->keys ? m->keys - 1 : key;
    m->fits = m->fits && key < m->keys;
    m->to = recording_put_number(m->to, key + m->by);
}

/* Moves up the keys of a list of pairs, from its first pair to its closing bracket, which is not copied. */
static inline void potzendai_move_pairs(struct potzendai_moved *m)
{
    while (*m->at == '[') {
        potzendai_copy(m, 1);
        potzendai_move_key(m, false);
        potzendai_copy(m, strcspn(m->at, "]") + 1);
        potzendai_copy(m, *m->at == ',');
        m->pairs++;
    }
}

/* Moves up the keys of an event. */
static inline void potzendai_move_event(struct potzendai_moved *m)
{
    bool is_call = strncmp(m->at, "{\"invoke\":", 10) == 0, is_scan = strncmp(m->at + 10, "[\"scan\"", 7) == 0;
    potzendai_copy(m, 10);
    if (is_call) {
        potzendai_copy(m, strcspn(m->at, ",") + 1);
        potzendai_move_key(m, false);
        potzendai_copy(m, is_scan);
        if (is_scan)
            potzendai_move_key(m, true);
        m->invoked++;
    } else {
        if (*m->at == '[') {
            potzendai_copy(m, 1);
            potzendai_move_pairs(m);
        }
        m->answered++;
    }
    potzendai_copy(m, strcspn(m->at, "}") + 1);
}

/* Adds a round: a history as recording_write writes it, of keys below `keys`. Returns 0 if it is added, and -1 if memory is refused. Returns 1 if the
 * round has other keys or a call without an answer, or if the batch has no room for it. */
static inline int potzendai_add_round(struct potzendai_batch *b, const char *text, uint64_t keys)
{
    static const char begin[] = "{\"events\":[", start[] = "],\"start\":[", version[] = "],\"version\":";
    size_t room = POTZENDAI_BATCH_GROWS * strlen(text) + 1;
    if (b->rounds == POTZENDAI_BATCH || keys > UINT64_MAX - b->by || strncmp(text, begin, strlen(begin)) != 0)
        return 1;
    if (potzendai_make_room(&b->events, room) || potzendai_make_room(&b->start, room))
        return -1;
    struct potzendai_moved m = {text + strlen(begin), b->events.text + b->events.length, b->by, keys, true, 0, 0, 0};
    if (b->events.length > 0)
        *m.to++ = ',';
    while (*m.at == '{') {
        potzendai_move_event(&m);
        potzendai_copy(&m, *m.at == ',');
    }
    char *end = m.to;
    m.pairs = 0;
    m.to = b->start.text + b->start.length;
    if (strncmp(m.at, start, strlen(start)) == 0) {
        m.at += strlen(start);
        if (b->start.length > 0 && *m.at == '[')
            *m.to++ = ',';
        potzendai_move_pairs(&m);
    }
    bool has_room = b->calls + m.invoked <= RECORDING_CALLS && b->pairs + m.pairs <= RECORDING_PAIRS;
    if (!m.fits || m.invoked != m.answered || m.invoked == 0 || !has_room || strncmp(m.at, version, strlen(version)) != 0)
        return 1;
    unsigned its = (unsigned)strtoul(m.at + strlen(version), NULL, 10);
    b->version = its > b->version ? its : b->version;
    b->events.length = (size_t)(end - b->events.text);
    b->start.length = (size_t)(m.to - b->start.text);
    b->rounds++;
    b->calls += m.invoked;
    b->pairs += m.pairs;
    b->by += keys;
    return 0;
}

/* The text of all rounds of the batch, to be freed; NULL if memory is refused. */
static inline char *potzendai_text_of_batch(const struct potzendai_batch *b, size_t *length)
{
    size_t room = b->events.length + b->start.length + RECORDING_EVENT_TEXT;
    char *text = (char *)malloc(room), *to = text;
    if (!text)
        return NULL;
    to = recording_put(to, "{\"events\":[");
    if (b->events.length > 0)
        memcpy(to, b->events.text, b->events.length);
    to = recording_put(to + b->events.length, "],\"start\":[");
    if (b->start.length > 0)
        memcpy(to, b->start.text, b->start.length);
    to = recording_put(to + b->start.length, "],\"version\":");
    to = recording_put_number(to, b->version > 2 ? b->version : 2);
    to = recording_put(to, "}\n");
    *to = 0;
    *length = (size_t)(to - text);
    return text;
}

#endif
