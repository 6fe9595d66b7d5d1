/* Potzendai's library for histories of a concurrent ordered map, and for streams of their events. Its calls do what the program does:
 *
 *     potzendai_judge      bench judge
 *     potzendai_locate     bench locate
 *     potzendai_explain    bench explain
 *     potzendai_draw       bench draw --calls 0
 *     potzendai_draw_part  bench draw
 *     potzendai_page       bench page
 *     potzendai_follow     bench follow
 *
 * Link libpotzendai.a. docs/LIBRARY.md says how it is built, and what each call promises.
 *
 *     char report[POTZENDAI_REPORT] = "";
 *     size_t length;
 *     uint32_t verdict = potzendai_judge(text, strlen(text), POTZENDAI_BUDGET, report, sizeof report, &length);
 *     assert(verdict == POTZENDAI_YES);
 *
 * A call reads a history text of docs/FORMATS.md, or potzendai_follow a stream of any length, of `text_length` bytes. The last line
 * feed may be missing. A search meets at most `budget` configurations, or in a stream one more than its operations if no two of them
 * overlap. The call writes into the room what the program writes: a line with its line feed, or the two lines that a terminal shows of a refused text. It writes a zero byte after that. If the room is too
 * small, it writes as much as leaves place for the zero byte. `*length` is the number of bytes of the whole, without the zero byte. So
 * all of it is there if `*length < room_length`. Otherwise a call with room for `*length + 1` bytes gives all of it. The call returns the
 * status.
 *
 * No pointer may be null, also for no bytes. The text, the room and `*length` do not overlap. Set the room's bytes before the call, by
 * `= ""`, calloc or another call. Only an open follower stays in memory between calls. A call starts no thread, takes no lock, and does
 * not end the program. It allocates by malloc and frees all of it, the memory of a follower when that is closed. Threads may call at the
 * same time, each with a room and followers of its own.
 */
#ifndef POTZENDAI_H
#define POTZENDAI_H

#include <stdbool.h>
#include <stddef.h>
#include <stdint.h>

#ifdef __cplusplus
extern "C" {
#endif

enum {
    POTZENDAI_YES = 0,       /* the history, or stream, has an order */
    POTZENDAI_NO = 1,        /* it has none */
    POTZENDAI_UNDECIDED = 2, /* a search met more configurations than the budget */
    POTZENDAI_REFUSED = 3,   /* the text spells none */
    POTZENDAI_MEMORY = 4,    /* memory ran out, which decides nothing */
    POTZENDAI_WORDS = 5      /* the budget is not from 1 to 1,000,000; or the follower is closed */
};

/* The budget of `bench judge` if none is given. */
#define POTZENDAI_BUDGET 100000u

/* Enough room for what judge and locate write. A picture and a page are longer, and what explain and follow write may be. */
#define POTZENDAI_REPORT 32768

uint32_t potzendai_judge(const char *text, size_t text_length, uint32_t budget, char *room, size_t room_length, size_t *length);
uint32_t potzendai_locate(const char *text, size_t text_length, uint32_t budget, char *room, size_t room_length, size_t *length);
uint32_t potzendai_explain(const char *text, size_t text_length, uint32_t budget, char *room, size_t room_length, size_t *length);
uint32_t potzendai_draw(const char *text, size_t text_length, uint32_t budget, char *room, size_t room_length, size_t *length);
uint32_t potzendai_draw_part(const char *text, size_t text_length, uint32_t budget, char *room, size_t room_length, size_t *length);
uint32_t potzendai_page(const char *text, size_t text_length, uint32_t budget, char *room, size_t room_length, size_t *length);
uint32_t potzendai_follow(const char *text, size_t text_length, uint32_t budget, char *room, size_t room_length, size_t *length);

/* Follows a stream while it is recorded. Make it by `= {0}`. Only these calls read or write it. Do not copy it, and use it only in the
 * thread that opened it. */
struct potzendai_follower {
    void *at;
    bool is_open;
};

/* Opens a follower, before the first line, and closes it first if it is open. Returns 0, or 4 or 5, and then the follower is closed. */
uint32_t potzendai_follow_open(struct potzendai_follower *follower, uint32_t budget);

/* Takes the line of the next event, or several lines. A line feed ends each of them, and the last may lack it. Returns the status of the
 * stream so far: 0 while it is followed. Any other status stays, and later lines are passed over. */
uint32_t potzendai_follow_event(struct potzendai_follower *follower, const char *line, size_t line_length);

/* The calls that an event may begin. In parentheses: which of `key`, `value` and `other` a call of this kind has. The others are ignored. */
enum {
    POTZENDAI_INVOKE_GET = 0,     /* the value at a key (key) */
    POTZENDAI_INVOKE_INSERT = 1,  /* a key, and the value that it is to hold (key, value) */
    POTZENDAI_INVOKE_REMOVE = 2,  /* a key that is to be absent (key) */
    POTZENDAI_INVOKE_SCAN = 3,    /* all pairs from one key to another, both included (key, value) */
    POTZENDAI_INVOKE_REPLACE = 4  /* a key, the value that it has to have, and the one that it then is to hold (key, value, other) */
};

/* The answers that an event may give. Only two kinds have a value or pairs. For the other kinds these are ignored. */
enum {
    POTZENDAI_ANSWER_NONE = 0,    /* no value was at the key */
    POTZENDAI_ANSWER_VALUE = 1,   /* the value that was at the key */
    POTZENDAI_ANSWER_PAIRS = 2,   /* the pairs that a scan found */
    POTZENDAI_ANSWER_REFUSED = 3, /* the map did not do the call, and nothing changed */
    POTZENDAI_ANSWER_DONE = 4,    /* it did the call; what it found is not said */
    POTZENDAI_ANSWER_FOUND = 5,   /* it did the call, and the key had a value; which one is not said */
    POTZENDAI_ANSWER_OTHER = 6    /* a replace found another value than the expected one, or none, and changed nothing */
};

/* A key and its value in the answer of a scan. */
struct potzendai_pair { uint64_t key, value; };

/* Takes the invocation of a call by a process, by its values: does what potzendai_follow_event does for the line of this event, and returns the
 * same. So a stream may be given by lines and by values, and its first line says its version and its start, as ever. If there is no line of this
 * event, the stream is refused as for `{"invoke":null}`. */
uint32_t potzendai_follow_invoke(struct potzendai_follower *follower, uint32_t process, uint32_t kind, uint64_t key, uint64_t value,
                                 uint64_t other);

/* Takes the answer of the open call of a process, in the same way. The pairs are copied. `pairs` may not be null: C and C++ call
 * potzendai_follow_answer. */
uint32_t potzendai_follow_answer_with(struct potzendai_follower *follower, uint32_t process, uint32_t kind, uint64_t value,
                                      const struct potzendai_pair *pairs, size_t count);

/* The same. `pairs` may be null if `count` is 0. If it is null and `count` is not, no line spells this event, and the stream is refused as for
 * `{"answer":[null]}`. */
static inline uint32_t potzendai_follow_answer(struct potzendai_follower *follower, uint32_t process, uint32_t kind, uint64_t value,
                                               const struct potzendai_pair *pairs, size_t count)
{
    static const struct potzendai_pair none = {0, 0};
    static const char refused[] = "{\"answer\":[null]}";
    if (!pairs && count > 0)
        return potzendai_follow_event(follower, refused, sizeof refused - 1);
    return potzendai_follow_answer_with(follower, process, kind, value, pairs ? pairs : &none, count);
}

/* Writes what potzendai_follow writes if the lines so far are all, and returns its status. More lines may come. */
uint32_t potzendai_follow_verdict(struct potzendai_follower *follower, char *room, size_t room_length, size_t *length);

/* Closes a follower, and frees all its memory. Then lines, and a call for the verdict, return POTZENDAI_WORDS. */
void potzendai_follow_close(struct potzendai_follower *follower);

#ifdef __cplusplus
}
#endif
#endif
