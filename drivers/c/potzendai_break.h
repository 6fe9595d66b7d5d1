/* A map that is wrong now and then, around one that may be right: a test of the test. Included by potzendai_test.h. */
#ifndef POTZENDAI_BREAK_H
#define POTZENDAI_BREAK_H

#include "potzendai_words.h"

/* One call in so many goes wrong. */
enum { POTZENDAI_SELDOM = 20 };

/* What is broken, and how. `round` is the run's: a thread has other wrong calls in each round. `wrongs` counts what was made wrong. */
struct potzendai_broken {
    struct potzendai_map map;
    const struct potzendai_map *truly;
    enum potzendai_break how;
    uint64_t keys, seed;
    const uint64_t *round;
    recording_word *wrongs;
};

/* What a get once found at a key. */
struct potzendai_once { bool is_there; enum map_said said; uint64_t found; };

/* A connection of the broken map: the connection of the true one, a put that is still to come, and what the puts of the true map answer. */
struct potzendai_wrong {
    struct potzendai_broken *broken;
    void *connection;
    uint64_t state, late_key, late_value;
    bool is_late, is_known;
    enum map_said style;
    struct potzendai_once *once;
};

static inline bool potzendai_goes_wrong(struct potzendai_wrong *w, enum potzendai_break how)
{
    return w->broken->how == how && potzendai_draw_below(&w->state, POTZENDAI_SELDOM) == 0;
}

/* Counts that the map was made wrong. */
static inline void potzendai_count_wrong(struct potzendai_wrong *w)
{
    atomic_fetch_add(w->broken->wrongs, (uint64_t)1);
}

static inline void potzendai_wrong_close(void *connection)
{
    struct potzendai_wrong *w = (struct potzendai_wrong *)connection;
    if (w->broken->truly->close)
        w->broken->truly->close(w->connection);
    free(w->once);
    free(w);
}

static inline void *potzendai_wrong_open(void *map, unsigned thread)
{
    struct potzendai_broken *broken = (struct potzendai_broken *)map;
    struct potzendai_wrong *w = (struct potzendai_wrong *)calloc(1, sizeof *w);
    struct potzendai_once *once = (struct potzendai_once *)calloc((size_t)broken->keys, sizeof *once);
    bool has_room = w && once;
    void *connection = has_room && broken->truly->open ? broken->truly->open(broken->truly->map, thread) : broken->truly->map;
    if (!has_room || (broken->truly->open && !connection)) {
        int why = has_room ? errno : ENOMEM;
        free(w);
        free(once);
        errno = why;
        return NULL;
    }
    w->broken = broken;
    w->connection = connection;
    uint64_t seed = broken->seed, round = *broken->round;
    w->state = thread ^ potzendai_mix(&seed) ^ potzendai_mix(&round);
    w->once = once;
    return w;
}

static inline enum map_said potzendai_true_put(struct potzendai_wrong *w, uint64_t key, uint64_t value, uint64_t *found)
{
    enum map_said said = w->broken->truly->put(w->connection, key, value, found);
    if (said == MAP_TOLD || said == MAP_DONE || said == MAP_FOUND) {
        w->style = said;
        w->is_known = true;
    }
    return said;
}

/* Does the put that is still to come, in half of the calls. */
static inline struct potzendai_wrong *potzendai_catch_up(void *connection)
{
    struct potzendai_wrong *w = (struct potzendai_wrong *)connection;
    uint64_t found;
    if (w->is_late && potzendai_draw_below(&w->state, 2)) {
        w->is_late = false;
        potzendai_count_wrong(w);
        w->broken->truly->put(w->connection, w->late_key, w->late_value, &found);
    }
    return w;
}

static inline void potzendai_be_late(struct potzendai_wrong *w, uint64_t key, uint64_t value)
{
    w->is_late = true;
    w->late_key = key;
    w->late_value = value;
}

static inline enum map_said potzendai_wrong_get(void *connection, uint64_t key, uint64_t *found)
{
    struct potzendai_wrong *w = potzendai_catch_up(connection);
    struct potzendai_once *once = &w->once[key];
    if (once->is_there && potzendai_goes_wrong(w, POTZENDAI_STALE)) {
        *found = once->found;
        potzendai_count_wrong(w);
        return once->said;
    }
    enum map_said said = w->broken->truly->get(w->connection, key, found);
    if (!once->is_there || potzendai_draw_below(&w->state, 4) == 0) {
        once->is_there = said == MAP_TOLD || said == MAP_NONE;
        once->said = said;
        once->found = *found;
    }
    return said;
}

/* What a put of the map would answer, by what a get has answered. */
static inline enum map_said potzendai_in_style(const struct potzendai_wrong *w, enum map_said got)
{
    return w->style == MAP_DONE ? MAP_DONE : got == MAP_TOLD ? w->style : got;
}

/* A put that follows a get as if they were one call. The get is of the key itself if the put answers the value before. Else it is of a neighbour,
 * which is put back as it was found. */
static inline enum map_said potzendai_race(struct potzendai_wrong *w, uint64_t key, uint64_t value, uint64_t *found)
{
    const struct potzendai_map *truly = w->broken->truly;
    uint64_t beside = w->style == MAP_TOLD || (key ^ 1) >= w->broken->keys ? key : key ^ 1, got, unused;
    enum map_said said = truly->get(w->connection, beside, &got);
    potzendai_count_wrong(w);
    potzendai_pause();
    if (beside != key && said == MAP_TOLD)
        truly->put(w->connection, beside, got, &unused);
    enum map_said put = truly->put(w->connection, key, value, found);
    if (beside != key || w->style == MAP_DONE || (said != MAP_TOLD && said != MAP_NONE))
        return put;
    *found = got;
    return potzendai_in_style(w, said);
}

static inline enum map_said potzendai_wrong_put(void *connection, uint64_t key, uint64_t value, uint64_t *found)
{
    struct potzendai_wrong *w = potzendai_catch_up(connection);
    if (w->is_known && potzendai_goes_wrong(w, POTZENDAI_RACE))
        return potzendai_race(w, key, value, found);
    if (w->is_known && potzendai_goes_wrong(w, POTZENDAI_DROP)) {
        enum map_said got = w->broken->truly->get(w->connection, key, found);
        if (got == MAP_TOLD || got == MAP_NONE) {
            potzendai_count_wrong(w);
            return potzendai_in_style(w, got);
        }
    }
    if (potzendai_goes_wrong(w, POTZENDAI_REPLAY))
        potzendai_be_late(w, key, value);
    return potzendai_true_put(w, key, value, found);
}

static inline enum map_said potzendai_wrong_del(void *connection, uint64_t key, uint64_t *found)
{
    struct potzendai_wrong *w = potzendai_catch_up(connection);
    const struct potzendai_map *truly = w->broken->truly;
    uint64_t value;
    if (potzendai_goes_wrong(w, POTZENDAI_ZOMBIE) && truly->get(w->connection, key, &value) == MAP_TOLD)
        potzendai_be_late(w, key, value);
    return truly->del(w->connection, key, found);
}

static inline enum map_said potzendai_wrong_scan(void *connection, uint64_t low, uint64_t high, struct recording_pair *pairs, size_t room,
                                                 size_t *count)
{
    struct potzendai_wrong *w = potzendai_catch_up(connection);
    const struct potzendai_map *truly = w->broken->truly;
    uint64_t middle = low + (high - low) / 2;
    size_t first = 0, second = 0;
    if (low == high || !potzendai_goes_wrong(w, POTZENDAI_TORN))
        return truly->scan(w->connection, low, high, pairs, room, count);
    enum map_said said = truly->scan(w->connection, low, middle, pairs, room, &first);
    if ((said != MAP_TOLD && said != MAP_NONE) || first > room)
        return truly->scan(w->connection, low, high, pairs, room, count);
    potzendai_count_wrong(w);
    potzendai_pause();
    said = truly->scan(w->connection, middle + 1, high, pairs + first, room - first, &second);
    *count = first + second;
    return said == MAP_NONE && first > 0 ? MAP_TOLD : said;
}

static inline enum map_said potzendai_wrong_replace(void *connection, uint64_t key, uint64_t old, uint64_t value, uint64_t *found)
{
    struct potzendai_wrong *w = potzendai_catch_up(connection);
    const struct potzendai_map *truly = w->broken->truly;
    if (potzendai_goes_wrong(w, POTZENDAI_CAS)) {
        enum map_said said = truly->put(w->connection, key, value, found);
        potzendai_count_wrong(w);
        return said == MAP_REFUSED || said == MAP_UNKNOWN ? said : MAP_DONE;
    }
    return truly->replace(w->connection, key, old, value, found);
}

static inline enum map_said potzendai_wrong_put_if_absent(void *connection, uint64_t key, uint64_t value, uint64_t *found)
{
    struct potzendai_wrong *w = potzendai_catch_up(connection);
    return w->broken->truly->put_if_absent(w->connection, key, value, found);
}

static inline enum map_said potzendai_wrong_floor(void *connection, uint64_t key, struct recording_pair *pair)
{
    struct potzendai_wrong *w = potzendai_catch_up(connection);
    return w->broken->truly->floor(w->connection, key, pair);
}

static inline enum map_said potzendai_wrong_ceiling(void *connection, uint64_t key, struct recording_pair *pair)
{
    struct potzendai_wrong *w = potzendai_catch_up(connection);
    return w->broken->truly->ceiling(w->connection, key, pair);
}

static inline enum map_said potzendai_wrong_pop_first(void *connection, struct recording_pair *pair)
{
    struct potzendai_wrong *w = potzendai_catch_up(connection);
    return w->broken->truly->pop_first(w->connection, pair);
}

/* Makes the map to call. The broken one has the functions that the true one has. */
static inline const struct potzendai_map *potzendai_break_map(struct potzendai_broken *broken, const struct potzendai_map *truly,
                                                              const struct potzendai_options *options, const uint64_t *round,
                                                              recording_word *wrongs)
{
    if (options->broken == POTZENDAI_UNBROKEN)
        return truly;
    broken->truly = truly;
    broken->how = options->broken;
    broken->keys = options->keys;
    broken->seed = options->seed;
    broken->round = round;
    broken->wrongs = wrongs;
    broken->map = *truly;
    broken->map.map = broken;
    broken->map.open = potzendai_wrong_open;
    broken->map.close = potzendai_wrong_close;
    broken->map.get = potzendai_wrong_get;
    broken->map.put = potzendai_wrong_put;
    broken->map.del = truly->del ? potzendai_wrong_del : NULL;
    broken->map.scan = truly->scan ? potzendai_wrong_scan : NULL;
    broken->map.replace = truly->replace ? potzendai_wrong_replace : NULL;
    broken->map.put_if_absent = truly->put_if_absent ? potzendai_wrong_put_if_absent : NULL;
    broken->map.floor = truly->floor ? potzendai_wrong_floor : NULL;
    broken->map.ceiling = truly->ceiling ? potzendai_wrong_ceiling : NULL;
    broken->map.pop_first = truly->pop_first ? potzendai_wrong_pop_first : NULL;
    return &broken->map;
}

#endif
