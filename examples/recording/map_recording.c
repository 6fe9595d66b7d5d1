/* Records threads at a sorted map, and writes the history. From the top of the repository:
 *
 *     cc -std=c11 -O2 -pthread -o map_recording examples/recording/map_recording.c
 *     ./map_recording locked | ./bench judge
 *     ./map_recording unlocked | ./bench judge
 *
 * `locked` holds the map's lock over each call: whatever the threads do, the history has an order. In `unlocked` an insert looks
 * for its key, lets the lock go, and takes it again to write. A barrier between the two makes both inserts of one key find
 * nothing there, which no order explains: the verdict is no at each run.
 */
#define _POSIX_C_SOURCE 200809L
#include "../../drivers/c/recording.h"
#include <pthread.h>

enum { THREADS = 4, CALLS = 1000, KEYS = 16 };

/* The map: the value at each of a few keys, where there is one, under a lock. */
static struct { bool is_held; uint64_t value; } map[KEYS];
static pthread_mutex_t map_lock = PTHREAD_MUTEX_INITIALIZER;
static pthread_barrier_t all_have_started, both_have_looked;
static struct recording recorded;

static void put(uint64_t key, uint64_t value)
{
    map[key].is_held = true;
    map[key].value = value;
}

/* Does a call under the lock: answers whether there was a value at the key, and gives it. */
static bool locked_call(enum recording_kind kind, uint64_t key, uint64_t old, uint64_t value, uint64_t *found_value)
{
    pthread_mutex_lock(&map_lock);
    bool found = map[key].is_held;
    *found_value = map[key].value;
    if (kind == RECORDING_INSERT || (kind == RECORDING_REPLACE && found && *found_value == old))
        put(key, value);
    if (kind == RECORDING_REMOVE)
        map[key].is_held = false;
    pthread_mutex_unlock(&map_lock);
    return found;
}

/* Lists the pairs from one key to another under the lock, and answers how many they are. */
static size_t locked_scan(uint64_t low, uint64_t high, struct recording_pair *pairs)
{
    size_t count = 0;
    pthread_mutex_lock(&map_lock);
    for (uint64_t key = low; key <= high; key++)
        if (map[key].is_held)
            pairs[count++] = (struct recording_pair){key, map[key].value};
    pthread_mutex_unlock(&map_lock);
    return count;
}

/* Looks under the lock, and writes under the lock, but lets it go between the two. */
static bool unlocked_insert(uint64_t key, uint64_t value, uint64_t *found_value)
{
    bool found = locked_call(RECORDING_GET, key, 0, 0, found_value);
    uint64_t ignored;
    pthread_barrier_wait(&both_have_looked);
    locked_call(RECORDING_INSERT, key, 0, value, &ignored);
    return found;
}

/* A generator of numbers (Marsaglia's xorshift): the calls of a thread are the same at each run. */
static uint64_t drawn(uint64_t *state)
{
    *state ^= *state << 13;
    *state ^= *state >> 7;
    *state ^= *state << 17;
    return *state >> 16;
}

static int note_call(unsigned p, enum recording_kind kind, uint64_t key, uint64_t old, uint64_t value)
{
    switch (kind) {
    case RECORDING_INSERT: return recording_invoke_insert(&recorded, p, key, value);
    case RECORDING_REMOVE: return recording_invoke_remove(&recorded, p, key);
    case RECORDING_REPLACE: return recording_invoke_replace(&recorded, p, key, old, value);
    default: return recording_invoke_get(&recorded, p, key);
    }
}

/* One process: invoke, call, answer. Where an event is refused it stops. */
static void *run_locked(void *number)
{
    unsigned p = (unsigned)(uintptr_t)number;
    uint64_t state = 88172645463325252u + p;
    pthread_barrier_wait(&all_have_started);
    for (int i = 0; i < CALLS; i++) {
        enum recording_kind kind = (enum recording_kind)(drawn(&state) % 5);
        uint64_t key = drawn(&state) % KEYS, other = drawn(&state) % KEYS, value = drawn(&state) % KEYS, found_value;
        if (kind == RECORDING_SCAN) {
            uint64_t low = key < other ? key : other, high = key < other ? other : key;
            struct recording_pair pairs[KEYS];
            if (recording_invoke_scan(&recorded, p, low, high))
                return NULL;
            size_t count = locked_scan(low, high, pairs);
            if (recording_answer_pairs(&recorded, p, pairs, count))
                return NULL;
        } else {
            if (note_call(p, kind, key, other, value))
                return NULL;
            bool found = locked_call(kind, key, other, value, &found_value);
            if (recording_answer(&recorded, p, found, found_value))
                return NULL;
        }
    }
    return NULL;
}

/* One of two processes that insert key 5. */
static void *run_unlocked(void *number)
{
    unsigned p = (unsigned)(uintptr_t)number;
    uint64_t found_value;
    recording_invoke_insert(&recorded, p, 5, 50 + p);
    bool found = unlocked_insert(5, 50 + p, &found_value);
    recording_answer(&recorded, p, found, found_value);
    return NULL;
}

int main(int count, char **words)
{
    bool locked = count == 2 && strcmp(words[1], "locked") == 0;
    if (!locked && !(count == 2 && strcmp(words[1], "unlocked") == 0)) {
        fputs("usage: map_recording locked|unlocked\n", stderr);
        return 2;
    }
    unsigned threads = locked ? THREADS : 2;
    pthread_t ids[THREADS];
    pthread_barrier_init(&all_have_started, NULL, THREADS);
    pthread_barrier_init(&both_have_looked, NULL, 2);
    if (recording_open(&recorded, threads, CALLS, CALLS * KEYS))
        return 1;
    for (unsigned p = 0; p < threads; p++)
        if (pthread_create(&ids[p], NULL, locked ? run_locked : run_unlocked, (void *)(uintptr_t)p))
            return 1;
    for (unsigned p = 0; p < threads; p++)
        pthread_join(ids[p], NULL);
    int status = recording_write(&recorded, stdout) ? 1 : 0;
    recording_close(&recorded);
    return status;
}
