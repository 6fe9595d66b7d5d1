/* Records threads at a map whose put and delete do not say what they found, and writes the history. From the top of the
 * repository:
 *
 *     cc -std=c11 -O2 -pthread -o untold_map examples/recording/untold_map.c
 *     ./untold_map checked | ./bench judge
 *     ./untold_map unchecked | ./bench judge
 *
 * The map is one page, which a writer copies, changes and puts in the place of the old one. `checked` does so only if the old page is still there,
 * and otherwise begins again: whatever the threads do, the history has an order. In `unchecked` nobody looks. Barriers make two writers copy one
 * page, and publish one after the other. So the first one's put is lost, and no order explains the get after it. The verdict is no in each run,
 * though neither put says what it found.
 */
#define _POSIX_C_SOURCE 200809L
#include "../../drivers/c/recording.h"
#include <pthread.h>

enum { THREADS = 4, CALLS = 500, KEYS = 16 };

/* The map, and a page for each call of a process: the value at each of a few keys, where there is one. A page that was published
 * is not written any more. */
struct page { bool is_held[KEYS]; uint64_t values[KEYS]; };
static struct page pages[THREADS][CALLS], empty;
static _Atomic(struct page *) map = &empty;
static pthread_barrier_t all_have_started, both_are_there;
static struct recording recorded;

static void set(struct page *page, uint64_t key, bool is_held, uint64_t value)
{
    page->is_held[key] = is_held;
    page->values[key] = value;
}

/* Puts a value at a key, or deletes it, on a page of the caller's own. */
static void map_write(struct page *page, uint64_t key, bool is_held, uint64_t value)
{
    struct page *old = atomic_load(&map);
    do {
        *page = *old;
        set(page, key, is_held, value);
    } while (!atomic_compare_exchange_weak(&map, &old, page));
}

/* Puts a new value at a key where it has the old one, and answers whether it had. */
static bool map_swap(struct page *page, uint64_t key, uint64_t old_value, uint64_t value)
{
    struct page *old = atomic_load(&map);
    do {
        if (!old->is_held[key] || old->values[key] != old_value)
            return false;
        *page = *old;
        set(page, key, true, value);
    } while (!atomic_compare_exchange_weak(&map, &old, page));
    return true;
}

static bool map_get(uint64_t key, uint64_t *value)
{
    const struct page *page = atomic_load(&map);
    *value = page->values[key];
    return page->is_held[key];
}

static bool map_contains(uint64_t key)
{
    return atomic_load(&map)->is_held[key];
}

/* Lists the pairs from one key to another, of one page, and answers how many they are. */
static size_t map_scan(uint64_t low, uint64_t high, struct recording_pair *pairs)
{
    const struct page *page = atomic_load(&map);
    size_t count = 0;
    for (uint64_t key = low; key <= high; key++)
        if (page->is_held[key])
            pairs[count++] = (struct recording_pair){key, page->values[key]};
    return count;
}

/* Puts as map_write does, but that it does not look whether the page is still the one that it has copied. */
static void unchecked_put(unsigned p, struct page *page, uint64_t key, uint64_t value)
{
    *page = *atomic_load(&map);
    set(page, key, true, value);
    for (unsigned turn = 0; turn < 2; turn++) {
        pthread_barrier_wait(&both_are_there);
        if (turn == p)
            atomic_store(&map, page);
    }
}

/* A generator of numbers (Marsaglia's xorshift): the calls of a thread are the same at each run. */
static uint64_t drawn(uint64_t *state)
{
    *state ^= *state << 13;
    *state ^= *state >> 7;
    *state ^= *state << 17;
    return *state >> 16;
}

static int put_or_delete(unsigned p, struct page *page, uint64_t key, bool is_put, uint64_t value)
{
    if (is_put ? recording_invoke_insert(&recorded, p, key, value) : recording_invoke_remove(&recorded, p, key))
        return -1;
    map_write(page, key, is_put, value);
    return recording_answer_done(&recorded, p);
}

static int swap(unsigned p, struct page *page, uint64_t key, uint64_t old, uint64_t value)
{
    if (recording_invoke_replace(&recorded, p, key, old, value))
        return -1;
    return map_swap(page, key, old, value) ? recording_answer(&recorded, p, true, old) : recording_answer_other(&recorded, p);
}

static int contains(unsigned p, uint64_t key)
{
    if (recording_invoke_get(&recorded, p, key))
        return -1;
    return map_contains(key) ? recording_answer_found(&recorded, p) : recording_answer(&recorded, p, false, 0);
}

static int get(unsigned p, uint64_t key)
{
    uint64_t value;
    if (recording_invoke_get(&recorded, p, key))
        return -1;
    bool found = map_get(key, &value);
    return recording_answer(&recorded, p, found, value);
}

static int scan(unsigned p, uint64_t low, uint64_t high)
{
    struct recording_pair pairs[KEYS];
    if (recording_invoke_scan(&recorded, p, low, high))
        return -1;
    return recording_answer_pairs(&recorded, p, pairs, map_scan(low, high, pairs));
}

/* One process. Where an event is refused it stops. */
static void *run_checked(void *number)
{
    unsigned p = (unsigned)(uintptr_t)number;
    uint64_t state = 88172645463325252u + p;
    int refused = 0;
    pthread_barrier_wait(&all_have_started);
    for (int i = 0; i < CALLS && !refused; i++) {
        uint64_t kind = drawn(&state) % 7, key = drawn(&state) % KEYS, other = drawn(&state) % KEYS, value = drawn(&state) % KEYS;
        switch (kind) {
        case 0: case 1: refused = put_or_delete(p, &pages[p][i], key, true, value); break;
        case 2: refused = put_or_delete(p, &pages[p][i], key, false, 0); break;
        case 3: refused = swap(p, &pages[p][i], key, other, value); break;
        case 4: refused = contains(p, key); break;
        case 5: refused = get(p, key); break;
        default: refused = key < other ? scan(p, key, other) : scan(p, other, key);
        }
    }
    return NULL;
}

/* One of two processes: it puts a value at a key of its own, and looks for it once both have. */
static void *run_unchecked(void *number)
{
    unsigned p = (unsigned)(uintptr_t)number;
    recording_invoke_insert(&recorded, p, 5 + p, 50 + p);
    unchecked_put(p, &pages[p][0], 5 + p, 50 + p);
    recording_answer_done(&recorded, p);
    pthread_barrier_wait(&both_are_there);
    get(p, 5 + p);
    return NULL;
}

int main(int count, char **words)
{
    bool checked = count == 2 && strcmp(words[1], "checked") == 0;
    if (!checked && !(count == 2 && strcmp(words[1], "unchecked") == 0)) {
        fputs("usage: untold_map checked|unchecked\n", stderr);
        return 2;
    }
    unsigned threads = checked ? THREADS : 2;
    pthread_t ids[THREADS];
    pthread_barrier_init(&all_have_started, NULL, THREADS);
    pthread_barrier_init(&both_are_there, NULL, 2);
    if (recording_open(&recorded, threads, CALLS, CALLS * KEYS))
        return 1;
    for (unsigned p = 0; p < threads; p++)
        if (pthread_create(&ids[p], NULL, checked ? run_checked : run_unchecked, (void *)(uintptr_t)p))
            return 1;
    for (unsigned p = 0; p < threads; p++)
        pthread_join(ids[p], NULL);
    int status = recording_write(&recorded, stdout) ? 1 : 0;
    recording_close(&recorded);
    return status;
}
