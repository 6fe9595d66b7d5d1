/* A test of a map of one's own: threads call it, what they do is recorded, and the verdict is asserted. From the top of the
 * repository:
 *
 *     ./library .
 *     cc -std=c11 -O2 -pthread -I. -o own_map examples/library/own_map.c libpotzendai.a
 *     ./own_map
 */
#define _POSIX_C_SOURCE 200809L
#include "../../drivers/c/recording.h"
#include "potzendai.h"
#include <assert.h>
#include <pthread.h>

enum { THREADS = 4, CALLS = 500, KEYS = 8 };

/* The map: a value at each key, 0 where there is none, which an insert exchanges. */
static _Atomic uint64_t map[KEYS];
static struct recording recorded;

static void *run(void *number)
{
    unsigned p = (unsigned)(uintptr_t)number, state = p + 1;
    for (uint64_t i = 0; i < CALLS; i++) {
        state = state * 1664525u + 1013904223u;
        uint64_t key = state >> 24 & (KEYS - 1), value = 1 + p * CALLS + i, old;
        if (state >> 30) {
            assert(recording_invoke_insert(&recorded, p, key, value) == 0);
            old = atomic_exchange(&map[key], value);
        } else {
            assert(recording_invoke_get(&recorded, p, key) == 0);
            old = atomic_load(&map[key]);
        }
        assert(recording_answer(&recorded, p, old != 0, old) == 0);
    }
    return NULL;
}

int main(void)
{
    pthread_t threads[THREADS];
    assert(recording_open(&recorded, THREADS, CALLS, 0) == 0);
    for (unsigned p = 0; p < THREADS; p++)
        assert(pthread_create(&threads[p], NULL, run, (void *)(uintptr_t)p) == 0);
    for (unsigned p = 0; p < THREADS; p++)
        assert(pthread_join(threads[p], NULL) == 0);

    /* The history as a text in memory, and the verdict on it. After a no the report names a few calls that show it. */
    char *text, report[POTZENDAI_REPORT] = "";
    size_t text_length, length;
    FILE *out = open_memstream(&text, &text_length);
    assert(out && recording_write(&recorded, out) == 0 && fclose(out) == 0);
    uint32_t verdict = potzendai_explain(text, text_length, POTZENDAI_BUDGET, report, sizeof report, &length);
    if (verdict != POTZENDAI_YES)
        fputs(report, stderr);
    assert(verdict == POTZENDAI_YES);
    printf("%d calls have an order\n", THREADS * CALLS);
    recording_close(&recorded);
    free(text);
    return 0;
}
