/* A test of a map of one's own that is judged while it runs. Threads call it, one thread writes what they do into a pipe, and each line goes to a
 * follower. From the top of the repository:
 *
 *     ./library .
 *     cc -std=c11 -O2 -pthread -I. -o own_stream examples/library/own_stream.c libpotzendai.a
 *     ./own_stream
 */
#define _POSIX_C_SOURCE 200809L
#include "../../drivers/c/streaming.h"
#include "potzendai.h"
#include <assert.h>
#include <pthread.h>

enum { THREADS = 4, CALLS = 5000, KEYS = 8 };

/* The map: a value at each key, 0 where there is none, which an insert exchanges. */
static _Atomic uint64_t map[KEYS];
static struct streaming streamed;

static void *run(void *number)
{
    unsigned p = (unsigned)(uintptr_t)number, state = p + 1;
    for (uint64_t i = 0; i < CALLS; i++) {
        state = state * 1664525u + 1013904223u;
        uint64_t key = state >> 24 & (KEYS - 1), value = 1 + p * CALLS + i, old;
        if (state >> 30) {
            assert(streaming_invoke_insert(&streamed, p, key, value) == 0);
            old = atomic_exchange(&map[key], value);
        } else {
            assert(streaming_invoke_get(&streamed, p, key) == 0);
            old = atomic_load(&map[key]);
        }
        assert(streaming_answer(&streamed, p, old != 0, old) == 0);
    }
    return NULL;
}

/* Writes what they do into the pipe, and closes it after the last line. */
static void *write_all(void *ends)
{
    assert(streaming_write(&streamed) == 0 && close(((int *)ends)[1]) == 0);
    return NULL;
}

/* Joins the threads that record, and then ends the stream. */
static void *end_all(void *threads)
{
    for (unsigned p = 0; p < THREADS; p++)
        assert(pthread_join(((pthread_t *)threads)[p], NULL) == 0);
    streaming_end(&streamed);
    return NULL;
}

int main(void)
{
    int ends[2];
    pthread_t threads[THREADS], writer, ender;
    assert(pipe(ends) == 0 && streaming_open(&streamed, THREADS, 4096, 0, ends[1]) == 0);
    for (unsigned p = 0; p < THREADS; p++)
        assert(pthread_create(&threads[p], NULL, run, (void *)(uintptr_t)p) == 0);
    assert(pthread_create(&writer, NULL, write_all, ends) == 0 && pthread_create(&ender, NULL, end_all, threads) == 0);

    /* Each line as it comes: the first answer that goes wrong ends the test. */
    struct potzendai_follower follower = {0};
    char *line = NULL, report[POTZENDAI_REPORT] = "";
    size_t room = 0, length;
    FILE *in = fdopen(ends[0], "r");
    assert(in && potzendai_follow_open(&follower, POTZENDAI_BUDGET) == POTZENDAI_YES);
    for (ssize_t count; (count = getline(&line, &room, in)) > 0;)
        if (potzendai_follow_event(&follower, line, (size_t)count) != POTZENDAI_YES)
            break;
    uint32_t verdict = potzendai_follow_verdict(&follower, report, sizeof report, &length);
    potzendai_follow_close(&follower);
    fputs(report, verdict == POTZENDAI_YES ? stdout : stderr);
    assert(verdict == POTZENDAI_YES);
    assert(pthread_join(ender, NULL) == 0 && pthread_join(writer, NULL) == 0);
    streaming_close(&streamed);
    free(line);
    return fclose(in);
}
