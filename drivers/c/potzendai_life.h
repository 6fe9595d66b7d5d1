/* A process that is killed: it opens the store of a map, makes calls without end, and writes each event as a line before and after its call. Or
 * it opens the store after a kill, and reads all keys. Included by potzendai_kill.h. */
#ifndef POTZENDAI_LIFE_H
#define POTZENDAI_LIFE_H

#include "potzendai_follow.h"

/* Reads the words of such a process, the last of which are `run LIFE` or `read KEYS`. The environment has the seed, and how many readings were. */
static inline int potzendai_read_life(struct potzendai_options *o, int argc, char **argv, const struct potzendai_map *map)
{
    const char *seed = getenv("POTZENDAI_SEED"), *readings = getenv("POTZENDAI_READINGS"), *word = argc > 2 ? argv[argc - 2] : "";
    bool is_reading = strcmp(word, "read") == 0;
    uint64_t number = 0, drawn = 0;
    if ((!is_reading && strcmp(word, "run") != 0) || potzendai_read_number(argv[argc - 1], UINT32_MAX / 2, &number))
        return potzendai_complain("POTZENDAI_STORE", "where it is set, the last words are `run LIFE` or `read KEYS`, and main hands all words on");
    int status = potzendai_read_words(o, argc - 2, argv, map);
    o->is_reading = is_reading;
    o->seed = seed && potzendai_read_number(seed, UINT64_MAX, &drawn) == 0 ? drawn : o->seed;
    if (status == 0 && is_reading && number != o->keys)
        return potzendai_complain("read", "not as many keys as by --keys");
    o->life = is_reading ? 0 : number;
    if (is_reading && readings)
        potzendai_read_number(readings, UINT32_MAX / 2, &o->life);
    return status;
}

/* Finds out what a key holds. No other call is open meanwhile, so the invocation may be written after the call. */
static inline int potzendai_read_key(struct potzendai_tester *tester, uint64_t key, unsigned process)
{
    struct potzendai_run *run = tester->run;
    struct potzendai_request request = {POTZENDAI_GET, key, 0, 0};
    struct potzendai_answer answer;
    uint64_t words[3];
    if (potzendai_find_out(tester, &request, &answer))
        return -1;
    const struct potzendai_row *row = &potzendai_rows[request.function][answer.said];
    potzendai_words(&request, &answer, row->call, words);
    if (potzendai_note_call(run, process, row->call, words) || potzendai_note_answer(run, process, row->answer, &request, &answer))
        return potzendai_fail(run, POTZENDAI_BAD_FILE, "no event was written");
    return 0;
}

/* Has the threads make calls until the process is killed, or the one that started it has ended. */
static inline int potzendai_call_without_end(struct potzendai_run *run)
{
    pid_t parent = getppid();
    struct timespec some_time = {0, 10000000};
    struct potzendai_thread *threads = potzendai_new_threads(run);
    if (!threads)
        return potzendai_fail(run, POTZENDAI_NO_MEMORY, "memory: no room for threads");
    potzendai_join_threads(run, threads, potzendai_start_threads(run, threads));
    potzendai_free_threads(threads, run->threads);
    while (!atomic_load(&run->fault) && getppid() == parent)
        nanosleep(&some_time, NULL);
    return -1;
}

/* The whole of such a process. What the map prints goes to standard error. The store is not closed: another process opens it as it is. */
static inline int potzendai_live(struct potzendai_tester *tester)
{
    struct potzendai_run *run = tester->run;
    const struct potzendai_options *o = tester->options;
    run->events = dup(1);
    if (run->events < 0 || dup2(2, 1) < 0)
        return potzendai_fail(run, POTZENDAI_BAD_FILE, "no descriptor for events");
    run->round = o->life;
    run->values_from = o->life << 32 | (uint64_t)o->is_reading << 31;
    atomic_store(&run->next_process, run->threads);
    atomic_store(&run->processes, run->threads + POTZENDAI_OTHERS);
    int status = potzendai_begin_map(tester);
    if (status == 0 && !o->is_reading)
        status = potzendai_call_without_end(run);
    for (uint64_t key = 0; status == 0 && key < o->keys; key++)
        status = potzendai_read_key(tester, key, (unsigned)(run->threads + POTZENDAI_OTHERS));
    if (status == 0)
        _exit(0);
    return status;
}

#endif
