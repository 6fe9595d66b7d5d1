/* Times the library on a stream of calls that overlap: half gets, three in ten inserts, two in ten removes, with right answers.
 *
 *     ./library FOLDER && cc -O2 -IFOLDER -o FOLDER/follower benchmarks/follower.c FOLDER/libpotzendai.a
 *     FOLDER/follower values 200000 8 1000      by values: 200,000 calls of 8 processes on 1,000 keys
 *     FOLDER/follower lines 200000 8 1000       the same events by their lines
 *
 * Prints the calls a second of processor time, without the making of the events. */
#include "potzendai.h"
#include <inttypes.h>
#include <stdio.h>
#include <stdlib.h>
#include <string.h>
#include <time.h>

enum { LINE = 80 };

struct event { bool is_call; uint32_t kind, process; uint64_t first, second; };

static uint64_t state = 88172645463325252u;

static uint64_t draw(uint64_t below)
{
    state = state * 6364136223846793005u + 1442695040888963407u;
    return (state >> 33) % below;
}

static void *room(size_t count, size_t size)
{
    void *block = calloc(count, size);
    if (!block)
        exit(POTZENDAI_MEMORY);
    return block;
}

static struct event draw_call(uint32_t process, uint64_t keys, uint64_t value)
{
    uint64_t tenth = draw(10);
    uint32_t kind = tenth < 5 ? POTZENDAI_INVOKE_GET : tenth < 8 ? POTZENDAI_INVOKE_INSERT : POTZENDAI_INVOKE_REMOVE;
    return (struct event){true, kind, process, draw(keys), value};
}

/* Does a call on the map, which has 0 where a key has no value. */
static struct event answer(const struct event *call, uint64_t *map)
{
    uint64_t *at = &map[call->first], before = *at;
    if (call->kind != POTZENDAI_INVOKE_GET)
        *at = call->kind == POTZENDAI_INVOKE_INSERT ? call->second : 0;
    return (struct event){false, before ? POTZENDAI_ANSWER_VALUE : POTZENDAI_ANSWER_NONE, call->process, before, 0};
}

/* Draws the events: a process that is drawn begins a call, or answers its own. */
static void draw_events(struct event *events, size_t calls, uint64_t processes, uint64_t keys)
{
    struct event *open = room(processes, sizeof *open);
    uint64_t *map = room(keys, sizeof *map);
    for (size_t i = 0, begun = 0; i < 2 * calls;) {
        uint32_t p = (uint32_t)draw(processes);
        if (open[p].is_call) {
            events[i++] = answer(&open[p], map);
            open[p].is_call = false;
        } else if (begun < calls)
            events[i++] = open[p] = draw_call(p, keys, ++begun);
    }
    free(open);
    free(map);
}

static size_t put_line(char *to, const struct event *e)
{
    static const char *const names[] = {"get", "insert", "remove"};
    if (e->is_call && e->kind == POTZENDAI_INVOKE_INSERT)
        return (size_t)sprintf(to, "{\"invoke\":[\"insert\",%" PRIu64 ",%" PRIu64 "],\"process\":%" PRIu32 "}", e->first, e->second, e->process);
    if (e->is_call)
        return (size_t)sprintf(to, "{\"invoke\":[\"%s\",%" PRIu64 "],\"process\":%" PRIu32 "}", names[e->kind], e->first, e->process);
    if (e->kind == POTZENDAI_ANSWER_NONE)
        return (size_t)sprintf(to, "{\"answer\":null,\"process\":%" PRIu32 "}", e->process);
    return (size_t)sprintf(to, "{\"answer\":%" PRIu64 ",\"process\":%" PRIu32 "}", e->first, e->process);
}

static uint32_t follow(struct potzendai_follower *f, const struct event *e)
{
    return e->is_call ? potzendai_follow_invoke(f, e->process, e->kind, e->first, e->second, 0)
                      : potzendai_follow_answer(f, e->process, e->kind, e->first, NULL, 0);
}

int main(int count, char **words)
{
    size_t calls = count == 5 ? strtoull(words[2], NULL, 10) : 0;
    uint64_t processes = count == 5 ? strtoull(words[3], NULL, 10) : 0, keys = count == 5 ? strtoull(words[4], NULL, 10) : 0;
    bool by_lines = count == 5 && strcmp(words[1], "lines") == 0;
    if (calls == 0 || processes == 0 || keys == 0)
        return POTZENDAI_WORDS;
    struct event *events = room(2 * calls, sizeof *events);
    char *lines = by_lines ? room(2 * calls, LINE) : NULL;
    size_t *lengths = room(2 * calls, sizeof *lengths), length;
    draw_events(events, calls, processes, keys);
    for (size_t i = 0; by_lines && i < 2 * calls; i++)
        lengths[i] = put_line(lines + i * LINE, &events[i]);
    struct potzendai_follower follower = {0};
    uint32_t status = potzendai_follow_open(&follower, 1000000);
    clock_t began = clock();
    for (size_t i = 0; status == 0 && i < 2 * calls; i++)
        status = by_lines ? potzendai_follow_event(&follower, lines + i * LINE, lengths[i]) : follow(&follower, &events[i]);
    double seconds = (double)(clock() - began) / CLOCKS_PER_SEC;
    char report[4096] = "";
    status = potzendai_follow_verdict(&follower, report, sizeof report, &length);
    printf("%s%.0f calls a second\n", report, (double)calls / seconds);
    potzendai_follow_close(&follower);
    free(events);
    free(lines);
    free(lengths);
    return (int)status;
}
