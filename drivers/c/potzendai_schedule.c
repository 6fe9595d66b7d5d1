/* A scheduler in place of ThreadSanitizer's runtime. It decides which thread of a test runs, at each access of memory that threads share.
 *
 * Compile the map with -fsanitize=thread -c: then the compiler calls the functions named __tsan_* at each access. Link it with this file, without
 * -fsanitize=thread:
 *
 *     cc -std=c11 -O2 -g -pthread -DPOTZENDAI_NO_LIBRARY -Ic -fsanitize=thread -c mine.c
 *     cc -O2 -pthread -o mine mine.o c/potzendai_schedule.c -ldl
 *     ./mine --bench ./bench --schedule mix
 *
 * It is for GNU C, on Linux. SCHEDULES.md says what can be scheduled. Its parts:
 *
 *     schedule_state.h     the threads of a round
 *     schedule_turns.h     how a thread hands the turn to another
 *     schedule_choice.h    to which
 *     schedule_points.h    points, where it may; waiting and waking; store buffers; words at which threads meet
 *     schedule_accesses.h  what the compiler calls at accesses of memory
 *     schedule_waits.h     locks and what else waits
 *     schedule_pinned.h    what has to be the same in each process
 *     schedule_places.h    where an instruction is in the source */
#if defined(__SANITIZE_THREAD__)
#error "compile potzendai_schedule.c without -fsanitize=thread: it takes the place of what that links"
#elif defined(__has_feature)
#if __has_feature(thread_sanitizer)
#error "compile potzendai_schedule.c without -fsanitize=thread: it takes the place of what that links"
#endif
#endif
#undef _FORTIFY_SOURCE /* otherwise memcpy is an inline function of string.h; here it is defined */
#ifndef _GNU_SOURCE
#define _GNU_SOURCE
#endif
#include "potzendai_schedule.h"
#include <dlfcn.h>
#include <errno.h>
#include <elf.h>
#include <limits.h>
#include <link.h>
#include <linux/futex.h>
#include <pthread.h>
#include <sched.h>
#include <semaphore.h>
#include <signal.h>
#include <stdarg.h>
#include <stdatomic.h>
#include <stdio.h>
#include <stdlib.h>
#include <string.h>
#include <sys/auxv.h>
#include <sys/mman.h>
#include <sys/personality.h>
#include <sys/random.h>
#include <sys/syscall.h>
#include <sys/time.h>
#include <threads.h>
#include <time.h>
#include <unistd.h>

#include "schedule_state.h"
#include "schedule_turns.h"
#include "schedule_choice.h"
#include "schedule_points.h"
#include "schedule_accesses.h"
#include "schedule_waits.h"
#include "schedule_pinned.h"
#include "schedule_places.h"

/* ---- What the driver calls, in the order of a round. Each round has its own process, so all is zero before. */

static void *share(size_t size)
{
    void *at = mmap(NULL, size, PROT_READ | PROT_WRITE, MAP_SHARED | MAP_ANONYMOUS | MAP_NORESERVE, -1, 0);
    return at == MAP_FAILED ? NULL : at;
}

static void begin(const struct potzendai_schedule *schedule, struct potzendai_scheduled *scheduled_round)
{
    pthread_attr_t usual;
    asked = schedule;
    made = scheduled_round;
    count = schedule->threads;
    has_fibers = !schedule->has_kernel_threads && may_have_fibers();
    stack_size = 0;
    if (pthread_attr_init(&usual) == 0) {
        pthread_attr_getstacksize(&usual, &stack_size);
        pthread_attr_destroy(&usual);
    }
    made->hash = 0xcbf29ce484222325u;
    random_state = schedule->seed * 0x9e3779b97f4a7c15u ^ (schedule->round + 1) * 0xd1342543de82ef95u;
    lowest_priority = waiting_priority;
    for (unsigned i = 0; i + 1 < schedule->depth && i < CHANGES; i++)
        change_points[i] = 1 + draw() % (schedule->steps_expected ? schedule->steps_expected : 1);
}

/* Nothing here takes memory: otherwise the part of the heap that a thread gets would depend on which thread comes first. */
static void enter(unsigned number)
{
    struct thread *t = &threads[number];
    t->id = number;
    t->state = THREAD_OPENING;
    t->stack_high = (uintptr_t)__builtin_frame_address(0) + 512;
    t->stack_low = t->stack_high - stack_size;
    me = t;
    wait_for_first_turn(t);
}

/* Connections are opened in turn; the last thread to do so lets the round begin. */
static void ready(void)
{
    struct thread *t = me;
    if (++opened < count) {
        give_turn(t, &threads[t->id + 1]);
        return;
    }
    for (unsigned i = 0; i < count; i++) {
        threads[i].state = THREAD_READY;
        threads[i].priority = draw_priority();
    }
    go_to(t, choose(t, false));
}

static void run(void)
{
    wait_for(&main_has_turn);
    if (has_fibers) {
        run_fibers();
        return;
    }
    wake_up(&threads[0].has_turn);
    wait_for(&main_has_turn);
}

/* Begins the next of the calls that a thread draws. Its steps are numbered from here, so they stay the same if other calls are left out. */
static bool call(uint32_t function, uint64_t key)
{
    struct thread *t = me;
    if (!t)
        return true;
    uint32_t number = t->calls++;
    if (asked->calls_left_out && (asked->calls_left_out[t->id * asked->bits_each + number / 64] >> number % 64 & 1) != 0)
        return false;
    t->call = number;
    t->step = 0;
    made->at[t->id].function = function;
    made->at[t->id].key = key;
    return true;
}

static void in(void)
{
    struct thread *t = me;
    if (!t)
        return;
    t->is_in_map = made->at[t->id].is_in_call = true;
    t->depth = 0;
    has_changed(t);
    point_without_access(t, POTZENDAI_AT_CALL);
}

static void out(void)
{
    struct thread *t = me;
    if (!t)
        return;
    drain(t);
    t->depth = 0;
    point_without_access(t, POTZENDAI_AT_RETURN);
    steps_at_end_of_call = made->steps;
    t->is_in_map = made->at[t->id].is_in_call = false;
}

static void leave(void)
{
    struct thread *t = me;
    drain(t);
    t->state = THREAD_DONE;
    made->at[t->id].is_over = true;
    count_step(t);
    struct thread *next = choose(t, false);
    for (unsigned i = 0; !next && i < count; i++)
        if (threads[i].state != THREAD_DONE)
            end_round(POTZENDAI_DEADLOCK);
    if (next)
        go_to(t, next);
    else
        give_turn_to_main(t);
    for (;;) /* by kernel threads; a fiber never returns to its stack */
        pause();
}

static const struct potzendai_scheduler scheduler = {is_pinned, real_clock, share, begin, enter, ready, run, call, in, out, leave, locate};
const struct potzendai_scheduler *potzendai_scheduler = &scheduler;

/* A point that the map itself marks. */
void potzendai_point(void);
void potzendai_point(void)
{
    if (scheduled())
        point_without_access(me, HERE);
}
