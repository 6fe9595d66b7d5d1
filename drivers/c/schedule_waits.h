/* What waits: locks, conditions, semaphores, futexes, initialisers, yields and sleeps. Part of potzendai_schedule.c.
 *
 * Each replaces the C library's function of its name. A thread that is not scheduled gets the function of the C library. */
#ifndef SCHEDULE_WAITS_H
#define SCHEDULE_WAITS_H

/* The C library's own function. */
#define REAL(name) \
    static __typeof__(name) *real_##name(void) \
    { \
        static __typeof__(name) *found; \
        if (!found) \
            *(void **)&found = dlsym(RTLD_NEXT, #name); \
        return found; \
    }

/* ---- Locks: a thread tries again once a lock that was taken is released. */

static int take(struct thread *t, void *lock, int (*try_once)(void *), bool is_timed, uintptr_t code)
{
    for (;;) {
        if (t->is_in_map)
            point_at_lock(t, lock, code);
        int status = try_once(lock);
        if (status != EBUSY) {
            has_changed(t);
            return status;
        }
        if (!block(t, lock, is_timed) && is_timed)
            return ETIMEDOUT;
    }
}

static void give_back(struct thread *t, const void *lock)
{
    if (!t)
        return;
    wake(lock, UINT_MAX);
    has_changed(t);
}

#define LOCKS(kind, type, lock, try_lock) \
    REAL(lock) \
    REAL(try_lock) \
    static int try_##kind(void *l) { return real_##try_lock()((type *)l); } \
    int lock(type *l) { return scheduled() ? take(me, (void *)l, try_##kind, false, HERE) : real_##lock()(l); } \
    int try_lock(type *l) \
    { \
        if (in_map()) \
            point_at_lock(me, (const void *)l, HERE); \
        return real_##try_lock()(l); \
    }

#define UNLOCKS(type, unlock) \
    REAL(unlock) \
    int unlock(type *l) \
    { \
        struct thread *t = me; \
        if (t) \
            drain(t); \
        int status = real_##unlock()(l); \
        give_back(t, (const void *)l); \
        return status; \
    }

#define TIMED_LOCKS(kind, type, timed, clocked) \
    REAL(timed) \
    REAL(clocked) \
    int timed(type *restrict l, const struct timespec *restrict until) \
    { \
        return scheduled() ? take(me, l, try_##kind, true, HERE) : real_##timed()(l, until); \
    } \
    int clocked(type *restrict l, clockid_t clock, const struct timespec *restrict until) \
    { \
        return scheduled() ? take(me, l, try_##kind, true, HERE) : real_##clocked()(l, clock, until); \
    }

LOCKS(mutex, pthread_mutex_t, pthread_mutex_lock, pthread_mutex_trylock)
LOCKS(read, pthread_rwlock_t, pthread_rwlock_rdlock, pthread_rwlock_tryrdlock)
LOCKS(write, pthread_rwlock_t, pthread_rwlock_wrlock, pthread_rwlock_trywrlock)
LOCKS(spin, pthread_spinlock_t, pthread_spin_lock, pthread_spin_trylock)
UNLOCKS(pthread_mutex_t, pthread_mutex_unlock)
UNLOCKS(pthread_rwlock_t, pthread_rwlock_unlock)
UNLOCKS(pthread_spinlock_t, pthread_spin_unlock)
TIMED_LOCKS(mutex, pthread_mutex_t, pthread_mutex_timedlock, pthread_mutex_clocklock)
TIMED_LOCKS(read, pthread_rwlock_t, pthread_rwlock_timedrdlock, pthread_rwlock_clockrdlock)
TIMED_LOCKS(write, pthread_rwlock_t, pthread_rwlock_timedwrlock, pthread_rwlock_clockwrlock)

/* ---- Conditions: nothing happens between the unlock and the wait. */

REAL(pthread_cond_wait)
REAL(pthread_cond_timedwait)
REAL(pthread_cond_clockwait)
REAL(pthread_cond_signal)
REAL(pthread_cond_broadcast)

static int wait_for_condition(struct thread *t, pthread_cond_t *condition, pthread_mutex_t *mutex, bool is_timed, uintptr_t code)
{
    pthread_mutex_unlock(mutex);
    bool was_woken = block(t, condition, is_timed);
    take(t, mutex, try_mutex, false, code);
    return was_woken || !is_timed ? 0 : ETIMEDOUT;
}

int pthread_cond_wait(pthread_cond_t *restrict c, pthread_mutex_t *restrict m)
{
    return scheduled() ? wait_for_condition(me, c, m, false, HERE) : real_pthread_cond_wait()(c, m);
}

int pthread_cond_timedwait(pthread_cond_t *restrict c, pthread_mutex_t *restrict m, const struct timespec *restrict until)
{
    return scheduled() ? wait_for_condition(me, c, m, true, HERE) : real_pthread_cond_timedwait()(c, m, until);
}

int pthread_cond_clockwait(pthread_cond_t *restrict c, pthread_mutex_t *restrict m, clockid_t clock, const struct timespec *restrict until)
{
    return scheduled() ? wait_for_condition(me, c, m, true, HERE) : real_pthread_cond_clockwait()(c, m, clock, until);
}

int pthread_cond_signal(pthread_cond_t *c)
{
    if (!scheduled())
        return real_pthread_cond_signal()(c);
    wake(c, 1);
    return 0;
}

int pthread_cond_broadcast(pthread_cond_t *c)
{
    if (!scheduled())
        return real_pthread_cond_broadcast()(c);
    wake(c, UINT_MAX);
    return 0;
}

/* ---- Semaphores. */

REAL(sem_wait)
REAL(sem_trywait)
REAL(sem_timedwait)
REAL(sem_clockwait)
REAL(sem_post)

static int try_semaphore(void *s)
{
    return real_sem_trywait()((sem_t *)s) == 0 ? 0 : errno == EAGAIN ? EBUSY : errno;
}

static int take_semaphore(sem_t *s, bool is_timed, uintptr_t code)
{
    int status = take(me, s, try_semaphore, is_timed, code);
    if (status)
        errno = status;
    return status ? -1 : 0;
}

int sem_wait(sem_t *s) { return scheduled() ? take_semaphore(s, false, HERE) : real_sem_wait()(s); }

int sem_timedwait(sem_t *restrict s, const struct timespec *restrict until)
{
    return scheduled() ? take_semaphore(s, true, HERE) : real_sem_timedwait()(s, until);
}

int sem_clockwait(sem_t *restrict s, clockid_t clock, const struct timespec *restrict until)
{
    return scheduled() ? take_semaphore(s, true, HERE) : real_sem_clockwait()(s, clock, until);
}

int sem_trywait(sem_t *s)
{
    if (in_map())
        point_at_lock(me, s, HERE);
    return real_sem_trywait()(s);
}

int sem_post(sem_t *s)
{
    struct thread *t = me;
    if (t)
        drain(t);
    int status = real_sem_post()(s);
    give_back(t, s);
    return status;
}

/* ---- C11's names for the same: in the C library they do not call the functions above. */

static int as_c11(int status)
{
    return status == 0 ? thrd_success : status == EBUSY ? thrd_busy : status == ETIMEDOUT ? thrd_timedout : thrd_error;
}

int mtx_lock(mtx_t *m) { return as_c11(pthread_mutex_lock((pthread_mutex_t *)m)); }
int mtx_trylock(mtx_t *m) { return as_c11(pthread_mutex_trylock((pthread_mutex_t *)m)); }
int mtx_timedlock(mtx_t *restrict m, const struct timespec *restrict until)
{
    return as_c11(pthread_mutex_timedlock((pthread_mutex_t *)m, until));
}
int mtx_unlock(mtx_t *m) { return as_c11(pthread_mutex_unlock((pthread_mutex_t *)m)); }
int cnd_wait(cnd_t *c, mtx_t *m) { return as_c11(pthread_cond_wait((pthread_cond_t *)c, (pthread_mutex_t *)m)); }
int cnd_timedwait(cnd_t *restrict c, mtx_t *restrict m, const struct timespec *restrict until)
{
    return as_c11(pthread_cond_timedwait((pthread_cond_t *)c, (pthread_mutex_t *)m, until));
}
int cnd_signal(cnd_t *c) { return as_c11(pthread_cond_signal((pthread_cond_t *)c)); }
int cnd_broadcast(cnd_t *c) { return as_c11(pthread_cond_broadcast((pthread_cond_t *)c)); }

/* ---- Yields and sleeps: all other threads that can run do so first. */

REAL(sched_yield)
REAL(usleep)
REAL(nanosleep)
REAL(clock_nanosleep)

static int give_way_here(uintptr_t code)
{
    give_way(me, code);
    return 0;
}

int sched_yield(void) { return scheduled() ? give_way_here(HERE) : real_sched_yield()(); }
int usleep(useconds_t some) { return scheduled() ? give_way_here(HERE) : real_usleep()(some); }

int nanosleep(const struct timespec *some, struct timespec *left)
{
    return scheduled() ? give_way_here(HERE) : real_nanosleep()(some, left);
}

int clock_nanosleep(clockid_t clock, int flags, const struct timespec *some, struct timespec *left)
{
    return scheduled() ? give_way_here(HERE) : real_clock_nanosleep()(clock, flags, some, left);
}

int thrd_sleep(const struct timespec *some, struct timespec *left) { return nanosleep(some, left); }
void thrd_yield(void) { sched_yield(); }

/* ---- Futexes: std::atomic::wait and libraries call them by syscall(). */

REAL(syscall)

static long wait_at_futex(struct thread *t, const volatile int *word, int expected, bool is_timed)
{
    drain(t);
    if (*word != expected)
        errno = EAGAIN;
    else if (block(t, (const void *)word, is_timed) || !is_timed)
        return 0;
    else
        errno = ETIMEDOUT;
    return -1;
}

long syscall(long number, ...)
{
    va_list list;
    va_start(list, number);
    long a = va_arg(list, long), b = va_arg(list, long), c = va_arg(list, long);
    long d = va_arg(list, long), e = va_arg(list, long), f = va_arg(list, long);
    va_end(list);
    struct thread *t = scheduled();
    int operation = (int)b & FUTEX_CMD_MASK;
    if (t && number == SYS_sched_yield)
        return give_way_here(HERE);
    if (!t || number != SYS_futex)
        return real_syscall()(number, a, b, c, d, e, f);
    if (operation == FUTEX_WAIT || operation == FUTEX_WAIT_BITSET)
        return wait_at_futex(t, (const volatile int *)a, (int)c, d != 0);
    drain(t);
    if (operation == FUTEX_WAKE || operation == FUTEX_WAKE_BITSET)
        return (long)wake((const void *)a, (unsigned)c);
    return real_syscall()(number, a, b, c, d, e, f);
}

/* ---- Static initialisers of C++, and what is done once. A guard's first byte says that it is done, its second that it is being done. */

int __cxa_guard_acquire(int *guard);
void __cxa_guard_release(int *guard);
void __cxa_guard_abort(int *guard);
REAL(__cxa_guard_acquire)
REAL(__cxa_guard_release)
REAL(__cxa_guard_abort)
enum { GUARD_DONE = 1, GUARD_BUSY = 256 };

int __cxa_guard_acquire(int *guard)
{
    if (!scheduled())
        return real___cxa_guard_acquire()(guard);
    while (*guard & GUARD_BUSY)
        block(me, guard, false);
    if (*guard & GUARD_DONE)
        return 0;
    *guard |= GUARD_BUSY;
    return 1;
}

static void end_guard(int *guard, int state)
{
    drain(me);
    *guard = state;
    wake(guard, UINT_MAX);
}

void __cxa_guard_release(int *guard)
{
    if (scheduled())
        end_guard(guard, GUARD_DONE);
    else
        real___cxa_guard_release()(guard);
}

void __cxa_guard_abort(int *guard)
{
    if (scheduled())
        end_guard(guard, 0);
    else
        real___cxa_guard_abort()(guard);
}

REAL(pthread_once)
enum { ONCE_BUSY = 1, ONCE_DONE = 2 }; /* those of the C library */

int pthread_once(pthread_once_t *once, void (*initialise)(void))
{
    if (!scheduled())
        return real_pthread_once()(once, initialise);
    while (*once == ONCE_BUSY)
        block(me, once, false);
    if (*once == ONCE_DONE)
        return 0;
    *once = ONCE_BUSY;
    initialise();
    drain(me);
    *once = ONCE_DONE;
    wake(once, UINT_MAX);
    return 0;
}

void call_once(once_flag *once, void (*initialise)(void)) { pthread_once((pthread_once_t *)once, initialise); }

/* ---- A thread that the map starts would run at the same time as the one that has the turn. */

REAL(pthread_create)

int pthread_create(pthread_t *restrict id, const pthread_attr_t *restrict attributes, void *(*body)(void *), void *restrict own)
{
    if (in_map())
        end_round(POTZENDAI_STARTS_THREADS);
    return real_pthread_create()(id, attributes, body, own);
}

#endif
