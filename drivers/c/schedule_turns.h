/* The one turn, which a thread passes to another. Part of potzendai_schedule.c.
 *
 * As kernel threads, each thread waits at a word of its own (a futex). As fibers, one kernel thread, the carrier, runs all of them. It takes over the
 * stack and the thread-locals (the FS base) of each, whose own kernel thread is parked on another stack meanwhile. So `thread_local`, pthread_self
 * and the owners of locks are those of the thread, and a switch needs no system call. Both pass the turn at the same points to the same threads. */
#ifndef SCHEDULE_TURNS_H
#define SCHEDULE_TURNS_H

static _Atomic int main_has_turn, arrived;

/* The system call itself: the function of the C library is scheduled. */
static long futex(_Atomic int *word, int operation, int value)
{
#ifdef __x86_64__
    long answer;
    register long timeout __asm__("r10") = 0;
    __asm__ volatile("syscall"
                     : "=a"(answer)
                     : "0"((long)SYS_futex), "D"(word), "S"((long)operation), "d"((long)value), "r"(timeout)
                     : "rcx", "r11", "memory");
    return answer;
#else
    static long (*call)(long, ...);
    if (!call)
        *(void **)&call = dlsym(RTLD_NEXT, "syscall");
    return call(SYS_futex, word, operation, value, NULL, NULL, 0);
#endif
}

static void wait_for(_Atomic int *word)
{
    while (!atomic_exchange(word, 0))
        futex(word, FUTEX_WAIT_PRIVATE, 0);
}

static void wake_up(_Atomic int *word)
{
    atomic_store(word, 1);
    futex(word, FUTEX_WAKE_PRIVATE, 1);
}

/* Notes that a thread waits for its first turn. */
static void arrive(void)
{
    if (atomic_fetch_add(&arrived, 1) + 1 == (int)count)
        wake_up(&main_has_turn);
}

#ifdef __x86_64__

/* The thread that made the others. It is the carrier, which runs as another thread meanwhile. */
static struct thread carrier;

#define SAVE_REGISTERS "push %rbp\n push %rbx\n push %r12\n push %r13\n push %r14\n push %r15\n mov %rsp,(%rdi)\n"
#define LOAD_REGISTERS "pop %r15\n pop %r14\n pop %r13\n pop %r12\n pop %rbx\n pop %rbp\n ret"

/* Leaves one stack, and continues where another one was left, with its thread-locals. */
__attribute__((naked, noinline)) static void change_stack(__attribute__((unused)) void **left, __attribute__((unused)) void *stack_pointer,
                                                          __attribute__((unused)) uintptr_t thread_locals)
{
    __asm__ volatile(SAVE_REGISTERS "wrfsbase %rdx\n mov %rsi,%rsp\n" LOAD_REGISTERS);
}

/* Leaves a stack to the carrier: the kernel thread that owns it waits on another one until the process ends. */
__attribute__((naked, noinline)) static void park(__attribute__((unused)) void **left, __attribute__((unused)) void *park_stack)
{
    __asm__ volatile(SAVE_REGISTERS "mov %rsi,%rsp\n call schedule_wait_parked\n");
}

/* Called only by that code. */
__attribute__((used, noinline)) void schedule_wait_parked(void);
void schedule_wait_parked(void)
{
    static _Atomic int end;
    arrive();
    for (;;)
        wait_for(&end);
}

static uintptr_t read_thread_locals(void)
{
    uintptr_t base;
    __asm__ volatile("rdfsbase %0" : "=r"(base));
    return base;
}

/* Whether the system allows a program to set the base of thread-locals. */
static bool may_have_fibers(void)
{
    return (getauxval(AT_HWCAP2) & 2) != 0;
}

static void give_fiber_turn(struct thread *from, struct thread *to)
{
    change_stack(&from->stack_pointer, to->stack_pointer, to->thread_locals);
}

/* Blocks signals: the stack on which a thread is parked is too small for them. */
static void enter_fiber(struct thread *t)
{
    sigset_t all;
    sigfillset(&all);
    pthread_sigmask(SIG_SETMASK, &all, NULL);
    t->thread_locals = read_thread_locals();
    park(&t->stack_pointer, t->park_stack + sizeof t->park_stack);
}

static void run_fibers(void)
{
    carrier.thread_locals = read_thread_locals();
    give_fiber_turn(&carrier, &threads[0]);
}

static void leave_fibers(struct thread *from)
{
    give_fiber_turn(from, &carrier);
}

#else

static bool may_have_fibers(void) { return false; }
static void give_fiber_turn(struct thread *from, struct thread *to) { (void)from, (void)to; }
static void enter_fiber(struct thread *t) { (void)t; }
static void run_fibers(void) {}
static void leave_fibers(struct thread *from) { (void)from; }

#endif

/* Gives the turn to another thread, and returns when it comes back. It never comes back to a thread that is done; as a kernel thread, that one
 * returns at once. */
static void give_turn(struct thread *from, struct thread *to)
{
    if (to == from)
        return;
    if (has_fibers) {
        give_fiber_turn(from, to);
        return;
    }
    wake_up(&to->has_turn);
    if (from->state != THREAD_DONE)
        wait_for(&from->has_turn);
}

/* Gives the turn of the last thread back to where the threads were made. */
static void give_turn_to_main(struct thread *from)
{
    if (has_fibers)
        leave_fibers(from);
    else
        wake_up(&main_has_turn);
}

/* Waits for the first turn of a thread. */
static void wait_for_first_turn(struct thread *t)
{
    if (has_fibers) {
        enter_fiber(t);
        return;
    }
    arrive();
    wait_for(&t->has_turn);
}

#endif
