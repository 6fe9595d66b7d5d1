/* Rounds that are processes of their own. Included by potzendai_scheduled.h.
 *
 * A process that does nothing else forks them. So each round begins with the map, the heap and the addresses of the run's beginning, and needs no
 * round before it. Its results are in memory that the processes share. A deadlock or a crash ends only one round. */
#ifndef POTZENDAI_FORKED_H
#define POTZENDAI_FORKED_H

#include "potzendai_rounds.h"
#include <fcntl.h>
#include <poll.h>
#include <sys/mman.h>
#include <sys/prctl.h>
#include <sys/resource.h>
#include <sys/wait.h>

/* Room for a text: at most 4,096 calls with 17 pairs each. Words with a bit for each call that is left out, by threads. */
enum { POTZENDAI_TEXT_ROOM = 8 << 20, POTZENDAI_BITS_LEFT_OUT = RECORDING_CALLS / 64 + POTZENDAI_SCHEDULED };

/* A round is ended after so many seconds without progress. */
enum { POTZENDAI_LOOKS = 2 };

/* How a round ends, beyond the outcomes that the scheduler knows. */
enum potzendai_ending {
    POTZENDAI_ENDED,     /* as its outcome says */
    POTZENDAI_CRASHED,   /* by a signal, or because the map ended the process */
    POTZENDAI_OUTSIDE,   /* it reached no point any more: it waits or loops where the scheduler is not asked */
    POTZENDAI_NO_PROCESS /* no process could be made */
};

/* What a round is to be, and what it was: shared by the run, the process that forks rounds, and the process of the round. */
struct potzendai_shared {
    struct potzendai_schedule asked;
    bool is_silent;
    enum potzendai_ending ending;
    int status; /* of a process that crashed: its signal, or below 0 its exit status */
    uint64_t fault;
    char complaint[200];
    struct potzendai_counts counts;
    size_t length;
    uint64_t calls_left_out[POTZENDAI_BITS_LEFT_OUT];
    struct potzendai_scheduled made;
    struct potzendai_switch listed[POTZENDAI_SWITCHES];
    char text[POTZENDAI_TEXT_ROOM];
};

/* A process that forks rounds, one at a time: a byte asks for a round, and a byte says that it is over. */
struct potzendai_forker { struct potzendai_shared *shared; pid_t process; int orders, answers; bool is_busy; };

/* ---- In the round's own process. */

static inline void potzendai_be_silent(void)
{
    int nothing = open("/dev/null", O_WRONLY);
    if (nothing >= 0)
        dup2(nothing, 2);
}

/* Runs the round, and writes its text and counts into the shared memory. */
static inline void potzendai_run_scheduled(struct potzendai_tester *tester, struct potzendai_shared *shared)
{
    struct potzendai_run *run = tester->run;
    struct potzendai_told told;
    memset(&told, 0, sizeof told);
    if (shared->is_silent)
        potzendai_be_silent();
    run->round = shared->asked.round;
    potzendai_scheduler->begin(&shared->asked, &shared->made);
    int status = potzendai_record(tester, &told);
    if (status == 0 && told.length > sizeof shared->text)
        status = potzendai_fail(run, POTZENDAI_NO_MEMORY, "memory: no room for a round");
    if (status == 0) {
        memcpy(shared->text, told.text, told.length);
        shared->length = told.length;
    }
    shared->counts = run->counts;
    shared->fault = atomic_load(&run->fault);
    memcpy(shared->complaint, run->complaint, sizeof shared->complaint);
    shared->made.outcome = POTZENDAI_FINISHED;
}

/* ---- In the process that forks rounds. */

/* Waits until the round's process has ended, which closes its end of a pipe. Returns whether it reached points all the while. */
static inline bool potzendai_watch(const struct potzendai_shared *shared, int alive)
{
    struct pollfd wanted = {alive, POLLIN, 0};
    uint64_t before = UINT64_MAX;
    for (int looks = 0; looks < POTZENDAI_LOOKS; looks++) {
        if (poll(&wanted, 1, 1000) != 0)
            return true;
        uint64_t steps = __atomic_load_n(&shared->made.steps, __ATOMIC_RELAXED);
        looks = steps == before ? looks : -1;
        before = steps;
    }
    return false;
}

static inline void potzendai_await_round(struct potzendai_shared *shared, pid_t round, int alive)
{
    int ended = 0;
    bool comes_to_points = potzendai_watch(shared, alive);
    if (!comes_to_points)
        kill(round, SIGKILL);
    while (waitpid(round, &ended, 0) < 0 && errno == EINTR)
        ;
    if (!comes_to_points)
        shared->ending = POTZENDAI_OUTSIDE;
    else if (WIFSIGNALED(ended) || shared->made.outcome == POTZENDAI_UNFINISHED)
        shared->ending = POTZENDAI_CRASHED;
    shared->status = WIFSIGNALED(ended) ? WTERMSIG(ended) : -WEXITSTATUS(ended);
}

static inline void potzendai_fork_round(struct potzendai_tester *tester, struct potzendai_shared *shared)
{
    int alive[2];
    shared->ending = POTZENDAI_NO_PROCESS;
    if (pipe(alive))
        return;
    pid_t round = fork();
    if (round == 0) {
        prctl(PR_SET_PDEATHSIG, SIGKILL);
        close(alive[0]);
        potzendai_run_scheduled(tester, shared);
        _exit(0);
    }
    close(alive[1]);
    if (round > 0) {
        shared->ending = POTZENDAI_ENDED;
        potzendai_await_round(shared, round, alive[0]);
    }
    close(alive[0]);
}

/* Forks a round for each byte, until the run has ended. Ctrl-C is left to the run. */
static inline void potzendai_fork_rounds(struct potzendai_tester *tester, struct potzendai_shared *shared, int orders, int answers)
{
    struct rlimit no_core = {0, 0};
    char byte;
    prctl(PR_SET_PDEATHSIG, SIGKILL);
    signal(SIGINT, SIG_IGN);
    signal(SIGPIPE, SIG_IGN);
    signal(SIGCHLD, SIG_DFL); /* otherwise nobody could wait for a round */
    setrlimit(RLIMIT_CORE, &no_core);
    while (read(orders, &byte, 1) == 1) {
        potzendai_fork_round(tester, shared);
        if (write(answers, &byte, 1) != 1)
            break;
    }
    _exit(0);
}

/* ---- In the run's own process. */

/* Closes a forker, and waits for its process. */
static inline void potzendai_close_forker(struct potzendai_forker *f)
{
    if (f->process > 0) {
        close(f->orders);
        close(f->answers);
        while (waitpid(f->process, NULL, 0) < 0 && errno == EINTR)
            ;
    }
    if (f->shared)
        munmap(f->shared, sizeof *f->shared);
    memset(f, 0, sizeof *f);
}

/* Makes the process of a forker: 0, or -1. It closes the pipes of the forkers made before it. */
static inline int potzendai_open_forker(struct potzendai_tester *tester, struct potzendai_forker *all, size_t number)
{
    struct potzendai_forker *f = &all[number];
    int orders[2], answers[2];
    if (pipe(orders))
        return -1;
    if (pipe(answers)) {
        close(orders[0]);
        close(orders[1]);
        return -1;
    }
    fcntl(orders[1], F_SETFD, FD_CLOEXEC);
    fcntl(answers[0], F_SETFD, FD_CLOEXEC);
    f->process = fork();
    if (f->process == 0) {
        for (size_t i = 0; i < number; i++) {
            close(all[i].orders);
            close(all[i].answers);
        }
        close(orders[1]);
        close(answers[0]);
        potzendai_fork_rounds(tester, f->shared, orders[0], answers[1]);
    }
    close(orders[0]);
    close(answers[1]);
    f->orders = orders[1];
    f->answers = answers[0];
    return f->process > 0 ? 0 : -1;
}

/* Waits for the round: 0, or -1 if the process that forks has ended. */
static inline int potzendai_receive(struct potzendai_forker *f)
{
    char byte;
    ssize_t some;
    do
        some = read(f->answers, &byte, 1);
    while (some < 0 && errno == EINTR);
    f->is_busy = false;
    return some == 1 ? 0 : -1;
}

/* Asks for a round as `asked` says, with the switches and the calls left out that are in the shared memory. Returns 0, or -1 if that fails. A round
 * that is still being made is waited for and dropped. */
static inline int potzendai_order(struct potzendai_forker *f, const struct potzendai_schedule *asked, bool is_silent)
{
    struct potzendai_shared *shared = f->shared;
    if (f->is_busy && potzendai_receive(f))
        return -1;
    shared->asked = *asked;
    shared->is_silent = is_silent;
    shared->fault = 0;
    shared->length = 0;
    shared->status = 0;
    memset(&shared->counts, 0, sizeof shared->counts);
    memset(&shared->made, 0, offsetof(struct potzendai_scheduled, switches));
    f->is_busy = write(f->orders, "", 1) == 1;
    return f->is_busy ? 0 : -1;
}

#endif
