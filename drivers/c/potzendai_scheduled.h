/* Scheduled rounds: potzendai_schedule.c decides which thread runs at each point. Included by potzendai_test.h. */
#ifndef POTZENDAI_SCHEDULED_H
#define POTZENDAI_SCHEDULED_H

#include "potzendai_rounds.h"

#ifdef __linux__
#include "potzendai_forked.h"

/* Rounds that are made before the first, and are the same in each run. From the learning ones come the words at which threads meet, from the counting
 * ones how many steps a round has. Their numbers are above those of all other rounds. */
enum { POTZENDAI_LEARNING_ROUNDS = 50, POTZENDAI_COUNTING_ROUNDS = 10 };

/* A scheduled run. */
struct potzendai_plan {
    struct potzendai_tester *tester;
    struct potzendai_forker forkers[POTZENDAI_SCHEDULED];
    struct potzendai_word *words;
    uint64_t steps_of_all, steps_of_learned; /* how many a round is expected to have */
};

/* Shows the schedule of a round that went wrong: potzendai_shrink.h. */
static inline void potzendai_tell_schedule(struct potzendai_plan *plan, struct potzendai_told *told);

/* ---- What a round is. */

/* Whether a round has learned points: every second round of each strategy has. */
static inline bool potzendai_is_learned(const struct potzendai_schedule_words *s, uint64_t round)
{
    return s->points == POTZENDAI_LEARNED && (s->way == POTZENDAI_MIX ? round / 4 + round : round) % 2 == 0;
}

static inline void potzendai_choose_strategy(const struct potzendai_schedule_words *s, struct potzendai_schedule *asked)
{
    static const enum potzendai_strategy mix[] = {POTZENDAI_POS, POTZENDAI_PCT, POTZENDAI_WALK, POTZENDAI_PCT};
    static const enum potzendai_strategy only[] = {POTZENDAI_WALK, POTZENDAI_WALK, POTZENDAI_POS, POTZENDAI_PCT, POTZENDAI_WALK};
    bool is_mix = s->way == POTZENDAI_MIX;
    asked->strategy = is_mix ? mix[asked->round % 4] : only[s->way];
    asked->depth = is_mix && asked->round % 4 == 3 ? (unsigned)s->depth + 5 : (unsigned)s->depth;
}

/* What all rounds of the run have in common. */
static inline struct potzendai_schedule potzendai_any_schedule(const struct potzendai_plan *plan, uint64_t round)
{
    const struct potzendai_options *o = plan->tester->options;
    struct potzendai_schedule asked;
    memset(&asked, 0, sizeof asked);
    asked.threads = (unsigned)o->threads;
    asked.has_buffers = o->schedule.has_buffers;
    asked.has_kernel_threads = o->schedule.has_kernel_threads;
    asked.seed = o->seed;
    asked.round = round;
    asked.words = plan->words;
    asked.bits_each = o->calls / 64 + 1;
    return asked;
}

/* The schedule of a round. It depends only on the words, the seed and the number of the round. */
static inline struct potzendai_schedule potzendai_schedule_of(const struct potzendai_plan *plan, uint64_t round)
{
    const struct potzendai_schedule_words *s = &plan->tester->options->schedule;
    struct potzendai_schedule asked = potzendai_any_schedule(plan, round);
    bool is_learned = potzendai_is_learned(s, round);
    potzendai_choose_strategy(s, &asked);
    asked.points = is_learned ? POTZENDAI_LEARNED : s->points == POTZENDAI_ATOMICS ? POTZENDAI_ATOMICS : POTZENDAI_ALL_POINTS;
    asked.steps_expected = is_learned ? plan->steps_of_learned : plan->steps_of_all;
    return asked;
}

/* Makes one round by the first forker: 0, or -1 if it cannot be made. */
static inline int potzendai_make_one(struct potzendai_plan *plan, const struct potzendai_schedule *asked, bool is_silent)
{
    struct potzendai_forker *f = &plan->forkers[0];
    if (potzendai_order(f, asked, is_silent) || potzendai_receive(f) || f->shared->ending == POTZENDAI_NO_PROCESS)
        return potzendai_fail(plan->tester->run, POTZENDAI_NO_MEMORY, "memory: no process for a round");
    return 0;
}

/* Whether the round ended well, so that it has a recording. */
static inline bool potzendai_is_whole(const struct potzendai_shared *shared)
{
    return shared->ending == POTZENDAI_ENDED && shared->made.outcome == POTZENDAI_FINISHED;
}

/* ---- The rounds before the first. */

static inline int potzendai_make_first_one(struct potzendai_plan *plan, enum potzendai_points points, uint64_t number)
{
    struct potzendai_schedule asked = potzendai_any_schedule(plan, UINT64_MAX / 2 + number);
    const struct potzendai_shared *shared = plan->forkers[0].shared;
    asked.strategy = POTZENDAI_WALK;
    asked.points = points;
    asked.has_buffers = false;
    if (potzendai_make_one(plan, &asked, true))
        return -1;
    if (number > 0 || shared->ending != POTZENDAI_ENDED || shared->made.accesses > 0)
        return 0;
    return potzendai_fail(plan->tester->run, POTZENDAI_BAD_WORDS,
                          "--schedule: no scheduling point in the first round: compile the map with -fsanitize=thread -c");
}

/* Makes so many rounds by random walks with these points. Returns a quarter more than the average steps of those that end well, or 0 if one cannot be
 * made. What goes wrong in these rounds is not reported. */
static inline uint64_t potzendai_make_first(struct potzendai_plan *plan, enum potzendai_points points, uint64_t rounds)
{
    const struct potzendai_shared *shared = plan->forkers[0].shared;
    uint64_t steps = 0, ended = 0;
    for (uint64_t i = 0; i < rounds; i++) {
        if (potzendai_make_first_one(plan, points, i))
            return 0;
        if (potzendai_is_whole(shared)) {
            steps += shared->made.steps;
            ended++;
        }
        if (shared->ending == POTZENDAI_OUTSIDE)
            break; /* each takes seconds */
    }
    return ended > 0 ? steps / ended * 5 / 4 + 1 : 1;
}

static inline int potzendai_learn(struct potzendai_plan *plan)
{
    enum potzendai_points points = plan->tester->options->schedule.points;
    bool learns = points == POTZENDAI_LEARNED;
    enum potzendai_points first = learns ? POTZENDAI_LEARNING : points;
    plan->steps_of_all = potzendai_make_first(plan, first, learns ? POTZENDAI_LEARNING_ROUNDS : POTZENDAI_COUNTING_ROUNDS);
    if (plan->steps_of_all > 0 && learns)
        plan->steps_of_learned = potzendai_make_first(plan, POTZENDAI_LEARNED, POTZENDAI_COUNTING_ROUNDS);
    return plan->steps_of_all == 0 || (learns && plan->steps_of_learned == 0) ? -1 : 0;
}

/* ---- What comes of a round. */

static inline void potzendai_add_counts(struct potzendai_counts *all, const struct potzendai_counts *some)
{
    all->calls += some->calls;
    all->overlap += some->overlap;
    all->hits += some->hits;
    all->misses += some->misses;
    all->losses += some->losses;
    all->left_out += some->left_out;
    all->points += some->points;
    all->wrongs += some->wrongs;
    for (int said = 0; said < POTZENDAI_SAYINGS; said++)
        all->sayings[said] += some->sayings[said];
    for (int f = 0; f < POTZENDAI_FUNCTIONS; f++)
        all->functions_called[f] += some->functions_called[f];
}

/* Copies the text of a round: 0, or -1 if memory is refused. */
static inline int potzendai_copy_text(const struct potzendai_shared *shared, struct potzendai_told *told)
{
    memset(told, 0, sizeof *told);
    told->text = (char *)calloc(1, shared->length + 1);
    if (!told->text)
        return -1;
    memcpy(told->text, shared->text, shared->length);
    told->length = shared->length;
    return 0;
}

/* The word for the end of a round that has no recording. The last line begins with it. */
static inline const char *potzendai_ending_of(const struct potzendai_shared *shared)
{
    if (shared->ending == POTZENDAI_CRASHED)
        return "crash";
    if (shared->ending == POTZENDAI_OUTSIDE || shared->made.outcome == POTZENDAI_STARTS_THREADS)
        return "outside";
    return shared->made.outcome == POTZENDAI_DEADLOCK ? "deadlock" : "endless";
}

/* Prints how a round ended, in a line of its own. */
static inline void potzendai_tell_ending(uint64_t round, const struct potzendai_shared *shared)
{
    fprintf(stderr, "round %" PRIu64 ": %s: ", round, potzendai_ending_of(shared));
    if (shared->ending == POTZENDAI_CRASHED && shared->status > 0)
        fprintf(stderr, "signal %d, %s\n", shared->status, strsignal(shared->status));
    else if (shared->ending == POTZENDAI_CRASHED)
        fprintf(stderr, "the map ended the process with status %d\n", -shared->status);
    else if (shared->ending == POTZENDAI_OUTSIDE)
        fprintf(stderr, "no thread came to a scheduling point for %d seconds\n", POTZENDAI_LOOKS);
    else if (shared->made.outcome == POTZENDAI_STARTS_THREADS)
        fputs("a call starts a thread, which the scheduler does not run\n", stderr);
    else if (shared->made.outcome == POTZENDAI_DEADLOCK)
        fputs("no thread can go on\n", stderr);
    else
        fputs("no call ended in 200,000 steps\n", stderr);
}

/* Takes a round that did not end well, after those before it are judged. The status is no, or undecided if it left what can be scheduled. */
static inline int potzendai_take_ending(struct potzendai_plan *plan, const struct potzendai_shared *shared)
{
    struct potzendai_tester *tester = plan->tester;
    int status = potzendai_judge_waiting(tester);
    if (status)
        return status;
    tester->run->round = shared->asked.round;
    tester->rounds++;
    tester->ending = potzendai_ending_of(shared);
    bool is_outside = strcmp(tester->ending, "outside") == 0;
    if (!tester->is_quiet) {
        struct potzendai_told none;
        memset(&none, 0, sizeof none);
        potzendai_tell_ending(shared->asked.round, shared);
        potzendai_tell_schedule(plan, &none);
        potzendai_forget(&none);
        potzendai_tell_again(tester, shared->asked.round + 1);
    }
    return is_outside ? POTZENDAI_IS_UNDECIDED : POTZENDAI_IS_NO;
}

/* Prints once a second how far the run is, if standard error is a terminal. */
static inline void potzendai_scheduled_progress(struct potzendai_tester *tester)
{
    double now = potzendai_now();
    if (!tester->has_terminal || now - tester->told < 1)
        return;
    fprintf(stderr, "%" PRIu64 " round%s, %.0f a second\n", tester->rounds, potzendai_plural(tester->rounds),
            (double)tester->rounds / (now - tester->began));
    tester->told = now;
}

/* Takes a round that was made: writes it or has it judged with others. */
static inline int potzendai_take_scheduled(struct potzendai_plan *plan, const struct potzendai_shared *shared)
{
    struct potzendai_tester *tester = plan->tester;
    struct potzendai_told told;
    if (!potzendai_is_whole(shared))
        return potzendai_take_ending(plan, shared);
    if (shared->fault)
        return potzendai_fail(tester->run, (enum potzendai_status)shared->fault, "%.190s", shared->complaint);
    if (potzendai_copy_text(shared, &told))
        return potzendai_fail(tester->run, POTZENDAI_NO_MEMORY, "memory: no room for a round");
    potzendai_add_counts(&tester->run->counts, &shared->counts);
    tester->run->round = shared->asked.round;
    tester->rounds++;
    int status = potzendai_is_unjudged(tester->options) ? potzendai_write_round(tester, &told) : potzendai_await(tester, &told);
    potzendai_forget(&told);
    tester->refused = tester->run->counts.sayings[MAP_REFUSED];
    potzendai_scheduled_progress(tester);
    return status;
}

/* ---- The run. */

/* Makes rounds, as many at a time as there are forkers. They are taken in the order of their numbers, so what is found does not depend on how many
 * run side by side. */
static inline int potzendai_run_plan(struct potzendai_plan *plan)
{
    struct potzendai_tester *tester = plan->tester;
    const struct potzendai_options *o = tester->options;
    uint64_t ordered = 0, jobs = o->schedule.jobs;
    int status = 0;
    while (status == 0 && potzendai_is_more(tester)) {
        for (; ordered < tester->rounds + jobs && (o->rounds == 0 || ordered < o->rounds); ordered++) {
            struct potzendai_schedule asked = potzendai_schedule_of(plan, ordered);
            potzendai_order(&plan->forkers[ordered % jobs], &asked, false);
        }
        struct potzendai_forker *f = &plan->forkers[tester->rounds % jobs];
        if (potzendai_receive(f) || f->shared->ending == POTZENDAI_NO_PROCESS)
            return potzendai_fail(tester->run, POTZENDAI_NO_MEMORY, "memory: no process for a round");
        status = potzendai_take_scheduled(plan, f->shared);
    }
    return status ? status : potzendai_judge_waiting(tester);
}

static inline int potzendai_replay(struct potzendai_plan *plan)
{
    uint64_t round = plan->tester->options->schedule.replay;
    struct potzendai_schedule asked = potzendai_schedule_of(plan, round);
    if (potzendai_make_one(plan, &asked, false))
        return -1;
    int status = potzendai_take_scheduled(plan, plan->forkers[0].shared);
    return status ? status : potzendai_judge_waiting(plan->tester);
}

/* Makes the shared memory, and then the processes that fork rounds. In this order each of these has the same heap. */
static inline int potzendai_open_plan(struct potzendai_plan *plan, struct potzendai_tester *tester)
{
    uint64_t jobs = tester->options->schedule.jobs;
    int status = 0;
    plan->tester = tester;
    plan->words = (struct potzendai_word *)potzendai_scheduler->share(POTZENDAI_LEARNED_WORDS * sizeof *plan->words);
    for (uint64_t i = 0; i < jobs; i++) {
        plan->forkers[i].shared = (struct potzendai_shared *)potzendai_scheduler->share(sizeof *plan->forkers[i].shared);
        status = plan->words && plan->forkers[i].shared ? status : -1;
    }
    fflush(NULL);
    for (uint64_t i = 0; i < jobs && status == 0; i++)
        status = potzendai_open_forker(tester, plan->forkers, (size_t)i);
    return status ? potzendai_fail(tester->run, POTZENDAI_NO_MEMORY, "memory: no process for rounds") : 0;
}

static inline void potzendai_close_plan(struct potzendai_plan *plan)
{
    for (int i = 0; i < POTZENDAI_SCHEDULED; i++)
        potzendai_close_forker(&plan->forkers[i]);
    if (plan->words)
        munmap(plan->words, POTZENDAI_LEARNED_WORDS * sizeof *plan->words);
}

/* Makes scheduled rounds until one has no order or does not end well, the time is over, or the run fails: then -1. */
static inline int potzendai_schedule_rounds(struct potzendai_tester *tester)
{
    struct potzendai_plan plan;
    memset(&plan, 0, sizeof plan);
    tester->run->is_scheduled = true;
    tester->plan = &plan;
    if (!potzendai_scheduler->is_pinned())
        fputs("the system does not let addresses be the same in each process, so a replay may differ\n", stderr);
    int status = potzendai_read_start(tester);
    status = status ? status : potzendai_open_plan(&plan, tester);
    status = status ? status : potzendai_learn(&plan);
    if (status == 0)
        status = tester->options->schedule.has_replay ? potzendai_replay(&plan) : potzendai_run_plan(&plan);
    potzendai_forget_waiting(tester);
    potzendai_close_plan(&plan);
    tester->plan = NULL;
    return status == 0 && tester->undecided > 0 ? POTZENDAI_IS_UNDECIDED : status;
}

#include "potzendai_shrink.h"

#else /* there is no scheduler here, so --schedule was refused before */

static inline int potzendai_schedule_rounds(struct potzendai_tester *tester) { (void)tester; return -1; }
static inline int potzendai_refuted_by_schedule(struct potzendai_tester *tester, struct potzendai_told *told)
{
    (void)told;
    return tester ? POTZENDAI_IS_NO : -1;
}

#endif

#endif
