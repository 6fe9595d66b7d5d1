/* Removes calls and switches of a scheduled round while it still goes wrong, and shows what is left. Included by potzendai_scheduled.h. */
#ifndef POTZENDAI_SHRINK_H
#define POTZENDAI_SHRINK_H

#include "potzendai_scheduled.h"

enum { POTZENDAI_SHRINK_SECONDS = 60 };

/* Items of which as many as possible are removed: numbers of calls or of switches. */
struct potzendai_items { uint32_t *numbers; size_t count; };

/* A round that goes wrong as `ending` says, or has no order if that is NULL; and its calls and switches that are left. Numbers of switches are places
 * in `all`. `told` is the last recording without an order. */
struct potzendai_shrinking {
    struct potzendai_plan *plan;
    struct potzendai_schedule asked;
    const char *ending;
    struct potzendai_switch *all;
    struct potzendai_items calls, switches;
    struct potzendai_told *told;
    double until;
};

/* Items without some of them: `some` items from place `from` on. */
struct potzendai_without { const struct potzendai_items *items; size_t from, some; };

static inline bool potzendai_has_item(const struct potzendai_without *w, const struct potzendai_items *items, size_t at)
{
    return w->items != items || at < w->from || at >= w->from + w->some;
}

/* Writes the switches and the calls of a try into the memory that is shared with the round's process. */
static inline void potzendai_prepare_try(struct potzendai_shrinking *s, const struct potzendai_without *without)
{
    struct potzendai_shared *shared = s->plan->forkers[0].shared;
    uint64_t calls = s->plan->tester->options->calls;
    uint32_t count = 0;
    memset(shared->calls_left_out, 0xff, sizeof shared->calls_left_out);
    for (size_t i = 0; i < s->calls.count; i++) {
        uint64_t thread = s->calls.numbers[i] / calls, call = s->calls.numbers[i] % calls;
        if (potzendai_has_item(without, &s->calls, i))
            shared->calls_left_out[thread * s->asked.bits_each + call / 64] &= ~((uint64_t)1 << call % 64);
    }
    for (size_t i = 0; i < s->switches.count; i++)
        if (potzendai_has_item(without, &s->switches, i))
            shared->listed[count++] = s->all[s->switches.numbers[i]];
    s->asked.listed = shared->listed;
    s->asked.listed_count = count;
    s->asked.calls_left_out = shared->calls_left_out;
}

/* Whether the round that was made has no order. If so, its recording is kept. */
static inline bool potzendai_has_no_order(struct potzendai_shrinking *s, const struct potzendai_shared *shared)
{
    struct potzendai_told told;
    if (!potzendai_is_whole(shared) || shared->fault || potzendai_copy_text(shared, &told))
        return false;
    bool has_none = potzendai_judged(s->plan->tester->options, &told) == POTZENDAI_IS_NO;
    if (has_none) {
        potzendai_forget(s->told);
        *s->told = told;
    } else
        potzendai_forget(&told);
    return has_none;
}

/* Whether the round goes wrong in the same way without these items. */
static inline bool potzendai_still_fails(struct potzendai_shrinking *s, const struct potzendai_without *without)
{
    const struct potzendai_shared *shared = s->plan->forkers[0].shared;
    potzendai_prepare_try(s, without);
    if (potzendai_make_one(s->plan, &s->asked, true))
        return false;
    if (!s->ending)
        return potzendai_has_no_order(s, shared);
    return !potzendai_is_whole(shared) && strcmp(potzendai_ending_of(shared), s->ending) == 0;
}

static inline void potzendai_drop_items(struct potzendai_items *items, size_t from, size_t some)
{
    memmove(items->numbers + from, items->numbers + from + some, (items->count - from - some) * sizeof *items->numbers);
    items->count -= some;
}

/* Removes items, halves first and then ever fewer at a time (delta debugging: Zeller and Hildebrandt, 2002). */
static inline void potzendai_take_away(struct potzendai_shrinking *s, struct potzendai_items *items)
{
    bool is_less = true;
    for (size_t some = (items->count + 1) / 2; some > 1 || is_less; some = some > 1 ? (some + 1) / 2 : 1) {
        is_less = false;
        for (size_t at = 0; at < items->count && potzendai_now() < s->until && !potzendai_is_interrupted();) {
            struct potzendai_without without = {items, at, some < items->count - at ? some : items->count - at};
            if (potzendai_still_fails(s, &without)) {
                potzendai_drop_items(items, at, without.some);
                is_less = true;
            } else
                at += without.some;
        }
    }
}

/* Takes the switches of the round that was made last as those that are left. */
static inline void potzendai_take_switches(struct potzendai_shrinking *s)
{
    const struct potzendai_scheduled *made = &s->plan->forkers[0].shared->made;
    s->switches.count = made->count;
    memcpy(s->all, made->switches, made->count * sizeof *s->all);
    for (uint32_t i = 0; i < made->count; i++)
        s->switches.numbers[i] = i;
}

/* Removes calls and switches as long as that leaves fewer. Returns whether the round fails by its list of switches. */
static inline bool potzendai_shrink(struct potzendai_shrinking *s)
{
    const struct potzendai_without nothing = {NULL, 0, 0};
    size_t before;
    s->asked.strategy = POTZENDAI_LISTED;
    potzendai_take_switches(s);
    if (!potzendai_still_fails(s, &nothing))
        return false;
    do {
        before = s->calls.count + s->switches.count;
        potzendai_take_away(s, &s->calls);
        if (potzendai_still_fails(s, &nothing) && s->plan->forkers[0].shared->made.count < s->switches.count)
            potzendai_take_switches(s);
        potzendai_take_away(s, &s->switches);
    } while (s->calls.count + s->switches.count < before && potzendai_now() < s->until);
    return potzendai_still_fails(s, &nothing);
}

/* ---- What is shown. */

static inline void potzendai_tell_code(FILE *out, const uintptr_t codes[POTZENDAI_CODES])
{
    char place[256];
    if (codes[0] == POTZENDAI_AT_CALL)
        fputs(", as it begins", out);
    else if (codes[0] == POTZENDAI_AT_RETURN)
        fputs(", as it ends", out);
    else if (codes[0] != 0) {
        potzendai_scheduler->locate(codes, place, sizeof place);
        fprintf(out, " at %s", place);
    }
}

static inline void potzendai_tell_switch(FILE *out, const struct potzendai_switch *s)
{
    bool is_drain = s->to == POTZENDAI_DRAIN;
    fprintf(out, is_drain ? "  thread %u: its oldest store reaches the others" : "  thread %u gives way", s->thread);
    if (s->function < POTZENDAI_FUNCTIONS) {
        fprintf(out, " in %s(%" PRIu64 ")", potzendai_functions[s->function], s->key);
        potzendai_tell_code(out, s->codes);
    } else
        fputs(" between its calls", out);
    if (!is_drain)
        fprintf(out, ", to thread %u", s->to);
    fputc('\n', out);
}

/* Prints where the threads within calls are, in a round that did not end well. */
static inline void potzendai_tell_places(FILE *out, const struct potzendai_shared *shared)
{
    for (unsigned i = 0; i < shared->asked.threads; i++) {
        const struct potzendai_at *at = &shared->made.at[i];
        if (at->is_over || !at->is_in_call || at->function >= POTZENDAI_FUNCTIONS)
            continue;
        fprintf(out, "  thread %u is in %s(%" PRIu64 ")", i, potzendai_functions[at->function], at->key);
        potzendai_tell_code(out, at->codes);
        fputc('\n', out);
    }
}

static inline void potzendai_tell_kept(const struct potzendai_shrinking *s)
{
    fprintf(stderr, "the smallest of some schedules that fail so: %zu call%s and %zu switch%s\n", s->calls.count,
            potzendai_plural(s->calls.count), s->switches.count, s->switches.count == 1 ? "" : "es");
    for (size_t i = 0; i < s->switches.count; i++)
        potzendai_tell_switch(stderr, &s->all[s->switches.numbers[i]]);
}

/* Takes memory for the items, which are all calls at first: 0, or -1 if it is refused. */
static inline int potzendai_open_shrinking(struct potzendai_shrinking *s)
{
    const struct potzendai_options *o = s->plan->tester->options;
    s->calls.count = (size_t)(o->threads * o->calls);
    s->calls.numbers = (uint32_t *)calloc(s->calls.count, sizeof *s->calls.numbers);
    s->switches.numbers = (uint32_t *)calloc(POTZENDAI_SWITCHES, sizeof *s->switches.numbers);
    s->all = (struct potzendai_switch *)calloc(POTZENDAI_SWITCHES, sizeof *s->all);
    for (uint32_t i = 0; s->calls.numbers && i < s->calls.count; i++)
        s->calls.numbers[i] = i;
    return s->calls.numbers && s->switches.numbers && s->all ? 0 : -1;
}

static inline void potzendai_close_shrinking(struct potzendai_shrinking *s)
{
    free(s->calls.numbers);
    free(s->switches.numbers);
    free(s->all);
}

/* Makes the present round of the run again, shrinks it, and shows its switches. `told` becomes the recording of the smallest round. If the round did
 * not end well, `told` stays empty. */
static inline void potzendai_tell_schedule(struct potzendai_plan *plan, struct potzendai_told *told)
{
    struct potzendai_tester *tester = plan->tester;
    struct potzendai_shrinking s;
    const struct potzendai_shared *shared = plan->forkers[0].shared;
    memset(&s, 0, sizeof s);
    s.plan = plan;
    s.asked = potzendai_schedule_of(plan, tester->run->round);
    s.ending = tester->ending;
    s.told = told;
    s.until = potzendai_now() + (double)POTZENDAI_SHRINK_SECONDS;
    bool is_outside = s.ending && strcmp(s.ending, "outside") == 0;
    if (!potzendai_open_shrinking(&s) && !potzendai_make_one(plan, &s.asked, true)) {
        if (is_outside || !potzendai_shrink(&s))
            fprintf(stderr, "its schedule has %" PRIu32 " switches\n", shared->made.count);
        else
            potzendai_tell_kept(&s);
        if (s.ending)
            potzendai_tell_places(stderr, shared);
    }
    potzendai_close_shrinking(&s);
}

/* Shows a scheduled round that has no order, as small as it becomes, with its switches. */
static inline int potzendai_refuted_by_schedule(struct potzendai_tester *tester, struct potzendai_told *told)
{
    fprintf(stderr, "round %" PRIu64 " has no order\n", tester->run->round);
    potzendai_tell_schedule(tester->plan, told);
    potzendai_tell_round(tester, told);
    potzendai_tell_again(tester, tester->run->round + 1);
    return POTZENDAI_IS_NO;
}

#endif
