/* Points: where a thread passes the turn on, waits, or wakes others. Part of potzendai_schedule.c. */
#ifndef SCHEDULE_POINTS_H
#define SCHEDULE_POINTS_H

/* ---- Store buffers: its own thread sees a store below seq_cst first, as on x86 (total store order). */

/* The store that is so many after the oldest. */
static struct store *store_at(struct thread *t, unsigned number)
{
    return &t->stores[(t->oldest + number) % STORES];
}

static void drain_one(struct thread *t)
{
    struct store *oldest = store_at(t, 0);
    for (unsigned i = 0; i < oldest->size; i++)
        ((volatile unsigned char *)oldest->address)[i] = ((unsigned char *)&oldest->value)[i];
    t->oldest++;
    t->stored--;
}

static void drain(struct thread *t)
{
    while (t->stored > 0)
        drain_one(t);
}

/* Drains the buffer before memory is used in another way than by atomic accesses of the same size. */
static void drain_for(struct thread *t, uintptr_t address, size_t size)
{
    for (unsigned i = 0; i < t->stored; i++) {
        const struct store *store = store_at(t, i);
        if (store->address < address + size && address < store->address + store->size) {
            drain(t);
            return;
        }
    }
}

/* The last buffered store of the thread to this address, or NULL. */
static const struct store *find_store(struct thread *t, uintptr_t address, unsigned size)
{
    for (unsigned i = t->stored; i-- > 0;)
        if (store_at(t, i)->address == address && store_at(t, i)->size == size)
            return store_at(t, i);
    return NULL;
}

static void keep_store(struct thread *t, uintptr_t address, uint64_t value, unsigned size)
{
    if (t->stored == STORES)
        drain_one(t);
    struct store *newest = store_at(t, t->stored++);
    newest->address = address;
    newest->value = value;
    newest->size = size;
    has_changed(t);
}

/* At a point, lets the oldest store reach the memory one time in eight, or if the list says so. */
static void drain_by_chance(struct thread *t)
{
    const struct potzendai_switch *listed;
    bool drains = false;
    if (t->stored == 0)
        return;
    if (asked->strategy != POTZENDAI_LISTED)
        drains = draw() % 8 == 0;
    else if ((listed = find_listed(t)) != NULL && listed->to == POTZENDAI_DRAIN) {
        drains = true;
        t->next_listed++;
    }
    if (!drains)
        return;
    note_switch(t, POTZENDAI_DRAIN);
    drain_one(t);
}

/* ---- Words at which threads meet. */

/* The entry of a word, or a free one for it; NULL if there is no room. */
static struct potzendai_word *find_word(uintptr_t address)
{
    uintptr_t word = address / 8;
    size_t at = (size_t)((uint64_t)word * 0x9e3779b97f4a7c15u >> 47);
    for (unsigned tries = 0; tries < 64; tries++, at = (at + 1) % POTZENDAI_LEARNED_WORDS)
        if (asked->words[at].word == word || asked->words[at].word == 0)
            return &asked->words[at];
    return NULL;
}

static void learn(const struct thread *t, const struct event *e)
{
    struct potzendai_word *word = find_word(e->address);
    if (!word)
        return;
    word->word = e->address / 8;
    word->touched |= (uint64_t)1 << t->id;
    if (e->is_write)
        word->written |= (uint64_t)1 << t->id;
}

/* Whether learning has seen two threads at this word, of which one wrote. Of a word that it has not seen, only atomic accesses count. */
static bool may_meet(const struct event *e, bool is_atomic)
{
    const struct potzendai_word *word = find_word(e->address);
    if (!word || word->word == 0)
        return is_atomic;
    return (word->touched & (word->touched - 1)) != 0 && word->written != 0;
}

/* Whether an access is a point. It becomes one if the thread looks there again and again: it may wait for another thread. */
static bool is_point(struct thread *t, struct event *e, bool is_atomic)
{
    bool is_one = true;
    if (asked->points == POTZENDAI_LEARNING)
        learn(t, e);
    else if (asked->points == POTZENDAI_ATOMICS)
        is_one = is_atomic;
    else if (asked->points == POTZENDAI_LEARNED)
        is_one = may_meet(e, is_atomic);
    if (!is_one && look_at(t, e->address) > LOOKS_LEFT_OUT)
        is_one = e->looks = true;
    return is_one;
}

/* ---- Points. */

static void note_place(const struct thread *t, uintptr_t code)
{
    uintptr_t *codes = made->at[t->id].codes;
    codes[0] = code;
    for (uint32_t i = 1; i < POTZENDAI_CODES; i++)
        codes[i] = i <= t->depth ? t->frames[(t->depth - i) % FRAMES] : 0;
}

static void count_step(struct thread *t)
{
    t->step++;
    made->hash = (made->hash ^ (t->id + 1)) * 0x100000001b3u;
    made->hash = (made->hash ^ t->next.address) * 0x100000001b3u;
    __atomic_store_n(&made->steps, made->steps + 1, __ATOMIC_RELAXED);
    if (made->steps - steps_at_end_of_call > STEPS_WITHOUT_END)
        end_round(POTZENDAI_ENDLESS);
}

/* Enters the scheduler, whose own accesses are not the map's: a compiler may make a memcpy of its loops, which is a function of this file. Returns
 * whether the thread was in the map. */
static bool leave_map(struct thread *t)
{
    bool was_in_map = t->is_in_map;
    t->is_in_map = false;
    return was_in_map;
}

/* A point: before the event another thread may go on. A thread that yields, or seems to wait for another thread, runs after all others. */
static void point(struct thread *t, struct event e)
{
    bool was_in_map = leave_map(t);
    t->next = e;
    note_place(t, e.code);
    count_step(t);
    bool gives_way = e.yields || ++t->idle > STEPS_WITHOUT_CHANGE || (e.looks && look_at(t, e.address) > LOOKS_MOST);
    if (gives_way) {
        has_changed(t);
        if (++times_given_way % WAYS_GIVEN_UNTIL_TIME == 0)
            let_time_pass();
    }
    set_priority(t, gives_way);
    drain_by_chance(t);
    go_to(t, choose(t, gives_way));
    if (asked->strategy == POTZENDAI_POS)
        draw_racing(t);
    t->is_in_map = was_in_map;
}

/* A point without an access: as a call begins and ends, and at potzendai_point(). */
static void point_without_access(struct thread *t, uintptr_t code)
{
    point(t, (struct event){0, code, false, false, false});
}

/* A thread gives way to all others. */
static void give_way(struct thread *t, uintptr_t code)
{
    drain(t);
    point(t, (struct event){0, code, false, true, false});
}

/* A point at which a thread tries to take a lock or the like. */
static void point_at_lock(struct thread *t, const void *lock, uintptr_t code)
{
    point(t, (struct event){(uintptr_t)lock, code, true, false, true});
    drain(t);
}

/* Waits until the thread is woken, or until its time if it has one. Returns whether it was woken. */
static bool block(struct thread *t, const void *on, bool is_timed)
{
    bool was_in_map = leave_map(t);
    t->waits_for = on;
    t->was_woken = false;
    t->state = is_timed ? THREAD_TIMED : THREAD_BLOCKED;
    has_changed(t);
    drain(t);
    count_step(t);
    struct thread *next = choose(t, false);
    if (!next)
        end_round(POTZENDAI_DEADLOCK);
    go_to(t, next);
    t->state = THREAD_READY;
    t->waits_for = NULL;
    t->is_in_map = was_in_map;
    return t->was_woken;
}

/* Wakes at most so many threads that wait for this. Returns how many were woken. */
static unsigned wake(const void *on, unsigned most)
{
    unsigned woken = 0;
    for (unsigned i = 0; i < count && woken < most; i++) {
        struct thread *t = &threads[i];
        if ((t->state != THREAD_BLOCKED && t->state != THREAD_TIMED) || t->waits_for != on)
            continue;
        t->state = THREAD_READY;
        t->was_woken = true;
        woken++;
    }
    return woken;
}

#endif
