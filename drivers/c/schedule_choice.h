/* Which thread runs next. Part of potzendai_schedule.c. */
#ifndef SCHEDULE_CHOICE_H
#define SCHEDULE_CHOICE_H

/* The threads that could run now. */
struct choice { struct thread *ready[POTZENDAI_SCHEDULED]; unsigned found; };

static struct choice find_ready(const struct thread *but)
{
    struct choice choice;
    choice.found = 0;
    for (unsigned i = 0; i < count; i++)
        if (threads[i].state == THREAD_READY && &threads[i] != but)
            choice.ready[choice.found++] = &threads[i];
    return choice;
}

/* Time passes once no other thread can run: then the first thread that waits for a time may run. NULL if there is none. */
static struct thread *let_time_pass(void)
{
    for (unsigned i = 0; i < count; i++)
        if (threads[i].state == THREAD_TIMED) {
            threads[i].state = THREAD_READY;
            return &threads[i];
        }
    return NULL;
}

/* Whether a listed switch is of an earlier moment of its thread. Some switches never come, if calls were left out. */
static bool is_before(const struct potzendai_switch *listed, const struct thread *t)
{
    return listed->call < t->call || (listed->call == t->call && listed->step < t->step);
}

/* The switch listed for this step of the thread, or NULL. Earlier ones of the thread are skipped. */
static const struct potzendai_switch *find_listed(struct thread *t)
{
    for (; t->next_listed < asked->listed_count; t->next_listed++) {
        const struct potzendai_switch *listed = &asked->listed[t->next_listed];
        if (listed->thread != t->id || is_before(listed, t))
            continue;
        return listed->call == t->call && listed->step == t->step ? listed : NULL;
    }
    return NULL;
}

static struct thread *choose_listed(struct thread *now, const struct choice *choice, bool gives_way)
{
    const struct potzendai_switch *listed = find_listed(now);
    struct thread *wanted = listed && listed->to < count ? &threads[listed->to] : NULL;
    if (wanted && wanted->state == THREAD_READY && !(gives_way && wanted == now))
        return wanted;
    if (now->state == THREAD_READY && !gives_way)
        return now;
    for (unsigned i = 0; i < choice->found; i++)
        if (choice->ready[i]->id > now->id)
            return choice->ready[i];
    return choice->ready[0];
}

static struct thread *choose_highest(const struct choice *choice)
{
    struct thread *best = choice->ready[0];
    for (unsigned i = 1; i < choice->found; i++)
        if (choice->ready[i]->priority > best->priority)
            best = choice->ready[i];
    return best;
}

/* Whether a schedule by priorities takes so long that threads may wait for one that never runs. From then on any thread may run. */
static bool is_long(void)
{
    return asked->steps_expected > 0 && made->steps > 10 * asked->steps_expected + 1000;
}

/* Which thread runs next; NULL if none can. This one may go on unless it gives way. */
static struct thread *choose(struct thread *now, bool gives_way)
{
    struct choice choice = find_ready(gives_way ? now : NULL);
    if (choice.found == 0) {
        struct thread *timed = let_time_pass();
        return timed || now->state != THREAD_READY ? timed : now;
    }
    if (asked->strategy == POTZENDAI_LISTED)
        return choose_listed(now, &choice, gives_way);
    if (asked->strategy == POTZENDAI_WALK || is_long())
        return choice.ready[choice.found == 1 ? 0 : draw() % choice.found];
    return choose_highest(&choice);
}

static void note_switch(const struct thread *t, uint32_t to)
{
    const struct potzendai_at *at = &made->at[t->id];
    if (made->count == POTZENDAI_SWITCHES)
        return;
    struct potzendai_switch *s = &made->switches[made->count++];
    s->thread = t->id;
    s->call = t->call;
    s->step = t->step;
    s->to = to;
    s->function = at->is_in_call ? at->function : (uint32_t)POTZENDAI_IN_NO_CALL;
    s->key = at->key;
    for (int i = 0; i < POTZENDAI_CODES; i++)
        s->codes[i] = at->codes[i];
}

/* Passes the turn on, and notes that if it goes to another thread. */
static void go_to(struct thread *t, struct thread *next)
{
    if (next == t)
        return;
    note_switch(t, next->id);
    give_turn(t, next);
}

/* Changes a thread's priority at a point: at the change points of PCT, and under POS. */
static void set_priority(struct thread *t, bool gives_way)
{
    if (gives_way)
        t->priority = --lowest_priority;
    else if (asked->strategy == POTZENDAI_POS)
        t->priority = draw_priority();
    for (unsigned i = 0; asked->strategy == POTZENDAI_PCT && i + 1 < asked->depth; i++)
        if (change_points[i] == made->steps)
            t->priority = changed_priority + asked->depth - i;
}

/* Under POS, gives new priorities to the events that race with the one of this thread, which happens now. */
static void draw_racing(const struct thread *t)
{
    for (unsigned i = 0; i < count; i++) {
        struct thread *other = &threads[i];
        bool is_same_word = other->next.address / 8 == t->next.address / 8;
        if (other != t && other->state == THREAD_READY && is_same_word && (other->next.is_write || t->next.is_write))
            other->priority = draw_priority();
    }
}

#endif
