/* What has to be the same in each process, so that a round can be made again: addresses, times, and random bytes. Part of potzendai_schedule.c.
 *
 * They are pinned only if the program's words ask for schedules. */
#ifndef SCHEDULE_PINNED_H
#define SCHEDULE_PINNED_H

static bool is_asked_for, has_same_addresses;

/* ---- Addresses: the program starts itself again without randomisation. */

#define PADDED "POTZENDAI_SCHEDULE"
enum { STRINGS_ROOM = 1 << 16, NAMES_ROOM = 1 << 15 };

/* How large the strings at the end of the first stack are, and how many of them there are. */
struct strings { size_t size, count; };

static void add_strings(struct strings *all, char **strings)
{
    for (; *strings; strings++) {
        all->size += strlen(*strings) + 1;
        all->count++;
    }
}

/* A variable that pads the strings and the pointers to them to one size in all environments, since the first stack begins below them. NULL if they
 * are larger than that: then the stack begins elsewhere. */
static char *pad_environment(char **arguments, char **environment)
{
    struct strings all = {0, 0};
    add_strings(&all, arguments);
    add_strings(&all, environment);
    size_t pointers = (all.count + 1) / 2 * 16, name = sizeof PADDED;
    if (pointers > NAMES_ROOM || all.size + name + 1 > STRINGS_ROOM)
        return NULL;
    size_t padding = STRINGS_ROOM - all.size + (NAMES_ROOM - pointers);
    char *text = (char *)malloc(padding);
    if (!text)
        return NULL;
    memset(text, '.', padding - 1);
    memcpy(text, PADDED "=", name);
    text[padding - 1] = 0;
    return text;
}

/* Starts the program again with a padded environment. Returns only if that fails. */
static void start_again(char **arguments, char **environment)
{
    size_t variables = 0;
    while (environment[variables])
        variables++;
    char *padding = pad_environment(arguments, environment);
    char **padded = (char **)calloc(variables + 2, sizeof *padded);
    for (size_t i = 0; padded && i < variables; i++)
        padded[i] = environment[i];
    if (padded && padding)
        padded[variables] = padding;
    execve("/proc/self/exe", arguments, padded ? padded : environment);
    free(padded);
    free(padding);
}

/* Runs before main: the C library passes arguments and environment to constructors. */
__attribute__((constructor(102))) static void pin_addresses(int words, char **arguments, char **environment)
{
    for (int i = 1; i < words; i++)
        is_asked_for = is_asked_for || strcmp(arguments[i], "--schedule") == 0;
    if (!is_asked_for)
        return;
    bool is_started_again = getenv(PADDED) != NULL;
    int now = personality(0xffffffff);
    if (!is_started_again && now != -1 && personality((unsigned long)now | ADDR_NO_RANDOMIZE) != -1)
        start_again(arguments, environment);
    now = personality(0xffffffff);
    has_same_addresses = is_started_again && now != -1 && (now & ADDR_NO_RANDOMIZE) != 0;
    unsetenv(PADDED);
}

static bool is_pinned(void)
{
    return has_same_addresses;
}

/* ---- Times: they pass by the steps of a round. */

REAL(clock_gettime)
REAL(gettimeofday)
REAL(time)
enum { SECONDS_AT_START = 1700000000, STEPS_A_SECOND = 1000000 };

static uint64_t steps_so_far(void)
{
    return me ? made->steps : 0;
}

static void real_clock(clockid_t clock, struct timespec *now)
{
    real_clock_gettime()(clock, now);
}

int clock_gettime(clockid_t clock, struct timespec *now)
{
    if (!is_asked_for)
        return real_clock_gettime()(clock, now);
    now->tv_sec = (time_t)(SECONDS_AT_START + steps_so_far() / STEPS_A_SECOND);
    now->tv_nsec = (long)(steps_so_far() % STEPS_A_SECOND * 1000);
    return 0;
}

int gettimeofday(struct timeval *restrict now, void *restrict zone)
{
    if (!is_asked_for)
        return real_gettimeofday()(now, zone);
    now->tv_sec = (time_t)(SECONDS_AT_START + steps_so_far() / STEPS_A_SECOND);
    now->tv_usec = (suseconds_t)(steps_so_far() % STEPS_A_SECOND);
    return 0;
}

time_t time(time_t *to)
{
    time_t now = is_asked_for ? (time_t)(SECONDS_AT_START + steps_so_far() / STEPS_A_SECOND) : real_time()(NULL);
    if (to)
        *to = now;
    return now;
}

/* ---- Random bytes, from a generator that starts in the same state in each process; and the number of the processor. */

REAL(getrandom)
REAL(getentropy)
REAL(sched_getcpu)

static uint64_t draw_byte(void)
{
    static uint64_t state;
    return (state = state * 6364136223846793005u + 1442695040888963407u) >> 56;
}

static void fill_randomly(void *to, size_t size)
{
    for (size_t i = 0; i < size; i++)
        ((volatile unsigned char *)to)[i] = (unsigned char)draw_byte();
}

ssize_t getrandom(void *to, size_t size, unsigned flags)
{
    if (!is_asked_for)
        return real_getrandom()(to, size, flags);
    fill_randomly(to, size);
    return (ssize_t)size;
}

int getentropy(void *to, size_t size)
{
    if (!is_asked_for)
        return real_getentropy()(to, size);
    fill_randomly(to, size);
    return 0;
}

int sched_getcpu(void)
{
    return me ? (int)me->id : real_sched_getcpu()();
}

/* std::random_device of libstdc++, which asks the processor. */
unsigned _ZNSt13random_device9_M_getvalEv(void *device);
REAL(_ZNSt13random_device9_M_getvalEv)
unsigned _ZNSt13random_device9_M_getvalEv(void *device)
{
    unsigned value;
    if (!is_asked_for)
        return real__ZNSt13random_device9_M_getvalEv()(device);
    fill_randomly(&value, sizeof value);
    return value;
}

/* ---- Freed memory: the stores to it that the thread still buffers come first. */

#ifdef __GLIBC__
extern void __libc_free(void *);

void free(void *at)
{
    struct thread *t = me;
    if (t && t->stored > 0)
        drain(t);
    __libc_free(at);
}
#endif

#endif
