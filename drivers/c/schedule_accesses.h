/* What the compiler calls at accesses of memory under -fsanitize=thread. Part of potzendai_schedule.c.
 *
 * One scheduled thread runs at a time, so each access is done in one piece. In a thread that is not scheduled, the same functions do plain and
 * atomic accesses. */
#ifndef SCHEDULE_ACCESSES_H
#define SCHEDULE_ACCESSES_H

/* Where the function that uses this was called. */
#define HERE ((uintptr_t)__builtin_return_address(0))

static bool is_own_stack(const struct thread *t, uintptr_t address)
{
    return address >= t->stack_low && address < t->stack_high;
}

/* An access of the map, or of a function of the C library for it. */
static void access_word(const volatile void *at, bool is_write, size_t size, bool looks, uintptr_t code)
{
    struct thread *t = in_map();
    struct event e = {(uintptr_t)at, code, is_write, false, looks};
    if (!t || is_own_stack(t, e.address))
        return;
    drain_for(t, e.address, size);
    if (!is_point(t, &e, false))
        return;
    if (is_write)
        has_changed(t);
    point(t, e);
    drain_for(t, e.address, size);
}

/* An access that the compiler reports. If there is one, the map is compiled for the scheduler. */
static void access_plain(const volatile void *at, bool is_write, size_t size, bool looks, uintptr_t code)
{
    struct thread *t = in_map();
    if (t && !is_own_stack(t, (uintptr_t)at))
        made->accesses++;
    access_word(at, is_write, size, looks, code);
}

static struct thread *access_atomic(const volatile void *at, bool is_write, uintptr_t code)
{
    struct thread *t = in_map();
    struct event e = {(uintptr_t)at, code, is_write, false, true};
    if (t)
        made->accesses++;
    if (t && is_point(t, &e, true))
        point(t, e);
    return t;
}

static void note_change(struct thread *t, bool is_changed)
{
    if (t && is_changed)
        has_changed(t);
}

void __tsan_init(void) {}

/* Notes where functions were called: a point in a library's function is shown as the line of the map that called it. */
void __tsan_func_entry(void *code)
{
    struct thread *t = in_map();
    if (t)
        t->frames[t->depth++ % FRAMES] = (uintptr_t)code;
}

void __tsan_func_exit(void)
{
    struct thread *t = in_map();
    if (t && t->depth > 0)
        t->depth--;
}

void __tsan_ignore_thread_begin(void) {}
void __tsan_ignore_thread_end(void) {}

#define PLAIN(name, is_read, is_written, looks, size) \
    void __tsan_##name(void *at) \
    { \
        if (is_read) \
            access_plain(at, false, size, looks, HERE); \
        if (is_written) \
            access_plain(at, true, size, looks, HERE); \
    }
#define PLAIN_OF(size) \
    PLAIN(read##size, true, false, false, size) \
    PLAIN(write##size, false, true, false, size) \
    PLAIN(read_write##size, true, true, false, size) \
    PLAIN(unaligned_read##size, true, false, false, size) \
    PLAIN(unaligned_write##size, false, true, false, size) \
    PLAIN(unaligned_read_write##size, true, true, false, size) \
    PLAIN(volatile_read##size, true, false, true, size) \
    PLAIN(volatile_write##size, false, true, false, size) \
    PLAIN(unaligned_volatile_read##size, true, false, true, size) \
    PLAIN(unaligned_volatile_write##size, false, true, false, size)
PLAIN_OF(1)
PLAIN_OF(2)
PLAIN_OF(4)
PLAIN_OF(8)
PLAIN_OF(16)

void __tsan_vptr_read(void **at) { access_plain(at, false, sizeof *at, false, HERE); }
void __tsan_vptr_update(void **at, void *to) { (void)to; access_plain(at, true, sizeof *at, false, HERE); }

/* gcc calls these before it copies a whole struct: each word is a point, and the copy itself comes after the last. */
static void access_range(const char *at, size_t size, bool is_write, uintptr_t code)
{
    for (size_t done = 0; done < size; done += 8)
        access_plain(at + done, is_write, size - done < 8 ? size - done : 8, false, code);
}

void __tsan_read_range(void *at, unsigned long size) { access_range((const char *)at, size, false, HERE); }
void __tsan_write_range(void *at, unsigned long size) { access_range((const char *)at, size, true, HERE); }

/* ---- memcpy and similar functions, by words. */

static void *(*real_memcpy)(void *, const void *, size_t);
static void *(*real_memmove)(void *, const void *, size_t);
static void *(*real_memset)(void *, int, size_t);

/* How many bytes to copy next: up to the end of a word at the destination. */
static size_t next_word(const char *to, size_t left)
{
    size_t word = 8 - (uintptr_t)to % 8;
    return left < word ? left : word;
}

/* Copies bytes one by one, in a way of which the compiler makes no memcpy. */
static void copy_bytes(char *to, const char *from, size_t size)
{
    for (size_t i = 0; i < size; i++)
        ((volatile char *)to)[i] = from[i];
}

static void copy_bytes_down(char *to, const char *from, size_t size)
{
    while (size-- > 0)
        ((volatile char *)to)[size] = from[size];
}

/* Copies a word after the points of both accesses. The two may overlap, so it is copied through a buffer. */
static void copy_word(char *to, const char *from, size_t size, uintptr_t code)
{
    char word[8];
    access_word(from, false, size, false, code);
    copy_bytes(word, from, size);
    access_word(to, true, size, false, code);
    copy_bytes(to, word, size);
}

static void copy_by_words(char *to, const char *from, size_t size, uintptr_t code)
{
    if (to <= from || to >= from + size) {
        for (size_t done = 0, some; done < size; done += some) {
            some = next_word(to + done, size - done);
            copy_word(to + done, from + done, some, code);
        }
        return;
    }
    while (size > 0) {
        size_t some = size < 8 ? size : 8;
        size -= some;
        copy_word(to + size, from + size, some, code);
    }
}

static void *copy(void *to, const void *from, size_t size, void *(*real)(void *, const void *, size_t), uintptr_t code)
{
    if (in_map())
        copy_by_words((char *)to, (const char *)from, size, code);
    else if (real)
        return real(to, from, size);
    else if ((char *)to <= (const char *)from)
        copy_bytes((char *)to, (const char *)from, size);
    else
        copy_bytes_down((char *)to, (const char *)from, size);
    return to;
}

static void *fill(void *to, int byte, size_t size, uintptr_t code)
{
    volatile char *bytes = (volatile char *)to;
    bool is_in_map = in_map() != NULL;
    if (!is_in_map && real_memset)
        return real_memset(to, byte, size);
    for (size_t done = 0, some; done < size; done += some) {
        some = next_word((char *)to + done, size - done);
        if (is_in_map)
            access_word(bytes + done, true, some, false, code);
        for (size_t i = done; i < done + some; i++)
            bytes[i] = (char)byte;
    }
    return to;
}

/* The functions of the C library, found before main. Until then nothing is scheduled. */
__attribute__((constructor(101))) static void find_real_copies(void)
{
    *(void **)&real_memcpy = dlsym(RTLD_NEXT, "memcpy");
    *(void **)&real_memmove = dlsym(RTLD_NEXT, "memmove");
    *(void **)&real_memset = dlsym(RTLD_NEXT, "memset");
}

void *memcpy(void *restrict to, const void *restrict from, size_t size) { return copy(to, from, size, real_memcpy, HERE); }
void *memmove(void *to, const void *from, size_t size) { return copy(to, from, size, real_memmove, HERE); }
void *memset(void *to, int byte, size_t size) { return fill(to, byte, size, HERE); }

/* The same functions under _FORTIFY_SOURCE, which passes the room at the destination. */
static void check_room(size_t size, size_t room)
{
    if (size > room)
        abort();
}

#define CHECKED(name, type, function) \
    void *__##name##_chk(void *to, type what, size_t size, size_t room) \
    { \
        check_room(size, room); \
        return function; \
    }
CHECKED(memcpy, const void *, copy(to, what, size, real_memcpy, HERE))
CHECKED(memmove, const void *, copy(to, what, size, real_memmove, HERE))
CHECKED(memset, int, fill(to, what, size, HERE))

/* The names that newer compilers call. */
void *__tsan_memcpy(void *to, const void *from, size_t size) { return copy(to, from, size, real_memcpy, HERE); }
void *__tsan_memmove(void *to, const void *from, size_t size) { return copy(to, from, size, real_memmove, HERE); }
void *__tsan_memset(void *to, int byte, size_t size) { return fill(to, byte, size, HERE); }

/* ---- Atomic accesses. */

#define READ_MODIFY_WRITE(bits, name, type, expression) \
    type __tsan_atomic##bits##_##name(volatile type *at, type value, int order) \
    { \
        struct thread *t = access_atomic(at, true, HERE); \
        type old, next; \
        (void)order; \
        if (t) \
            drain(t); \
        old = __atomic_load_n(at, __ATOMIC_SEQ_CST); \
        do \
            next = (type)(expression); \
        while (!__atomic_compare_exchange_n(at, &old, next, 0, __ATOMIC_SEQ_CST, __ATOMIC_SEQ_CST)); \
        note_change(t, next != old); \
        return old; \
    }

#define LOAD(bits, type) \
    type __tsan_atomic##bits##_load(const volatile type *at, int order) \
    { \
        struct thread *t = access_atomic(at, false, HERE); \
        const struct store *own = t ? find_store(t, (uintptr_t)at, sizeof *at) : NULL; \
        (void)order; \
        if (own) \
            return (type)own->value; \
        if (t) \
            drain_for(t, (uintptr_t)at, sizeof *at); \
        return __atomic_load_n(at, __ATOMIC_SEQ_CST); \
    }

#define STORE(bits, type) \
    void __tsan_atomic##bits##_store(volatile type *at, type value, int order) \
    { \
        struct thread *t = access_atomic(at, true, HERE); \
        if (t && asked->has_buffers && order != __ATOMIC_SEQ_CST) { \
            keep_store(t, (uintptr_t)at, value, sizeof *at); \
            return; \
        } \
        if (t) \
            drain(t); \
        note_change(t, __atomic_load_n(at, __ATOMIC_RELAXED) != value); \
        __atomic_store_n(at, value, __ATOMIC_SEQ_CST); \
    }

#define COMPARE_EXCHANGE(bits, type) \
    static int compare_exchange##bits(volatile type *at, type *expected, type value, uintptr_t code) \
    { \
        struct thread *t = access_atomic(at, true, code); \
        if (t) \
            drain(t); \
        bool is_done = __atomic_compare_exchange_n(at, expected, value, 0, __ATOMIC_SEQ_CST, __ATOMIC_SEQ_CST); \
        note_change(t, is_done); \
        return is_done; \
    } \
    COMPARE_EXCHANGE_NAMES(bits, type)

#define COMPARE_EXCHANGE_NAMES(bits, type) \
    int __tsan_atomic##bits##_compare_exchange_strong(volatile type *at, type *expected, type value, int order, int failed) \
    { \
        (void)order, (void)failed; \
        return compare_exchange##bits(at, expected, value, HERE); \
    } \
    int __tsan_atomic##bits##_compare_exchange_weak(volatile type *at, type *expected, type value, int order, int failed) \
    { \
        (void)order, (void)failed; \
        return compare_exchange##bits(at, expected, value, HERE); \
    } \
    type __tsan_atomic##bits##_compare_exchange_val(volatile type *at, type expected, type value, int order, int failed) \
    { \
        (void)order, (void)failed; \
        compare_exchange##bits(at, &expected, value, HERE); \
        return expected; \
    }

#define MODIFICATIONS(kind, bits, type) \
    kind(bits, exchange, type, value) \
    kind(bits, fetch_add, type, old + value) \
    kind(bits, fetch_sub, type, old - value) \
    kind(bits, fetch_and, type, old & value) \
    kind(bits, fetch_or, type, old | value) \
    kind(bits, fetch_xor, type, old ^ value) \
    kind(bits, fetch_nand, type, ~(old & value))

#define ATOMICS(bits, type) \
    LOAD(bits, type) \
    STORE(bits, type) \
    COMPARE_EXCHANGE(bits, type) \
    MODIFICATIONS(READ_MODIFY_WRITE, bits, type)
ATOMICS(8, uint8_t)
ATOMICS(16, uint16_t)
ATOMICS(32, uint32_t)
ATOMICS(64, uint64_t)

/* ---- Atomic accesses of 16 bytes: not all machines have an instruction for them, so threads that are not scheduled take a lock. */

__extension__ typedef unsigned __int128 uint128;
static atomic_flag is_in_16 = ATOMIC_FLAG_INIT;

static struct thread *begin_16(const volatile uint128 *at, bool is_write, uintptr_t code)
{
    struct thread *t = access_atomic(at, is_write, code);
    if (t)
        drain(t);
    while (!t && atomic_flag_test_and_set(&is_in_16))
        ;
    return t;
}

static void end_16(struct thread *t, bool is_changed)
{
    note_change(t, is_changed);
    if (!t)
        atomic_flag_clear(&is_in_16);
}

uint128 __tsan_atomic128_load(const volatile uint128 *at, int order)
{
    struct thread *t = begin_16(at, false, HERE);
    uint128 value = *at;
    (void)order;
    end_16(t, false);
    return value;
}

void __tsan_atomic128_store(volatile uint128 *at, uint128 value, int order)
{
    struct thread *t = begin_16(at, true, HERE);
    bool is_changed = *at != value;
    (void)order;
    *at = value;
    end_16(t, is_changed);
}

static int compare_exchange128(volatile uint128 *at, uint128 *expected, uint128 value, uintptr_t code)
{
    struct thread *t = begin_16(at, true, code);
    uint128 old = *at;
    bool is_done = old == *expected;
    if (is_done)
        *at = value;
    *expected = old;
    end_16(t, is_done);
    return is_done;
}
COMPARE_EXCHANGE_NAMES(128, uint128)

#define READ_MODIFY_WRITE_16(bits, name, type, expression) \
    type __tsan_atomic##bits##_##name(volatile type *at, type value, int order) \
    { \
        struct thread *t = begin_16(at, true, HERE); \
        type old = *at, next = expression; \
        (void)order; \
        *at = next; \
        end_16(t, next != old); \
        return old; \
    }
MODIFICATIONS(READ_MODIFY_WRITE_16, 128, uint128)

void __tsan_atomic_thread_fence(int order)
{
    struct thread *t = in_map();
    if (t && order == __ATOMIC_SEQ_CST)
        drain(t);
    __atomic_thread_fence(__ATOMIC_SEQ_CST);
}

void __tsan_atomic_signal_fence(int order) { (void)order; }

/* ---- What libraries call if they are compiled for ThreadSanitizer. */

void __tsan_acquire(void *at) { (void)at; }
void __tsan_release(void *at) { (void)at; }
void __tsan_mutex_create(void *lock, unsigned flags) { (void)lock, (void)flags; }
void __tsan_mutex_destroy(void *lock, unsigned flags) { (void)lock, (void)flags; }
void __tsan_mutex_pre_lock(void *lock, unsigned flags) { (void)lock, (void)flags; }
void __tsan_mutex_post_lock(void *lock, unsigned flags, int depth) { (void)lock, (void)flags, (void)depth; }
int __tsan_mutex_pre_unlock(void *lock, unsigned flags) { (void)lock, (void)flags; return 0; }
void __tsan_mutex_post_unlock(void *lock, unsigned flags) { (void)lock, (void)flags; }
void __tsan_mutex_pre_signal(void *lock, unsigned flags) { (void)lock, (void)flags; }
void __tsan_mutex_post_signal(void *lock, unsigned flags) { (void)lock, (void)flags; }
void __tsan_mutex_pre_divert(void *lock, unsigned flags) { (void)lock, (void)flags; }
void __tsan_mutex_post_divert(void *lock, unsigned flags) { (void)lock, (void)flags; }

#define NOTE(name) void name(const char *file, int line) { (void)file, (void)line; }
#define NOTE_AT(name) void name(const char *file, int line, const volatile void *at) { (void)file, (void)line, (void)at; }
NOTE(AnnotateIgnoreReadsBegin)
NOTE(AnnotateIgnoreReadsEnd)
NOTE(AnnotateIgnoreWritesBegin)
NOTE(AnnotateIgnoreWritesEnd)
NOTE(AnnotateIgnoreSyncBegin)
NOTE(AnnotateIgnoreSyncEnd)
NOTE_AT(AnnotateHappensBefore)
NOTE_AT(AnnotateHappensAfter)
NOTE_AT(AnnotateRWLockCreate)
NOTE_AT(AnnotateRWLockCreateStatic)
NOTE_AT(AnnotateRWLockDestroy)

void AnnotateRWLockAcquired(const char *file, int line, const volatile void *lock, long is_write)
{
    (void)file, (void)line, (void)lock, (void)is_write;
}

void AnnotateRWLockReleased(const char *file, int line, const volatile void *lock, long is_write)
{
    (void)file, (void)line, (void)lock, (void)is_write;
}

void AnnotateNewMemory(const char *file, int line, const volatile void *at, size_t size)
{
    (void)file, (void)line, (void)at, (void)size;
}

void AnnotateBenignRaceSized(const char *file, int line, const volatile void *at, size_t size, const char *why)
{
    (void)file, (void)line, (void)at, (void)size, (void)why;
}

#endif
