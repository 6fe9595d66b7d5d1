/* A library for LD_PRELOAD, by which kill_test.py kills a process before its N-th write to a store. A write is a call of the C library that
   changes or syncs a file below POTZENDAI_STORE. POTZENDAI_WRITES names a file of two numbers that all processes of a life share: how many
   writes were seen, and how many of them were syncs. It outlives the kill. POTZENDAI_KILL_AT is N; 0 kills nothing.
   No sync reaches the disk: here a process dies, and the machine does not.
   It does not see direct system calls, flushes of the buffers of stdio, and stores through mmap. */
#define _GNU_SOURCE
#include <dlfcn.h>
#include <errno.h>
#include <fcntl.h>
#include <limits.h>
#include <signal.h>
#include <stdatomic.h>
#include <stdint.h>
#include <stdio.h>
#include <stdlib.h>
#include <string.h>
#include <sys/mman.h>
#include <sys/stat.h>
#include <sys/types.h>
#include <sys/uio.h>
#include <unistd.h>

static const char *store;
static uint64_t kill_at, *counted, uncounted[2];

/* Looks up a function of the C library, once. */
static void find(_Atomic(void *) *found, void *to, const char *name)
{
    void *at = atomic_load_explicit(found, memory_order_relaxed);
    if (!at) {
        at = dlsym(RTLD_NEXT, name);
        atomic_store_explicit(found, at, memory_order_relaxed);
    }
    memcpy(to, &at, sizeof at);
}

/* Defines `real`: the function of the C library with this name. */
#define REAL(result, name, parameters)                                                                                                        \
    static _Atomic(void *) found_##name;                                                                                                      \
    result(*real) parameters;                                                                                                                 \
    find(&found_##name, &real, #name)

__attribute__((constructor)) static void begin(void)
{
    const char *at = getenv("POTZENDAI_KILL_AT"), *file = getenv("POTZENDAI_WRITES");
    int fd = file ? open(file, O_RDWR | O_CLOEXEC) : -1;
    void *shared = fd < 0 ? MAP_FAILED : mmap(NULL, sizeof uncounted, PROT_READ | PROT_WRITE, MAP_SHARED, fd, 0);
    if (fd >= 0)
        close(fd);
    counted = shared == MAP_FAILED ? uncounted : (uint64_t *)shared;
    kill_at = at ? strtoull(at, NULL, 10) : 0;
    store = getenv("POTZENDAI_STORE");
}

/* Whether a path without links is below the store. */
static int is_below(const char *path)
{
    size_t length = store ? strlen(store) : 0;
    return length && strncmp(path, store, length) == 0 && path[length] == '/';
}

/* Whether a descriptor is of a file below the store. */
static int is_stored(int fd)
{
    char link[64], path[PATH_MAX];
    ssize_t n;
    if (!counted)
        begin();
    snprintf(link, sizeof link, "/proc/self/fd/%d", fd);
    n = readlink(link, path, sizeof path - 1);
    if (n < 0)
        return 0;
    path[n] = 0;
    return is_below(path);
}

/* Whether a name in a folder is below the store. */
static int is_named(int folder, const char *name)
{
    char path[PATH_MAX], whole[PATH_MAX];
    const char *last = strrchr(name, '/');
    int length = last ? (int)(last - name) + 1 : 0;
    if (!counted)
        begin();
    if (name[0] == '/' || folder == AT_FDCWD)
        snprintf(path, sizeof path, "%.*s.", length, name);
    else
        snprintf(path, sizeof path, "/proc/self/fd/%d/%.*s.", folder, length, name);
    return realpath(path, whole) && (is_below(whole) || (store && strcmp(whole, store) == 0));
}

/* Counts a write, and kills the process and its group before the N-th. */
static void count(int is_sync)
{
    uint64_t n = __atomic_add_fetch(&counted[0], 1, __ATOMIC_SEQ_CST);
    if (is_sync)
        __atomic_add_fetch(&counted[1], 1, __ATOMIC_SEQ_CST);
    if (kill_at && n >= kill_at) {
        kill(0, SIGKILL);
        for (;;)
            pause();
    }
}

#ifndef POWER
static void written(int fd, int flags) { (void)fd, (void)flags; }
static void synced(int fd) { (void)fd; }
static void mapping_synced(const void *at) { (void)at; }
static void all_synced(void) {}
static void lock_names(void) {}
static uint64_t held_by(int folder, const char *name) { return (void)folder, (void)name, 0; }
static void unlock_names(uint64_t gone) { (void)gone; }
#else
static void written(int fd, int flags);
static void synced(int fd);
static void mapping_synced(const void *at);
static void all_synced(void);
static void lock_names(void);
static uint64_t held_by(int folder, const char *name);
static void unlock_names(uint64_t gone);
#endif

/* A call that changes the file of the descriptor `fd`. */
#define CHANGE(result, name, flags, parameters, ...)                                                                                          \
    result name parameters                                                                                                                    \
    {                                                                                                                                         \
        REAL(result, name, parameters);                                                                                                       \
        int before = errno, is_counted = is_stored(fd);                                                                                       \
        result got;                                                                                                                           \
        if (is_counted)                                                                                                                       \
            count(0);                                                                                                                         \
        errno = before;                                                                                                                       \
        got = real(__VA_ARGS__);                                                                                                              \
        before = errno;                                                                                                                       \
        if (is_counted)                                                                                                                       \
            written(fd, flags);                                                                                                               \
        errno = before;                                                                                                                       \
        return got;                                                                                                                           \
    }
CHANGE(ssize_t, write, 0, (int fd, const void *bytes, size_t n), fd, bytes, n)
CHANGE(ssize_t, pwrite, 0, (int fd, const void *bytes, size_t n, off_t at), fd, bytes, n, at)
CHANGE(ssize_t, pwrite64, 0, (int fd, const void *bytes, size_t n, off64_t at), fd, bytes, n, at)
CHANGE(ssize_t, writev, 0, (int fd, const struct iovec *parts, int n), fd, parts, n)
CHANGE(ssize_t, pwritev, 0, (int fd, const struct iovec *parts, int n, off_t at), fd, parts, n, at)
CHANGE(ssize_t, pwritev64, 0, (int fd, const struct iovec *parts, int n, off64_t at), fd, parts, n, at)
CHANGE(ssize_t, pwritev2, flags, (int fd, const struct iovec *parts, int n, off_t at, int flags), fd, parts, n, at, flags)
CHANGE(ssize_t, pwritev64v2, flags, (int fd, const struct iovec *parts, int n, off64_t at, int flags), fd, parts, n, at, flags)
CHANGE(int, ftruncate, 0, (int fd, off_t length), fd, length)
CHANGE(int, ftruncate64, 0, (int fd, off64_t length), fd, length)
CHANGE(int, fallocate, 0, (int fd, int mode, off_t at, off_t length), fd, mode, at, length)
CHANGE(int, fallocate64, 0, (int fd, int mode, off64_t at, off64_t length), fd, mode, at, length)
CHANGE(int, posix_fallocate, 0, (int fd, off_t at, off_t length), fd, at, length)
CHANGE(int, posix_fallocate64, 0, (int fd, off64_t at, off64_t length), fd, at, length)

/* A call that syncs the file of a descriptor. A sync of a file of the store does not reach the disk. */
#define SYNC(name)                                                                                                                            \
    int name(int fd)                                                                                                                          \
    {                                                                                                                                         \
        REAL(int, name, (int));                                                                                                               \
        int before = errno;                                                                                                                   \
        if (!is_stored(fd))                                                                                                                   \
            return errno = before, real(fd);                                                                                                  \
        count(1);                                                                                                                             \
        synced(fd);                                                                                                                           \
        errno = before;                                                                                                                       \
        return 0;                                                                                                                             \
    }
SYNC(fsync)
SYNC(fdatasync)

/* Syncs of all files at once. */
int syncfs(int fd)
{
    if (fcntl(fd, F_GETFD) < 0)
        return -1;
    sync();
    return 0;
}

void sync(void)
{
    int before = errno;
    if (!counted)
        begin();
    count(1);
    all_synced();
    errno = before;
}

int msync(void *at, size_t length, int flags)
{
    REAL(int, msync, (void *, size_t, int));
    int status, before = errno;
    if (!counted)
        begin();
    count(1);
    errno = before;
    status = real(at, length, flags);
    before = errno;
    if (status == 0 && (flags & MS_SYNC))
        mapping_synced(at);
    errno = before;
    return status;
}

/* A call that removes a name, or gives it to another file: whatever only this name had is gone afterwards. */
#define RENAME(name, folder, gone, parameters, ...)                                                                                           \
    int name parameters                                                                                                                       \
    {                                                                                                                                         \
        REAL(int, name, parameters);                                                                                                          \
        int status, before = errno;                                                                                                           \
        uint64_t held;                                                                                                                        \
        if (!is_named(folder, gone))                                                                                                          \
            return errno = before, real(__VA_ARGS__);                                                                                         \
        count(0);                                                                                                                             \
        lock_names();                                                                                                                         \
        held = held_by(folder, gone);                                                                                                         \
        errno = before;                                                                                                                       \
        status = real(__VA_ARGS__);                                                                                                           \
        before = errno;                                                                                                                       \
        unlock_names(status == 0 && held_by(folder, gone) != held ? held : 0);                                                                \
        errno = before;                                                                                                                       \
        return status;                                                                                                                        \
    }
RENAME(unlink, AT_FDCWD, path, (const char *path), path)
RENAME(remove, AT_FDCWD, path, (const char *path), path)
RENAME(unlinkat, folder, path, (int folder, const char *path, int flags), folder, path, flags)
RENAME(rename, AT_FDCWD, to, (const char *from, const char *to), from, to)
RENAME(renameat, other, to, (int folder, const char *from, int other, const char *to), folder, from, other, to)
/* After an exchange nothing is gone. */
RENAME(renameat2, other, (flags & RENAME_EXCHANGE ? "" : to), (int folder, const char *from, int other, const char *to, unsigned flags), folder,
       from, other, to, flags)

/* A call that cuts the file of a path. */
#define TRUNCATE(name, offset)                                                                                                                \
    int name(const char *path, offset length)                                                                                                 \
    {                                                                                                                                         \
        REAL(int, name, (const char *, offset));                                                                                              \
        int before = errno;                                                                                                                   \
        if (is_named(AT_FDCWD, path))                                                                                                         \
            count(0);                                                                                                                         \
        errno = before;                                                                                                                       \
        return real(path, length);                                                                                                            \
    }
TRUNCATE(truncate, off_t)
TRUNCATE(truncate64, off64_t)
