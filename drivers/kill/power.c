/* A library for LD_PRELOAD, by which kill_test.py models a loss of power. It does what crash_at.c does, and also keeps a copy of each file of the
   store: as it was at its last fsync, fdatasync or msync, or after a write to a file that was opened with O_SYNC or O_DSYNC. A copy is named by the
   number of its inode, in the folder POTZENDAI_SHADOW, so a file that is renamed keeps its copy. After the kill, kill_test.py replaces what the
   files hold by these copies. A file without a copy becomes empty. */
#define POWER
#include "crash_at.c"
#include <ftw.h>
#include <inttypes.h>
#include <pthread.h>

static pthread_mutex_t one = PTHREAD_MUTEX_INITIALIZER;

static void name_of(uint64_t inode, const char *end, char *to)
{
    const char *shadow = getenv("POTZENDAI_SHADOW");
    snprintf(to, PATH_MAX, "%s/%" PRIu64 "%s", shadow ? shadow : ".", inode, end);
}

/* Copies a file. A descriptor that can be read is read itself: to close another one would drop the process's locks. */
static void keep(int fd)
{
    char made[PATH_MAX], to[PATH_MAX], link[64], part[1 << 14];
    struct stat file;
    int in = fd, out, is_whole;
    off_t at = 0;
    ssize_t got = 0;
    if (fstat(fd, &file) || !S_ISREG(file.st_mode) || file.st_nlink == 0)
        return;
    snprintf(link, sizeof link, "/proc/self/fd/%d", fd);
    if ((fcntl(fd, F_GETFL) & O_ACCMODE) == O_WRONLY)
        in = open(link, O_RDONLY | O_CLOEXEC);
    pthread_mutex_lock(&one);
    name_of(file.st_ino, ".part", made);
    name_of(file.st_ino, "", to);
    out = open(made, O_WRONLY | O_CREAT | O_TRUNC | O_CLOEXEC, 0600);
    is_whole = in >= 0 && out >= 0;
    while (is_whole && (got = pread(in, part, sizeof part, at)) > 0) {
        is_whole = write(out, part, (size_t)got) == got;
        at += got;
    }
    if (out >= 0)
        close(out);
    /* A file that cannot be copied is no loss of power: the process ends. */
    if (!is_whole || got < 0 || rename(made, to)) {
        fprintf(stderr, "power: no copy of a file of the store: %s\n", strerror(errno));
        _exit(70);
    }
    pthread_mutex_unlock(&one);
    if (in != fd)
        close(in);
}

static void keep_path(const char *path)
{
    int fd = open(path, O_RDONLY | O_CLOEXEC);
    if (fd >= 0) {
        keep(fd);
        close(fd);
    }
}

static int keep_each(const char *path, const struct stat *file, int kind, struct FTW *where)
{
    (void)where;
    if (kind == FTW_F && S_ISREG(file->st_mode))
        keep_path(path);
    return 0;
}

static void written(int fd, int flags)
{
    if ((flags & (RWF_DSYNC | RWF_SYNC)) || (fcntl(fd, F_GETFL) & O_DSYNC))
        keep(fd);
}

static void synced(int fd) { keep(fd); }

static void all_synced(void)
{
    if (store)
        nftw(store, keep_each, 16, FTW_PHYS);
}

static void mapping_synced(const void *at)
{
    char line[PATH_MAX + 128], path[PATH_MAX];
    FILE *maps = fopen("/proc/self/maps", "re");
    uintptr_t low, high;
    int name;
    path[0] = 0;
    while (maps && fgets(line, sizeof line, maps))
        if (sscanf(line, "%" SCNxPTR "-%" SCNxPTR " %*s %*s %*s %*s %n", &low, &high, &name) >= 2 && low <= (uintptr_t)at && (uintptr_t)at < high) {
            snprintf(path, sizeof path, "%.*s", (int)strcspn(line + name, "\n"), line + name);
            break;
        }
    if (maps)
        fclose(maps);
    if (is_below(path))
        keep_path(path);
}

static void lock_names(void) { pthread_mutex_lock(&one); }

/* The inode that only this name has, or 0. */
static uint64_t held_by(int folder, const char *name)
{
    struct stat file;
    return fstatat(folder, name, &file, AT_SYMLINK_NOFOLLOW) == 0 && S_ISREG(file.st_mode) && file.st_nlink == 1 ? file.st_ino : 0;
}

/* Removes the copy of a file that is gone, before another file can have its number. */
static void unlock_names(uint64_t gone)
{
    REAL(int, unlink, (const char *));
    char to[PATH_MAX];
    if (gone) {
        name_of(gone, "", to);
        real(to);
    }
    pthread_mutex_unlock(&one);
}
