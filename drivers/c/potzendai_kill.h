/* A store whose process is killed again and again: each life is a stream, from what was there at its begin to what is there after the kill.
 * Included by potzendai_test.h. */
#ifndef POTZENDAI_KILL_H
#define POTZENDAI_KILL_H

#include "potzendai_life.h"
#include <dirent.h>
#include <fcntl.h>
#include <poll.h>
#include <sys/mman.h>
#include <sys/stat.h>
#include <sys/wait.h>

/* The most seconds that opening a store and reading it may take. */
#ifndef POTZENDAI_OPENING
#define POTZENDAI_OPENING 60
#endif

enum { POTZENDAI_HEARD = 1 << 16 };

/* A process that makes calls, or reads. What is heard of a line that has no end yet waits. */
struct potzendai_child { pid_t process; int from, ended; size_t waits; char text[POTZENDAI_HEARD + 1]; };

/* A run of kills: the folder of the store, that of what was synced, the library that counts writes, and the words of the process. */
struct potzendai_killing {
    struct potzendai_tester *tester;
    struct potzendai_child child;
    char folder[POTZENDAI_PATH], store[POTZENDAI_PATH + 16], shadow[POTZENDAI_PATH + 16], library[POTZENDAI_PATH + 16];
    char **words, *words_text;
    size_t words_count;
    uint64_t *counted, state, first_writes, writes, syncs, at_write, readings, changes;
    unsigned char *functions; /* of each process its last call */
    bool is_getting, is_kept; /* whether the open call of a reading is a get, and whether the folder stays */
};

/* Runs a program to its end. Returns 0 if it succeeds. */
static inline int potzendai_execute(const char *const *words)
{
    int ended = 1;
    pid_t process = fork();
    if (process == 0) {
        execvp(words[0], (char *const *)words);
        _exit(127);
    }
    while (process > 0 && waitpid(process, &ended, 0) < 0 && errno == EINTR)
        ;
    return ended;
}

/* The words of this process as it was started. */
static inline int potzendai_own_words(struct potzendai_killing *k)
{
    FILE *in = fopen("/proc/self/cmdline", "r");
    size_t length = 0, room = 1 << 21;
    k->words_text = (char *)calloc(1, room);
    if (in && k->words_text)
        length = fread(k->words_text, 1, room - 1, in);
    if (in)
        fclose(in);
    for (size_t i = 0; i < length; i++)
        k->words_count += k->words_text[i] == 0;
    k->words = (char **)calloc(k->words_count + 3, sizeof *k->words);
    for (size_t i = 0, at = 0; k->words && i < k->words_count; i++, at += strlen(k->words_text + at) + 1)
        k->words[i] = k->words_text + at;
    return k->words_count > 0 && length < room - 1 && k->words ? 0 : -1;
}

/* Builds the library that counts writes, and has a file for what it counts. */
static inline int potzendai_build_library(struct potzendai_killing *k)
{
    const struct potzendai_options *o = k->tester->options;
    const char *here = __FILE__, *slash = strrchr(here, '/'), *name = o->has_power ? "power.c" : "crash_at.c";
    char source[POTZENDAI_PATH];
    if (!o->has_power && !o->is_killed_at_write)
        return 0;
    snprintf(source, sizeof source, "%.*s../kill/%s", slash ? (int)(slash - here) + 1 : 0, here, name);
    snprintf(k->library, sizeof k->library, "%s/counted", k->folder);
    int file = open(k->library, O_RDWR | O_CREAT, 0600);
    void *counted = file >= 0 && ftruncate(file, 16) == 0 ? mmap(NULL, 16, PROT_READ | PROT_WRITE, MAP_SHARED, file, 0) : MAP_FAILED;
    if (counted == MAP_FAILED || close(file) || setenv("POTZENDAI_WRITES", k->library, 1))
        return potzendai_fail(k->tester->run, POTZENDAI_BAD_FILE, "no file in %.100s", k->folder);
    k->counted = (uint64_t *)counted;
    snprintf(k->library, sizeof k->library, "%s/count.so", k->folder);
    const char *const words[] = {"cc", "-std=c11", "-shared", "-fPIC", "-o", k->library, source, "-ldl", "-lpthread", NULL};
    if (access(source, R_OK) == 0 && potzendai_execute(words) == 0)
        return 0;
    return potzendai_fail(k->tester->run, POTZENDAI_BAD_WORDS, "--kill-at-write and --power need cc and %.90s: run where it was compiled", source);
}

/* Makes a folder in the one for files, and has its path without links. */
static inline bool potzendai_make_folder(struct potzendai_killing *k)
{
    char link[64], path[POTZENDAI_PATH - 16];
    int folder = open(k->tester->options->out, O_RDONLY | O_DIRECTORY);
    snprintf(link, sizeof link, "/proc/self/fd/%d", folder);
    ssize_t length = folder < 0 ? -1 : readlink(link, path, sizeof path);
    if (folder >= 0)
        close(folder);
    if (length < 0 || length == sizeof path)
        return false;
    snprintf(k->folder, sizeof k->folder, "%.*s/kill-XXXXXX", (int)length, path);
    return mkdtemp(k->folder) != NULL;
}

/* Opens the folder of the run, and says in the environment what its processes are to know. */
static inline int potzendai_open_kills(struct potzendai_killing *k)
{
    const struct potzendai_options *o = k->tester->options;
    char seed[32];
    bool is_made = potzendai_make_folder(k);
    if (!is_made)
        k->folder[0] = 0;
    snprintf(k->store, sizeof k->store, "%s/store", k->folder);
    snprintf(k->shadow, sizeof k->shadow, "%s/synced", k->folder);
    snprintf(seed, sizeof seed, "%" PRIu64, o->seed);
    if (!is_made || mkdir(k->store, 0700) || mkdir(k->shadow, 0700) || setenv("POTZENDAI_SHADOW", k->shadow, 1) || setenv("POTZENDAI_SEED", seed, 1))
        return potzendai_fail(k->tester->run, POTZENDAI_BAD_FILE, "no folder in %.100s", o->out);
    k->state = o->seed;
    k->functions = (unsigned char *)calloc((size_t)o->threads + POTZENDAI_OTHERS + 1, 1);
    if (!k->functions || potzendai_own_words(k))
        return potzendai_fail(k->tester->run, POTZENDAI_NO_MEMORY, "memory: no room for a run");
    return potzendai_build_library(k);
}

/* Starts a process on the store, which begins as this one did, with two words more. */
static inline int potzendai_start_child(struct potzendai_killing *k, const char *word, uint64_t number, uint64_t kill_at)
{
    int ends[2];
    char digits[32], at[32], readings[32];
    snprintf(digits, sizeof digits, "%" PRIu64, number);
    snprintf(at, sizeof at, "%" PRIu64, kill_at);
    snprintf(readings, sizeof readings, "%" PRIu64, k->readings);
    k->words[k->words_count] = (char *)word;
    k->words[k->words_count + 1] = digits;
    k->child.waits = 0;
    if (k->counted)
        memset(k->counted, 0, 16);
    if (pipe(ends))
        return potzendai_fail(k->tester->run, POTZENDAI_BAD_FILE, "no pipe");
    k->child.from = ends[0];
    k->child.process = fork();
    if (k->child.process == 0) {
        setsid();
        bool is_set = setenv("POTZENDAI_STORE", k->store, 1) == 0 && setenv("POTZENDAI_KILL_AT", at, 1) == 0
            && setenv("POTZENDAI_READINGS", readings, 1) == 0;
        if (*k->library)
            is_set = is_set && setenv("LD_PRELOAD", k->library, 1) == 0;
        close(ends[0]);
        if (is_set && dup2(ends[1], 1) == 1 && close(ends[1]) == 0)
            execv("/proc/self/exe", k->words);
        _exit(127);
    }
    close(ends[1]);
    return k->child.process > 0 ? 0 : potzendai_fail(k->tester->run, POTZENDAI_NO_MEMORY, "no process was started");
}

/* Kills the process with all that it started, and waits for it: how it ended. */
static inline int potzendai_end_child(struct potzendai_child *c)
{
    kill(-c->process, SIGKILL);
    while (waitpid(c->process, &c->ended, 0) < 0 && errno == EINTR)
        ;
    close(c->from);
    return c->ended;
}

/* Reads what the process writes until then. Returns the length of the whole lines at the beginning of its text, 0 at the end, or -1 if nothing came. */
static inline ssize_t potzendai_hear(struct potzendai_child *c, double until)
{
    struct pollfd one = {c->from, POLLIN, 0};
    ssize_t got = -1;
    double left = until - potzendai_now();
    int ready = poll(&one, 1, left <= 0 ? 0 : left > 100 ? 100000 : (int)(left * 1000) + 1);
    if (ready > 0)
        got = read(c->from, c->text + c->waits, POTZENDAI_HEARD - c->waits);
    if (got <= 0)
        return got;
    size_t length = c->waits + (size_t)got, whole = length;
    while (whole > 0 && c->text[whole - 1] != '\n')
        whole--;
    c->waits = length - whole;
    c->text[length] = 0;
    return whole > 0 ? (ssize_t)whole : -1;
}

/* Drops the lines that were heard. */
static inline void potzendai_heard(struct potzendai_child *c, ssize_t length)
{
    memmove(c->text, c->text + length, c->waits);
}

/* Counts a line by its function, and by what it was answered. A read that says nothing is written as refused. */
static inline void potzendai_count_line(struct potzendai_killing *k, const char *line, uint64_t process)
{
    static const char *const calls[] = {"get", "insert", "remove", "scan", "replace", NULL};
    struct potzendai_counts *counts = &k->tester->run->counts;
    const char *word = line + 10 + strspn(line + 10, "[\"");
    int function = potzendai_place(calls, word, strcspn(word, "\""));
    if (process > k->tester->options->threads + POTZENDAI_OTHERS)
        return;
    if (line[2] == 'i' && function >= 0) {
        counts->functions_called[function]++;
        k->functions[process] = (unsigned char)function;
        return;
    }
    enum map_said said = *word == 'n' ? MAP_NONE : *word == 'd' ? MAP_DONE : *word == 'f' ? MAP_FOUND : *word == 'o' ? MAP_OTHER
                       : *word != 'r' ? MAP_TOLD : potzendai_writes((enum potzendai_function)k->functions[process]) ? MAP_REFUSED : MAP_DONE;
    counts->sayings[said]++;
    k->changes += said != MAP_REFUSED && potzendai_writes((enum potzendai_function)k->functions[process]);
    counts->hits += k->functions[process] == POTZENDAI_GET && (said == MAP_TOLD || said == MAP_FOUND);
}

/* Counts the lines of a life. */
static inline void potzendai_count_lines(struct potzendai_killing *k, const char *text, size_t length)
{
    for (const char *end, *line = text; (end = (const char *)memchr(line, '\n', (size_t)(text + length - line))) != NULL; line = end + 1) {
        const char *digits = end - 1;
        while (digits > line && digits[-1] != ':')
            digits--;
        potzendai_count_line(k, line, strtoull(digits, NULL, 10));
    }
}

/* Hands lines to the follower, and saves them: -1 if the stream can get no yes any more. */
static inline int potzendai_relay(struct potzendai_following *f, const char *text, size_t length)
{
    potzendai_keep_lines(f, text, length);
    potzendai_meet(&f->meetings, text, length);
    return potzendai_follow_event(&f->follower, text, length) ? -1 : 0;
}

/* Relays the lines of a life until its kill, which comes some time after its first call, and to their end. Answers whether this run killed it. */
static inline bool potzendai_hear_life(struct potzendai_killing *k, struct potzendai_following *f)
{
    double drawn = k->tester->options->kill * (0.5 + (double)(potzendai_mix(&k->state) >> 11) / 9007199254740992.0);
    double due = potzendai_now() + POTZENDAI_OPENING;
    bool is_killed = false, has_begun = false;
    ssize_t length;
    while ((length = potzendai_hear(&k->child, due)) != 0) {
        if (length > 0) {
            due = has_begun ? due : potzendai_now() + drawn;
            has_begun = true;
            potzendai_count_lines(k, k->child.text, (size_t)length);
            due = potzendai_relay(f, k->child.text, (size_t)length) ? 0 : due;
            potzendai_heard(&k->child, length);
        }
        bool is_due = potzendai_now() >= due || potzendai_is_interrupted();
        if (is_due && is_killed)
            break; /* a process that it started has left its group, and holds the pipe */
        if (is_due) {
            kill(-k->child.process, SIGKILL);
            is_killed = true;
            due = potzendai_now() + POTZENDAI_OPENING;
        }
    }
    potzendai_end_child(&k->child);
    return is_killed;
}

/* Takes the lines of a reading: the next start has what the get of each key found, or what was put if a get does not say that. */
static inline void potzendai_take_read(struct potzendai_killing *k, const char *line)
{
    static const char get[] = "{\"invoke\":[\"get\",", put[] = "{\"invoke\":[\"insert\",", answer[] = "{\"answer\":";
    struct potzendai_tester *tester = k->tester;
    for (; *line && strchr(line, '\n') && tester->pairs_next < tester->options->keys; line = strchr(line, '\n') + 1) {
        struct recording_pair *pair = &tester->next_start[tester->pairs_next];
        char *end = NULL;
        if (strncmp(line, get, sizeof get - 1) == 0) {
            pair->key = strtoull(line + sizeof get - 1, NULL, 10);
            k->is_getting = true;
        } else if (strncmp(line, put, sizeof put - 1) == 0) {
            pair->key = strtoull(line + sizeof put - 1, &end, 10);
            pair->value = strtoull(end + (*end == ','), NULL, 10);
            tester->pairs_next++;
        } else if (strncmp(line, answer, sizeof answer - 1) == 0) {
            pair->value = strtoull(line + sizeof answer - 1, NULL, 10);
            tester->pairs_next += k->is_getting && line[sizeof answer - 1] != 'n';
            k->is_getting = false;
        }
    }
}

/* Reads the store in a process of its own: NULL, or what was in its way. `f` is NULL before the first life. */
static inline const char *potzendai_hear_reading(struct potzendai_killing *k, struct potzendai_following *f)
{
    double due = potzendai_now() + POTZENDAI_OPENING;
    ssize_t length;
    k->tester->pairs_next = 0;
    if (potzendai_start_child(k, "read", k->tester->options->keys, 0))
        return "no process was started";
    k->readings++;
    while ((length = potzendai_hear(&k->child, due)) != 0 && potzendai_now() < due) {
        if (length < 0)
            continue;
        potzendai_take_read(k, k->child.text);
        if (f)
            potzendai_relay(f, k->child.text, (size_t)length);
        potzendai_heard(&k->child, length);
    }
    bool is_over = length == 0;
    int ended = potzendai_end_child(&k->child);
    return !is_over ? "the reading did not end in time" : ended ? "the reading failed" : NULL;
}

/* Gives a file of the store what it held at its last sync, or nothing if it never was synced. */
static inline int potzendai_give_back(const char *path, const char *shadow, uint64_t inode)
{
    char copy[POTZENDAI_PATH + 40], kept[POTZENDAI_PATH + 48], part[1 << 14];
    snprintf(copy, sizeof copy, "%s/%" PRIu64, shadow, inode);
    snprintf(kept, sizeof kept, "%s.kept", copy);
    if (rename(copy, kept) && errno != ENOENT)
        return -1;
    int to = open(path, O_WRONLY | O_TRUNC), from = open(kept, O_RDONLY), status = to < 0 ? -1 : 0;
    ssize_t got = 0;
    while (status == 0 && from >= 0 && (got = read(from, part, sizeof part)) > 0)
        status = write(to, part, (size_t)got) == got ? 0 : -1;
    if (to >= 0)
        close(to);
    if (from >= 0)
        close(from);
    return got < 0 ? -1 : status;
}

/* What is done with each name in a folder. */
typedef int potzendai_each_name(const char *path, const struct stat *file, const char *shadow);

static inline int potzendai_for_names(const char *folder, const char *shadow, potzendai_each_name *each)
{
    DIR *names = opendir(folder);
    int status = names ? 0 : -1;
    for (struct dirent *name; status == 0 && (name = readdir(names)) != NULL;) {
        char path[POTZENDAI_PATH + 300];
        struct stat file;
        if (strcmp(name->d_name, ".") == 0 || strcmp(name->d_name, "..") == 0)
            continue;
        int length = snprintf(path, sizeof path, "%s/%s", folder, name->d_name);
        status = length < (int)sizeof path && lstat(path, &file) == 0 ? each(path, &file, shadow) : -1;
    }
    if (names)
        closedir(names);
    return status;
}

static inline int potzendai_lose(const char *path, const struct stat *file, const char *shadow)
{
    if (S_ISDIR(file->st_mode))
        return potzendai_for_names(path, shadow, potzendai_lose);
    return S_ISREG(file->st_mode) ? potzendai_give_back(path, shadow, (uint64_t)file->st_ino) : 0;
}

/* Removes a copy whose file is gone, since another file may get its number later. */
static inline int potzendai_sort_copy(const char *path, const struct stat *file, const char *shadow)
{
    size_t length = strlen(path);
    char name[POTZENDAI_PATH + 300];
    (void)file, (void)shadow;
    if (length < 5 || strcmp(path + length - 5, ".kept") != 0)
        return unlink(path);
    snprintf(name, sizeof name, "%.*s", (int)length - 5, path);
    return rename(path, name);
}

/* Leaves each file of the store what it held when it was last synced. */
static inline int potzendai_lose_power(struct potzendai_killing *k)
{
    if (!k->tester->options->has_power)
        return 0;
    if (potzendai_for_names(k->store, k->shadow, potzendai_lose) || potzendai_for_names(k->shadow, "", potzendai_sort_copy))
        return potzendai_fail(k->tester->run, POTZENDAI_BAD_FILE, "power: files of the store were not restored");
    return 0;
}

static inline int potzendai_is_there(const char *path, const struct stat *file, const char *shadow)
{
    (void)path, (void)file, (void)shadow;
    return 1;
}

/* Fails if a run looks for writes and has seen none, once a change was answered or the run is over. */
static inline int potzendai_check_seen(struct potzendai_killing *k, bool is_over)
{
    if (!k->counted || k->writes > 0 || (!is_over && k->changes == 0))
        return 0;
    return potzendai_fail(k->tester->run, POTZENDAI_BAD_WORDS, "no write of the store was seen: it writes by direct system calls, through mmap or "
                                                               "stdio, or not in potzendai_store()");
}

/* Takes the end of a life. Returns -1 if it was no kill, or if nothing of the store was seen. */
static inline int potzendai_take_end(struct potzendai_killing *k, const struct potzendai_following *f, bool is_killed, uint64_t kill_at)
{
    struct potzendai_tester *tester = k->tester;
    struct potzendai_run *run = tester->run;
    uint64_t writes = k->counted ? k->counted[0] : 0;
    bool is_at_write = kill_at > 0 && writes >= kill_at;
    k->writes += writes;
    k->syncs += k->counted ? k->counted[1] : 0;
    k->at_write += is_at_write;
    k->first_writes = k->first_writes ? k->first_writes : writes;
    run->counts.calls += f->meetings.calls;
    run->counts.overlap += (uint64_t)(potzendai_met_a_call(&f->meetings) * (double)f->meetings.calls);
    tester->kills.open += f->meetings.open;
    if (!(is_killed || is_at_write) || !WIFSIGNALED(k->child.ended) || WTERMSIG(k->child.ended) != SIGKILL)
        return potzendai_fail(run, POTZENDAI_BAD_WORDS, "life %" PRIu64 " ended on its own%s", run->round,
                              f->meetings.calls ? "" : ", before its first call");
    if (potzendai_check_seen(k, false))
        return -1;
    if (f->meetings.calls > 0 && potzendai_for_names(k->store, "", potzendai_is_there) != 1)
        return potzendai_fail(run, POTZENDAI_BAD_WORDS, "begin opened no store in potzendai_store()");
    return potzendai_lose_power(k);
}

/* Opens a stream of a life, which begins with what the last reading found. */
static inline int potzendai_open_life(struct potzendai_killing *k, struct potzendai_following *f)
{
    struct potzendai_tester *tester = k->tester;
    f->tester = tester;
    f->meetings.processes = tester->options->threads + POTZENDAI_OTHERS + 1;
    f->meetings.with = (uint64_t *)calloc((size_t)f->meetings.processes, sizeof *f->meetings.with);
    char *first = (char *)malloc(tester->pairs_at_start * RECORDING_PAIR_TEXT + 64);
    if (!f->meetings.with || !first || potzendai_follow_open(&f->follower, (uint32_t)tester->options->budget)) {
        free(first);
        return potzendai_fail(tester->run, POTZENDAI_NO_MEMORY, "memory: no follower");
    }
    char *end = recording_put_pairs(recording_put(first, "{\"start\":"), tester->start, tester->pairs_at_start);
    end = recording_put(end, ",\"version\":3}\n");
    potzendai_relay(f, first, (size_t)(end - first));
    free(first);
    return 0;
}

/* Says where the recording and the store of a life are. */
static inline void potzendai_keep_life(struct potzendai_killing *k)
{
    k->is_kept = true;
    fprintf(stderr, "  store: %s\n", k->store);
}

/* A store that does not open again has lost all. */
static inline int potzendai_not_opened(struct potzendai_killing *k, struct potzendai_following *f, const char *why)
{
    struct potzendai_tester *tester = k->tester;
    snprintf(tester->kills.ending, sizeof tester->kills.ending, "does not open after kill %" PRIu64 " (%s)", tester->run->round, why);
    tester->ending = tester->kills.ending;
    potzendai_keep(tester, ".jsonl", f->kept ? f->kept : "", f->kept_length);
    potzendai_keep_life(k);
    potzendai_tell_again(tester, 0);
    return POTZENDAI_IS_NO;
}

/* Makes one life, and has it judged with the reading after it. */
static inline int potzendai_judge_life(struct potzendai_killing *k, struct potzendai_following *f)
{
    struct potzendai_tester *tester = k->tester;
    uint64_t kill_at = tester->options->is_killed_at_write && k->first_writes ? 1 + potzendai_draw_below(&k->state, k->first_writes) : 0;
    if (potzendai_start_child(k, "run", tester->run->round, kill_at))
        return -1;
    bool is_killed = potzendai_hear_life(k, f);
    if (potzendai_take_end(k, f, is_killed, kill_at))
        return -1;
    uint64_t lived = 2 * f->meetings.calls - f->meetings.open;
    const char *why = potzendai_hear_reading(k, f);
    if (why)
        return potzendai_not_opened(k, f, why);
    int status = potzendai_end_stream(f);
    if (status == POTZENDAI_IS_NO) {
        fprintf(stderr, "  killed after event %" PRIu64 ": the events after it are the reads of the store\n", lived);
        potzendai_keep_life(k);
    }
    return status;
}

static inline int potzendai_one_life(struct potzendai_killing *k)
{
    struct potzendai_following *f = (struct potzendai_following *)calloc(1, sizeof *f);
    k->tester->run->round = k->tester->rounds;
    if (!f)
        return potzendai_fail(k->tester->run, POTZENDAI_NO_MEMORY, "memory: no room for a life");
    int status = potzendai_open_life(k, f);
    status = status ? status : potzendai_judge_life(k, f);
    potzendai_close_follower(f);
    free(f->kept);
    free(f->meetings.with);
    free(f);
    potzendai_go_on(k->tester);
    return status == POTZENDAI_IS_UNDECIDED ? 0 : status;
}

/* Removes the folder of the run, unless it is kept. */
static inline void potzendai_close_kills(struct potzendai_killing *k)
{
    const char *const words[] = {"rm", "-rf", "--", k->folder, NULL};
    if (*k->folder && !k->is_kept)
        potzendai_execute(words);
    free(k->functions);
    free(k->words);
    free(k->words_text);
    free(k);
}

/* What the verdict says of writes. */
static inline void potzendai_tell_writes(const struct potzendai_killing *k)
{
    char *to = k->tester->kills.counted;
    if (k->counted && k->tester->options->is_killed_at_write)
        to += sprintf(to, ", %" PRIu64 " killed at one of %" PRIu64 " writes", k->at_write, k->first_writes);
    if (k->counted)
        sprintf(to, ", %" PRIu64 " writes and syncs, %" PRIu64 " syncs", k->writes, k->syncs);
}

/* Makes life after life, until one has no order, the store does not open, or the time is over. Returns a status, or -1 if the run fails. */
static inline int potzendai_kill_lives(struct potzendai_tester *tester)
{
    struct potzendai_killing *k = (struct potzendai_killing *)calloc(1, sizeof *k);
    if (!k)
        return potzendai_fail(tester->run, POTZENDAI_NO_MEMORY, "memory: no room for a run");
    k->tester = tester;
    int status = potzendai_open_kills(k);
    const char *why = status ? NULL : potzendai_hear_reading(k, NULL);
    if (why)
        status = potzendai_fail(tester->run, POTZENDAI_BAD_WORDS, "the store does not open before the first life: %s", why);
    potzendai_go_on(tester);
    for (tester->rounds = 0; status == 0 && potzendai_is_more(tester);)
        status = potzendai_one_life(k);
    if (status == 0 && tester->run->counts.calls == 0)
        status = potzendai_fail(tester->run, POTZENDAI_IS_UNDECIDED, "no life had a call: nothing was tested");
    status = status ? status : potzendai_check_seen(k, true);
    potzendai_tell_writes(k);
    potzendai_close_kills(k);
    return status == 0 && tester->undecided > 0 ? POTZENDAI_IS_UNDECIDED : status;
}

#endif
