/* The program `bench` in place of the library: a process of its own answers each question, and one reads a stream from a pipe. The functions have the
 * names of those in potzendai.h, with the same statuses and texts. Included by potzendai_test.h. */
#ifndef POTZENDAI_PROGRAM_H
#define POTZENDAI_PROGRAM_H

#include "potzendai_words.h"
#include <signal.h>
#include <spawn.h>
#include <sys/ioctl.h>
#include <sys/stat.h>
#include <sys/wait.h>

#define POTZENDAI_REPORT 32768

#ifdef __cplusplus
extern "C" {
#endif
extern char **environ;
#ifdef __cplusplus
}
#endif

/* The path of the program: the argument of --bench. */
static const char *potzendai_bench;

/* A process of the program, what it writes, and its exit status, or 128 and the signal that has ended it; below 0 an errno of what failed. Until the
 * program is built its standard error is that of the run, since a build takes minutes and says how far it is. Later only faults are shown. */
struct potzendai_asked { const char *command; pid_t process; FILE *out, *said; int status; };

/* A stream that is followed: `to` is written to until the program has ended; and how many calls were written. */
struct potzendai_follower { struct potzendai_asked asked; int to; uint64_t calls; };

/* Whether `judge` has answered once, and whether another subcommand has. If --bench is the repository's script, the program is built then. */
static bool potzendai_has_judged, potzendai_has_told;

static inline bool *potzendai_has_done(const char *command)
{
    return strcmp(command, "judge") == 0 ? &potzendai_has_judged : &potzendai_has_told;
}

/* The program to start. For that script it is the last one that it built: the script takes as long as ten rounds to see that nothing has changed. */
static inline const char *potzendai_find_bench(const char *command, char path[POTZENDAI_PATH])
{
    static const char *const names[] = {"bench_judge", "bench_histories", "bench"};
    const char *slash = strrchr(potzendai_bench, '/');
    bool is_script = slash && strcmp(slash, "/bench") == 0;
    int folder = slash ? (int)(slash - potzendai_bench) : 0;
    char one[POTZENDAI_PATH], built[POTZENDAI_PATH];
    struct stat found;
    time_t newest = 0;
    snprintf(path, POTZENDAI_PATH, "%s", potzendai_bench);
    for (int i = strcmp(command, "judge") != 0; is_script && *potzendai_has_done(command) && i < 3; i++) {
        int length = snprintf(one, sizeof one, "%.*s/crates/%s/out/%s", folder, potzendai_bench, names[i], names[i]);
        snprintf(built, sizeof built, "%.*s/crates/%s/out/built", folder, potzendai_bench, names[i]);
        if (length < POTZENDAI_PATH && access(one, X_OK) == 0 && stat(built, &found) == 0 && found.st_mtime > newest) {
            newest = found.st_mtime;
            memcpy(path, one, sizeof one);
        }
    }
    return path;
}

/* Opens the files for what the program writes: 0, or an errno below 0. */
static inline int potzendai_open_asked(struct potzendai_asked *asked, const char *command)
{
    asked->command = command;
    asked->process = -1;
    errno = 0;
    asked->out = tmpfile();
    asked->said = asked->out && *potzendai_has_done(command) ? tmpfile() : NULL;
    bool is_open = asked->out && (asked->said || !*potzendai_has_done(command));
    asked->status = is_open ? 0 : errno ? -errno : -ENOMEM;
    return asked->status;
}

/* Spawns the program. Once it is built, Ctrl-C does not end it: the run ends with its answer. */
static inline int potzendai_spawn(struct potzendai_asked *asked, const posix_spawn_file_actions_t *ends, char **words)
{
    posix_spawnattr_t how;
    sigset_t blocked;
    int fault = posix_spawnattr_init(&how);
    if (fault)
        return fault;
    if (*potzendai_has_done(asked->command)) {
        fault = pthread_sigmask(SIG_BLOCK, NULL, &blocked);
        sigaddset(&blocked, SIGINT);
        fault = fault ? fault : posix_spawnattr_setsigmask(&how, &blocked);
        fault = fault ? fault : posix_spawnattr_setflags(&how, POSIX_SPAWN_SETSIGMASK);
    }
    fault = fault ? fault : posix_spawnp(&asked->process, words[0], ends, &how, words, environ);
    posix_spawnattr_destroy(&how);
    return fault;
}

/* Starts the program with this standard input. */
static inline void potzendai_start_bench(struct potzendai_asked *asked, uint32_t budget, int input)
{
    char number[16], path[POTZENDAI_PATH];
    char *words[] = {path, (char *)asked->command, (char *)"--budget", number, NULL};
    posix_spawn_file_actions_t ends;
    snprintf(number, sizeof number, "%" PRIu32, budget);
    int fault = posix_spawn_file_actions_init(&ends);
    if (!fault) {
        fault = posix_spawn_file_actions_adddup2(&ends, input, 0);
        fault = fault ? fault : posix_spawn_file_actions_adddup2(&ends, fileno(asked->out), 1);
        fault = fault || !asked->said ? fault : posix_spawn_file_actions_adddup2(&ends, fileno(asked->said), 2);
        potzendai_find_bench(asked->command, path);
        fault = fault ? fault : potzendai_spawn(asked, &ends, words);
        posix_spawn_file_actions_destroy(&ends);
    }
    asked->process = fault ? -1 : asked->process;
    asked->status = -fault;
}

/* Waits until the program has ended. */
static inline void potzendai_wait_for(struct potzendai_asked *asked)
{
    int ended = 0;
    if (asked->process < 0)
        return;
    while (waitpid(asked->process, &ended, 0) < 0)
        if (errno != EINTR) {
            asked->status = -errno;
            return;
        }
    asked->status = WIFEXITED(ended) ? WEXITSTATUS(ended) : 128 + WTERMSIG(ended);
}

static inline void potzendai_close_asked(struct potzendai_asked *asked)
{
    if (asked->out)
        fclose(asked->out);
    if (asked->said)
        fclose(asked->said);
}

/* Reads a whole file as a call of the library writes a text: into a room, with its length. */
static inline void potzendai_read_answer(FILE *out, char *room, size_t room_length, size_t *length)
{
    long end = fseek(out, 0, SEEK_END) ? -1 : ftell(out);
    *length = end > 0 && fseek(out, 0, SEEK_SET) == 0 ? (size_t)end : 0;
    size_t wanted = *length < room_length ? *length : room_length - 1;
    size_t had = fread(room, 1, wanted, out);
    room[had] = 0;
    if (had < wanted)
        *length = had;
}

/* Whether the first line of a report ends with the verdict of a status. */
static inline bool potzendai_has_verdict(const char *report, int status)
{
    static const char *const ends[] = {"\"verdict\":\"yes\"}", "\"verdict\":\"no\"}", "\"verdict\":\"undecided\"}"};
    size_t length = strcspn(report, "\n"), end = strlen(ends[status]);
    return length >= end && memcmp(report + length - end, ends[status], end) == 0;
}

/* Writes that the program gave no verdict, and why: its status with its first line of standard error, or what failed. */
static inline uint32_t potzendai_no_answer(struct potzendai_asked *asked, const char *why, char *room, size_t room_length, size_t *length)
{
    char said[160] = "", number[32] = "";
    size_t some = 0;
    if (asked->said)
        potzendai_read_answer(asked->said, said, sizeof said, &some);
    said[strcspn(said, "\n")] = 0;
    if (asked->status >= 0)
        snprintf(number, sizeof number, "status %d", asked->status);
    snprintf(room, room_length, "%s %s: %s%s%s%s", potzendai_bench, asked->command, asked->status < 0 ? strerror(-asked->status) : number, why,
             *said ? ": " : "", said);
    *length = strlen(room);
    return asked->status > POTZENDAI_IS_UNDECIDED && asked->status < POTZENDAI_BAD_FILE ? (uint32_t)asked->status : (uint32_t)POTZENDAI_BAD_FILE;
}

/* What the program has answered: the status of a verdict with its report, or why there is none. */
static inline uint32_t potzendai_take_answer(struct potzendai_asked *asked, char *room, size_t room_length, size_t *length)
{
    if (asked->status < POTZENDAI_IS_YES || asked->status > POTZENDAI_IS_UNDECIDED)
        return potzendai_no_answer(asked, "", room, room_length, length);
    potzendai_read_answer(asked->out, room, room_length, length);
    bool is_cut = *length >= room_length, is_file = strcmp(asked->command, "draw") == 0 || strcmp(asked->command, "page") == 0;
    if (!is_cut && !is_file && !potzendai_has_verdict(room, asked->status))
        return potzendai_no_answer(asked, " without its verdict", room, room_length, length);
    *potzendai_has_done(asked->command) = true;
    return (uint32_t)asked->status;
}

/* Asks the program about a history, as a call of the library does. */
static inline uint32_t potzendai_ask_bench(const char *command, const char *text, size_t text_length, uint32_t budget, char *room,
                                           size_t room_length, size_t *length)
{
    struct potzendai_asked asked;
    int fault = potzendai_open_asked(&asked, command);
    errno = fault ? -fault : 0;
    FILE *in = fault ? NULL : tmpfile();
    if (in && fwrite(text, 1, text_length, in) == text_length && fflush(in) == 0 && fseek(in, 0, SEEK_SET) == 0) {
        potzendai_start_bench(&asked, budget, fileno(in));
        potzendai_wait_for(&asked);
    } else
        asked.status = errno ? -errno : -EIO;
    uint32_t answer = potzendai_take_answer(&asked, room, room_length, length);
    if (in)
        fclose(in);
    potzendai_close_asked(&asked);
    return answer;
}

static inline uint32_t potzendai_judge(const char *text, size_t text_length, uint32_t budget, char *room, size_t room_length, size_t *length)
{
    return potzendai_ask_bench("judge", text, text_length, budget, room, room_length, length);
}

static inline uint32_t potzendai_explain(const char *text, size_t text_length, uint32_t budget, char *room, size_t room_length, size_t *length)
{
    return potzendai_ask_bench("explain", text, text_length, budget, room, room_length, length);
}

static inline uint32_t potzendai_draw_part(const char *text, size_t text_length, uint32_t budget, char *room, size_t room_length, size_t *length)
{
    return potzendai_ask_bench("draw", text, text_length, budget, room, room_length, length);
}

static inline uint32_t potzendai_page(const char *text, size_t text_length, uint32_t budget, char *room, size_t room_length, size_t *length)
{
    return potzendai_ask_bench("page", text, text_length, budget, room, room_length, length);
}

/* Opens those of standard input, output and error that are closed, so that no other file gets their numbers. */
static inline void potzendai_hold_standard(void)
{
    FILE *nothing = fopen("/dev/null", "r");
    while (nothing && fileno(nothing) <= 2)
        nothing = fopen("/dev/null", "r");
    if (nothing)
        fclose(nothing);
}

/* Asks the program about no calls at all, so that it is built before a run begins: 0, or the status of what failed. The program is waited for, which
 * is impossible while SIGCHLD is ignored. */
static inline int potzendai_open_bench(const char *path, bool is_stream)
{
    char room[POTZENDAI_REPORT];
    size_t length;
    const char *command = is_stream ? "follow" : "judge", *text = is_stream ? "" : "{\"events\":[],\"version\":1}\n";
    struct sigaction child;
    potzendai_bench = path;
    potzendai_hold_standard();
    if (sigaction(SIGCHLD, NULL, &child) == 0 && (child.sa_handler == SIG_IGN || (child.sa_flags & SA_NOCLDWAIT)))
        signal(SIGCHLD, SIG_DFL);
    uint32_t status = potzendai_ask_bench(command, text, strlen(text), POTZENDAI_USUAL, room, sizeof room, &length);
    if (status != POTZENDAI_IS_YES)
        fprintf(stderr, "--bench: %s\n", room);
    return (int)status;
}

/* Ends the stream, and waits until the program has answered. */
static inline void potzendai_end_lines(struct potzendai_follower *follower)
{
    if (follower->to < 0)
        return;
    close(follower->to);
    follower->to = -1;
    potzendai_wait_for(&follower->asked);
}

/* Begins a stream. If the program is not found, the verdict says so. */
static inline uint32_t potzendai_follow_open(struct potzendai_follower *follower, uint32_t budget)
{
    int ends[2];
    follower->to = -1;
    follower->calls = 0;
    if (potzendai_open_asked(&follower->asked, "follow") || pipe(ends)) {
        follower->asked.status = follower->asked.status ? follower->asked.status : -errno;
        return POTZENDAI_NO_MEMORY;
    }
    ioctl(ends[1], FIOCLEX); /* the program does not keep the writing end of its own input open */
    potzendai_start_bench(&follower->asked, budget, ends[0]);
    close(ends[0]);
    follower->to = ends[1];
    return POTZENDAI_IS_YES;
}

/* How many calls begin in these lines. */
static inline uint64_t potzendai_count_invoked(const char *lines, size_t length)
{
    static const char begin[] = "{\"invoke\":";
    uint64_t count = 0;
    for (const char *at = lines, *end = lines + length; at && at < end; at = (const char *)memchr(at, '\n', (size_t)(end - at))) {
        at += *at == '\n';
        count += (size_t)(end - at) >= sizeof begin - 1 && memcmp(at, begin, sizeof begin - 1) == 0;
    }
    return count;
}

/* Writes lines to the program: 0, or 1 if it takes no more. Then it has ended. */
static inline uint32_t potzendai_follow_event(struct potzendai_follower *follower, const char *lines, size_t length)
{
    follower->calls += potzendai_count_invoked(lines, length);
    while (length > 0 && follower->to >= 0) {
        ssize_t some = write(follower->to, lines, length);
        if (some < 0 && errno != EINTR)
            potzendai_end_lines(follower);
        else if (some > 0) {
            lines += some;
            length -= (size_t)some;
        }
    }
    return length > 0;
}

/* Ends the stream, and returns the verdict of the program. A yes has to be of all calls that were written. */
static inline uint32_t potzendai_follow_verdict(struct potzendai_follower *follower, char *room, size_t room_length, size_t *length)
{
    char calls[32];
    potzendai_end_lines(follower);
    uint32_t status = potzendai_take_answer(&follower->asked, room, room_length, length);
    snprintf(calls, sizeof calls, "{\"calls\":%" PRIu64 ",", follower->calls);
    if (status != POTZENDAI_IS_YES || strncmp(room, calls, strlen(calls)) == 0)
        return status;
    return potzendai_no_answer(&follower->asked, ", and the stream was cut off", room, room_length, length);
}

static inline void potzendai_follow_close(struct potzendai_follower *follower)
{
    potzendai_end_lines(follower);
    potzendai_close_asked(&follower->asked);
}

#endif
