/* Verdicts of the library or the program, and how a no is shown: in words and by files. Included by potzendai_rounds.h. */
#ifndef POTZENDAI_VERDICT_H
#define POTZENDAI_VERDICT_H

#include "potzendai_tell.h"
#include "potzendai_tester.h"
#ifdef POTZENDAI_NO_LIBRARY
#include "potzendai_program.h"
#else
#include "potzendai.h"
#endif

/* Whether histories or the stream are only written, for others to judge. Then a write fails once the reader has gone. */
static inline bool potzendai_is_unjudged(const struct potzendai_options *o)
{
#ifdef POTZENDAI_NO_LIBRARY
    if (!o->bench)
        return true;
#endif
    return strcmp(o->out, "-") == 0;
}

/* Writes the path of a file of this run: 0, or -1 if it is too long. */
static inline int potzendai_path(const struct potzendai_tester *tester, char path[POTZENDAI_PATH], const char *ending)
{
    int length = snprintf(path, POTZENDAI_PATH, "%s/%s-%" PRIu64 "-%" PRIu64 "%s", tester->options->out, tester->run->truly->name,
                          tester->options->seed, tester->run->round, ending);
    return length > 0 && length < POTZENDAI_PATH ? 0 : -1;
}

/* Writes a text to a file of this run, and the path of that file: 0, or -1 if that fails. */
static inline int potzendai_write_file(const struct potzendai_tester *tester, const char *ending, const char *text, size_t length,
                                       char path[POTZENDAI_PATH])
{
    FILE *out = potzendai_path(tester, path, ending) ? NULL : fopen(path, "w");
    bool is_kept = out && fwrite(text, 1, length, out) == length;
    if (out && fclose(out))
        is_kept = false;
    return is_kept ? 0 : -1;
}

/* Saves a text as a file of this run, and prints its path, or that it was not written. */
static inline int potzendai_keep(const struct potzendai_tester *tester, const char *ending, const char *text, size_t length)
{
    char path[POTZENDAI_PATH];
    int status = potzendai_write_file(tester, ending, text, length, path);
    fprintf(stderr, status ? "file: not written: %s\n" : "  file: %s\n", path);
    return status;
}

typedef uint32_t potzendai_question(const char *, size_t, uint32_t, char *, size_t, size_t *);

/* Asks the library or the program. The room for its answer grows as needed. Returns the status, or NO_MEMORY if the room cannot grow. */
static inline enum potzendai_status potzendai_ask_once(potzendai_question *question, const char *text, size_t length, uint32_t budget,
                                                       char **report, size_t *room)
{
    size_t written = 0;
    for (size_t wanted = POTZENDAI_REPORT;; wanted = written + 1) {
        if (wanted > *room) {
            free(*report);
            *report = (char *)calloc(1, wanted);
            *room = *report ? wanted : 0;
        }
        if (!*report)
            return POTZENDAI_NO_MEMORY;
        uint32_t status = question(text, length, budget, *report, *room, &written);
        if (written < *room)
            return (enum potzendai_status)status;
    }
}

/* The budget of a question that is asked again. */
static inline uint32_t potzendai_more(const struct potzendai_options *o)
{
    return (uint32_t)(o->budget > POTZENDAI_MOST / 10 ? (uint64_t)POTZENDAI_MOST : 10 * o->budget);
}

/* Asks, and if that is undecided asks once more at ten times the budget. */
static inline enum potzendai_status potzendai_ask_twice(const struct potzendai_options *o, potzendai_question *question, const char *text,
                                                        size_t length, char **report, size_t *room)
{
    enum potzendai_status status = potzendai_ask_once(question, text, length, (uint32_t)o->budget, report, room);
    return status == POTZENDAI_IS_UNDECIDED ? potzendai_ask_once(question, text, length, potzendai_more(o), report, room) : status;
}

/* The verdict on many rounds at once. Unless it is yes, each round is judged again on its own. */
static inline enum potzendai_status potzendai_judged_once(const struct potzendai_options *o, struct potzendai_told *told)
{
    return potzendai_ask_once(potzendai_judge, told->text, told->length, (uint32_t)o->budget, &told->report, &told->room);
}

/* The verdict on a recording, with a few calls that show a no. */
static inline enum potzendai_status potzendai_explained(const struct potzendai_options *o, struct potzendai_told *told)
{
    return potzendai_ask_twice(o, potzendai_explain, told->text, told->length, &told->report, &told->room);
}

/* The verdict at the least cost. The part of the program that only judges is built first. If it is undecided, the part that explains may decide. */
static inline enum potzendai_status potzendai_judged(const struct potzendai_options *o, struct potzendai_told *told)
{
#ifdef POTZENDAI_NO_LIBRARY
    enum potzendai_status status = potzendai_ask_twice(o, potzendai_judge, told->text, told->length, &told->report, &told->room);
    if (status != POTZENDAI_IS_UNDECIDED)
        return status;
    status = potzendai_explained(o, told);
    return status <= POTZENDAI_IS_UNDECIDED ? status : POTZENDAI_IS_UNDECIDED;
#else
    return potzendai_explained(o, told);
#endif
}

/* Saves the file that the library or the program makes of a history, or says why there is none. */
static inline void potzendai_keep_made(struct potzendai_tester *tester, potzendai_question *question, const char *ending, const char *text,
                                       size_t length)
{
    char *made = NULL;
    size_t room = 0;
    if (potzendai_ask_twice(tester->options, question, text, length, &made, &room) <= POTZENDAI_IS_UNDECIDED)
        potzendai_keep(tester, ending, made, strlen(made));
    else
        fprintf(stderr, "file: not made: %s: %.*s\n", ending, made ? (int)strcspn(made, "\n") : 6, made ? made : "memory");
    free(made);
}

/* Says why the few calls are not shown: by the answer to the question for them. */
static inline void potzendai_tell_unexplained(const struct potzendai_options *o, enum potzendai_status status, const char *report)
{
    if (status <= POTZENDAI_IS_UNDECIDED)
        fprintf(stderr, "the few calls are not shown: they are not found within a budget of %" PRIu32 "\n", potzendai_more(o));
    else if (status == POTZENDAI_NO_MEMORY && (!o->bench || !report))
        fputs("the few calls are not shown: memory: the search for them did not end\n", stderr);
    else
        fprintf(stderr, "the few calls are not shown: %.*s\n", (int)strcspn(report, "\n"), report);
}

/* Shows a no in words and by files. The words and the picture have the processes and events of the recording. `is_kept`: that is saved already. */
static inline void potzendai_tell_no(struct potzendai_tester *tester, const struct potzendai_told *told, bool is_kept)
{
    const char *few = potzendai_tell(stderr, told->text, told->report, told->is_left);
    if (!is_kept)
        potzendai_keep(tester, ".json", told->text, told->length);
    if (few)
        potzendai_keep(tester, "-few.json", few, strcspn(few, "\n"));
    potzendai_keep_made(tester, potzendai_draw_part, ".svg", told->text, told->length);
    potzendai_keep_made(tester, potzendai_page, ".html", told->text, told->length);
}

/* Prints the words that draw the same calls again, of a run of so many rounds. */
static inline void potzendai_tell_again(const struct potzendai_tester *tester, uint64_t rounds)
{
    bool is_same = tester->run->is_scheduled && potzendai_scheduler->is_pinned();
    fprintf(stderr, "  again (%s): ", is_same ? "the same schedule" : "draws the same calls; threads may interleave otherwise");
    potzendai_write_words(stderr, tester->options, tester->program, rounds);
}

/* Shows a no of a round. Only now is the program asked for few calls. Its part that finds them may be built first, so the recording is saved
 * before. */
static inline void potzendai_tell_round(struct potzendai_tester *tester, struct potzendai_told *told)
{
#ifdef POTZENDAI_NO_LIBRARY
    potzendai_keep(tester, ".json", told->text, told->length);
    enum potzendai_status status = potzendai_explained(tester->options, told);
    if (status > POTZENDAI_IS_UNDECIDED)
        potzendai_tell_unexplained(tester->options, status, told->report);
    else
        potzendai_tell_no(tester, told, true);
#else
    potzendai_tell_no(tester, told, false);
#endif
}

#endif
