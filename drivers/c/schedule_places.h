/* Where an instruction is in the source, by addr2line. Part of potzendai_schedule.c. */
#ifndef SCHEDULE_PLACES_H
#define SCHEDULE_PLACES_H

/* Whether a line of addr2line is in the map, and not in a header of the compiler or the driver. */
static bool is_of_map(const char *line)
{
    return line[0] != '?' && !strstr(line, "/c++/") && !strstr(line, "/lib/gcc/") && !strstr(line, "/lib/clang/")
        && !strstr(line, "/potzendai_") && !strstr(line, "/recording.h");
}

/* Takes the first line that is in the map, else the last. The lines are of functions inlined in each other, the innermost first. Returns whether it
 * is in the map. */
static bool read_line(FILE *lines, char *text, size_t room)
{
    char line[1024];
    bool is_found = false;
    while (!is_found && fgets(line, sizeof line, lines)) {
        const char *slash = strrchr(line, '/');
        line[strcspn(line, " \n")] = 0;
        is_found = is_of_map(line);
        if (line[0] != '?')
            snprintf(text, room, "%s", slash ? slash + 1 : line);
    }
    return is_found;
}

/* Writes a source line, such as mine.c:113. If it is not known, as without -g, writes the file and the number of the instruction in it. Returns
 * whether it is a line of the map. */
static bool locate_one(uintptr_t code, char *text, size_t room)
{
    bool is_found = false;
    Dl_info file;
    char command[PATH_MAX + 64];
    if (!dladdr((void *)code, &file) || !file.dli_fname) {
        snprintf(text, room, "%#lx", (unsigned long)code);
        return false;
    }
    const ElfW(Ehdr) *header = (const ElfW(Ehdr) *)file.dli_fbase;
    uintptr_t within = code - (header->e_type == ET_DYN ? (uintptr_t)file.dli_fbase : 0);
    const char *slash = strrchr(file.dli_fname, '/');
    snprintf(text, room, "%s+%#lx", slash ? slash + 1 : file.dli_fname, (unsigned long)within);
    if (strchr(file.dli_fname, '\''))
        return false;
    snprintf(command, sizeof command, "addr2line -i -e '%s' %#lx 2>/dev/null", file.dli_fname, (unsigned long)within - 1);
    FILE *lines = popen(command, "r");
    if (lines) {
        is_found = read_line(lines, text, room);
        pclose(lines);
    }
    return is_found;
}

/* Writes the first of these places that is a line of the map, else the first. */
static void locate(const uintptr_t codes[POTZENDAI_CODES], char *text, size_t room)
{
    char caller[256];
    bool is_found = locate_one(codes[0], text, room);
    for (int i = 1; !is_found && i < POTZENDAI_CODES && codes[i]; i++) {
        is_found = locate_one(codes[i], caller, sizeof caller);
        if (is_found)
            snprintf(text, room, "%s", caller);
    }
}

#endif
