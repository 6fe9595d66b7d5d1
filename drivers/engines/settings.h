/* Settings of an engine: words before the options. */
#ifndef ENGINES_SETTINGS_H
#define ENGINES_SETTINGS_H

/* Takes the first words, as far as each is one of these names, which NULL ends: how many there are. The last of them becomes the program's name
 * with all of them. */
static inline int take_settings(int argc, char **argv, const char *const *names, bool *is_set)
{
    static char program[256];
    int count = 0, length = snprintf(program, sizeof program, "%.160s", argv[0]);
    for (; count + 1 < argc; count++) {
        int place = potzendai_place(names, argv[count + 1], strlen(argv[count + 1]));
        if (place < 0 || length >= 240)
            break;
        is_set[place] = true;
        length += snprintf(program + length, sizeof program - (size_t)length, " %s", names[place]);
    }
    argv[count] = program;
    return count;
}

#endif
