#include "host.h"

#include <stdio.h>
#include <string.h>

static const struct verb {
    const char *name, *words;
    int least, most;
    enum ending (*run)(char **words);
} verbs[] = {
    {"streets", "FOLDER", 1, 1, streets},
    {"sweep", "FOLDER [FILE]", 1, 2, sweep},
};

static enum ending usage(void)
{
    size_t i;
    for (i = 0; i < sizeof verbs / sizeof *verbs; i++)
        fprintf(stderr, "usage: %s %s\n", verbs[i].name, verbs[i].words);
    return FAILED;
}

static bool is_meant(const struct verb *verb, int count, char **words)
{
    return count >= 2 + verb->least && count <= 2 + verb->most && strcmp(words[1], verb->name) == 0;
}

int main(int count, char **words)
{
    enum ending ended;
    size_t i = 0;
    while (i < sizeof verbs / sizeof *verbs && !is_meant(&verbs[i], count, words))
        i++;
    if (i == sizeof verbs / sizeof *verbs)
        return usage();
    ended = verbs[i].run(words + 2);
    flush_lines();
    return ended;
}
