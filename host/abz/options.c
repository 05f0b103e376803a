/* Options, by what a command's synopsis says of them. */
#include "options.h"

#include "tell.h"

#include <string.h>

/* Each that was given, once; there is room for more than any command has. */
static struct {
    const char *name, *value;
} given[8];
static size_t count;

static size_t place_of(const char *name)
{
    size_t place = 0;

    while (place < count && strcmp(given[place].name, name) != 0)
        place++;
    return place;
}

/* Of an option that is given twice the second counts. */
static void give(const char *name, const char *value)
{
    const size_t place = place_of(name);

    given[place].name = name;
    given[place].value = value;
    if (place == count)
        count++;
}

const char *option(const char *name)
{
    const size_t place = place_of(name);

    return place < count ? given[place].value : NULL;
}

/* What a synopsis has behind an option: ], or a blank and the word that goes with it. NULL if it has no such option. */
static const char *behind(const char *synopsis, const char *name)
{
    const size_t length = strlen(name);

    for (; (synopsis = strstr(synopsis, "[--")) != NULL; synopsis++)
        if (strcspn(synopsis + 1, "] ") == length && strncmp(synopsis + 1, name, length) == 0)
            return synopsis + 1 + length;
    return NULL;
}

/* Takes one option, and the word that goes with it. */
static bool take(const char *command, const char *synopsis, char ***words)
{
    const char *name = *(*words)++, *rest = behind(synopsis, name);

    if (rest == NULL) {
        complain("'%s' is no option of %s; abz help %.*s tells what it takes", name, command,
                 (int)strcspn(command, " "), command);
        return false;
    }
    if (*rest == ' ' && **words == NULL) {
        complain("%s: %.*s is missing behind it", name, (int)strcspn(rest + 1, "]"), rest + 1);
        return false;
    }
    give(name, *rest == ' ' ? *(*words)++ : "");
    return true;
}

bool options_take(const char *command, const char *synopsis, char ***words)
{
    while (**words != NULL) {
        const char *word = **words;
        if (strcmp(word, "-h") == 0 || strcmp(word, "--help") == 0) {
            give("--help", "");
            (*words)++;
        } else if (strncmp(word, "--", 2) != 0) {
            return true;
        } else if (strcmp(word, "--") == 0) {
            (*words)++;
            return true;
        } else if (!take(command, synopsis, words)) {
            return false;
        }
    }
    return true;
}
