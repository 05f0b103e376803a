/* Patterns: read, and compared with the names of files. */
#include "patterns.h"

#include "show.h"
#include "tell.h"

#include <string.h>

/* A period is put behind a text that has none, so that no * reaches from a name into an extension. */
static void end_name(char *text)
{
    if (strchr(text, '.') == NULL)
        strcat(text, ".");
}

/* What a pattern can have before its UIC: capitals, digits, * and one period. */
static bool copy_pattern(const char *text, size_t length, file_pattern *pattern)
{
    size_t periods = 0;

    if (length + 1 >= sizeof pattern->text)
        return false;
    for (size_t i = 0; i < length; i++) {
        if (text[i] == '\0' || strchr("ABCDEFGHIJKLMNOPQRSTUVWXYZ0123456789*.", text[i]) == NULL)
            return false;
        periods += text[i] == '.';
        pattern->text[i] = text[i];
    }
    pattern->text[length] = '\0';
    end_name(pattern->text);
    return length > 0 && periods <= 1;
}

bool read_pattern(const char *text, file_pattern *pattern)
{
    const size_t length = strcspn(text, "[");

    pattern->uic = 0;
    if (!copy_pattern(text, length, pattern)) {
        complain("'%s' is no pattern: a file's name of A-Z and 0-9, in which * stands for any of them", text);
        return false;
    }
    return text[length] == '\0' || read_uic(text + length, &pattern->uic);
}

static bool matches(const char *pattern, const char *name)
{
    if (*pattern != '*')
        return *pattern == *name && (*name == '\0' || matches(pattern + 1, name + 1));
    while (pattern[1] == '*')
        pattern++;
    return matches(pattern + 1, name) || (*name != '\0' && matches(pattern, name + 1));
}

bool pattern_matches(const file_pattern *pattern, size_t caller, const contents_entry *file)
{
    char name[NAME_TEXT];

    name_text(contents_name(file), name);
    end_name(name);
    return file->uic == (pattern->uic ? pattern->uic : caller) && matches(pattern->text, name);
}
