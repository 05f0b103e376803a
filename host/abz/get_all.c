/*
 * The command that writes several files of a pack into a directory of the host. Files of the host are replaced one by
 * one, so that all or none of them cannot be had; but before the first is written all are read, and every cause that
 * can be seen is looked for.
 */
#define _POSIX_C_SOURCE 200809L
#include "commands.h"

#include "bodies.h"
#include "contents.h"
#include "hostfile.h"
#include "names.h"
#include "options.h"
#include "packfile.h"
#include "patterns.h"
#include "show.h"
#include "tell.h"
#include "use.h"

#include <errno.h>
#include <limits.h>
#include <stdio.h>
#include <sys/stat.h>

static pack_file pack;
static uint8_t bytes[BODY_ROOM]; /* of all files, one behind the other: no two have a block in common */

/* The files, in the order of the contents. */
static struct {
    contents_entry file;
    const uint8_t *bytes;
    size_t length;
} chosen[ENTRIES_MOST];
static size_t count;

/* ---- Which files ---- */

static bool are_patterns(char **texts, size_t number)
{
    file_pattern pattern;

    for (size_t i = 0; i < number; i++)
        if (!read_pattern(texts[i], &pattern))
            return false;
    return true;
}

/* Marks every file that a pattern stands for. There must be one. */
static bool mark(const char *text, size_t caller, bool marked[ENTRIES_MOST])
{
    file_pattern pattern;
    contents_entry file;
    bool found = false;

    read_pattern(text, &pattern);
    for (size_t entry = 0; entry < contents_entries(pack.image); entry++)
        if (contents_read(pack.image, entry, &file) && pattern_matches(&pattern, caller, &file))
            found = marked[entry] = true;
    if (!found)
        complain("'%s' stands for no file under this UIC; '*.*' stands for all", text);
    return found;
}

/* Several patterns may stand for one file, which is then chosen once. */
static bool choose(char **texts, size_t number, size_t caller)
{
    bool marked[ENTRIES_MOST] = { false };

    for (size_t i = 0; i < number; i++)
        if (!mark(texts[i], caller, marked))
            return false;
    for (size_t entry = 0; entry < contents_entries(pack.image); entry++)
        if (marked[entry])
            contents_read(pack.image, entry, &chosen[count++].file);
    return true;
}

/* ---- Reading ---- */

static bool read_chosen(size_t caller)
{
    uint8_t *at = bytes;
    char name[NAME_TEXT];
    size_t length, code;

    for (size_t i = 0; i < count; i++, at += length) {
        code = body_read(&pack, caller, contents_name(&chosen[i].file), chosen[i].file.kind, at, &length);
        if (code != ABZ_OK) {
            name_text(contents_name(&chosen[i].file), name);
            tell_refusal_of("get", name, code);
            return false;
        }
        chosen[i].bytes = at;
        chosen[i].length = option("--trim") ? trimmed(at, length) : length;
    }
    return true;
}

/* ---- Writing ---- */

static bool path_of(size_t i, const char *directory, char path[PATH_MAX])
{
    char name[NAME_TEXT];

    name_text(contents_name(&chosen[i].file), name);
    if (snprintf(path, PATH_MAX, "%s/%s", directory, name) < PATH_MAX)
        return true;
    errno = ENAMETOOLONG;
    return complain_of(directory);
}

static bool is_directory(const char *name)
{
    struct stat there;

    if (stat(name, &there) != 0)
        return complain_of(name);
    errno = ENOTDIR;
    return S_ISDIR(there.st_mode) || complain_of(name);
}

/* Two users may have files of one name; in a directory there is one of it. */
static bool is_alone(size_t i, const char *path)
{
    for (size_t j = 0; j < i; j++)
        if (is_same_name(contents_name(&chosen[j].file), contents_name(&chosen[i].file))) {
            complain("%s: two of the files have this name", path);
            return false;
        }
    return true;
}

static bool may_write(const char *directory)
{
    char path[PATH_MAX];

    if (!is_directory(directory))
        return false;
    for (size_t i = 0; i < count; i++)
        if (!path_of(i, directory, path) || !is_alone(i, path) || !host_may_write(path, &pack, option("--force")))
            return false;
    return true;
}

static bool write_chosen(const char *directory)
{
    char path[PATH_MAX];

    for (size_t i = 0; i < count; i++)
        if (!path_of(i, directory, path)
            || !host_write(path, &pack, option("--force"), chosen[i].bytes, chosen[i].length)) {
            complain("%s: files written before that: %zu of %zu", directory, i, count);
            return false;
        }
    return true;
}

static void show_chosen(void)
{
    for (size_t i = 0; i < count; i++) {
        show_file_and_use(&pack, &chosen[i].file);
        putchar('\n');
    }
    show_files(count);
}

int command_get_all(char **arguments)
{
    char **texts = arguments + 2;
    size_t caller, code, number = 0;

    while (texts[number + 1]) /* the last argument is the directory */
        number++;
    if (!read_uic(arguments[1], &caller) || !are_patterns(texts, number) || !read_path("DIRECTORY", texts[number]))
        return STATUS_USAGE;
    if (!pack_read(&pack, arguments[0]))
        return STATUS_FAILED;
    code = abz_owner(pack.image, pack.length, 0).code; /* whether the contents may be read */
    if (code != ABZ_OK)
        return tell_refusal("get", code);
    if (!choose(texts, number, caller) || !read_chosen(caller) || !may_write(texts[number]))
        return STATUS_FAILED;
    show_chosen();
    return show_end() && write_chosen(texts[number]) ? STATUS_DONE : STATUS_FAILED;
}
