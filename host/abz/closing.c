/*
 * The command that takes opens of a file away. A pack keeps them until they are closed, also where the program that
 * made them is long gone, and a file that is open is not deleted, renamed or appended.
 */
#include "commands.h"

#include "abezolit.h"
#include "modes.h"
#include "names.h"
#include "options.h"
#include "packfile.h"
#include "tell.h"

static pack_file pack;

/* The mode in which a file is open, if it is only one. Where it is closed or not there, CLOSE says so in any mode. */
static bool find_mode(size_t caller, file_name file, size_t *mode)
{
    const abz_look_answer opens = abz_look(pack.image, pack.length, caller, FOUR(file));

    if (opens.writer != 0 && opens.readers != 0) {
        complain("close: the file is open for %s and for input: say which, or --all", mode_word(opens.writer));
        return false;
    }
    *mode = opens.writer != 0 ? opens.writer : ABZ_INPUT;
    return true;
}

static size_t close_one(size_t caller, file_name file, size_t mode)
{
    return abz_close(pack.image, pack.length, caller, FOUR(file), mode);
}

/* Closes until the service says that the file is no longer open so. There must be one such open. */
static size_t close_each(size_t caller, file_name file, size_t mode)
{
    const size_t first = close_one(caller, file, mode);

    for (size_t code = first; code == ABZ_OK;)
        code = close_one(caller, file, mode);
    return first;
}

/* The same for all modes. There must be an open of one of them. */
static size_t close_all(size_t caller, file_name file)
{
    size_t code = ABZ_NOT_OPEN;

    for (size_t mode = ABZ_UPDATE; mode <= ABZ_INPUT; mode++) {
        const size_t answer = close_each(caller, file, mode);
        if (code != ABZ_OK)
            code = answer;
    }
    return code;
}

int command_close(char **arguments)
{
    const bool all = option("--all"), any = arguments[3] == NULL;
    size_t caller, mode = ABZ_INPUT;
    file_name file;

    if (!read_uic(arguments[1], &caller) || !read_name(arguments[2], &file)
        || (!any && !read_mode(arguments[3], &mode)))
        return STATUS_USAGE;
    if (!pack_take(&pack, arguments[0]))
        return STATUS_FAILED;
    if (any && all)
        return pack_end(&pack, "close", close_all(caller, file));
    if (any && !find_mode(caller, file, &mode))
        return STATUS_FAILED;
    return pack_end(&pack, "close", (all ? close_each : close_one)(caller, file, mode));
}
