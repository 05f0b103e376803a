/* The command that puts several files of the host into a pack: all of them, or none. */
#define _POSIX_C_SOURCE 200809L
#include "commands.h"

#include "bodies.h"
#include "contents.h"
#include "files.h"
#include "hostfile.h"
#include "names.h"
#include "options.h"
#include "packfile.h"
#include "show.h"
#include "tell.h"
#include "use.h"

#include <limits.h>
#include <stdio.h>
#include <string.h>
#include <sys/stat.h>

static pack_file pack;
static uint8_t bytes[BODY_ROOM];

/* The name that a file of the host gets in the pack: its own without directories, in capitals. */
static bool read_host_name(const char *host, file_name *file)
{
    const char *slash = strrchr(host, '/');
    char name[NAME_MAX + 1]; /* one that is cut here is far too long anyway */

    snprintf(name, sizeof name, "%s", slash ? slash + 1 : host);
    if (strchr(name, '[')) { /* which would begin a UIC */
        complain("'%s': the name of a file has no bracket", host);
        return false;
    }
    for (char *at = name; *at; at++)
        if (*at >= 'a' && *at <= 'z')
            *at = (char)(*at - 'a' + 'A');
    return read_name(name, file);
}

static bool are_host_names(char **hosts)
{
    file_name file;

    for (; *hosts; hosts++)
        if (!read_host_name(*hosts, &file))
            return false;
    return true;
}

/*
 * The pack is locked while this reads, so it does not wait for a pipe; nor does it read the pack itself, which has no
 * room for itself, and which to close would end the lock.
 */
static bool read_regular(const char *host, size_t *length)
{
    struct stat there;

    if (stat(host, &there) != 0)
        return complain_of(host);
    return !host_is_pack(host, &pack) && is_regular(host, there.st_mode) && host_read(host, bytes, sizeof bytes, length);
}

static bool put_one(const char *host, size_t caller, size_t protect)
{
    contents_entry made;
    file_name file;
    size_t length, code;

    if (!read_host_name(host, &file) || !read_regular(host, &length))
        return false;
    file.uic = caller;
    code = body_put(&pack, caller, file, protect, bytes, length);
    if (code != ABZ_OK) {
        tell_refusal_of("put", host, code);
        return false;
    }
    if (contents_find(pack.image, file, &made))
        show_file_and_use(&pack, &made);
    putchar('\n');
    return true;
}

int command_put_all(char **arguments)
{
    char **hosts = arguments + 2;
    size_t caller, count, protect = PROTECT_USUAL;

    if (!read_uic(arguments[1], &caller) || !read_protect(option("--protect"), &protect) || !are_host_names(hosts))
        return STATUS_USAGE;
    if (!pack_take(&pack, arguments[0]))
        return STATUS_FAILED;
    for (count = 0; hosts[count]; count++)
        if (!put_one(hosts[count], caller, protect))
            return STATUS_FAILED;
    show_files(count);
    if (!show_end()) /* before the pack is written: where abz fails, the pack is to be as it was */
        return STATUS_FAILED;
    return pack_write(&pack) ? STATUS_DONE : STATUS_FAILED;
}
