/* Commands that move the bytes of one file between a file of the host and a pack. */
#include "commands.h"

#include "binary.h"
#include "bodies.h"
#include "hostfile.h"
#include "names.h"
#include "options.h"
#include "packfile.h"
#include "tell.h"

static pack_file pack;

/* Of a host's file that no pack has room for this is the beginning, which no pack has room for either. */
static uint8_t bytes[BODY_ROOM];
static size_t length;

/* ---- Into the pack ---- */

/* In this order, so that nobody waits for what is typed. */
static bool read_and_take(const char *host, const char *path)
{
    return host_read(host, bytes, sizeof bytes, &length) && pack_take(&pack, path);
}

int command_put(char **arguments)
{
    size_t caller, protect = PROTECT_USUAL;
    file_name file;

    if (!read_uic(arguments[1], &caller) || !read_name(arguments[2], &file) || !read_path("HOSTFILE", arguments[3])
        || !read_protect(arguments[4], &protect))
        return STATUS_USAGE;
    if (!read_and_take(arguments[3], arguments[0]))
        return STATUS_FAILED;
    return pack_end(&pack, "put",
                    (option("--binary") ? binary_put : body_put)(&pack, caller, file, protect, bytes, length));
}

int command_load(char **arguments)
{
    size_t caller;
    file_name file;

    if (!read_uic(arguments[1], &caller) || !read_name(arguments[2], &file) || !read_path("HOSTFILE", arguments[3]))
        return STATUS_USAGE;
    if (!read_and_take(arguments[3], arguments[0]))
        return STATUS_FAILED;
    return pack_end(&pack, "load", body_load(&pack, caller, file, bytes, length));
}

/* ---- Out of the pack ---- */

/* The first line that is not right. No host file is written then: what comes of the others would be taken for all. */
static int tell_fault(const binary_fault *fault)
{
    const char *what = fault->status & ABZ_WRONG_SUM      ? "its sum is wrong"
                       : fault->status & ABZ_WRONG_FORMAT ? "this is no formatted binary line"
                                                          : "the file ends inside it";

    complain("get: line %zu, from byte %zu of the file: %s", fault->line, fault->place, what);
    return STATUS_FAILED;
}

/* The file is opened and closed in the image in memory, of which nothing goes back: the pack stays as it is. */
static int write_body(const char *command, size_t kind, char **arguments)
{
    binary_fault fault = { 0, 0, 0 };
    size_t caller, code;
    file_name file;

    if (!read_uic(arguments[1], &caller) || !read_name(arguments[2], &file) || !read_path("HOSTFILE", arguments[3]))
        return STATUS_USAGE;
    if (!pack_read(&pack, arguments[0]))
        return STATUS_FAILED;
    code = option("--binary") ? binary_read(&pack, caller, file, bytes, &length, &fault)
                              : body_read(&pack, caller, file, kind, bytes, &length);
    if (code != ABZ_OK)
        return tell_refusal(command, code);
    if (fault.status != 0)
        return tell_fault(&fault);
    if (option("--trim"))
        length = trimmed(bytes, length);
    return host_write(arguments[3], &pack, option("--force"), bytes, length) ? STATUS_DONE : STATUS_FAILED;
}

int command_get(char **arguments)
{
    return write_body("get", ABZ_LINKED, arguments);
}

int command_dump(char **arguments)
{
    return write_body("dump", ABZ_CONTIGUOUS, arguments);
}
