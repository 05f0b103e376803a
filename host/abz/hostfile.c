/* Files of the host: read, and written unless something would be lost. */
#define _POSIX_C_SOURCE 200809L
#include "hostfile.h"

#include "files.h"
#include "replace.h"
#include "tell.h"

#include <fcntl.h>
#include <string.h>
#include <sys/stat.h>
#include <unistd.h>

static bool is_standard(const char *host)
{
    return strcmp(host, "-") == 0;
}

bool host_read(const char *host, uint8_t *bytes, size_t room, size_t *length)
{
    const int given = descriptor_of(host, STDIN_FILENO), descriptor = given >= 0 ? given : open(host, O_RDONLY);
    bool right;

    if (descriptor < 0)
        return complain_of(host);
    right = read_bytes(descriptor, is_standard(host) ? "standard input" : host, bytes, room, length);
    if (given < 0)
        close(descriptor);
    return right;
}

bool host_is_pack(const char *host, const pack_file *pack)
{
    const bool it_is = !is_standard(host) && pack_is(pack, host);

    if (it_is)
        complain("%s: is the pack itself", host);
    return it_is;
}

bool host_may_write(const char *host, const pack_file *pack, bool force)
{
    struct stat there;

    return !host_is_pack(host, pack) && (stat(host, &there) != 0 || may_replace(host, &there, force));
}

bool host_write(const char *host, const pack_file *pack, bool force, const uint8_t *bytes, size_t length)
{
    const int given = descriptor_of(host, STDOUT_FILENO);

    if (host_is_pack(host, pack))
        return false;
    if (given < 0)
        return replace_file(host, force, bytes, length);
    return write_bytes(given, is_standard(host) ? "standard output" : host, bytes, length);
}
