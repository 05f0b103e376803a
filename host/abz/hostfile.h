/* Files of the host that a technician names as HOSTFILE, where - is standard input or standard output. */
#ifndef HOSTFILE_H
#define HOSTFILE_H

#include "packfile.h"

/* Whether it is the file that the pack is in; then it says so. Who mixes up the two names must not lose the pack. */
bool host_is_pack(const char *host, const pack_file *pack);

/* Each of these says on standard error what went wrong where it returns false. */

/* Reads all that it holds; if that is more than there is room for, its beginning. */
bool host_read(const char *host, uint8_t *bytes, size_t room, size_t *length);

/*
 * Whether a file may be written, as far as can be seen before: it is not the pack, and nothing but a file that may be
 * replaced (replace.h) stands there. Only replacing it then tells what the system thinks of it.
 */
bool host_may_write(const char *host, const pack_file *pack, bool force);

/* Makes it hold just these bytes, if it may be written. If this returns false, what was there is untouched. */
bool host_write(const char *host, const pack_file *pack, bool force, const uint8_t *bytes, size_t length);

#endif
