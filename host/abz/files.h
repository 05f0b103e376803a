/* Files of the host: standard files, and bytes read and written. How a file is replaced stands in replace.h. */
#ifndef FILES_H
#define FILES_H

#include <stdbool.h>
#include <stddef.h>
#include <stdint.h>
#include <sys/stat.h>
#include <sys/types.h>

/*
 * To be called before any file is opened. Where abz is started with a standard file closed, the next file to be opened,
 * a pack perhaps, would get its number, and what is meant for the technician would be written into the pack. A file at
 * its limit is from here on an error of write, as a full disk is, and not the end of the program.
 */
void guard_standard_files(void);

/*
 * The descriptor that a HOSTFILE stands for: that of the standard file for -, and the one that /dev/stdin, /dev/stdout,
 * /dev/stderr, /dev/fd/N or /proc/self/fd/N tells. -1 if it is the name of a file. What somebody else opened is read
 * and written as he opened it, never replaced.
 */
int descriptor_of(const char *host, int standard);

bool is_same_file(const struct stat *a, const struct stat *b);

/* Whether all was written; if not, errno tells why. */
bool write_all(int descriptor, const uint8_t *bytes, size_t length);

/* Each of these says on standard error what went wrong, under this name, where it returns false. */

/* Reads up to room bytes, fewer only where the file ends. */
bool read_bytes(int descriptor, const char *name, uint8_t *bytes, size_t room, size_t *length);

bool write_bytes(int descriptor, const char *name, const uint8_t *bytes, size_t length);

/* Whether a file of this mode is one that can be replaced: a directory, a device or a pipe cannot. */
bool is_regular(const char *name, mode_t mode);

#endif
