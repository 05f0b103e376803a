/* Replacing a file of the host, whole or not at all; a C host can copy replace.c as it stands. */
#ifndef REPLACE_H
#define REPLACE_H

#include <stdbool.h>
#include <stddef.h>
#include <stdint.h>
#include <sys/stat.h>

/*
 * Whether what stands under a name may be replaced: only by force, and only a regular file. If it returns false, it has
 * said on standard error why.
 */
bool may_replace(const char *name, const struct stat *there, bool force);

/*
 * Makes a file hold just these bytes, if what is there may be replaced; what appears there meanwhile is not, unless by
 * force. Whoever opens it finds all of the old bytes or all of the new, also if the program is killed or the machine
 * stops meanwhile. A file that is there keeps its owner, group, permissions, ACL and other attributes, or is not
 * replaced. If it returns false, what was there is untouched, nothing new is left, and it has said on standard error
 * what went wrong.
 *
 * Signals that end a program are held meanwhile. One that came before the new file stood under the name makes it return
 * false, and then ends the program as ever. Behind that it returns true and goes on holding them, so that a program
 * that ends now ends with the status that it has earned; one that does not sets its mask anew with sigprocmask.
 *
 * SIGXFSZ must be ignored, for else a limit on the size of files ends the program and leaves the new file behind. Only
 * one thread at a time may be here, as masks are those of the process.
 */
bool replace_file(const char *name, bool force, const uint8_t *bytes, size_t length);

#endif
