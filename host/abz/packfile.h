/*
 * Packs that are kept in regular files. A command reads the pack, lends its bytes to the service, and only where that
 * did all that was asked are they written back.
 */
#ifndef PACKFILE_H
#define PACKFILE_H

#include "../form.h"
#include "abezolit.h"

#include <stdbool.h>
#include <stddef.h>
#include <stdint.h>

typedef struct {
    const char *path;
    bool force; /* whether the file is written whatever it holds by then: it was taken, or goes by force */
    size_t length;
    /* One byte more than any pack has, so that a file too long is seen to be so. */
    uint8_t image[IMAGE_MOST + 1];
} pack_file;

/*
 * Each of these says on standard error what went wrong where it returns false. Whether the bytes are a pack at all is
 * not looked at: the service says that, in every request.
 */

/* For requests that change nothing. */
bool pack_read(pack_file *pack, const char *path);

/* For requests that change the pack. Until abz ends, no other abz changes the file. */
bool pack_take(pack_file *pack, const char *path);

/* Whether a name leads to the file that the pack is in. It says nothing. */
bool pack_is(const pack_file *pack, const char *path);

/*
 * For formatting: so many blocks of 0, as many as the form has at most. If there is a file already, no other abz
 * changes it. It must be, as the service finds, a consistent pack: anything else goes only by force.
 */
bool pack_begin(pack_file *pack, const char *path, const pack_form *form, size_t blocks, bool force);

/* Puts the image into the file. If this returns false, the file is as it was. */
bool pack_write(const pack_file *pack);

/* The end of a command that changes the pack, by the code of its requests: a refusal is told, else it is written. */
int pack_end(const pack_file *pack, const char *command, size_t code);

#endif
