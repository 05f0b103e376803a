/* The listing program's text for an image, which it gets in a file. A test defines _POSIX_C_SOURCE first, for popen. */
#ifndef LISTING_H
#define LISTING_H

#include <stdbool.h>
#include <string.h>

#include "check.h"

#define LISTING "target/bin/listing"
#define LISTED "target/host/listed.image"

enum { LISTING_ROOM = 20480 }; /* more than any listing needs: form 2 has up to 512 files */

/* What a command writes is the text, all of it and nothing else, and the command's status is 0. */
static inline void try_command(const char *command, const char *text, const char *name)
{
    static char got[LISTING_ROOM + 1];
    FILE *output = popen(command, "r");
    size_t count = output ? fread(got, 1, sizeof got, output) : 0;

    CHECK_NUMBER(output ? pclose(output) : -1, 0, "%s: status", name);
    CHECK_NUMBER(count, strlen(text), "%s: bytes written", name);
    CHECK_BYTES((uint8_t *)got, (const uint8_t *)text, count < strlen(text) ? count : strlen(text), "%s: text", name);
}

static inline void try_listing(const uint8_t *image, size_t length, const char *text, const char *name)
{
    FILE *file = fopen(LISTED, "wb");

    CHECK_NUMBER(file && fwrite(image, 1, length, file) == length && fclose(file) == 0, true, "writing " LISTED);
    try_command(LISTING " < " LISTED, text, name);
}

#endif
