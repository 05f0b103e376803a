/* How a file can be open, in words. */
#ifndef MODES_H
#define MODES_H

#include <stdbool.h>
#include <stddef.h>

/* update, output, extension or input, for ABZ_UPDATE and so on; for 0, which is no writer, none. */
const char *mode_word(size_t mode);

/* Such a word but none, or its number. False where it is neither; that is said on standard error. */
bool read_mode(const char *text, size_t *mode);

#endif
