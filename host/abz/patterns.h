/* Files of a pack by a pattern: a name in which each * stands for any characters. */
#ifndef PATTERNS_H
#define PATTERNS_H

#include "contents.h"

#include <stdbool.h>
#include <stddef.h>

typedef struct {
    char text[32]; /* always with a period: FREQ.DAT, *.DAT, FREQ. */
    size_t uic;    /* 0: the caller's */
} file_pattern;

/* *.DAT or *.DAT[23,10]. False where it is no pattern; that is said on standard error. */
bool read_pattern(const char *text, file_pattern *pattern);

/* Whether a pattern stands for a file, where this UIC calls. */
bool pattern_matches(const file_pattern *pattern, size_t caller, const contents_entry *file);

#endif
