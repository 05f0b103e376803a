/*
 * What the host tests compare with. A test is one program, whose main ends with `return check_end("NAME");`.
 * The last arguments of a comparison are printf's and say which case it was; they are worked out only where it fails.
 */
#ifndef CHECK_H
#define CHECK_H

#include <stddef.h>
#include <stdint.h>
#include <stdio.h>

static size_t check_count, check_failed;

#define CHECK_NUMBER(got, expected, ...)                                                        \
    do {                                                                                        \
        size_t check_got = (got), check_expected = (expected);                                  \
        check_count++;                                                                          \
        if (check_got != check_expected) {                                                      \
            check_fail(__FILE__, __LINE__);                                                     \
            printf(__VA_ARGS__);                                                                \
            printf(": expected %zu (%#zo), found %zu (%#zo)\n", check_expected, check_expected, \
                   check_got, check_got);                                                       \
        }                                                                                       \
    } while (0)

#define CHECK_BYTES(got, expected, length, ...)                                                 \
    do {                                                                                        \
        const uint8_t *check_got = (got), *check_expected = (expected);                         \
        size_t check_len = (length), check_at = 0;                                              \
        check_count++;                                                                          \
        while (check_at < check_len && check_got[check_at] == check_expected[check_at])         \
            check_at++;                                                                         \
        if (check_at < check_len) {                                                             \
            check_fail(__FILE__, __LINE__);                                                     \
            printf(__VA_ARGS__);                                                                \
            printf(": from byte %zu expected %s", check_at,                                     \
                   check_text(check_expected + check_at, check_len - check_at));                \
            printf(", found %s\n", check_text(check_got + check_at, check_len - check_at));     \
        }                                                                                       \
    } while (0)

static inline void check_fail(const char *file, int line)
{
    check_failed++;
    printf("%s:%d: ", file, line);
}

/* Readable for any bytes, and cut short since images are long. It stands until the next call. */
static inline const char *check_text(const void *bytes, size_t length)
{
    enum { SHOWN = 16 };
    static char text[1 + 4 * SHOWN + sizeof "\"..."];
    const uint8_t *byte = bytes;
    char *end = text;

    *end++ = '"';
    for (size_t i = 0; i < length && i < SHOWN; i++) {
        if (byte[i] >= ' ' && byte[i] <= '~' && byte[i] != '"' && byte[i] != '\\')
            *end++ = (char)byte[i];
        else
            end += sprintf(end, "\\%03o", byte[i]);
    }
    sprintf(end, length > SHOWN ? "\"..." : "\"");
    return text;
}

/* No comparison at all is a failure too: a test that tries nothing must not pass. */
static inline int check_end(const char *name)
{
    printf("%s: %zu comparisons, %zu failed\n", name, check_count, check_failed);
    return check_count == 0 || check_failed > 0;
}

#endif
