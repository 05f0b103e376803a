/* The words for the ways in which a file can be open. */
#include "modes.h"

#include "abezolit.h"
#include "tell.h"

#include <string.h>

static const char *const words[] = {
    [0] = "none",
    [ABZ_UPDATE] = "update",
    [ABZ_OUTPUT] = "output",
    [ABZ_EXTEND] = "extension",
    [ABZ_INPUT] = "input",
};

const char *mode_word(size_t mode)
{
    return words[mode];
}

bool read_mode(const char *text, size_t *mode)
{
    for (*mode = ABZ_UPDATE; *mode <= ABZ_INPUT; ++*mode)
        if (strcmp(text, words[*mode]) == 0 || (text[0] == (char)('0' + *mode) && text[1] == '\0'))
            return true;
    complain("MODE: '%s' is none of update, output, extension and input, nor 1 to 4", text);
    return false;
}
