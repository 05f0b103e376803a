/* Text in visible characters. */
#include "visible.h"

#include <stdbool.h>
#include <stddef.h>
#include <stdint.h>
#include <string.h>

/*
 * Characters that are not seen, or that move those around them: C1 controls, which a terminal obeys as it does ESCAPE,
 * blanks of no width, line ends, directions of writing, tags.
 */
static const struct {
    uint32_t first, last;
} unseen[] = {
    { 0x80, 0x9F },     { 0xAD, 0xAD },     { 0x61C, 0x61C },   { 0x180E, 0x180E },   { 0x200B, 0x200F },
    { 0x2028, 0x202E }, { 0x2060, 0x206F }, { 0xFEFF, 0xFEFF }, { 0xFFF9, 0xFFFB }, { 0xE0000, 0xE0FFF },
};

static bool is_seen(uint32_t character)
{
    for (size_t i = 0; i < sizeof unseen / sizeof *unseen; i++)
        if (character >= unseen[i].first && character <= unseen[i].last)
            return false;
    return true;
}

/* How many bytes a character has that begins with this one; 0 if none does. */
static size_t length_by(uint8_t first)
{
    if (first < 0200)
        return 1;
    if (first < 0302 || first > 0364)
        return 0;
    return first < 0340 ? 2 : first < 0360 ? 3 : 4;
}

/* How many bytes the character here has, if it is UTF-8 in its shortest form and seen; else 0. A NUL ends the text. */
static size_t seen_length(const uint8_t *text)
{
    static const uint32_t least[] = { 0, ' ', 0x80, 0x800, 0x10000 };
    const size_t length = length_by(text[0]);
    uint32_t character = length < 2 ? text[0] : text[0] & (0177u >> length);

    for (size_t i = 1; i < length; i++) {
        if ((text[i] & 0300) != 0200)
            return 0;
        character = character << 6 | (text[i] & 077);
    }
    if (character < least[length] || character == 0177 || (character >= 0xD800 && character <= 0xDFFF)
        || character > 0x10FFFF || !is_seen(character))
        return 0;
    return length;
}

static void show_byte(uint8_t byte, FILE *stream)
{
    static const char bytes[] = "\n\t\r\\", letters[] = "ntr\\";
    const char *const found = memchr(bytes, byte, sizeof bytes - 1);

    if (found)
        fprintf(stream, "\\%c", letters[found - bytes]);
    else
        fprintf(stream, "\\%03o", byte);
}

void show_visible(const char *text, FILE *stream)
{
    while (*text) {
        const size_t length = *text == '\\' ? 0 : seen_length((const uint8_t *)text);
        if (length > 0)
            fwrite(text, 1, length, stream);
        else
            show_byte((uint8_t)*text, stream);
        text += length > 0 ? length : 1;
    }
}
