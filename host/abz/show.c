/* Numbers and names on standard output. */
#include "show.h"

#include "abezolit.h"
#include "tell.h"

#include <stdio.h>

enum { DECIMAL_DIGITS = 5, OCTAL_DIGITS = 6, OCTAL_SHOWN = 3, WORD_CHARACTERS = 3, NAME_CHARACTERS = 6 };

static void show_characters(const uint8_t *characters, size_t count)
{
    fwrite(characters, 1, count, stdout);
}

/*
 * None of these can be refused, since all numbers come from words of a consistent pack or of a reading. A refusal would
 * leave the buffer as it is, so that the question marks would be shown.
 */

void show_count(size_t number)
{
    uint8_t digits[] = { '?', '?', '?', '?', '?' };

    abz_bin2d(number, digits, DECIMAL_DIGITS);
    show_characters(digits, DECIMAL_DIGITS);
}

void show_octal(size_t number)
{
    uint8_t digits[] = { '?', '?', '?', '?', '?', '?' };

    abz_bin2o(number, digits, OCTAL_DIGITS);
    show_characters(digits + OCTAL_DIGITS - OCTAL_SHOWN, OCTAL_SHOWN);
}

void show_uic(size_t uic)
{
    putchar('[');
    show_octal(uic / 256);
    putchar(',');
    show_octal(uic % 256);
    putchar(']');
}

static void name_characters(size_t name1, size_t name2, uint8_t characters[NAME_CHARACTERS])
{
    for (size_t i = 0; i < NAME_CHARACTERS; i++)
        characters[i] = '?';
    abz_radup(name1, characters, WORD_CHARACTERS);
    abz_radup(name2, characters + WORD_CHARACTERS, WORD_CHARACTERS);
}

void show_name(size_t name1, size_t name2, size_t extension)
{
    uint8_t name[NAME_CHARACTERS], behind[] = { '?', '?', '?' };

    name_characters(name1, name2, name);
    abz_radup(extension, behind, WORD_CHARACTERS);
    show_characters(name, NAME_CHARACTERS);
    putchar('.');
    show_characters(behind, WORD_CHARACTERS);
}

void show_word(size_t name1, size_t name2)
{
    uint8_t name[NAME_CHARACTERS];
    size_t count = NAME_CHARACTERS;

    name_characters(name1, name2, name);
    while (count > 0 && name[count - 1] == ' ')
        count--;
    show_characters(name, count);
}

/* Copies characters up to the first blank; what is behind them. */
static char *copy_word(char *text, const uint8_t *characters, size_t count)
{
    for (size_t i = 0; i < count && characters[i] != ' '; i++)
        *text++ = (char)characters[i];
    return text;
}

void name_text(file_name file, char text[NAME_TEXT])
{
    uint8_t name[NAME_CHARACTERS], behind[] = { '?', '?', '?' };

    name_characters(file.name1, file.name2, name);
    abz_radup(file.extension, behind, WORD_CHARACTERS);
    text = copy_word(text, name, NAME_CHARACTERS);
    if (behind[0] != ' ')
        *text++ = '.';
    *copy_word(text, behind, WORD_CHARACTERS) = '\0';
}

void show_totals(size_t blocks, size_t free)
{
    printf("BLOCKS ");
    show_count(blocks);
    printf(" FREE ");
    show_count(free);
    putchar('\n');
}

void show_file(const contents_entry *file)
{
    show_name(file->name1, file->name2, file->extension);
    printf(" %c ", file->kind == ABZ_LINKED ? 'L' : 'C');
    show_count(file->length);
    putchar(' ');
    show_uic(file->uic);
    putchar(' ');
    show_octal(file->protect);
}

void show_files(size_t number)
{
    printf("files ");
    show_count(number);
    putchar('\n');
}

bool show_end(void)
{
    if (fflush(stdout) == 0 && !ferror(stdout))
        return true;
    return complain_of("standard output");
}
