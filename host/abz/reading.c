/* The command that shows how a command line is understood. */
#include "commands.h"

#include "abezolit.h"
#include "contents.h"
#include "show.h"
#include "tell.h"
#include "understood.h"

#include <stdio.h>
#include <string.h>

/* As abezolit.h says, these are enough for every line. */
enum { CONDENSED_MOST = 128, SWITCHES_MOST = 384 };

static const char *const side_names[] = { [ABZ_OUTPUT_SIDE] = "output", [ABZ_INPUT_SIDE] = "input" };

/* ---- A line that is no command ---- */

static bool is_dropped(char character)
{
    return character == ' ' || character == '\t' || character == 127;
}

/* What is left of the line, made here since a refusal does not write it. It is short, for else the line is too long. */
static size_t condense(const char *line, char *condensed)
{
    size_t length = 0;

    for (; *line; line++)
        if (!is_dropped(*line))
            condensed[length++] = *line;
    return length;
}

/* The place counts what is left of the line. */
static void show_place(const char *line, size_t length, size_t place)
{
    for (size_t i = 0; i < length; i++)
        putchar(line[i] >= ' ' && line[i] <= '~' ? line[i] : '?'); /* one column each, so that the mark stands right */
    printf("\n%*s^\n", (int)place, "");
}

/* ---- A command with a number over its bound ---- */

enum { UNIT_MOST = 7, UIC_MOST = 0377 };

/* What stands from here up to the end of the line, one of its sides, and a place there. */
typedef struct {
    const char *line, *end;
    size_t side, place;
} stretch;

/* Passes over the octal digits here, and says which number they are if it is over its bound. */
static void tell_number(stretch *at, const char *kind, size_t bound)
{
    const char *digits = at->line;
    bool over = false;

    for (size_t value = 0; at->line < at->end && *at->line >= '0' && *at->line <= '7'; at->line++) {
        value = 8 * value + (size_t)(*at->line - '0');
        over |= value > bound;
        if (over)
            value = 0; /* it is known, and the digits may be any number */
    }
    if (over)
        printf("%s %zu: %s %.*s is over %zo\n", side_names[at->side], at->place, kind, (int)(at->line - digits), digits,
               bound);
}

/* Two or three letters, digits and a colon are a device; any other beginning of a specification is none. */
static void tell_unit(stretch *at)
{
    const char *here = at->line;

    while (here < at->end && here < at->line + 3 && *here >= 'A' && *here <= 'Z')
        here++;
    if (here < at->line + 2)
        return;
    const size_t letters = (size_t)(here - at->line);
    while (here < at->end && *here >= '0' && *here <= '7')
        here++;
    if (here == at->end || *here != ':')
        return;
    at->line += letters;
    tell_number(at, "unit", UNIT_MOST);
}

/* The line is of the grammar: a bracket has a group, a comma and a user behind it. */
static void tell_numbers(const char *line, size_t length)
{
    stretch at = { line, line + length, ABZ_OUTPUT_SIDE, 0 };

    tell_unit(&at);
    while (at.line < at.end) {
        const char character = *at.line++;
        if (character == '[') {
            tell_number(&at, "group", UIC_MOST);
            at.line++;
            tell_number(&at, "user", UIC_MOST);
        } else if (character == ',' || character == '<') {
            at.side = character == '<' ? ABZ_INPUT_SIDE : at.side;
            at.place = character == '<' ? 0 : at.place + 1;
            tell_unit(&at);
        }
    }
}

/* ---- A specification ---- */

static void show_value(const uint8_t *words)
{
    show_word(word_at(words), word_at(words + 2));
}

/* A switch is a word with the number of values, the two words of its name, and two words for each value. */
static const uint8_t *show_switch(const uint8_t *words)
{
    size_t values = word_at(words);

    printf("    switch     ");
    show_value(words + 2);
    words += 6;
    for (size_t i = 0; i < values; i++, words += 4) {
        printf(i == 0 ? " = " : ", ");
        show_value(words);
    }
    putchar('\n');
    return words;
}

static void show_parts(const abz_specification *it)
{
    if (it->present & ABZ_HAS_DEVICE) {
        printf("    device     ");
        show_word(it->device, 0);
        printf("\n    unit       ");
        show_octal(it->unit);
        putchar('\n');
    }
    if (it->present & ABZ_HAS_NAME) {
        printf("    name       ");
        show_word(it->name1, it->name2);
        putchar('\n');
    }
    if (it->present & ABZ_HAS_EXTENSION) {
        printf("    extension  ");
        show_word(it->extension, 0);
        putchar('\n');
    }
    if (it->present & ABZ_HAS_UIC) {
        printf("    UIC        ");
        show_uic(256 * it->group + it->user);
        putchar('\n');
    }
}

static void show_specification(const abz_specification *it, const uint8_t *switches)
{
    if (it->present == 0 && it->switches == 0)
        printf("    empty\n");
    show_parts(it);
    for (size_t i = 0; i < it->switches; i++)
        switches = show_switch(switches);
}

/* ---- A command ---- */

/* Asks for the specifications of a side from 0 on, until the service says that there are no more. */
static size_t show_side(const uint8_t *condensed, size_t length, size_t side)
{
    uint8_t switches[SWITCHES_MOST];
    abz_specification it;

    for (size_t place = 0; ; place++) {
        it = abz_csi2(condensed, length, side, place, switches, sizeof switches);
        if (it.code == ABZ_NO_SPECIFICATION && place == 0)
            printf("no %s side\n", side_names[side]);
        if (it.code != ABZ_OK)
            return it.code == ABZ_NO_SPECIFICATION ? ABZ_OK : it.code;
        printf("%s %zu\n", side_names[side], place);
        show_specification(&it, switches);
    }
}

int command_read(char **arguments)
{
    const char *line = arguments[0];
    uint8_t condensed[CONDENSED_MOST];
    abz_answer answer = abz_csi1((const uint8_t *)line, strlen(line), condensed, sizeof condensed);
    size_t code = answer.code;

    if (code == ABZ_OK) {
        code = show_understood(condensed, answer.number);
        if (code == ABZ_OK)
            code = show_side(condensed, answer.number, ABZ_OUTPUT_SIDE);
        if (code == ABZ_OK)
            code = show_side(condensed, answer.number, ABZ_INPUT_SIDE);
    } else if (code == ABZ_GRAMMAR || code == ABZ_NUMBER) {
        char left[CONDENSED_MOST];
        size_t length = condense(line, left);
        if (code == ABZ_GRAMMAR)
            show_place(left, length, answer.number);
        else
            tell_numbers(left, length);
    }
    if (code != ABZ_OK)
        return tell_refusal("read", code);
    return show_end() ? STATUS_DONE : STATUS_FAILED;
}
