/* How a technician writes numbers, UICs and file names. */
#include "names.h"

#include "abezolit.h"
#include "tell.h"

#include <stdint.h>
#include <string.h>

enum { UIC_PART_MOST = 0377, PROTECT_MOST = 0377, NAME_MOST = 6, EXTENSION_MOST = 3 };

/* A text that does not end with a NUL: a part of an argument. */
typedef struct {
    const char *start;
    size_t length;
} part;

static part part_of(const char *start, const char *end)
{
    part it = { start, (size_t)(end - start) };

    return it;
}

/* ---- Numbers ---- */

/* Digits and nothing else: no sign, no blank, and no number that would be cut. */
static bool number_of(part text, size_t base, size_t *number)
{
    size_t sum = 0;

    for (size_t i = 0; i < text.length; i++) {
        size_t digit = (size_t)text.start[i] - '0';
        if (digit >= base || sum > (SIZE_MAX - digit) / base)
            return false;
        sum = base * sum + digit;
    }
    *number = sum;
    return text.length > 0;
}

static bool read_number(const char *what, const char *text, size_t base, size_t *number)
{
    if (number_of(part_of(text, text + strlen(text)), base, number))
        return true;
    complain("%s: '%s' is not %s number", what, text, base == 8 ? "an octal" : "a decimal");
    return false;
}

bool read_decimal(const char *what, const char *text, size_t least, size_t most, size_t *number)
{
    if (!read_number(what, text, 10, number))
        return false;
    if (*number < least)
        complain("%s: '%s' is less than %zu", what, text, least);
    else if (*number > most)
        complain("%s: '%s' is more than %zu", what, text, most);
    return *number >= least && *number <= most;
}

bool read_protect(const char *text, size_t *protect)
{
    if (text == NULL)
        return true;
    if (!read_number("PROTECT", text, 8, protect))
        return false;
    if (*protect > PROTECT_MOST)
        complain("PROTECT: '%s' is more than %o", text, PROTECT_MOST);
    return *protect <= PROTECT_MOST;
}

/* ---- UICs ---- */

/* A group or user over 377 is no byte. It must not run over into the other, where it would make another UIC. */
static bool uic_of(part text, size_t *uic)
{
    const char *comma = memchr(text.start, ',', text.length), *end = text.start + text.length;
    size_t group, user;

    if (comma == NULL || !number_of(part_of(text.start, comma), 8, &group)
        || !number_of(part_of(comma + 1, end), 8, &user) || group > UIC_PART_MOST || user > UIC_PART_MOST)
        return false;
    *uic = 256 * group + user;
    return true;
}

static bool bracketed_uic_of(part text, size_t *uic)
{
    if (text.length < 2 || text.start[0] != '[' || text.start[text.length - 1] != ']')
        return false;
    return uic_of(part_of(text.start + 1, text.start + text.length - 1), uic);
}

bool read_uic(const char *text, size_t *uic)
{
    part whole = part_of(text, text + strlen(text));

    if (bracketed_uic_of(whole, uic) || uic_of(whole, uic))
        return true;
    complain("'%s' is not a UIC: group and user, each octal and at most 377, as in [23,10]", text);
    return false;
}

/* ---- File names ---- */

/* Blanks behind a name belong to it in listings, so that a name copied from one is taken too. */
static part without_blanks_behind(part text)
{
    while (text.length > 0 && text.start[text.length - 1] == ' ')
        text.length--;
    return text;
}

static bool is_legal(part text, size_t least, size_t most)
{
    static const char legal[] = "ABCDEFGHIJKLMNOPQRSTUVWXYZ0123456789";

    for (size_t i = 0; i < text.length; i++)
        if (memchr(legal, text.start[i], sizeof legal - 1) == NULL)
            return false;
    return text.length >= least && text.length <= most;
}

/* The Radix-50 word of three characters of a legal text, from this place on; what is missing is blank. */
static size_t word_of(part text, size_t place)
{
    uint8_t characters[] = { ' ', ' ', ' ' };

    for (size_t i = 0; i < sizeof characters && place + i < text.length; i++)
        characters[i] = (uint8_t)text.start[place + i];
    return abz_radpk(characters, sizeof characters).number;
}

static bool name_of(part text, file_name *file)
{
    const char *dot = memchr(text.start, '.', text.length), *end = text.start + text.length;
    part name = without_blanks_behind(part_of(text.start, dot ? dot : end));
    part extension = without_blanks_behind(part_of(dot ? dot + 1 : end, end));

    if (!is_legal(name, 1, NAME_MOST) || !is_legal(extension, 0, EXTENSION_MOST))
        return false;
    file->name1 = word_of(name, 0);
    file->name2 = word_of(name, 3);
    file->extension = word_of(extension, 0);
    return true;
}

bool read_name(const char *text, file_name *file)
{
    const char *end = text + strlen(text), *bracket = strchr(text, '[');

    file->uic = 0;
    if (bracket && !bracketed_uic_of(part_of(bracket, end), &file->uic)) {
        complain("'%s': '%s' is not a UIC: group and user, each octal and at most 377, as in [23,10]", text, bracket);
        return false;
    }
    if (!name_of(part_of(text, bracket ? bracket : end), file)) {
        complain("'%s' is not a file's name: 1 to 6 of A-Z and 0-9, then perhaps a period and 1 to 3 of them", text);
        return false;
    }
    return true;
}

/* A file keeps its owner, so that a UIC here would be passed over in silence. */
bool read_new_name(const char *text, file_name *file)
{
    if (strchr(text, '[') == NULL)
        return read_name(text, file);
    complain("'%s': a new name has no UIC, since a file keeps its owner", text);
    return false;
}

bool is_same_name(file_name a, file_name b)
{
    return a.name1 == b.name1 && a.name2 == b.name2 && a.extension == b.extension;
}

/* ---- Files of this computer ---- */

bool read_path(const char *what, const char *text)
{
    if (*text == '\0')
        complain("%s: '' is not the name of a file", what);
    return *text != '\0';
}
