/* The six conversions, held to what C's own library and a plain table say of them. */
#include "abezolit.h" /* first, to see that it needs no other before it */

#include <stdbool.h>
#include <stdlib.h>
#include <string.h>

#include "check.h"

enum {
    WORD = 65535,
    GUARD = 16,
    ROOM = WORD + 16, /* so that a length can be wrong in its high bits alone */
    TEXT = 24         /* holds any size_t in octal, and NUL */
};

/* ---- What is expected ---- */

static const char alphabet[] = " ABCDEFGHIJKLMNOPQRSTUVWXYZ$.?0123456789"; /* ? stands for 29, which has no character */
static char spellings[64000][4];

/* Counting through the characters gives the words in their order, with no division. */
static void spell_all(void)
{
    size_t word = 0;

    for (const char *a = alphabet; *a; a++)
        for (const char *b = alphabet; *b; b++)
            for (const char *c = alphabet; *c; c++, word++) {
                spellings[word][0] = *a;
                spellings[word][1] = *b;
                spellings[word][2] = *c;
            }
}

static bool radix_text(size_t word, char *text)
{
    if (word >= 64000 || strchr(spellings[word], '?'))
        return false;
    strcpy(text, spellings[word]);
    return true;
}

static bool radix_number(const char *text, size_t *word)
{
    *word = 0;
    for (int i = 0; i < 3; i++) {
        const char *found = text[i] == '?' ? NULL : memchr(alphabet, text[i], strlen(alphabet));
        if (!found)
            return false;
        *word = 40 * *word + (size_t)(found - alphabet);
    }
    return true;
}

static bool decimal_text(size_t number, char *text)
{
    return sprintf(text, "%05zu", number) == 5 && number <= WORD;
}

static bool decimal_number(const char *text, size_t *number)
{
    *number = strtoul(text, NULL, 10);
    return strspn(text, "0123456789") == 5 && *number <= WORD;
}

static bool octal_text(size_t number, char *text)
{
    return sprintf(text, "%06zo", number) == 6 && number <= WORD;
}

static bool octal_number(const char *text, size_t *number)
{
    *number = strtoul(text, NULL, 8);
    return strspn(text, "01234567") == 6 && *number <= WORD;
}

/* ---- The calls ---- */

typedef struct {
    const char *in_name, *out_name;
    abz_answer (*in)(const uint8_t *chars, size_t chars_len);
    size_t (*out)(size_t number, uint8_t *chars, size_t chars_len);
    size_t size;
    bool (*number)(const char *text, size_t *number); /* false: to be refused */
    bool (*text)(size_t number, char *text);
    const char *good[3];
} pair;

static const pair radix = {
    "radpk", "radup", abz_radpk, abz_radup, 3, radix_number, radix_text, { "KB ", "999", "   " }
};
static const pair decimal = {
    "d2bin", "bin2d", abz_d2bin, abz_bin2d, 5, decimal_number, decimal_text, { "00000", "65535", "12345" }
};
static const pair octal = {
    "o2bin", "bin2o", abz_o2bin, abz_bin2o, 6, octal_number, octal_text, { "000000", "177777", "012345" }
};

/* The lent slice has guards on both sides and is compared with them, so a byte written outside shows as well. */
static uint8_t lent[GUARD + ROOM + GUARD], kept[sizeof lent];

/* The filling has bit 7 set, which no written character has: any byte that is written differs from it. */
static void fill(size_t length)
{
    memset(lent, 0xA5, GUARD + length + GUARD);
    memset(kept, 0xA5, GUARD + length + GUARD);
}

static void try_in(const pair *p, const char *chars, size_t length, size_t code, size_t number)
{
    fill(length);
    memcpy(lent + GUARD, chars, length);
    memcpy(kept + GUARD, chars, length);

    abz_answer answer = p->in(lent + GUARD, length);

    CHECK_NUMBER(answer.code, code, "%s of %s, length %zu, code", p->in_name, check_text(chars, length), length);
    CHECK_NUMBER(answer.number, number, "%s of %s, length %zu, number", p->in_name, check_text(chars, length), length);
    CHECK_BYTES(lent, kept, GUARD + length + GUARD, "%s of %s, length %zu, slice behind %d guard bytes", p->in_name,
                check_text(chars, length), length, GUARD);
}

/* text is what is to be written; with a refusal it is not looked at. */
static void try_out(const pair *p, size_t number, size_t length, size_t code, const char *text)
{
    fill(length);
    if (code == ABZ_OK)
        memcpy(kept + GUARD, text, length);

    size_t answer = p->out(number, lent + GUARD, length);

    CHECK_NUMBER(answer, code, "%s of %zu, length %zu, code", p->out_name, number, length);
    CHECK_BYTES(lent, kept, GUARD + length + GUARD, "%s of %zu, length %zu, slice behind %d guard bytes", p->out_name,
                number, length, GUARD);
}

static void try_text(const pair *p, const char *text)
{
    size_t number;

    if (p->number(text, &number))
        try_in(p, text, p->size, ABZ_OK, number);
    else
        try_in(p, text, p->size, ABZ_CONVERSION, 0);
}

/* ---- The tests ---- */

/* Both ways: the characters that the one call wrote are what the other is given. */
static void every_word(const pair *p)
{
    char text[TEXT];

    for (size_t number = 0; number <= WORD; number++) {
        if (p->text(number, text)) {
            try_out(p, number, p->size, ABZ_OK, text);
            memcpy(text, lent + GUARD, p->size);
            try_in(p, text, p->size, ABZ_OK, number);
        } else {
            try_out(p, number, p->size, ABZ_CONVERSION, NULL);
        }
    }
}

/* Among them numbers whose low 16, 32 or 52 bits alone would be taken; RADUP moves a word up by 12 bits. */
static void numbers_above(const pair *p)
{
    static const size_t far[] = {
        (size_t)UINT32_MAX - WORD, UINT32_MAX, (size_t)UINT32_MAX + 1, (size_t)UINT32_MAX + 1 + 042420,
        (SIZE_MAX >> 12) + 1, (SIZE_MAX >> 12) + 1 + 042420,
        SIZE_MAX / 2, SIZE_MAX / 2 + 1, SIZE_MAX / 2 + 1 + 042420, SIZE_MAX - WORD, SIZE_MAX - 1, SIZE_MAX
    };

    for (size_t number = WORD + 1; number <= 4 * (size_t)WORD; number++)
        try_out(p, number, p->size, ABZ_CONVERSION, NULL);
    for (size_t i = 0; i < sizeof far / sizeof *far; i++)
        try_out(p, far[i], p->size, ABZ_CONVERSION, NULL);
}

static void every_digit_text(void)
{
    char text[TEXT];

    for (size_t number = 0; number <= 99999; number++) {
        sprintf(text, "%05zu", number);
        try_text(&decimal, text);
    }
    for (size_t number = 0; number <= 0777777; number++) {
        sprintf(text, "%06zo", number);
        try_text(&octal, text);
    }
}

static void every_byte(const pair *p)
{
    char text[TEXT];

    for (size_t g = 0; g < sizeof p->good / sizeof *p->good; g++)
        for (size_t place = 0; place < p->size; place++)
            for (int byte = 0; byte <= 255; byte++) {
                strcpy(text, p->good[g]);
                text[place] = (char)byte;
                try_text(p, text);
            }
}

/* A wrong length is named before a wrong number or character. */
static void wrong_length(const pair *p, size_t length)
{
    static const size_t numbers[] = { 0, 29, 042420, 63999, 64000, WORD, WORD + 1, SIZE_MAX };
    static char chars[ROOM];

    for (size_t i = 0; i < sizeof numbers / sizeof *numbers; i++)
        try_out(p, numbers[i], length, ABZ_ARGUMENT, NULL);

    for (size_t g = 0; g < sizeof p->good / sizeof *p->good; g++) {
        for (size_t i = 0; i < length; i++)
            chars[i] = p->good[g][i % p->size];
        try_in(p, chars, length, ABZ_ARGUMENT, 0);
    }
    for (int byte = 0; byte <= 255; byte++) {
        memset(chars, byte, length);
        try_in(p, chars, length, ABZ_ARGUMENT, 0);
    }
}

static void wrong_lengths(const pair *p)
{
    for (size_t length = 0; length <= 8; length++)
        if (length != p->size)
            wrong_length(p, length);
    wrong_length(p, 256 + p->size);
    wrong_length(p, WORD + 1 + p->size);
}

/* Written out, so that a mistake in what is expected above does not pass unseen. */
static void examples(void)
{
    static const struct {
        const pair *pair;
        size_t number;
        const char *text;
    } taken[] = {
        { &radix, 17680, "KB " },  { &radix, 042420, "KB " }, { &radix, 7191, "DS1" },  { &radix, 63999, "999" },
        { &radix, 26320, "PR " },  { &radix, 063320, "PR " }, { &radix, 0, "   " },     { &radix, 1, "  A" },
        { &radix, 40, " A " },     { &radix, 1600, "A  " },   { &radix, 26, "  Z" },    { &radix, 27, "  $" },
        { &radix, 28, "  ." },     { &radix, 30, "  0" },     { &radix, 39, "  9" },

        { &decimal, 0, "00000" },  { &decimal, 7, "00007" },  { &decimal, 65535, "65535" },

        { &octal, 0, "000000" },   { &octal, 8, "000010" },   { &octal, 0177777, "177777" },
    };
    static const struct {
        const pair *pair;
        const char *text;
    } bad_texts[] = {
        { &radix, "kb " },     { &radix, "Kb " },      { &radix, "DS?" },        { &radix, "\313B " },
        { &radix, "K\302 " },  { &radix, "KB\240" },   { &radix, "KB\0" },       { &radix, "KB\t" },

        { &decimal, "65536" }, { &decimal, "99999" },  { &decimal, " 1234" },    { &decimal, "12 45" },
        { &decimal, "1234 " }, { &decimal, "     " },  { &decimal, "+1234" },    { &decimal, "-0001" },
        { &decimal, "1234A" }, { &decimal, "1234\0" }, { &decimal, "\2612345" }, { &decimal, "1234\265" },

        { &octal, "200000" },  { &octal, "777777" },   { &octal, "000008" },     { &octal, "900000" },
        { &octal, " 17777" },  { &octal, "17 777" },   { &octal, "17777 " },     { &octal, "      " },
        { &octal, "+00001" },  { &octal, "0x1FFF" },   { &octal, "\26177777" },  { &octal, "17777\267" },
    };
    static const struct {
        const pair *pair;
        size_t number;
    } bad_numbers[] = {
        { &radix, 29 },        { &radix, 1 * 1600 + 2 * 40 + 29 },
        { &radix, 29 * 40 },   { &radix, 1 * 1600 + 29 * 40 + 2 },
        { &radix, 29 * 1600 }, { &radix, 29 * 1600 + 1 * 40 + 2 },
        { &radix, 29 * 1600 + 29 * 40 + 29 },

        { &radix, 64000 }, { &radix, 65535 }, { &radix, 65536 }, { &decimal, 65536 }, { &octal, 0200000 },
    };

    for (size_t i = 0; i < sizeof taken / sizeof *taken; i++) {
        const pair *p = taken[i].pair;
        try_in(p, taken[i].text, p->size, ABZ_OK, taken[i].number);
        try_out(p, taken[i].number, p->size, ABZ_OK, taken[i].text);
    }
    for (size_t i = 0; i < sizeof bad_texts / sizeof *bad_texts; i++) {
        const pair *p = bad_texts[i].pair;
        try_in(p, bad_texts[i].text, p->size, ABZ_CONVERSION, 0);
    }
    for (size_t i = 0; i < sizeof bad_numbers / sizeof *bad_numbers; i++) {
        const pair *p = bad_numbers[i].pair;
        try_out(p, bad_numbers[i].number, p->size, ABZ_CONVERSION, NULL);
    }
}

int main(void)
{
    static const pair *const pairs[] = { &radix, &decimal, &octal };

    spell_all();
    examples();
    every_digit_text();
    for (size_t i = 0; i < sizeof pairs / sizeof *pairs; i++) {
        every_word(pairs[i]);
        numbers_above(pairs[i]);
        every_byte(pairs[i]);
        wrong_lengths(pairs[i]);
    }
    return check_end("conversions");
}
