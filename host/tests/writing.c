/* The writing of command lines, held to worked examples, to what reading gives again, and to what no line can have. */
#include "abezolit.h"

#include <stdbool.h>
#include <stddef.h>
#include <stdint.h>
#include <string.h>

#include "check.h"
#include "image.h" /* words, characters and chance */

#define COUNT(array) (sizeof(array) / sizeof *(array))

enum { GUARD = 16, LINE_MOST = 128, SWITCHES_MOST = 384, RECORD = 18, ROOM = 131 * RECORD + 8 * SWITCHES_MOST };

/* What is written: how many specifications each side has, and the records of them all. */
typedef struct {
    size_t counts[2], length;
    uint8_t bytes[ROOM];
} records;

static const size_t huge[] = {
    255, 256, 65535, 65536, 65537, UINT32_MAX, (size_t)UINT32_MAX + 1, SIZE_MAX / 2, SIZE_MAX - 1, SIZE_MAX
};

/* ---- The call ---- */

static uint8_t lent_records[GUARD + ROOM + GUARD], kept_records[sizeof lent_records];
static uint8_t lent_line[GUARD + ROOM + GUARD], wanted_line[sizeof lent_line];

static void random_bytes(uint8_t *bytes, size_t length)
{
    for (size_t i = 0; i < length; i++)
        bytes[i] = (uint8_t)chance(256);
}

/*
 * Makes the call with random bytes around what is lent and in the buffer, and again with others: the answer does not
 * depend on them. `due` is the code that is due, and `line` the line with ABZ_OK.
 */
static void try(const char *name, const records *it, size_t room, size_t due, const char *line, size_t line_len)
{
    for (size_t turn = 0; turn < 2; turn++) {
        random_bytes(lent_records, GUARD + it->length + GUARD);
        memcpy(lent_records + GUARD, it->bytes, it->length);
        memcpy(kept_records, lent_records, GUARD + it->length + GUARD);
        random_bytes(lent_line, GUARD + room + GUARD);
        memcpy(wanted_line, lent_line, GUARD + room + GUARD);
        if (due == ABZ_OK)
            memcpy(wanted_line + GUARD, line, line_len);

        const abz_answer answer =
            abz_csi_write(it->counts[0], it->counts[1], lent_records + GUARD, it->length, lent_line + GUARD, room);
        CHECK_NUMBER(answer.code, due, "%s, buffer of %zu: code", name, room);
        CHECK_NUMBER(answer.number, due == ABZ_OK ? line_len : 0, "%s, buffer of %zu: number", name, room);
        CHECK_BYTES(lent_records, kept_records, GUARD + it->length + GUARD, "%s, buffer of %zu: records", name, room);
        CHECK_BYTES(lent_line, wanted_line, GUARD + room + GUARD, "%s, buffer of %zu: line behind %d guard bytes", name,
                    room, GUARD);
    }
}

/* ---- Records ---- */

static void add_word(records *it, size_t word)
{
    set_word(it->bytes + it->length, 0, word);
    it->length += 2;
}

static size_t switch_bytes(const uint8_t *switches, size_t count)
{
    size_t length = 0;

    while (count-- > 0)
        length += 6 + 4 * get_word(switches + length, 0);
    return length;
}

/* Those of a condensed line, as a host keeps them: it asks for 0, 1, .. of each side until there is none. */
static void keep(const uint8_t *line, size_t length, records *it)
{
    static uint8_t switches[SWITCHES_MOST];

    it->counts[0] = it->counts[1] = it->length = 0;
    for (size_t side = 0; side < 2; side++)
        for (;; it->counts[side]++) {
            const abz_specification one = abz_csi2(line, length, side, it->counts[side], switches, sizeof switches);
            if (one.code != ABZ_OK) {
                CHECK_NUMBER(one.code, ABZ_NO_SPECIFICATION, "%s: kept", check_text(line, length));
                break;
            }
            const size_t words[] = { one.present,   one.device, one.unit, one.name1,   one.name2,
                                     one.extension, one.group,  one.user, one.switches };
            for (size_t i = 0; i < COUNT(words); i++)
                add_word(it, words[i]);
            const size_t behind = switch_bytes(switches, one.switches);
            memcpy(it->bytes + it->length, switches, behind);
            it->length += behind;
        }
}

static bool same(const records *one, const records *other)
{
    return one->counts[0] == other->counts[0] && one->counts[1] == other->counts[1] && one->length == other->length
        && memcmp(one->bytes, other->bytes, one->length) == 0;
}

/* ---- Worked examples ---- */

static void examples(void)
{
    static const char *const lines[][2] = {
        { "", "" },
        { " ", "" },
        { "<", "<" },
        { ",", "," },
        { ",,<,", ",,<," },
        { "A", "A" },
        { "DT1:FREQ.DAT<PR:", "DT1:FREQ.DAT<PR:" },
        { " DT 1 : FREQ . DAT [ 23 , 10 ] / S : A1 : B2 ", "DT1:FREQ.DAT[23,10]/S:A1:B2" },
        { "DT0:", "DT:" },
        { "DT00000:A", "DT:A" },
        { "DTA007:", "DTA7:" },
        { "DTA7:", "DTA7:" },
        { "[0,0]", "[0,0]" },
        { "[007,0377]", "[7,377]" },
        { "[000010,000100]", "[10,100]" },
        { "A.B,/SW/SW:1,<KB:,[1,2]", "A.B,/SW/SW:1,<KB:,[1,2]" },
        { "ABCDEF.XYZ/ABCDE1:Z:9:ABCDEF", "ABCDEF.XYZ/ABCDE1:Z:9:ABCDEF" },
        { "1.2/A1:2", "1.2/A1:2" },
        { ",DT:,<,A,", ",DT:,<,A," },
    };
    static records it;

    for (size_t i = 0; i < COUNT(lines); i++) {
        uint8_t condensed[LINE_MOST];
        const char *typed = lines[i][0], *shown = lines[i][1];
        const size_t length = strlen(shown);
        const abz_answer answer = abz_csi1((const uint8_t *)typed, strlen(typed), condensed, sizeof condensed);
        CHECK_NUMBER(answer.code, ABZ_OK, "%s: CSI1", typed);
        keep(condensed, answer.number, &it);
        try(typed, &it, length, ABZ_OK, shown, length);
        try(typed, &it, LINE_MOST, ABZ_OK, shown, length);
        if (length > 0) {
            try(typed, &it, length - 1, ABZ_SHORT_BUFFER, NULL, 0);
            try(typed, &it, 0, ABZ_SHORT_BUFFER, NULL, 0);
        }
    }
}

/* ---- What no line can have ---- */

static const char complete[] = "DT1:FREQ.DAT[23,10]/SW:A1<KB:/X";

/* Words of its records: nine of the first, five of its switch, nine of the second, three of its switch. */
enum { FIRST_SWITCH = 9, SECOND = 14, SECOND_SWITCH = 23, WORDS = 26 };

static void no_line(void)
{
    static const struct {
        const char *what;
        size_t word, number;
    } changes[] = {
        { "a bit that does not exist", 0, 16 + 15 },
        { "all bits", 0, 0177777 },
        { "a device and a unit without their bit", 0, 14 },
        { "a name without its bit, and with an extension", 0, 13 },
        { "an extension without its bit", 0, 11 },
        { "group and user without their bit", 0, 7 },
        { "a device of no letter", 1, 0 },
        { "a device of one letter", 1, 4 * 1600 },
        { "a device with a digit", 1, 4 * 1600 + 31 * 40 },
        { "a device with a dollar sign", 1, 4 * 1600 + 20 * 40 + 27 },
        { "a device that begins with a blank", 1, 4 * 40 + 20 },
        { "a device with a code that has no character", 1, 4 * 1600 + 29 * 40 },
        { "a device that is no word", 1, 64000 },
        { "a unit over 7", 2, 8 },
        { "a unit over 255", 2, 256 },
        { "a name that begins with blanks", 3, 0 },
        { "a name with a dollar sign", 3, 27 * 1600 },
        { "a name with a blank between", 3, 6 * 1600 },
        { "a name whose end has a blank first", 4, 17 },
        { "a name whose end is no word", 4, 65535 },
        { "an extension of no character", 5, 0 },
        { "an extension with a period", 5, 28 * 1600 },
        { "an extension that begins with a blank", 5, 1 },
        { "a group over 377 octal", 6, 256 },
        { "a user over 377 octal", 7, 256 },
        { "a user of 65535", 7, 65535 },
        { "no switch, and bytes behind", 8, 0 },
        { "a switch that no bytes back", 8, 2 },
        { "65535 switches", 8, 65535 },
        { "no value, and bytes behind", FIRST_SWITCH, 0 },
        { "a value that is a record", FIRST_SWITCH, 2 },
        { "65535 values", FIRST_SWITCH, 65535 },
        { "a switch that begins with a digit", FIRST_SWITCH + 1, 31 * 1600 },
        { "a switch with no name", FIRST_SWITCH + 1, 0 },
        { "a switch that is no word", FIRST_SWITCH + 1, 64000 },
        { "a switch whose end is alone", FIRST_SWITCH + 2, 1600 },
        { "a value of two zero words", FIRST_SWITCH + 3, 0 },
        { "a value with a blank between", FIRST_SWITCH + 4, 1600 },
        { "a name of the second without its bit", SECOND + 3, 1600 },
        { "an extension of the second, which has no name", SECOND, 5 },
        { "a unit over 7 of the second", SECOND + 2, 8 },
        { "a value of the second that no bytes back", SECOND_SWITCH, 1 },
        { "a second switch of the second", SECOND + 8, 2 },
    };
    static records good, it;
    const size_t length = strlen(complete);

    keep((const uint8_t *)complete, length, &good);
    CHECK_NUMBER(good.length, 2 * WORDS, "%s: bytes of its records", complete);
    try("complete", &good, LINE_MOST, ABZ_OK, complete, length);

    for (size_t i = 0; i < COUNT(changes); i++) {
        it = good;
        set_word(it.bytes, changes[i].word, changes[i].number);
        try(changes[i].what, &it, LINE_MOST, ABZ_ARGUMENT, NULL, 0);
        try(changes[i].what, &it, 0, ABZ_ARGUMENT, NULL, 0); /* before a short buffer */
    }

    it = good;
    for (it.length = 0; it.length < good.length; it.length++)
        try("records cut short", &it, LINE_MOST, ABZ_ARGUMENT, NULL, 0);
    for (it.length = good.length + 1; it.length < good.length + 40; it.length++)
        try("bytes too many", &it, LINE_MOST, ABZ_ARGUMENT, NULL, 0);

    it = good;
    for (size_t outputs = 0; outputs < 4; outputs++)
        for (size_t inputs = 0; inputs < 4; inputs++) {
            it.counts[0] = outputs;
            it.counts[1] = inputs;
            if (outputs + inputs != 2 || outputs == 0)
                try("other counts", &it, LINE_MOST, ABZ_ARGUMENT, NULL, 0);
        }
    it.counts[0] = 2;
    it.counts[1] = 0;
    try("both of the output side", &it, LINE_MOST, ABZ_OK, "DT1:FREQ.DAT[23,10]/SW:A1,KB:/X", length);
    for (size_t i = 0; i < COUNT(huge); i++)
        for (size_t side = 0; side < 2; side++) {
            it = good;
            it.counts[side] = huge[i];
            try("counts of any size", &it, LINE_MOST, ABZ_ARGUMENT, NULL, 0);
            it.counts[1 - side] = huge[chance(COUNT(huge))];
            try("both counts of any size", &it, LINE_MOST, ABZ_ARGUMENT, NULL, 0);
        }

    it.length = it.counts[0] = it.counts[1] = 0;
    try("nothing", &it, LINE_MOST, ABZ_ARGUMENT, NULL, 0);
    it.counts[0] = 1;
    try("one of nothing", &it, LINE_MOST, ABZ_ARGUMENT, NULL, 0);
}

/* ---- Limits ---- */

/* Empty specifications have a comma between each two of a side. */
static void limits(void)
{
    static records it;
    static char commas[LINE_MOST + 1];

    memset(commas, ',', sizeof commas);
    memset(it.bytes, 0, sizeof it.bytes);
    it.counts[0] = 129;
    it.length = 129 * RECORD;
    try("129 empty specifications", &it, 128, ABZ_OK, commas, 128);
    try("129 empty specifications", &it, 200, ABZ_OK, commas, 128);
    try("129 empty specifications", &it, 127, ABZ_SHORT_BUFFER, NULL, 0);
    for (size_t outputs = 1; outputs < 129; outputs++) {
        it.counts[0] = outputs;
        it.counts[1] = 129 - outputs;
        commas[outputs - 1] = '<';
        try("129 empty specifications on two sides", &it, 128, ABZ_OK, commas, 128);
        commas[outputs - 1] = ',';
    }
    it.counts[0] = 130;
    it.counts[1] = 0;
    it.length = 130 * RECORD;
    try("130 empty specifications", &it, 200, ABZ_LONG_LINE, NULL, 0);
    try("130 empty specifications", &it, 0, ABZ_LONG_LINE, NULL, 0); /* before a short buffer */
    it.bytes[it.length - 2] = 1;
    try("130, of which the last has a switch that is not there", &it, 200, ABZ_ARGUMENT, NULL, 0);
    it.bytes[it.length - 2] = 0;
    it.length++;
    try("130 and a byte", &it, 200, ABZ_ARGUMENT, NULL, 0);

    /* Words of one switch with as many values as there is room for: two characters each and more. */
    it.counts[0] = 1;
    for (size_t values = 60; values < 70; values++) {
        static char line[LINE_MOST + 32];
        char *end = line;
        it.length = 0;
        for (size_t i = 0; i < RECORD / 2; i++)
            add_word(&it, i == 8 ? 1 : 0);
        add_word(&it, values);
        add_word(&it, 1600);
        add_word(&it, 0);
        *end++ = '/';
        *end++ = 'A';
        for (size_t i = 0; i < values; i++) {
            add_word(&it, 39 * 1600);
            add_word(&it, 0);
            *end++ = ':';
            *end++ = '9';
        }
        const size_t length = (size_t)(end - line);
        try("many values", &it, 200, length > LINE_MOST ? ABZ_LONG_LINE : ABZ_OK, line, length);
    }
}

/* ---- Reading and writing together ---- */

static char *add_some(char *end, const char *characters, size_t least, size_t most)
{
    for (size_t left = least + chance(most - least + 1); left > 0; left--)
        *end++ = characters[chance(strlen(characters))];
    return end;
}

static char *add_octal(char *end, size_t number)
{
    for (size_t zeros = chance(3) == 0 ? chance(5) : 0; zeros > 0; zeros--)
        *end++ = '0';
    return end + sprintf(end, "%zo", number);
}

static char *add_specification(char *end)
{
    static const char letters[] = "ABCDEFGHIJKLMNOPQRSTUVWXYZ";

    if (chance(3) == 0) {
        end = add_some(end, letters, 2, 3);
        if (chance(2))
            end = add_octal(end, chance(8));
        *end++ = ':';
    }
    if (chance(2)) {
        end = add_some(end, LETTERS_AND_DIGITS, 1, 6);
        if (chance(2)) {
            *end++ = '.';
            end = add_some(end, LETTERS_AND_DIGITS, 1, 3);
        }
    }
    if (chance(3) == 0) {
        *end++ = '[';
        end = add_octal(end, chance(256));
        *end++ = ',';
        end = add_octal(end, chance(256));
        *end++ = ']';
    }
    for (size_t switches = chance(4) == 0 ? chance(4) : 0; switches > 0; switches--) {
        *end++ = '/';
        end = add_some(end, letters, 1, 1);
        end = add_some(end, LETTERS_AND_DIGITS, 0, 5);
        for (size_t values = chance(2) ? chance(4) : 0; values > 0; values--) {
            *end++ = ':';
            end = add_some(end, LETTERS_AND_DIGITS, 1, 6);
        }
    }
    return end;
}

/* A line that is not longer than CSI1 takes. */
static size_t random_line(char *line)
{
    char *end;

    do {
        bool input = false;
        end = add_specification(line);
        for (size_t more = chance(6); more > 0; more--) {
            *end++ = !input && chance(3) == 0 ? '<' : ',';
            input |= end[-1] == '<';
            end = add_specification(end);
        }
    } while (end - line > LINE_MOST);
    return (size_t)(end - line);
}

/* What was written is read as the records, and written again is the same line. */
static size_t try_again(const char *name, const records *it)
{
    static records again;
    uint8_t line[LINE_MOST];
    const abz_answer answer = abz_csi_write(it->counts[0], it->counts[1], it->bytes, it->length, line, sizeof line);

    if (answer.code == ABZ_OK) {
        uint8_t condensed[LINE_MOST];
        const abz_answer read = abz_csi1(line, answer.number, condensed, sizeof condensed);
        CHECK_NUMBER(read.code, ABZ_OK, "%s: %s is read", name, check_text(line, answer.number));
        CHECK_NUMBER(read.number, answer.number, "%s: %s has no blanks", name, check_text(line, answer.number));
        keep(line, answer.number, &again);
        CHECK_NUMBER(same(it, &again), true, "%s: %s, read again, has the same records", name,
                     check_text(line, answer.number));
        try(name, &again, answer.number, ABZ_OK, (const char *)line, answer.number);
    }
    return answer.code;
}

static void together(void)
{
    static records it, other;
    static char text[8 * LINE_MOST];
    size_t written = 0, refused = 0;

    for (size_t turn = 0; turn < 3000; turn++) {
        uint8_t line[LINE_MOST];
        const size_t length = random_line(text);
        keep((const uint8_t *)text, length, &it);
        CHECK_NUMBER(try_again("a line", &it), ABZ_OK, "%s: written", check_text(text, length));
        const abz_answer answer = abz_csi_write(it.counts[0], it.counts[1], it.bytes, it.length, line, sizeof line);
        CHECK_NUMBER(answer.number <= length, true, "%s: no longer than it was", check_text(text, length));

        /* One bit, or one word, is another: it is refused, or some other line has just these records. */
        for (size_t change = 0; change < 20; change++) {
            const size_t at = chance(it.length);
            other = it;
            if (chance(2))
                other.bytes[at] ^= (uint8_t)(1 << chance(8));
            else
                set_word(other.bytes, at / 2, chance(2) ? chance(65536) : get_word(it.bytes, chance(it.length / 2)));
            const size_t code = try_again("changed", &other);
            const bool due = code == ABZ_OK || code == ABZ_ARGUMENT || code == ABZ_LONG_LINE;
            CHECK_NUMBER(due, true, "changed: code %zo", code);
            written += code == ABZ_OK && !same(&it, &other);
            refused += code == ABZ_ARGUMENT;
        }
    }
    CHECK_NUMBER(written > 1000, true, "changed records that other lines have: %zu", written);
    CHECK_NUMBER(refused > 1000, true, "changed records that no line has: %zu", refused);
}

int main(void)
{
    examples();
    no_line();
    limits();
    together();
    return check_end("writing");
}
