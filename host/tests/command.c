/* CSI1 and CSI2, held to grammar.h. */
#include "grammar.h"

#include "check.h"

#define COUNT(array) (sizeof(array) / sizeof *(array))

enum { GUARD = 16, SWITCH_BYTES = 2 * SWITCH_WORDS, ROOM = 65536 + 2 * RAW_MOST, CODES = 0100 };

/* Among them numbers that are 0 or 1 in their low 8, 16 or 32 bits, or when 1 is added to them. */
static const size_t huge[] = {
    255, 256, 257, 65535, 65536, 65537, UINT32_MAX, (size_t)UINT32_MAX + 1, (size_t)UINT32_MAX + 2, SIZE_MAX / 2,
    SIZE_MAX / 2 + 1, SIZE_MAX / 2 + 2, SIZE_MAX - 1, SIZE_MAX
};

#define CHECK_SPECIFICATION(got, due, format, ...)                                        \
    do {                                                                                  \
        CHECK_NUMBER((got).code, (due).code, format "code", __VA_ARGS__);                 \
        CHECK_NUMBER((got).place, (due).place, format "place", __VA_ARGS__);              \
        CHECK_NUMBER((got).present, (due).present, format "present", __VA_ARGS__);        \
        CHECK_NUMBER((got).device, (due).device, format "device", __VA_ARGS__);           \
        CHECK_NUMBER((got).unit, (due).unit, format "unit", __VA_ARGS__);                 \
        CHECK_NUMBER((got).name1, (due).name1, format "name1", __VA_ARGS__);              \
        CHECK_NUMBER((got).name2, (due).name2, format "name2", __VA_ARGS__);              \
        CHECK_NUMBER((got).extension, (due).extension, format "extension", __VA_ARGS__);  \
        CHECK_NUMBER((got).group, (due).group, format "group", __VA_ARGS__);              \
        CHECK_NUMBER((got).user, (due).user, format "user", __VA_ARGS__);                 \
        CHECK_NUMBER((got).switches, (due).switches, format "switches", __VA_ARGS__);     \
    } while (0)

/* One of each kind of characters that the rules tell apart. */
static const char kinds[] = "A78:.[],/<*";

/* ---- The calls ---- */

/* A lent slice has guards on both sides and is compared with them. */
static uint8_t lent_line[GUARD + ROOM + GUARD], kept_line[sizeof lent_line];
static uint8_t lent_buffer[GUARD + ROOM + GUARD], wanted_buffer[sizeof lent_buffer];

static uint8_t noise[sizeof lent_buffer + 4096];
static size_t given[2][CODES];

/* The buffer is lent full of random bytes. Around the line are characters with which it could go on. */
static void lend(const uint8_t *line, size_t length, size_t room)
{
    for (size_t i = 0; i < GUARD; i++)
        lent_line[i] = lent_line[GUARD + length + i] = (uint8_t)kinds[chance(strlen(kinds))];
    memcpy(lent_line + GUARD, line, length);
    memcpy(kept_line, lent_line, GUARD + length + GUARD);
    memcpy(lent_buffer, noise + chance(4096), GUARD + room + GUARD);
    memcpy(wanted_buffer, lent_buffer, GUARD + room + GUARD);
}

/* Returns the code that is due. */
static size_t try_csi1(const char *name, const uint8_t *raw, size_t raw_len, size_t room)
{
    lend(raw, raw_len, room);
    const abz_answer due = csi1_due(raw, raw_len, wanted_buffer + GUARD, room);
    const abz_answer answer = abz_csi1(lent_line + GUARD, raw_len, lent_buffer + GUARD, room);

#define CASE "%s: CSI1 of %s, length %zu, buffer of %zu: "
#define CASE_ARGUMENTS name, check_text(raw, raw_len), raw_len, room
    CHECK_NUMBER(answer.code, due.code, CASE "code", CASE_ARGUMENTS);
    CHECK_NUMBER(answer.number, due.number, CASE "number", CASE_ARGUMENTS);
    CHECK_BYTES(lent_line, kept_line, GUARD + raw_len + GUARD, CASE "line behind %d guard bytes", CASE_ARGUMENTS,
                GUARD);
    CHECK_BYTES(lent_buffer, wanted_buffer, GUARD + room + GUARD, CASE "buffer behind %d guard bytes", CASE_ARGUMENTS,
                GUARD);
#undef CASE_ARGUMENTS
#undef CASE

    given[0][due.code]++;
    return due.code;
}

/* `it` is the line's reading. Returns the code that is due. */
static size_t try_csi2(const char *name, const uint8_t *line, size_t length, const reading *it, size_t side, size_t k,
                       size_t room)
{
    lend(line, length, room);
    const abz_specification due = csi2_due(it, length, side, k, wanted_buffer + GUARD, room);
    const abz_specification answer = abz_csi2(lent_line + GUARD, length, side, k, lent_buffer + GUARD, room);

#define CASE "%s: CSI2 of %s, length %zu, side %zu, k %zu, buffer of %zu: "
#define CASE_ARGUMENTS name, check_text(line, length), length, side, k, room
    CHECK_SPECIFICATION(answer, due, CASE, CASE_ARGUMENTS);
    CHECK_BYTES(lent_line, kept_line, GUARD + length + GUARD, CASE "line behind %d guard bytes", CASE_ARGUMENTS, GUARD);
    CHECK_BYTES(lent_buffer, wanted_buffer, GUARD + room + GUARD, CASE "buffer behind %d guard bytes", CASE_ARGUMENTS,
                GUARD);
#undef CASE_ARGUMENTS
#undef CASE

    given[1][due.code]++;
    return due.code;
}

/* A line of more than 128 has no reading that is asked for. */
static const reading *reading_of(const char *name, const uint8_t *line, size_t length)
{
    static reading it;

    if (length <= LINE_MOST) {
        read_line(line, length, &it);
        CHECK_NUMBER(it.judged.ambiguous, false, "%s: two readings of %s", name, check_text(line, length));
    }
    return &it;
}

/* Each specification is asked for with all the room there can be need of, and those behind the last. */
static void try_each(const char *name, const uint8_t *line, size_t length)
{
    const reading *it = reading_of(name, line, length);

    try_csi1(name, line, length, LINE_MOST);
    for (size_t side = 0; side < 2; side++) {
        size_t k = 0;
        while (try_csi2(name, line, length, it, side, k, SWITCH_BYTES) == 0)
            k++;
    }
}

/* With buffers that are too short, just long enough and longer, and with sides and places that there are not. */
static void try_all(const char *name, const uint8_t *line, size_t length)
{
    const reading *it = reading_of(name, line, length);
    uint8_t condensed[ROOM];
    const size_t condensed_len = condense(line, length, condensed);
    const size_t rooms[] = { 0, condensed_len - 1, condensed_len, condensed_len + 1, LINE_MOST, RAW_MOST };

    for (size_t i = 0; i < COUNT(rooms); i++)
        if (rooms[i] < ROOM)
            try_csi1(name, line, length, rooms[i]);

    for (size_t side = 0; side < 3; side++)
        for (size_t k = 0, code = 0; code == 0; k++) {
            const bool there =
                length <= LINE_MOST && it->judged.of_grammar && !it->over && side < 2 && k < it->count[side];
            const size_t need = there ? 2 * it->at[side][k].word_count : 0;
            const size_t switch_rooms[] = { 0, need - 1, need + 1, SWITCH_BYTES, need };
            for (size_t i = 0; i < COUNT(switch_rooms); i++)
                if (switch_rooms[i] < ROOM)
                    code = try_csi2(name, line, length, it, side, k, switch_rooms[i]);
        }
    for (size_t i = 0; i < 4; i++) {
        const size_t far = huge[chance(COUNT(huge))], room = chance(2) ? 0 : SWITCH_BYTES;
        try_csi2(name, line, length, it, far, chance(3), room);
        try_csi2(name, line, length, it, chance(2), far, room);
        try_csi2(name, line, length, it, far, far, room);
    }
}

/* Puts characters that CSI1 drops between those of a line, up to so many in all. */
static size_t strew(const uint8_t *line, size_t length, uint8_t *raw, size_t raw_len)
{
    size_t left = length;

    for (size_t i = 0; i < raw_len; i++)
        raw[i] = chance(raw_len - i) < left ? line[length - left--] : (uint8_t)dropped[chance(sizeof dropped)];
    return raw_len;
}

/* ---- Written out, with no model between ---- */

static void header_numbers(void)
{
    static const struct {
        size_t named, number;
    } numbers[] = {
        { ABZ_GRAMMAR, 40 },      { ABZ_NO_SPECIFICATION, 41 }, { ABZ_SHORT_BUFFER, 42 }, { ABZ_LONG_LINE, 43 },
        { ABZ_OUTPUT_SIDE, 0 },   { ABZ_INPUT_SIDE, 1 },        { ABZ_HAS_DEVICE, 1 },    { ABZ_HAS_NAME, 2 },
        { ABZ_HAS_EXTENSION, 4 }, { ABZ_HAS_UIC, 8 },           { ABZ_NUMBER, 44 },
    };

    for (size_t i = 0; i < COUNT(numbers); i++)
        CHECK_NUMBER(numbers[i].named, numbers[i].number, "header number %zu", i);
}

static void condensing_examples(void)
{
    static const struct {
        const char *raw;
        size_t raw_len, room, code, number;
        const char *after; /* what the buffer starts with */
    } examples[] = {
        { "", 0, 0, 0, 0, "------" },
        { " ", 1, 0, 0, 0, "------" },
        { "<", 1, 6, 0, 1, "<-----" },
        { " \t\0\177", 4, 6, 0, 0, "------" },
        { "A\tB <\0C\177 ", 9, 6, 0, 4, "AB<C--" },
        { "DT1:FREQ.DAT<PR:", 16, 16, 0, 16, "DT1:FREQ.DAT<PR:" },
        { "DT 1 : FREQ . DAT < PR :", 24, 16, 0, 16, "DT1:FREQ.DAT<PR:" },
        { "DT1:FREQ.DAT<PR:", 16, 15, 052, 0, "---------------" },

        { "A<B<C", 5, 128, 050, 3, "------" },
        { "ABCDEFG", 7, 128, 050, 6, "------" },
        { "DT8:", 4, 128, 050, 3, "------" },
        { "/S:", 3, 128, 050, 3, "------" },
        { "ABC1234567,", 11, 128, 050, 10, "------" },
        { ".DAT", 4, 128, 050, 0, "------" },
        { " A <\tB <\0C", 10, 128, 050, 3, "------" },
        { "[23,10", 6, 128, 050, 6, "------" },
        { "[23 10]", 7, 128, 050, 5, "------" }, /* 2310 is a group still */
        { "[,]", 3, 128, 050, 1, "------" },
        { "A.", 2, 128, 050, 2, "------" },
        { "A.DATA", 6, 128, 050, 5, "------" },
        { "A:", 2, 128, 050, 1, "------" },
        { "ABCD:", 5, 128, 050, 4, "------" },
        { "A[1,2]B", 7, 128, 050, 6, "------" },
        { "/1", 2, 128, 050, 1, "------" },
        { "/S:1234567", 10, 128, 050, 9, "------" },
        { "a", 1, 128, 050, 0, "------" },
        { "A\r\n", 3, 128, 050, 1, "------" },
        { "A\240", 2, 128, 050, 1, "------" },

        /* A short buffer comes before a fault. */
        { "A<B<C", 5, 5, 050, 3, "------" },
        { "A<B<C", 5, 4, 052, 0, "------" },
        { ".DAT", 4, 0, 052, 0, "------" },

        /* Each bound at its value and one over; a number over its bound comes behind both. */
        { "DT7:", 4, 4, 0, 4, "DT7:--" },
        { "DT10:", 5, 5, 054, 0, "------" },
        { "DT401:", 6, 128, 054, 0, "------" },
        { "DT 4 01:", 8, 128, 054, 0, "--------" },
        { "[377,377]", 9, 9, 0, 9, "[377,377]-" },
        { "[400,377]", 9, 9, 054, 0, "----------" },
        { "[377,400]", 9, 9, 054, 0, "----------" },
        { "DT10:", 5, 4, 052, 0, "------" },
        { "DT10:<A<", 8, 8, 050, 7, "------" },
        { "<<DT10:", 7, 7, 050, 1, "------" },
        { "DT18:", 5, 5, 050, 4, "------" },
    };
    uint8_t buffer[LINE_MOST];

    for (size_t i = 0; i < COUNT(examples); i++) {
        memset(buffer, '-', sizeof buffer);
        const abz_answer answer =
            abz_csi1((const uint8_t *)examples[i].raw, examples[i].raw_len, buffer, examples[i].room);
        CHECK_NUMBER(answer.code, examples[i].code, "CSI1 example %zu: code", i);
        CHECK_NUMBER(answer.number, examples[i].number, "CSI1 example %zu: number", i);
        CHECK_BYTES(buffer, (const uint8_t *)examples[i].after, strlen(examples[i].after), "CSI1 example %zu: buffer",
                    i);
    }
}

static void asking_examples(void)
{
    static const struct {
        const char *line;
        size_t side, k, room;
        abz_specification answer;
        const char *after; /* what the switch buffer starts with; it is lent full of - */
    } examples[] = {
        /* The empty line has one empty output specification and no input side; < has one on each. */
        { "", 0, 0, 0, { 0 }, "-" },
        { "", 0, 1, 0, { .code = 051 }, "-" },
        { "", 1, 0, 0, { .code = 051 }, "-" },
        { "<", 0, 0, 0, { 0 }, "-" },
        { "<", 1, 0, 0, { 0 }, "-" },
        { "<", 0, 1, 0, { .code = 051 }, "-" },
        { "<", 1, 1, 0, { .code = 051 }, "-" },
        { "<", 2, 0, 0, { .code = 051 }, "-" },
        { ",,", 0, 2, 0, { 0 }, "-" },
        { ",,", 0, 3, 0, { .code = 051 }, "-" },

        { "DT1:FREQ.DAT<PR:", 0, 0, 0, { 0, 0, 7, 7200, 1, 10325, 27200, 6460, 0, 0, 0 }, "-" },
        { "DT1:FREQ.DAT<PR:", 1, 0, 0, { 0, 0, 1, 26320, 0, 0, 0, 0, 0, 0, 0 }, "-" },
        { "DT1:FREQ.DAT<PR:", 1, 1, 0, { .code = 051 }, "-" },
        { "DT1", 0, 0, 0, { 0, 0, 2, 0, 0, 7231, 0, 0, 0, 0, 0 }, "-" }, /* 4 * 1600 + 20 * 40 + 31 */
        { "DSK:999", 0, 0, 0, { 0, 0, 3, 7171, 0, 63999, 0, 0, 0, 0, 0 }, "-" },

        /* The comma in brackets is no separator. */
        { "[23,10],A[0,0]", 0, 0, 0, { 0, 0, 8, 0, 0, 0, 0, 0, 023, 010, 0 }, "-" },
        { "[23,10],A[0,0]", 0, 1, 0, { 0, 0, 10, 0, 0, 1600, 0, 0, 0, 0, 0 }, "-" },
        { "[23,10],A[0,0]", 0, 2, 0, { .code = 051 }, "-" },

        /* Leading zeros are allowed; what is over its bound is, however many digits it has. */
        { "DT7:", 0, 0, 0, { 0, 0, 1, 7200, 7, 0, 0, 0, 0, 0, 0 }, "-" },
        { "DT0000000000000000000000000000007:", 0, 0, 0, { 0, 0, 1, 7200, 7, 0, 0, 0, 0, 0, 0 }, "-" },
        { "[0000000000000000000000377,0000000000000000000376]", 0, 0, 0, { 0, 0, 8, 0, 0, 0, 0, 0, 255, 254, 0 },
          "-" },
        { "DT10:", 0, 0, 0, { .code = 054 }, "-" },
        { "DT400:", 0, 0, 0, { .code = 054 }, "-" },
        { "DT401:", 0, 0, 0, { .code = 054 }, "-" },
        { "DT2000000000000000000001:", 0, 0, 0, { .code = 054 }, "-" }, /* 1 in 64 bits */
        { "DT4000000000000000000000000000000000000000001:", 0, 0, 0, { .code = 054 }, "-" },
        { "[400,1]", 0, 0, 0, { .code = 054 }, "-" },
        { "[1,400]", 0, 0, 0, { .code = 054 }, "-" },
        { "[2000000000000000000000377,1]", 0, 0, 0, { .code = 054 }, "-" },
        { "[1,2000000000000000000000377]", 0, 0, 0, { .code = 054 }, "-" },

        /* Wherever the number stands, whatever is asked for, and before no specification and a short buffer. */
        { "A,DT10:", 0, 0, 0, { .code = 054 }, "-" },
        { "A<DT10:", 0, 0, 0, { .code = 054 }, "-" },
        { "DT10:<A", 1, 0, 0, { .code = 054 }, "-" },
        { "DT10:<A", 1, 1, 0, { .code = 054 }, "-" },
        { "DT10:", 1, 0, 0, { .code = 054 }, "-" },
        { "DT10:", SIZE_MAX, SIZE_MAX, 0, { .code = 054 }, "-" },
        { "[400,1]/S", 0, 0, 5, { .code = 054 }, "------" },
        { "/S,[1,400]", 0, 0, 5, { .code = 054 }, "------" },
        { "DT10:<A<", 0, 0, 0, { .code = 050, .place = 7 }, "-" },
        { "<<DT10:", 0, 0, 0, { .code = 050, .place = 1 }, "-" },

        /* S is 30400, 0x76C0; A is 1600, 0x0640; BCD is 3324, 0x0CFC, and 1 behind it 49600, 0xC1C0. */
        { "/S", 0, 0, 6, { .switches = 1 }, "\0\0\xC0\x76\0\0-" },
        { "/S", 0, 0, 5, { .code = 052 }, "-------" },
        { "A/S:A:BCD1/S", 0, 0, 20, { 0, 0, 2, 0, 0, 1600, 0, 0, 0, 0, 2 },
          "\2\0\xC0\x76\0\0\x40\x06\0\0\xFC\x0C\xC0\xC1\0\0\xC0\x76\0\0-" },
        { "A/S:A:BCD1/S", 0, 0, 19, { .code = 052 }, "---------------------" },
        { "A/S:A:BCD1/S,", 0, 1, 0, { 0 }, "-" },

        /* The whole line is judged, whatever is asked for; what CSI1 drops is refused. */
        { "A<B<C", 0, 0, 0, { .code = 050, .place = 3 }, "-" },
        { "A<B<C", 7, 9, 0, { .code = 050, .place = 3 }, "-" },
        { "/S,/S:", 0, 0, 0, { .code = 050, .place = 6 }, "-" },
        { "A B", 0, 0, 0, { .code = 050, .place = 1 }, "-" },
        { " ", 0, 0, 0, { .code = 050, .place = 0 }, "-" },

        /* No such specification comes before a short buffer. */
        { "/S", 0, 1, 0, { .code = 051 }, "-" },
        { "/S", 1, 0, 0, { .code = 051 }, "-" },
        { "/S", 0, SIZE_MAX, 0, { .code = 051 }, "-" },
        { "/S", SIZE_MAX, 0, 6, { .code = 051 }, "-------" },
    };
    uint8_t buffer[SWITCH_BYTES];

    for (size_t i = 0; i < COUNT(examples); i++) {
        memset(buffer, '-', sizeof buffer);
        const abz_specification answer = abz_csi2((const uint8_t *)examples[i].line, strlen(examples[i].line),
                                                  examples[i].side, examples[i].k, buffer, examples[i].room);
        CHECK_SPECIFICATION(answer, examples[i].answer, "CSI2 example %zu: ", i);
        CHECK_BYTES(buffer, (const uint8_t *)examples[i].after, examples[i].room + 1, "CSI2 example %zu: buffer", i);
    }
}

/* ---- Held to the model ---- */

/* The model takes it for granted that no state is a dead end. */
static void rules_lead_on(void)
{
    bool ends[STATES] = { false };

    ends[last_state] = true;
    for (size_t times = 0; times < last_state; times++)
        for (size_t state = 0; state < last_state; state++) {
            ends[state] |= accepted[state] && *accepted[state] && ends[state + 1];
            for (size_t to = 0; to <= last_state; to++)
                ends[state] |= empty_step[state][to] && ends[to];
        }
    for (size_t state = 0; state <= last_state; state++)
        CHECK_NUMBER(ends[state], true, "whether state %zu of %zu leads on", state, last_state);
}

static void known_lines(void)
{
    static const char *const lines[] = {
        "", "<", ",", ",<,", "A<B<C", "ABCDEFG", "DT8:", "/S:", "ABC1234567,", ".DAT", "DT1:FREQ.DAT<PR:", "DT1",
        "DT1:", "DT:FREQ.DAT[23,10]/S:A:B2/LONGER:VALUE1:2,LP:[0,0]<SY0:OLD.TMP,[377,377]/X,/Y:ABCDEF:G", "AB",
        "ABC", "ABC7", "ABC78", "AB12345", "AB123456", "AB12345.", "AB12345:", "ABC8:", "ABCD1", "A1:", "1AB:",
        "DT7:", "DT10:", "DT007:", "[377,377]", "[400,377]", "[377,400]", "[1,2]A", "A.B.C", "A.DATA", "[,]", "[1]", "[1,]", "[1,2", "[8,1]", "[1,2],[3,4]", "//", "/A/B", "/1",
        "/ABCDEF", "/ABCDEFG", "/A:1234567", "/A::B", "/A:B.C", "A:B", "AA:BB:CC", "<<", "*", "A*", "a", "DT1:a",
        "\r", "A\r", "A\n", "\301",
    };

    for (size_t i = 0; i < COUNT(lines); i++)
        try_all("known line", (const uint8_t *)lines[i], strlen(lines[i]));
}

/* Every line of up to so many characters of which all but the last could go on. */
static void short_lines(uint8_t *line, size_t length, size_t most)
{
    for (const char *c = kinds; *c; c++) {
        line[length] = (uint8_t)*c;
        try_each("short line", line, length + 1);
        if (length + 1 < most && judge_line(line, length + 1).place == length + 1)
            short_lines(line, length + 1, most);
    }
}

/* Each byte at each place, and behind the end. */
static void every_byte(void)
{
    static const char right[] = "DT1:FREQ.DAT[23,10]/S:A:B2,X.Y<PR:OLD7/W";
    const size_t length = sizeof right - 1;
    uint8_t line[sizeof right];

    for (size_t place = 0; place <= length; place++)
        for (size_t byte = 0; byte < 256; byte++) {
            memcpy(line, right, length);
            line[place] = (uint8_t)byte;
            try_each("every byte", line, place < length ? length : length + 1);
        }
}

/* What a line begins with, and what it goes on with again and again, cut to so many characters. */
static void fill(uint8_t *line, const char *first, const char *again, size_t length)
{
    for (size_t i = 0; i < length; i++)
        line[i] = (uint8_t)(i < strlen(first) ? first[i] : again[(i - strlen(first)) % strlen(again)]);
}

/* Around 512 and 128 characters, and at lengths that are in order in their low 16 bits. */
static void limits(void)
{
    static const char *const pieces[] = { "A", ",", " ", "AB,", "/A", "<", "*", "DT1:A[1,2],", "[" };
    static const size_t lengths[] = { 126, 127, 128, 129, 130, 256, 510, 511, 512, 513, 514, 1024, 65535, 65536,
                                      65536 + 5, 65536 + 128, 65536 + 512 };
    static uint8_t line[ROOM], raw[ROOM];

    memset(raw, ' ', RAW_MOST + 1);
    CHECK_NUMBER(try_csi1("512 blanks", raw, 512, 0), 0, "512 blanks");
    CHECK_NUMBER(try_csi1("513 blanks", raw, 513, 0), 053, "513 blanks");

    for (size_t p = 0; p < COUNT(pieces); p++)
        for (size_t i = 0; i < COUNT(lengths); i++) {
            fill(line, "", pieces[p], lengths[i]);
            try_all("limits", line, lengths[i]);
        }

    for (size_t length = 120; length <= 136; length++)
        for (size_t i = 0; i < 40; i++) {
            for (size_t j = 0; j < length; j++)
                line[j] = (uint8_t)(i % 2 ? ',' : kinds[chance(strlen(kinds))]);
            for (size_t raw_len = 509; raw_len <= 515; raw_len++) {
                strew(line, length, raw, raw_len);
                for (size_t room = length - 1; room <= length + 1; room++)
                    try_csi1("limits", raw, raw_len, room);
                try_csi1("limits", raw, raw_len, 0);
            }
            try_csi1("limits", raw, RAW_MOST, 65536 + i);
        }
}

/*
 * Each bound at its value and one over, in each place of each side, alone and with a fault of the grammar before and
 * behind, with buffers that are too short and with sides and places that there are not.
 */
static void bounds(void)
{
    static const char *const numbers[] = { "DT7:", "DT10:", "DT0007:", "DT0010:", "[377,377]", "[400,377]", "[377,400]",
                                           "[000377,0000377]", "[000400,1]", "[1,000400]" };
    static const char *const faults[] = { "", "*", ".A,", ",A.", "<A<", "[1,", "DT8:," };
    char line[LINE_MOST + 1];

    for (size_t number = 0; number < COUNT(numbers); number++)
        for (size_t place = 0; place < 6; place++)
            for (size_t before = 0; before < COUNT(faults); before++)
                for (size_t behind = 0; behind < COUNT(faults); behind++) {
                    const char *at[6] = { "A", "B/S:1", "/S", "KB:", "X.Y", "" };
                    at[place] = numbers[number];
                    const int length = snprintf(line, sizeof line, "%s%s,%s,%s<%s,%s,%s%s", faults[before], at[0], at[1],
                                                at[2], at[3], at[4], at[5], faults[behind]);
                    try_all("bounds", (const uint8_t *)line, (size_t)length);
                }
}

/* Numbers of every length that a line has room for: of sevens, with a 1 before zeros, zeros alone, and by chance. */
static void long_numbers(void)
{
    static const char *const around[][2] = { { "DT", ":" }, { "ABC", ":F<" }, { "[", ",7]" }, { "A[7,", "]/S" } };
    uint8_t line[LINE_MOST + 1];

    for (size_t a = 0; a < COUNT(around); a++) {
        const size_t before = strlen(around[a][0]), behind = strlen(around[a][1]);
        for (size_t digits = 0; before + digits + behind <= sizeof line; digits++)
            for (size_t times = 0; times < 6; times++) {
                memcpy(line, around[a][0], before);
                for (size_t i = 0; i < digits; i++) {
                    const bool last = i + 1 == digits;
                    const size_t digit[] = { 7, i == 0, 0, last ? 7 : 0, i + 3 < digits ? 0 : chance(8), chance(8) };
                    line[before + i] = (uint8_t)OCTAL_DIGITS[digit[times]];
                }
                memcpy(line + before + digits, around[a][1], behind);
                try_each("long number", line, before + digits + behind);
            }
    }
}

static void every_room(const uint8_t *line, size_t length)
{
    const reading *it = reading_of("switch buffer", line, length);

    for (size_t side = 0; side < 2; side++)
        for (size_t k = 0; k <= it->count[side]; k++)
            for (size_t room = 0; room <= SWITCH_BYTES + 8; room++)
                try_csi2("switch buffer", line, length, it, side, k, room);
}

static void switch_rooms(void)
{
    static const char *const lines[] = { "/A", "/A:B", "/A/B", "A[1,2]/SW/SW:1/SW",
                                         "/ABCDEF:UVWXYZ:1/B:2:3:4,/C<D/E:F" };
    /* As many switches as a line has room for, as many values, and both. */
    static const char *const full[][2] = { { "/A", "/A" }, { "/A", ":B" }, { "/A:B", "/A:B" } };
    uint8_t line[LINE_MOST];

    for (size_t i = 0; i < COUNT(lines); i++)
        every_room((const uint8_t *)lines[i], strlen(lines[i]));
    for (size_t i = 0; i < COUNT(full); i++) {
        fill(line, full[i][0], full[i][1], LINE_MOST);
        every_room(line, LINE_MOST);
    }
}

static void sides_and_places(void)
{
    static const char *const lines[] = { "", "<", "A,B<C/S,D", "A,B/S:1", ",,,,,,,,<,,," };

    for (size_t i = 0; i < COUNT(lines); i++) {
        const uint8_t *const line = (const uint8_t *)lines[i];
        const size_t length = strlen(lines[i]);
        const reading *it = reading_of("sides", line, length);
        for (size_t side = 0; side < 4 + COUNT(huge); side++)
            for (size_t k = 0; k < 12 + COUNT(huge); k++)
                for (size_t room = 0; room <= 16; room += 16)
                    try_csi2("sides", line, length, it, side < 4 ? side : huge[side - 4],
                             k < 12 ? k : huge[k - 12], room);
    }
}

/* A beginning of a line of the grammar: a way through the automaton, which half the time goes on in the same run. */
static void walk(uint8_t *line, size_t length)
{
    for (size_t i = 0, state = 0; i < length; i++) {
        size_t next = 0, ways = 0;
        for (size_t to = 0; to <= last_state; to++)
            if (reached[state][to] && accepted[to] && chance(++ways) == 0)
                next = to;
        if (accepted[state] && chance(2))
            next = state;
        line[i] = (uint8_t)accepted[next][chance(strlen(accepted[next]))];
        state = next + 1;
    }
}

/* One character is changed, left out or put in. */
static size_t spoil(uint8_t *line, size_t length)
{
    static const char others[] = "AZ0789:.[],/<*a \t\r\177\301";
    const size_t place = chance(length + 1);
    const uint8_t other = (uint8_t)others[chance(sizeof others)]; /* NUL too */

    switch (chance(3)) {
    case 0:
        if (place < length)
            line[place] = other;
        return length;
    case 1:
        if (place == length)
            return length;
        memmove(line + place, line + place + 1, length - place - 1);
        return length - 1;
    default:
        memmove(line + place + 1, line + place, length - place);
        line[place] = other;
        return length + 1;
    }
}

static void chance_lines(size_t times)
{
    uint8_t line[RAW_MOST + 1], raw[RAW_MOST + 1];

    for (size_t i = 0; i < times; i++) {
        size_t length = i % 8 ? chance(40) : chance(LINE_MOST + 3);
        walk(line, length);
        for (size_t spoilt = 0; spoilt < 3; spoilt++) {
            try_all("line by chance", line, length);
            try_csi1("strewn line", raw, strew(line, length, raw, length + chance(RAW_MOST + 2 - length)), LINE_MOST);
            length = spoil(line, length);
        }
    }
}

/* Each code that a call can give was given, and no other. */
static void check_given(void)
{
    static const size_t possible[2][6] = { { 0, 053, 052, 050, 054 }, { 0, 053, 050, 054, 051, 052 } };

    for (size_t call = 0; call < 2; call++) {
        bool can[CODES] = { false };
        for (size_t i = 0; i < COUNT(possible[call]); i++)
            can[possible[call][i]] = true;
        for (size_t code = 0; code < CODES; code++)
            CHECK_NUMBER(given[call][code] > 0, can[code], "CSI%zu: whether code %zo was given", call + 1, code);
    }
}

int main(void)
{
    uint8_t line[LINE_MOST];

    make_grammar();
    chance_bytes(noise, sizeof noise);
    rules_lead_on();
    header_numbers();
    condensing_examples();
    asking_examples();
    known_lines();
    short_lines(line, 0, 5);
    every_byte();
    limits();
    bounds();
    long_numbers();
    switch_rooms();
    sides_and_places();
    chance_lines(2000);
    check_given();
    return check_end("command");
}
