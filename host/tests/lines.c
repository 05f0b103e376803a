/* Line read, write and end, held to lines.h: examples, all cases of a few bytes, numbers, causes, and by chance. */
#include "lines.h"

/* ---- Examples, written out, with no model between ---- */

#define EXPECT(call, expected) CHECK_NUMBER(call, expected, "example " #call)

static void header_numbers(void)
{
    EXPECT(ABZ_NORMAL, 0);
    EXPECT(ABZ_SPECIAL, 1);
    EXPECT(ABZ_INVALID_LINE, 1);
    EXPECT(ABZ_FILE_ENDED, 64);
}

/* The buffer is lent full of question marks, and found is what it begins with then: one of them shows what stays. */
static void expect_read(size_t length, file_key key, size_t mode, size_t position, size_t size, line_answer due,
                        const char *found)
{
    uint8_t bytes[40];

    memset(bytes, '?', sizeof bytes);
    const abz_read_answer answer = abz_line_read(image, length, ME, FILE4(key), mode, position, bytes, size);

#define CASE "example: line read in mode %zu at %zu for %zu, "
    CHECK_NUMBER(answer.code, due.code, CASE "code", mode, position, size);
    CHECK_NUMBER(answer.count, due.count, CASE "count", mode, position, size);
    CHECK_NUMBER(answer.status, due.status, CASE "status", mode, position, size);
    CHECK_NUMBER(answer.position, due.next, CASE "position", mode, position, size);
    CHECK_BYTES(bytes, (const uint8_t *)found, strlen(found), CASE "buffer", mode, position, size);
#undef CASE
}

/* Three lines, the last across the end of a block; and at the end of the file one that has no terminator. */
static void read_examples(void)
{
    static const uint8_t nuls[3 * PAYLOAD_MOST];
    const size_t length = make_open(image), payload = tried->payload, third = payload + 5, end = 3 * payload;
    const file_key key = entry_key(image, THREE), empty = entry_key(image, EMPTY);

    put_text(image, THREE, 0, nuls, end);
    put_text(image, THREE, 0, "AB\nC\t\177D\f\0", 9);
    put_text(image, THREE, payload - 2, "\305F\0G\377H\013", 7);
    put_text(image, THREE, end - 3, "XY", 2);
    set_open(image, EMPTY, 0, 1);

    for (size_t mode = NORMAL; mode <= SPECIAL; mode++) {
        expect_read(length, key, mode, 0, 9, (line_answer){ 0, 3, 0, 3 }, "AB\n?");
        expect_read(length, key, mode, 3, 9, (line_answer){ 0, 4, 0, 8 }, "C\tD\f?");
        expect_read(length, key, mode, 8, 9, (line_answer){ 0, 5, 0, third }, "EFGH\013?");
        expect_read(length, key, mode, third, 9, (line_answer){ 0, 2, 64, end }, "XY?");
        expect_read(length, key, mode, end, 9, (line_answer){ 0, 0, 64, end }, "?");
        expect_read(length, key, mode, end + 1, 9, (line_answer){ 044, 0, 0, 0 }, "?");
        expect_read(length, key, mode, SIZE_MAX, 9, (line_answer){ 044, 0, 0, 0 }, "?");
        expect_read(length, empty, mode, 0, 9, (line_answer){ 0, 0, 64, 0 }, "?");
        expect_read(length, empty, mode, 1, 9, (line_answer){ 044, 0, 0, 0 }, "?");
        expect_read(length, key, mode, 0, 0, (line_answer){ 041, 0, 0, 0 }, "?");

        /* The last character that there is room for is the terminator. */
        expect_read(length, key, mode, 0, 3, (line_answer){ 0, 3, 0, 3 }, "AB\n?");
        expect_read(length, key, mode, 2, 1, (line_answer){ 0, 1, 0, 3 }, "\n?");
    }
    expect_read(length, key, 2, 0, 9, (line_answer){ 041, 0, 0, 0 }, "?");

    /* A character too many: laid over the last, or kept. */
    expect_read(length, key, NORMAL, 8, 4, (line_answer){ 0, 5, 1, third }, "EFG\013?");
    expect_read(length, key, NORMAL, 8, 1, (line_answer){ 0, 5, 1, third }, "\013?");
    expect_read(length, key, SPECIAL, 8, 4, (line_answer){ 0, 4, 1, third - 1 }, "EFGH?");
    expect_read(length, key, SPECIAL, third - 1, 4, (line_answer){ 0, 1, 0, third }, "\013?");
    expect_read(length, key, SPECIAL, 8, 2, (line_answer){ 0, 2, 1, payload }, "EF?");

    /* As many characters as there are: the count comes before the end, and normal mode goes on to see that too. */
    expect_read(length, key, NORMAL, third, 2, (line_answer){ 0, 2, 65, end }, "XY?");
    expect_read(length, key, NORMAL, third, 1, (line_answer){ 0, 2, 65, end }, "Y?");
    expect_read(length, key, SPECIAL, third, 2, (line_answer){ 0, 2, 1, end - 1 }, "XY?");
    expect_read(length, key, SPECIAL, end - 1, 2, (line_answer){ 0, 0, 64, end }, "?");
}

static uint8_t gather[PAYLOAD_MOST];

/* gathered is what the gather buffer begins with then. */
static void expect_write(size_t length, file_key key, size_t mode, const char *line, size_t filled, line_answer due,
                         const char *gathered, size_t size)
{
    const abz_write_answer answer = abz_line_write(image, length, ME, FILE4(key), mode, (const uint8_t *)line,
                                                   strlen(line), gather, tried->payload, filled);

#define CASE "example: line write of %zu in mode %zu at %zu, "
    CHECK_NUMBER(answer.code, due.code, CASE "code", strlen(line), mode, filled);
    CHECK_NUMBER(answer.count, due.count, CASE "count", strlen(line), mode, filled);
    CHECK_NUMBER(answer.status, due.status, CASE "status", strlen(line), mode, filled);
    CHECK_NUMBER(answer.filled, due.next, CASE "filled", strlen(line), mode, filled);
    CHECK_BYTES(gather, (const uint8_t *)gathered, size, CASE "gather buffer", strlen(line), mode, filled);
#undef CASE
}

/* When the file has two of the five free blocks, and two bytes are gathered: to end takes another, but none at 0. */
static void end_examples(size_t length, file_key key)
{
    static const uint8_t block[BLOCK_MOST] = { 0, 0, RUBOUT, 'B' };
    static uint8_t pack[SMALL_ROOM];
    const size_t payload = tried->payload, size = 2 * payload;
    char line[2 * PAYLOAD_MOST + 1] = "";

    EXPECT(abz_line_end(image, length, ME, FILE4(key), gather, payload, 0), 0);
    EXPECT(get_field(image, EMPTY, LENGTH), 2);
    EXPECT(abz_line_end(image, length, ME, FILE4(key), gather, payload, 2), 0);
    EXPECT(get_field(image, EMPTY, LENGTH), 3);
    CHECK_BYTES(image + tried->block * small(11), block, tried->block, "example: the last block");
    CHECK_BYTES(gather, block + 2, payload, "example: the gather buffer at the end");

    /* Two are left: for what fills three but for a byte, and not with that byte too, which is put behind a TAB. */
    memcpy(pack, image, length);
    memset(line, 'Y', size);
    expect_write(length, key, NORMAL, line, payload - 1, (line_answer){ 0, size, 1, payload - 1 }, "YYY", 3);
    memcpy(image, pack, length);
    memset(gather, '?', payload);
    line[size - 20] = '\t';
    expect_write(length, key, NORMAL, line, payload - 1, (line_answer){ 042, 0, 0, 0 }, "???", 3);
    expect_write(length, key, SPECIAL, line, payload - 1, (line_answer){ 042, 0, 0, 0 }, "???", 3);
    CHECK_BYTES(image, pack, length, "example: line write refused, image");
    line[size - 21] = '\n';
    expect_write(length, key, SPECIAL, line, payload - 1, (line_answer){ 0, size - 20, 0, payload - 21 }, "YYY", 3);
    EXPECT(abz_line_end(image, length, ME, FILE4(key), gather, payload, payload - 21), 042);
    EXPECT(abz_line_end(image, length, ME, FILE4(key), gather, payload, 0), 0);
    EXPECT(gather[payload - 22], '\n');
    EXPECT(gather[payload - 21], 'Y');
}

/* Blocks 8, 10, 11, 13 and 14 are free, as form 1 numbers them. */
static void write_examples(void)
{
    static uint8_t pack[SMALL_ROOM];
    char rest[PAYLOAD_MOST] = "";
    const size_t length = make_closed(image), block = tried->block, payload = tried->payload, size = payload - 11;
    const file_key key = entry_key(image, EMPTY);

    memset(gather, '?', payload);
    memset(rest, 'X', size);
    set_open(image, EMPTY, 2, 0);
    memcpy(pack, image, length);
    expect_write(length, key, NORMAL, "", 0, (line_answer){ 0, 0, 1, 0 }, "?", 1);
    expect_write(length, key, SPECIAL, "", 0, (line_answer){ 0, 0, 1, 0 }, "?", 1);
    expect_write(length, key, NORMAL, "AB\n", 0, (line_answer){ 0, 3, 0, 3 }, "AB\n?", 4);
    expect_write(length, key, SPECIAL, "C\tD", 3, (line_answer){ 0, 3, 1, 7 }, "AB\nC\t\177D?", 8);
    expect_write(length, key, SPECIAL, "\nF\n", 7, (line_answer){ 0, 1, 0, 8 }, "AB\nC\t\177D\n?", 9);
    expect_write(length, key, NORMAL, "\nF", 8, (line_answer){ 0, 2, 1, 10 }, "AB\nC\t\177D\n\nF?", 11);
    expect_write(length, key, NORMAL, "\f", 9, (line_answer){ 0, 1, 0, 11 }, "AB\nC\t\177D\n\n\f\0?", 12);
    CHECK_BYTES(image, pack, length, "example: line writes that fill no block, image");

    /* A block is added when it is full, and what is laid then lies at the start; the bytes behind it stay. */
    expect_write(length, key, NORMAL, rest, 11, (line_answer){ 0, size, 1, 0 }, "AB\nC\t\177D\n\n\f\0X", 12);
    EXPECT(get_field(image, EMPTY, LENGTH), 1);
    EXPECT(get_field(image, EMPTY, FIRST), small(14));
    CHECK_BYTES(image + block * small(14) + 2, gather, payload, "example: line write that fills a block, its payload");
    expect_write(length, key, NORMAL, "\t", payload - 1, (line_answer){ 0, 1, 1, 1 }, "\177B\nC", 4);
    EXPECT(get_field(image, EMPTY, LENGTH), 2);
    EXPECT(image[block * small(13) + block - 1], TAB);
    EXPECT(gather[payload - 1], TAB);
    end_examples(length, key);
}

static const file_key bad = { 64000, 0, 0, ME }, absent = { 1600, 0, 0, ME }; /* A */

/* Of several causes the first in the table is told: each example has one cause less. */
static void refused_reads(void)
{
    static uint8_t bytes[9];
    const size_t length = make_closed(image);
    const file_key flat = entry_key(image, EXTENT), three = entry_key(image, THREE);

#define READ(caller, key, mode, position, size) \
    abz_line_read(image, length, caller, FILE4(key), mode, position, bytes, size).code
    set_field(image, THREE, PROTECT, 4);
    set_field(image, EXTENT, PROTECT, 4);
    set_word(image, FORM, 0);
    EXPECT(READ(ME, bad, 2, SIZE_MAX, 0), 040);
    set_word(image, FORM, tried->number);
    EXPECT(READ(ME, bad, 2, SIZE_MAX, 0), 015);
    EXPECT(READ(ME, absent, 2, SIZE_MAX, 9), 041);
    EXPECT(READ(ME, absent, SPECIAL, SIZE_MAX, 0), 041);
    EXPECT(READ(ME, absent, SPECIAL, SIZE_MAX, 1), 2);
    EXPECT(READ(OTHER, flat, NORMAL, SIZE_MAX, 9), 6);
    EXPECT(READ(OTHER, three, NORMAL, SIZE_MAX, 9), 6);
    EXPECT(READ(ME, flat, NORMAL, SIZE_MAX, 9), 043);
    EXPECT(READ(ME, three, NORMAL, SIZE_MAX, 9), 045);
    set_open(image, THREE, 3, 0);
    EXPECT(READ(ME, three, NORMAL, 0, 9), 045);
    set_open(image, THREE, 2, 1);
    EXPECT(READ(ME, three, NORMAL, 3 * tried->payload + 1, 9), 044);
    EXPECT(READ(ME, three, NORMAL, 3 * tried->payload, 9), 0);
#undef READ
}
#undef EXPECT

/* A write and the end have the same causes. */
static void expect_refused(size_t length, size_t caller, file_key key, size_t size, size_t filled, size_t code)
{
    static const uint8_t line[] = { 'A', LF };
    const abz_write_answer answer = abz_line_write(image, length, caller, FILE4(key), NORMAL, line, 2, gather, size,
                                                   filled);

    CHECK_NUMBER(answer.code, code, "example: line write refused with %zo", code);
    CHECK_NUMBER(answer.filled, 0, "example: line write refused with %zo, filled", code);
    CHECK_NUMBER(abz_line_end(image, length, caller, FILE4(key), gather, size, filled), code,
                 "example: line end refused with %zo", code);
}

static void refused_writes(void)
{
    const size_t all_free[] = { small(8), small(10), small(11), small(13), small(14) };
    static uint8_t pack[SMALL_ROOM], before[PAYLOAD_MOST];
    const size_t length = make_closed(image), payload = tried->payload;
    const file_key flat = entry_key(image, EXTENT), three = entry_key(image, THREE);

    memcpy(before, gather, payload);
    put_linked(image, FILES, key_of("FULL  ", "   ", OTHER), all_free, COUNT(all_free));
    set_field(image, THREE, PROTECT, 0102);
    set_field(image, EXTENT, PROTECT, 2);
    set_word(image, FORM, 0);
    expect_refused(length, ME, bad, 0, SIZE_MAX, 040);
    set_word(image, FORM, tried->number);
    expect_refused(length, ME, bad, 0, SIZE_MAX, 015);
    expect_refused(length, ME, absent, payload, SIZE_MAX, 041);
    expect_refused(length, ME, absent, payload, payload, 041);
    expect_refused(length, ME, absent, payload - 1, payload - 1, 041);
    expect_refused(length, ME, absent, payload == 126 ? 510 : 126, 0, 041); /* the other device's */
    expect_refused(length, ME, absent, payload, payload - 1, 2);
    expect_refused(length, OTHER, flat, payload, payload - 1, 6);
    expect_refused(length, ME, three, payload, payload - 1, 6);
    expect_refused(length, ME, flat, payload, payload - 1, 043);
    set_field(image, THREE, PROTECT, 0);
    expect_refused(length, ME, three, payload, payload - 1, 045);
    set_open(image, THREE, 0, 1);
    expect_refused(length, ME, three, payload, 0, 045);
    set_open(image, THREE, 3, 1);
    memcpy(pack, image, length);
    expect_refused(length, ME, three, payload, payload - 1, 042);
    CHECK_BYTES(image, pack, length, "example: no room, image");
    CHECK_BYTES(gather, before, payload, "example: refused, gather buffer");
}

/* ---- Every case of a few bytes ---- */

/* Each byte, read with others about it, and written as the last of a text and before others. */
static void single_bytes(void)
{
    static uint8_t pack[SMALL_ROOM];
    const size_t length = make_open(pack), payload = tried->payload;

    for (size_t byte = 0; byte < 256; byte++)
        for (size_t mode = 0; mode < MODES; mode++) {
            const uint8_t line[] = { 'A', (uint8_t)byte, 'B', LF };
            line_call it = call_on(pack, LINE_READ, THREE, mode);
            memcpy(image, pack, length);
            put_text(image, THREE, payload - 2, line, sizeof line);
            for (it.position = payload - 2; it.position < payload + 2; it.position++)
                for (it.buffer_len = 1; it.buffer_len < 5; it.buffer_len++)
                    try_line("byte", byte, length, it);

            it = call_on(pack, LINE_WRITE, THREE, mode);
            memcpy(text, line, sizeof line);
            for (it.text_len = 1; it.text_len <= sizeof line; it.text_len++)
                for (it.filled = payload - 4; it.filled < payload; it.filled++) {
                    memcpy(image, pack, length);
                    try_line("byte", byte, length, it);
                }
        }
}

/* The word of so many letters that a number stands for. */
static void spell(uint8_t *word, size_t size, size_t number, const uint8_t *letters, size_t count)
{
    for (size_t i = 0; i < size; i++)
        word[i] = letters[digit(&number, count)];
}

static size_t power(size_t base, size_t exponent)
{
    return exponent ? base * power(base, exponent - 1) : 1;
}

/* Every text of up to five of five letters, across the end of a block and at the end of the file. */
static void short_texts(void)
{
    static const uint8_t letters[] = { 'A', 0200 | LF, FF, NUL, 0377 };
    const size_t ends[] = { tried->payload + 3, 3 * tried->payload };
    static uint8_t pack[SMALL_ROOM], word[5];
    const size_t length = make_open(pack);

    for (size_t size = 1; size <= sizeof word; size++)
        for (size_t number = 0; number < power(COUNT(letters), size); number++)
            for (size_t i = 0; i < COUNT(ends); i++) {
                line_call it = call_on(pack, LINE_READ, THREE, NORMAL);
                spell(word, size, number, letters, COUNT(letters));
                it.position = ends[i] - size;
                memcpy(image, pack, length);
                put_text(image, THREE, it.position, word, size);
                for (it.mode = 0; it.mode < MODES; it.mode++)
                    for (it.buffer_len = 1; it.buffer_len <= size; it.buffer_len++)
                        try_line("short text", number, length, it);
            }
}

/* Every write of up to four of five letters, from the start of the gather buffer and over its end. */
static void short_writes(void)
{
    static const uint8_t letters[] = { 'A', TAB, FF, LF, 0200 | TAB };
    const size_t payload = tried->payload, starts[] = { 0, payload - 5, payload - 3, payload - 2, payload - 1 };
    static uint8_t pack[SMALL_ROOM];
    const size_t length = make_open(pack);

    for (size_t size = 0; size <= 4; size++)
        for (size_t number = 0; number < power(COUNT(letters), size); number++)
            for (size_t i = 0; i < MODES * COUNT(starts); i++) {
                line_call it = call_on(pack, LINE_WRITE, THREE, i % MODES);
                spell(text, size, number, letters, COUNT(letters));
                it.text_len = size;
                it.filled = starts[i / MODES];
                memcpy(image, pack, length);
                try_line("short write", number, length, it);
            }
}

/* ---- Lengths and numbers ---- */

/* Lines of about one block and two, from about the start of a block and its end, into buffers just too short or not. */
static void long_lines(void)
{
    const size_t one = tried->payload, two = 2 * one, longest = 3 * one - 130;
    const size_t sizes[] = { 1, 2, one - 1, one, one + 1, one + 2, two - 1, two, two + 1, two + 2, longest };
    const size_t starts[] = { 0, 1, 2, 108, one - 2, one - 1, one, one + 1 };
    static uint8_t line[3 * PAYLOAD_MOST];
    const size_t length = make_open(image);

    for (size_t number = 0; number < COUNT(sizes) * COUNT(starts); number++) {
        const size_t size = sizes[number / COUNT(starts)], lens[] = { 1, 2, size / 2 + 1, size - 1, size, size + 1 };
        line_call it = call_on(image, LINE_READ, THREE, NORMAL);
        it.position = starts[number % COUNT(starts)];
        if (it.position + size > 3 * one)
            continue;
        memset(line, 'A' + (int)(number % 26), size);
        line[size / 3] = TAB;
        line[size - 1] = LF;
        put_text(image, THREE, it.position, line, size);
        for (size_t i = 0; i < MODES * COUNT(lens); i++) {
            it.mode = i % MODES;
            it.buffer_len = lens[i / MODES];
            const size_t code = try_line("long line", number, length, it).code;
            CHECK_NUMBER(code, it.buffer_len > 0 ? 0 : 041, "long line %zu", number);
        }
    }
}

/* From every position of a text, its end and those behind it too. */
static void positions(void)
{
    static const size_t lens[] = { 1, 5, 80, 2000 };
    static uint8_t bytes[3 * PAYLOAD_MOST];
    const size_t total = 3 * tried->payload;

    for (size_t i = 0; i < MODES * COUNT(lens); i++) {
        const size_t length = make_open(image);
        line_call it = call_on(image, LINE_READ, THREE, i % MODES);
        chance_text(bytes, total, 1 + 30 * (i % 3));
        put_text(image, THREE, 0, bytes, total);
        it.buffer_len = lens[i / MODES];
        for (; it.position < total + 4; it.position++)
            try_line("position", i, length, it);
        for (size_t k = 0; k < COUNT(huge); k++)
            for (it.position = huge[k] - 2; it.position != huge[k] + 3; it.position++)
                if (it.position > total)
                    CHECK_NUMBER(try_line("position", i, length, it).code, 044, "position %zu", it.position);
    }
}

/* Every filled count, and such as are too large, for texts that fill none, one and two blocks; and for the end. */
static void filled_counts(void)
{
    const size_t payload = tried->payload, half = payload / 2;
    const size_t sizes[] = { 0, 1, 2, half, payload - 1, payload, payload + 1, 2 * payload, 2 * payload + 1 };
    static uint8_t pack[SMALL_ROOM];
    const size_t length = make_open(pack), counts = payload + 4 + COUNT(huge);

    for (size_t number = 0; number < counts * (COUNT(sizes) + 1); number++) {
        const size_t count = number % counts, size = number / counts;
        line_call it = call_on(pack, size < COUNT(sizes) ? LINE_WRITE : LINE_END, THREE, number % 7 % MODES);
        it.filled = count < payload + 4 ? count : huge[count - payload - 4];
        it.text_len = it.what == LINE_WRITE ? sizes[size] : 0;
        chance_text(text, it.text_len, 3 + 20 * size);
        if (it.text_len == half)
            memset(text, TAB, it.text_len); /* a block when they are laid */
        memcpy(image, pack, length);
        const size_t code = try_line("filled count", number, length, it).code;
        CHECK_NUMBER(code, it.filled < payload ? 0 : 041, "%s: filled %zu", call_names[it.what], it.filled);
    }
}

/* Every size up to two blocks of any form, and those that are right in their low 16 bits. */
static void sizes(void)
{
    enum { END = 2 * BLOCK_MOST };
    const size_t block = tried->block, payload = tried->payload;
    const size_t more[] = { 65535, 65536, 65535 + payload, 65536 + payload, 65535 + block, 65536 + block };
    static uint8_t pack[SMALL_ROOM];
    const size_t length = make_open(pack);

    for (size_t what = 0; what < CALLS; what++)
        for (size_t i = 0; i <= END + COUNT(more); i++) {
            line_call it = call_on(pack, what, THREE, i % MODES);
            it.buffer_len = i <= END ? i : more[i - END - 1];
            it.filled = 7;
            it.text_len = 11;
            memcpy(image, pack, length);
            const bool right = what == LINE_READ ? it.buffer_len > 0 : it.buffer_len == payload;
            const size_t code = try_line("size", i, length, it).code;
            CHECK_NUMBER(code, right ? 0 : 041, "%s: size %zu", call_names[what], it.buffer_len);
        }
}

/* The numbers of a call, one after another. */
enum { CALL_NUMBERS = 8 };

static size_t *call_number(line_call *it, size_t i)
{
    size_t *const numbers[CALL_NUMBERS] = { &it->caller, &it->file.name1, &it->file.name2, &it->file.extension,
                                            &it->file.uic, &it->mode, &it->position, &it->filled };

    return numbers[i];
}

/* One number of a right call, or each of them, is made huge, or 65536 higher; then another beside it. */
static void huge_calls(void)
{
    static uint8_t pack[SMALL_ROOM];
    const size_t length = make_open(pack);

    for (size_t what = 0; what < CALLS; what++)
        for (size_t i = 0; i <= CALL_NUMBERS; i++)
            for (size_t h = 0; h <= COUNT(huge); h++) {
                line_call it = call_on(pack, what, THREE, SPECIAL);
                it.file.uic = h % 2 ? ME : 0;
                it.filled = it.text_len = tried->payload - 10;
                for (size_t k = 0; k < CALL_NUMBERS; k++)
                    if (k == i || i == CALL_NUMBERS)
                        *call_number(&it, k) = h < COUNT(huge) ? huge[h] : *call_number(&it, k) + 65536;
                memcpy(image, pack, length);
                try_line("huge numbers", i, length, it);
                *call_number(&it, chance(CALL_NUMBERS)) = huge[chance(COUNT(huge))];
                memcpy(image, pack, length);
                try_line("huge numbers", i, length, it);
            }
}

/* ---- Rights, and several causes at once ---- */

/* Every protect code, for the owner, his group and others. */
static void protect_codes(void)
{
    static const size_t callers[] = { ME, GROUP, OTHER, 0, ME + 65536, GROUP + 65536, 023 * 256, 022 * 256 + 010 };
    static uint8_t pack[SMALL_ROOM];
    const size_t length = make_open(pack);

    for (size_t what = 0; what < CALLS; what++)
        for (size_t c = 0; c < COUNT(callers); c++)
            for (size_t protect = 0; protect < 256; protect++) {
                line_call it = call_on(pack, what, THREE, NORMAL);
                it.caller = callers[c];
                it.filled = protect % 2;
                memcpy(image, pack, length);
                set_field(image, THREE, PROTECT, protect);
                try_line("protect code", protect, length, it);
            }
}

/*
 * Each kind and way of being open, also such as no consistent pack has, with right values and wrong ones of each
 * argument.
 */
static void causes(void)
{
    static const size_t protects[] = { 0, 4, 0100 }, callers[] = { ME, OTHER };
    const size_t all_free[] = { small(8), small(10), small(11), small(13), small(14) }, payload = tried->payload;
    const size_t places[] = { 0, payload, 3 * payload + 1 }, counts[] = { 0, payload - 1, payload };
    const size_t lens[] = { payload, 1, 0 };
    const file_key wrong[] = { key_of("A     ", "DAT", ME), { 1600 * 27, 0, 0, ME }, { 1600, 0, 64000, ME } };
    static uint8_t pack[SMALL_ROOM], full[SMALL_ROOM];
    const size_t length = make_closed(pack);

    memcpy(full, pack, length);
    put_linked(full, FILES, key_of("FULL  ", "   ", OTHER), all_free, COUNT(all_free));
    text[0] = LF;
    for (size_t number = 0;; number++) {
        size_t rest = number;
        const size_t entry = digit(&rest, OTHERS), writer = digit(&rest, 4), name = digit(&rest, 1 + COUNT(wrong));
        line_call it = call_on(pack, digit(&rest, CALLS), entry, digit(&rest, MODES + 1));
        const size_t third = digit(&rest, 3);

        memcpy(image, digit(&rest, 2) ? full : pack, length);
        set_open(image, entry, writer, digit(&rest, 2));
        set_field(image, entry, PROTECT, protects[digit(&rest, COUNT(protects))]);
        if (name < COUNT(wrong))
            it.file = wrong[name];
        it.caller = callers[digit(&rest, COUNT(callers))];
        it.buffer_len = lens[digit(&rest, COUNT(lens))];
        it.position = places[third];
        it.filled = counts[third];
        it.text_len = 1;
        if (rest > 0)
            break;
        try_line("several causes", number, length, it);
    }
}

/* ---- By chance ---- */

static size_t chance_position(size_t total)
{
    const size_t payload = tried->payload;

    switch (chance(4)) {
    case 0: return payload * chance(total / payload + 1) + chance(4) - 2; /* about a block's end; also below 0 */
    case 1: return total - chance(20);
    default: return chance(total + 2);
    }
}

static line_call chance_call(const uint8_t *pack)
{
    const size_t payload = tried->payload;
    line_call it = { .what = chance(CALLS), .file = likely_key(pack), .mode = chance(MODES), .buffer_len = payload };

    it.caller = likely_caller(pack, it.file.uic);
    it.position = chance_position(payload * file_of(pack, it.file).length);
    it.filled = chance(3) ? chance(payload) : chance(2) ? 0 : payload - chance(4);
    it.text_len = chance(3) ? chance(60) : chance(5 * payload);
    if (it.what == LINE_READ)
        it.buffer_len = 1 + chance(chance(2) ? 30 : 1200);
    if (chance(16) == 0)
        it.buffer_len = chance(2 * tried->block);
    if (it.caller == it.file.uic && chance(2))
        it.file.uic = 0;
    while (chance(8) == 0)
        spoil(call_number(&it, chance(CALL_NUMBERS)));
    chance_text(text, it.text_len, 1 + chance(40));
    return it;
}

/* So that more is granted: linked files open for both, and with texts of long and short lines. */
static void ease_lines(uint8_t *pack)
{
    const size_t payload = tried->payload;
    uint8_t bytes[PAYLOAD_MOST];

    ease(pack);
    for (size_t entry = 0; entry < entry_count(pack); entry++) {
        if (get_field(pack, entry, KIND) != LINKED)
            continue;
        if (chance(3))
            set_open(pack, entry, 2 + chance(2), 1 + chance(2));
        for (size_t place = 0; place < get_field(pack, entry, LENGTH); place++) {
            chance_text(bytes, payload, chance(3) ? 1 + chance(60) : 1000);
            put_text(pack, entry, payload * place, bytes, payload);
        }
    }
}

/* Lines and the other requests one after another on packs made by chance, each from what those before it left. */
static void chance_calls(void)
{
    for (size_t pack = 0; pack < 240; pack++) {
        const size_t c = contents_like(1 + chance(3)), n = 16 + chance(pack % 2 ? 16 : 64);
        const size_t length = chance_pack(image, n, c, 4 + chance(12));
        if (pack % 4)
            ease_lines(image);
        for (size_t i = 0; i < 50; i++)
            if (chance(5))
                try_line("pack by chance", pack, length, chance_call(image));
            else
                try_request("pack by chance", pack, length, chance_request(chance(REQUESTS), image));
    }
}

/* 40 wherever we judge so, and whatever is asked. */
static void damaged_packs(void)
{
    static uint8_t sound[ROOM];
    size_t refused = 0;

    for (size_t pack = 0; pack < 60; pack++) {
        const size_t c = contents_like(1 + chance(2)), length = chance_pack(sound, 16 + chance(24), c, 16);
        for (size_t i = 0; i < 24; i++) {
            const line_call it = chance_call(sound);
            const size_t damaged_len = damage(sound, length, (i % 3 ? system_bytes(sound) : length) / 2);
            refused += try_line("damaged pack", pack, damaged_len, it).code == 040;
        }
    }
    CHECK_NUMBER(refused > 200, true, "damaged packs: %zu refused", refused);

    for (size_t short_len = 0; short_len < 40; short_len++) {
        memcpy(image, sound, tried->block * get_word(sound, BLOCKS));
        const size_t code = try_line("short image", short_len, short_len, chance_call(sound)).code;
        CHECK_NUMBER(code, 040, "short image of %zu", short_len);
    }
}

/* A pack whose word 0 is another number, of no form or of one that it is not of: 40, whatever is asked. */
static void other_form_words(void)
{
    static uint8_t sound[SMALL_ROOM];
    const size_t length = make_open(sound);

    for (size_t what = 0; what < CALLS; what++)
        for (size_t i = 0; i < FORM_WORDS; i++) {
            line_call it = chance_call(sound);
            it.what = what;
            memcpy(image, sound, length);
            set_word(image, FORM, form_words[i]);
            const size_t code = try_line("form", form_words[i], length, it).code;
            CHECK_NUMBER(code != 040, right_as(form_words[i]), "%s: form %zu for form %zu", call_names[what],
                         form_words[i], tried->number);
        }
}

/* As many files and blocks as there can be. */
static void large_packs(void)
{
    for (size_t pack = 0; pack < 3; pack++) {
        const size_t length = chance_pack(image, tried->blocks_most - pack, tried->contents_most, 96);
        ease_lines(image);
        for (size_t i = 0; i < 60; i++)
            try_line("large pack", pack, length, chance_call(image));
    }
}

/* ---- All that can be given ---- */

static void codes_seen(void)
{
    static const size_t codes[CALLS][8] = {
        [LINE_READ] = { 040, 015, 041, 2, 6, 043, 045, 044 },
        [LINE_WRITE] = { 040, 015, 041, 2, 6, 043, 045, 042 },
        [LINE_END] = { 040, 015, 041, 2, 6, 043, 045, 042 },
    };

    for (size_t what = 0; what < CALLS; what++) {
        bool can[CODES] = { true }; /* 0 */
        for (size_t i = 0; i < COUNT(codes[what]); i++)
            can[codes[what][i]] = true;
        for (size_t code = 0; code < CODES; code++)
            CHECK_NUMBER(codes_given[what][code] > 0, can[code], "%s: whether code %zo was given", call_names[what],
                         code);
    }
}

static void statuses_seen(void)
{
    for (size_t what = LINE_READ; what <= LINE_WRITE; what++)
        for (size_t mode = 0; mode < MODES; mode++)
            for (size_t status = 0; status < STATUSES; status++) {
                const bool can = status == 0 || status == INVALID || (what == LINE_READ && status == ENDED)
                                 || (what == LINE_READ && mode == NORMAL && status == INVALID + ENDED);
                CHECK_NUMBER(statuses_given[what][mode][status] > 0, can,
                             "%s in mode %zu: whether status %zu was given", call_names[what], mode, status);
            }
}

int main(void)
{
    header_numbers();
    EACH_FORM {
        read_examples();
        write_examples();
        refused_reads();
        refused_writes();
        single_bytes();
        short_texts();
        short_writes();
        long_lines();
        positions();
        filled_counts();
        sizes();
        huge_calls();
        protect_codes();
        causes();
        chance_calls();
        damaged_packs();
        other_form_words();
        large_packs();
    }
    codes_seen();
    statuses_seen();
    return check_end("lines");
}
