/* Binary read and write, held to binary.h: examples, headers, sums, parts, numbers, causes, and by chance. */
#include "binary.h"

/* ---- Examples, written out, with no model between ---- */

#define EXPECT(call, expected) CHECK_NUMBER(call, expected, "example " #call)

static void header_numbers(void)
{
    EXPECT(ABZ_INVALID_LINE, 1);
    EXPECT(ABZ_WRONG_SUM, 2);
    EXPECT(ABZ_WRONG_FORMAT, 4);
    EXPECT(ABZ_FILE_ENDED, 64);
    EXPECT(ABZ_DATA_MOST, 512);
}

/* Where a read begins, and what is passed in again. */
typedef struct {
    size_t position, to_come, sum;
} start;

/* The buffer is lent full of question marks, and found is what it begins with then: one of them shows what stays. */
static void expect_read(size_t length, file_key key, size_t mode, start from, size_t size, binary_answer due,
                        const char *found)
{
    uint8_t bytes[40];

    memset(bytes, '?', sizeof bytes);
    const abz_binary_answer answer = abz_binary_read(image, length, ME, FILE4(key), mode, from.position, from.to_come,
                                                     from.sum, bytes, size);

#define CASE "example: binary read in mode %zu at %zu, to come %zu, sum %zu, for %zu, "
#define CASE_ARGUMENTS mode, from.position, from.to_come, from.sum, size
    CHECK_NUMBER(answer.code, due.code, CASE "code", CASE_ARGUMENTS);
    CHECK_NUMBER(answer.count, due.count, CASE "count", CASE_ARGUMENTS);
    CHECK_NUMBER(answer.status, due.status, CASE "status", CASE_ARGUMENTS);
    CHECK_NUMBER(answer.position, due.next, CASE "position", CASE_ARGUMENTS);
    CHECK_NUMBER(answer.to_come, due.to_come, CASE "to come", CASE_ARGUMENTS);
    CHECK_NUMBER(answer.sum, due.sum, CASE "sum", CASE_ARGUMENTS);
    CHECK_BYTES(bytes, (const uint8_t *)found, strlen(found), CASE "buffer", CASE_ARGUMENTS);
#undef CASE_ARGUMENTS
#undef CASE
}

/* Arguments that are refused with 41 before anything of the file is looked at; and those next to them. */
static void expect_bounds(size_t length, file_key key, size_t end)
{
    for (size_t mode = NORMAL; mode <= SPECIAL; mode++) {
        expect_read(length, key, mode, (start){ 0, 0, 0 }, 0, (binary_answer){ .code = 041 }, "?");
        expect_read(length, key, mode, (start){ 0, 0, 1 }, 9, (binary_answer){ .code = 041 }, "?");
        expect_read(length, key, mode, (start){ 0, 0, 255 }, 9, (binary_answer){ .code = 041 }, "?");
        expect_read(length, key, mode, (start){ 0, 1, 256 }, 9, (binary_answer){ .code = 041 }, "?");
        expect_read(length, key, mode, (start){ 0, 512, 0 }, 9, (binary_answer){ .code = 041 }, "?");
        expect_read(length, key, mode, (start){ end, 511, 255 }, 9, (binary_answer){ 0, 0, 64, end, 0, 0 }, "?");
        expect_read(length, key, mode, (start){ end, 1, 0 }, 9, (binary_answer){ 0, 0, 64, end, 0, 0 }, "?");
    }
    expect_read(length, key, 2, (start){ 0, 0, 0 }, 9, (binary_answer){ .code = 041 }, "?");
}

/*
 * Lines with two data bytes, with none, and with a wrong sum; bytes that are no line; a line across the end of a block;
 * and at the end of the file one that is cut behind its first data byte.
 */
static void read_examples(void)
{
    static const uint8_t nuls[3 * PAYLOAD_MOST], across[] = { 1, 0, 7, 0, 'X', 'Y', 'Z', 237 };
    static const uint8_t first[] = { 1, 0, 6, 0, 'A', 'B', 118, 0, 0, 1, 0, 4, 0, 251, 1, 0, 5, 0, 'C', 0, 0, 0, 2, 0 };
    const size_t length = make_open(image), p = tried->payload, third = p - 3, end = 3 * p;
    const file_key key = entry_key(image, THREE), empty = entry_key(image, EMPTY);

    put_text(image, THREE, 0, nuls, end);
    put_text(image, THREE, 0, first, sizeof first);
    put_text(image, THREE, third, across, sizeof across);
    put_text(image, THREE, end - 5, "\1\0\6\0Q", 5);
    set_open(image, EMPTY, 0, 1);

    for (size_t mode = NORMAL; mode <= SPECIAL; mode++) {
        expect_read(length, key, mode, (start){ 0, 0, 0 }, 9, (binary_answer){ 0, 2, 0, 7, 0, 0 }, "AB?");
        expect_read(length, key, mode, (start){ 0, 0, 0 }, 2, (binary_answer){ 0, 2, 0, 7, 0, 0 }, "AB?");
        expect_read(length, key, mode, (start){ 7, 0, 0 }, 9, (binary_answer){ 0, 0, 0, 14, 0, 0 }, "?");
        expect_read(length, key, mode, (start){ 14, 0, 0 }, 9, (binary_answer){ 0, 1, 2, 20, 0, 0 }, "C?");
        expect_read(length, key, mode, (start){ 20, 0, 0 }, 9, (binary_answer){ 0, 0, 4, 20, 0, 0 }, "?");
        expect_read(length, key, mode, (start){ 22, 0, 0 }, 9, (binary_answer){ 0, 0, 4, 22, 0, 0 }, "?");
        expect_read(length, key, mode, (start){ 23, 0, 0 }, 9, (binary_answer){ 0, 3, 0, p + 5, 0, 0 }, "XYZ?");
        expect_read(length, key, mode, (start){ p + 5, 0, 0 }, 9, (binary_answer){ 0, 1, 64, end, 0, 0 }, "Q?");
        expect_read(length, key, mode, (start){ end, 0, 0 }, 9, (binary_answer){ 0, 0, 64, end, 0, 0 }, "?");
        expect_read(length, key, mode, (start){ end + 1, 0, 0 }, 9, (binary_answer){ .code = 044 }, "?");
        expect_read(length, key, mode, (start){ SIZE_MAX, 0, 0 }, 9, (binary_answer){ .code = 044 }, "?");
        expect_read(length, empty, mode, (start){ 0, 0, 0 }, 9, (binary_answer){ 0, 0, 64, 0, 0, 0 }, "?");
        expect_read(length, empty, mode, (start){ 1, 0, 0 }, 9, (binary_answer){ .code = 044 }, "?");
        /* The last part of a line is verified in both modes. */
        expect_read(length, key, mode, (start){ p + 3, 1, 185 }, 2, (binary_answer){ 0, 1, 0, p + 5, 0, 0 }, "Z?");
        expect_read(length, key, mode, (start){ p + 3, 1, 184 }, 2, (binary_answer){ 0, 1, 2, p + 5, 0, 0 }, "Z?");
    }

    /* Bytes too many: laid over the last, and verified; or kept. */
    expect_read(length, key, NORMAL, (start){ third, 0, 0 }, 2, (binary_answer){ 0, 3, 1, p + 5, 0, 0 }, "XZ?");
    expect_read(length, key, NORMAL, (start){ third, 0, 0 }, 1, (binary_answer){ 0, 3, 1, p + 5, 0, 0 }, "Z?");
    expect_read(length, key, NORMAL, (start){ p + 2, 2, 96 }, 1, (binary_answer){ 0, 2, 1, p + 5, 0, 0 }, "Z?");
    expect_read(length, key, NORMAL, (start){ p + 2, 2, 97 }, 1, (binary_answer){ 0, 2, 3, p + 5, 0, 0 }, "Z?");
    expect_read(length, key, SPECIAL, (start){ third, 0, 0 }, 2, (binary_answer){ 0, 2, 1, p + 3, 1, 185 }, "XY?");
    expect_read(length, key, SPECIAL, (start){ third, 0, 0 }, 1, (binary_answer){ 0, 1, 1, p + 2, 2, 96 }, "X?");
    expect_read(length, key, SPECIAL, (start){ p + 2, 2, 96 }, 1, (binary_answer){ 0, 1, 1, p + 3, 1, 185 }, "Y?");

    /* As many data bytes as there are: normal mode sees that the data end, special only in the part that follows. */
    expect_read(length, key, NORMAL, (start){ end - 5, 0, 0 }, 1, (binary_answer){ 0, 1, 65, end, 0, 0 }, "Q?");
    expect_read(length, key, SPECIAL, (start){ end - 5, 0, 0 }, 1, (binary_answer){ 0, 1, 1, end, 1, 88 }, "Q?");
    expect_read(length, key, SPECIAL, (start){ end, 1, 88 }, 1, (binary_answer){ 0, 0, 64, end, 0, 0 }, "?");
    expect_bounds(length, key, end);
}

static uint8_t gather[PAYLOAD_MOST];

/* gathered is what the gather buffer begins with then. */
static void expect_write(size_t length, file_key key, const void *data, size_t data_len, size_t filled,
                         binary_answer due, const char *gathered, size_t size)
{
    const abz_write_answer answer = abz_binary_write(image, length, ME, FILE4(key), data, data_len, gather,
                                                     tried->payload, filled);

#define CASE "example: binary write of %zu at %zu, "
    CHECK_NUMBER(answer.code, due.code, CASE "code", data_len, filled);
    CHECK_NUMBER(answer.count, due.count, CASE "count", data_len, filled);
    CHECK_NUMBER(answer.status, 0, CASE "status", data_len, filled);
    CHECK_NUMBER(answer.filled, due.next, CASE "filled", data_len, filled);
    CHECK_BYTES(gather, (const uint8_t *)gathered, size, CASE "gather buffer", data_len, filled);
#undef CASE
}

/* Five blocks are free. Nothing is put behind TAB and FORM FEED, and bit 7 stays. */
static void write_examples(void)
{
    static const uint8_t zeros[DATA_MOST + 1];
    static uint8_t pack[SMALL_ROOM];
    const size_t length = make_closed(image), payload = tried->payload, all = payload - 1 + LINE_MOST;
    const size_t rest = all % payload;
    const file_key key = entry_key(image, EMPTY);

    memset(gather, '?', payload);
    set_open(image, EMPTY, 2, 0);
    memcpy(pack, image, length);
    expect_write(length, key, "", 0, 0, (binary_answer){ .next = 5 }, "\1\0\4\0\373?", 6);
    expect_write(length, key, "AB", 2, 5, (binary_answer){ .count = 2, .next = 12 }, "\1\0\4\0\373\1\0\6\0AB\166?", 13);
    expect_write(length, key, "\t\f", 2, 0, (binary_answer){ .count = 2, .next = 7 }, "\1\0\6\0\t\f\344\6\0AB", 11);
    expect_write(length, key, "\377", 1, 0, (binary_answer){ .count = 1, .next = 6 }, "\1\0\5\0\377\373\344\6", 8);
    expect_write(length, key, zeros, DATA_MOST + 1, 6, (binary_answer){ .code = 041 }, "\1\0\5\0\377\373\344\6", 8);
    CHECK_BYTES(image, pack, length, "example: binary writes that fill no block, image");

    /* The longest line: 516 is bytes 4 and 2. The sum byte is the last that is laid. */
    expect_write(length, key, zeros, DATA_MOST, payload - 1, (binary_answer){ .count = DATA_MOST, .next = rest },
                 "\0\0\0", 3);
    EXPECT(get_field(image, EMPTY, LENGTH), all / payload);
    EXPECT(get_field(image, EMPTY, FIRST), small(14));
    EXPECT(image[tried->block * small(14) + tried->block - 1], 1);
    EXPECT(gather[rest - 1], 249);
    const size_t second = get_link(image, small(14));
    CHECK_BYTES(image + tried->block * second + 2, (const uint8_t *)"\0\4\2\0", 4, "example: a header's other bytes");
}

static const file_key bad = { 64000, 0, 0, ME }, absent = { 1600, 0, 0, ME }; /* A */

/* Of several causes the first in the table is told: each example has one cause less. */
static void refused_reads(void)
{
    static uint8_t bytes[9];
    const size_t length = make_closed(image);
    const file_key flat = entry_key(image, EXTENT), three = entry_key(image, THREE);

#define READ(caller, key, mode, position, to_come, sum, size) \
    abz_binary_read(image, length, caller, FILE4(key), mode, position, to_come, sum, bytes, size).code
    set_field(image, THREE, PROTECT, 4);
    set_field(image, EXTENT, PROTECT, 4);
    set_word(image, FORM, 0);
    EXPECT(READ(ME, bad, 2, SIZE_MAX, 512, 256, 0), 040);
    set_word(image, FORM, tried->number);
    EXPECT(READ(ME, bad, 2, SIZE_MAX, 512, 256, 0), 015);
    EXPECT(READ(ME, absent, 2, SIZE_MAX, 0, 0, 9), 041);
    EXPECT(READ(ME, absent, SPECIAL, SIZE_MAX, 0, 0, 0), 041);
    EXPECT(READ(ME, absent, SPECIAL, SIZE_MAX, 512, 0, 1), 041);
    EXPECT(READ(ME, absent, SPECIAL, SIZE_MAX, 511, 256, 1), 041);
    EXPECT(READ(ME, absent, SPECIAL, SIZE_MAX, 0, 1, 1), 041);
    EXPECT(READ(ME, absent, SPECIAL, SIZE_MAX, 511, 255, 1), 2);
    EXPECT(READ(OTHER, flat, NORMAL, SIZE_MAX, 0, 0, 9), 6);
    EXPECT(READ(OTHER, three, NORMAL, SIZE_MAX, 0, 0, 9), 6);
    EXPECT(READ(ME, flat, NORMAL, SIZE_MAX, 0, 0, 9), 043);
    EXPECT(READ(ME, three, NORMAL, SIZE_MAX, 0, 0, 9), 045);
    set_open(image, THREE, 3, 0);
    EXPECT(READ(ME, three, NORMAL, 0, 0, 0, 9), 045);
    set_open(image, THREE, 2, 1);
    EXPECT(READ(ME, three, NORMAL, 3 * tried->payload + 1, 0, 0, 9), 044);
    EXPECT(READ(ME, three, NORMAL, 3 * tried->payload + 1, 511, 255, 9), 044);
    EXPECT(READ(ME, three, NORMAL, 3 * tried->payload, 0, 0, 9), 0);
#undef READ
}
#undef EXPECT

static void expect_refused(size_t length, size_t caller, file_key key, size_t data_len, size_t size, size_t filled,
                           size_t code)
{
    static const uint8_t data[DATA_MOST + 1] = { 'A' };
    const abz_write_answer answer = abz_binary_write(image, length, caller, FILE4(key), data, data_len, gather, size,
                                                     filled);

    CHECK_NUMBER(answer.code, code, "example: binary write refused with %zo", code);
    CHECK_NUMBER(answer.count, 0, "example: binary write refused with %zo, count", code);
    CHECK_NUMBER(answer.filled, 0, "example: binary write refused with %zo, filled", code);
}

static void refused_writes(void)
{
    const size_t all_free[] = { small(8), small(10), small(11), small(13), small(14) };
    static uint8_t pack[SMALL_ROOM], before[PAYLOAD_MOST];
    const size_t length = make_closed(image), p = tried->payload;
    const file_key flat = entry_key(image, EXTENT), three = entry_key(image, THREE);

    memcpy(before, gather, p);
    put_linked(image, FILES, key_of("FULL  ", "   ", OTHER), all_free, COUNT(all_free));
    set_field(image, THREE, PROTECT, 0102);
    set_field(image, EXTENT, PROTECT, 2);
    set_word(image, FORM, 0);
    expect_refused(length, ME, bad, 513, 0, SIZE_MAX, 040);
    set_word(image, FORM, tried->number);
    expect_refused(length, ME, bad, 513, 0, SIZE_MAX, 015);
    expect_refused(length, ME, absent, 513, p, 0, 041);
    expect_refused(length, ME, absent, 512, p, SIZE_MAX, 041);
    expect_refused(length, ME, absent, 0, p, p, 041);
    expect_refused(length, ME, absent, 0, p - 1, p - 1, 041);
    expect_refused(length, ME, absent, 0, p == 126 ? 510 : 126, 0, 041); /* the other device's */
    expect_refused(length, ME, absent, 512, p, p - 1, 2);
    expect_refused(length, OTHER, flat, 512, p, p - 1, 6);
    expect_refused(length, ME, three, 512, p, p - 1, 6);
    expect_refused(length, ME, flat, 512, p, p - 1, 043);
    set_field(image, THREE, PROTECT, 0);
    expect_refused(length, ME, three, 512, p, p - 1, 045);
    set_open(image, THREE, 0, 1);
    expect_refused(length, ME, three, 0, p, 0, 045);
    set_open(image, THREE, 3, 1);
    memcpy(pack, image, length);
    expect_refused(length, ME, three, 0, p, p - 5, 042);
    expect_refused(length, ME, three, 512, p, p - 1, 042);
    CHECK_BYTES(image, pack, length, "example: no room, image");
    CHECK_BYTES(gather, before, p, "example: refused, gather buffer");
}

/* ---- Headers ---- */

/* Every value of each byte of a header, from places where the end of a block comes before and behind each of them. */
static void header_bytes(void)
{
    static uint8_t pack[SMALL_ROOM];
    const uint8_t line[] = { 1, 0, 6, 0, 'A', 'B', 118 };
    const size_t length = make_open(pack), payload = tried->payload;

    for (size_t number = 0; number < 256 * HEADER; number++) {
        binary_call it = binary_on(pack, BINARY_READ, THREE, number % 3 % MODES);
        memcpy(image, pack, length);
        it.position = payload - number % 7;
        put_text(image, THREE, it.position, line, sizeof line);
        *text_byte(image, file_of(image, it.file), it.position + number % HEADER) = (uint8_t)(number / HEADER);
        try_binary("header byte", number, length, it);
    }
}

/* Every first word and every count word: only 1, and only 4 to 516. */
static void header_words(void)
{
    static uint8_t pack[SMALL_ROOM];
    const size_t length = make_open(pack), payload = tried->payload;
    const file_key key = entry_key(pack, THREE);
    uint8_t word[2], data[DATA_MOST];

    memcpy(image, pack, length);
    for (size_t i = 0; i < 2; i++)
        for (size_t value = 0; value < 65536; value++) {
            const size_t position = payload - value % 5, count = i == 0 ? 6 : value;
            uint8_t header[] = { 1, 0, 6, 0 };
            set_word(word, 0, value);
            memcpy(header + 2 * i, word, 2);
            put_text(image, THREE, position, header, sizeof header);
            const abz_binary_answer answer = abz_binary_read(image, length, ME, FILE4(key), NORMAL, position, 0, 0,
                                                             data, sizeof data);
            const bool skipped = i == 0 && value % 256 == 0; /* NULs before something else */
            const bool right = i == 0 ? value == 1 : value >= 4 && value <= 516;
            if (skipped)
                continue;
            CHECK_NUMBER(answer.code, 0, "word %zu of a header is %zu: code", i, value);
            CHECK_NUMBER((answer.status & WRONG_FORMAT) == 0, right, "word %zu of a header is %zu: status", i, value);
            if (!right)
                CHECK_NUMBER(answer.position, position, "word %zu of a header is %zu: position", i, value);
            else if ((answer.status & ENDED) == 0)
                CHECK_NUMBER(answer.count, count - 4, "word %zu of a header is %zu: count", i, value);
        }
}

/* A line that the end of the file cuts behind each of its bytes, with right words in its header and wrong ones. */
static void cut_lines(void)
{
    static const size_t firsts[] = { 1, 2, 256, 257 }, counts[] = { 7, 3, 4, 516, 517 };
    static uint8_t pack[SMALL_ROOM];
    const size_t length = make_open(pack), end = 3 * tried->payload;

    for (size_t number = 0;; number++) {
        size_t rest = number;
        uint8_t line[3 + 8] = { 0, 0, 0, 0, 0, 0, 0, 'X', 'Y', 'Z', 237 };
        binary_call it = binary_on(pack, BINARY_READ, THREE, digit(&rest, MODES));
        it.buffer_len = 1 + digit(&rest, 4);
        set_word(line + 3, 0, firsts[digit(&rest, COUNT(firsts))]);
        set_word(line + 3, 1, counts[digit(&rest, COUNT(counts))]);
        const size_t nuls = digit(&rest, 4), there = digit(&rest, 9);
        if (rest > 0)
            break;
        memcpy(image, pack, length);
        it.position = end - there - nuls;
        put_text(image, THREE, it.position, line + 3 - nuls, nuls + there);
        try_binary("cut line", number, length, it);
    }
}

/* ---- Sums and parts ---- */

/* Puts a line into a file; returns how many bytes it has. */
static size_t put_line(size_t entry, size_t position, const uint8_t *data, size_t size)
{
    static uint8_t line[LINE_MOST];
    const size_t all = binary_line(line, data, size);

    put_text(image, entry, position, line, all);
    return all;
}

/* Every sum byte of a line, of which just one is right, in one read and in parts; and every sum that is passed in. */
static void sums(void)
{
    static const uint8_t data[] = { 0377, 'A', 0, 1, 0200 };
    const size_t length = make_open(image), position = tried->payload - 6, last = position + HEADER + sizeof data;
    binary_call it = binary_on(image, BINARY_READ, THREE, NORMAL);
    uint8_t *const sum_byte = text_byte(image, file_of(image, it.file), last);

    put_line(THREE, position, data, sizeof data);
    const uint8_t right = *sum_byte;
    for (size_t number = 0; number < 256 * MODES; number++) {
        it.mode = number % MODES;
        *sum_byte = (uint8_t)(number / MODES);
        for (it.buffer_len = 1; it.buffer_len < 8; it.buffer_len++) {
            it.position = position;
            it.to_come = it.sum = 0;
            binary_answer due;
            do {
                due = try_binary("sum", number, length, it);
                it.position = due.next;
                it.to_come = due.to_come;
                it.sum = due.sum;
            } while (due.to_come > 0);
            CHECK_NUMBER(due.status & WRONG_SUM, *sum_byte == right ? 0 : WRONG_SUM, "sum %zu", number);
        }
    }
    *sum_byte = right;
    it.position = last - 2;
    it.to_come = 2;
    for (it.sum = 0; it.sum < 258; it.sum++)
        for (it.mode = 0; it.mode < MODES; it.mode++)
            for (it.buffer_len = 1; it.buffer_len < 4; it.buffer_len++) {
                const size_t code = try_binary("sum so far", it.sum, length, it).code;
                CHECK_NUMBER(code, it.sum < 256 ? 0 : 041, "sum so far %zu", it.sum);
            }
}

/* A file of all five blocks that are free, for lines of 517 bytes: in form 3 they take all of them. */
enum { FIVE = FILES };

static size_t make_five(uint8_t *pack)
{
    const size_t all_free[] = { small(8), small(10), small(11), small(13), small(14) };
    const size_t length = make_open(pack);

    put_linked(pack, FIVE, key_of("FIVE  ", "LDA", ME), all_free, COUNT(all_free));
    set_open(pack, FIVE, 3, 1);
    return length;
}

/* Reads the line at a position in parts of one size; the last one in either mode. The data come whole. */
static void read_parts(size_t number, size_t length, size_t position, const uint8_t *data, size_t size, size_t part)
{
    binary_call it = binary_on(image, BINARY_READ, FIVE, SPECIAL);
    size_t sum = 1 + sum_of((const uint8_t[]){ (uint8_t)(4 + size), (uint8_t)((4 + size) / 256) }, 2);

    it.position = position;
    it.buffer_len = part;
    for (size_t at = 0; at < size || at == 0; at += part) {
        const bool last = size - at <= part;
        if (last)
            it.mode = number % MODES;
        const binary_answer due = try_binary("part", number, length, it);
        const size_t count = last ? size - at : part;
        sum += sum_of(data + at, count);
        CHECK_NUMBER(due.status, last ? 0 : INVALID, "parts %zu from %zu: status", number, at);
        CHECK_NUMBER(due.count, count, "parts %zu from %zu: count", number, at);
        CHECK_NUMBER(due.next, position + HEADER + at + count + last, "parts %zu from %zu: position", number, at);
        CHECK_NUMBER(due.to_come, size - at - count, "parts %zu from %zu: to come", number, at);
        CHECK_NUMBER(due.sum, last ? 0 : sum % 256, "parts %zu from %zu: sum", number, at);
        CHECK_BYTES(buffer, data + at, count, "parts %zu from %zu: data", number, at);
        it.position = due.next;
        it.to_come = due.to_come;
        it.sum = due.sum;
    }
}

/* Lines of no data, few and many, in parts of each size from 1. */
static void parts(void)
{
    const size_t sizes[] = { 0, 1, 2, 3, 7, tried->payload - 4, tried->payload, 255, 256, 510, 511, 512 };
    static uint8_t data[DATA_MOST];
    const size_t length = make_five(image);

    for (size_t number = 0; number < COUNT(sizes); number++) {
        const size_t size = sizes[number], position = chance(5 * tried->payload - LINE_MOST + 1);
        chance_bytes(data, size);
        put_line(FIVE, position, data, size);
        for (size_t part = 1; part <= size + 1; part += part < 20 || part + 4 > size ? 1 : 1 + chance(40))
            read_parts(number + part, length, position, data, size, part);
    }
}

/* ---- Lengths and numbers ---- */

/* Buffers of 1 to 514 bytes for lines as long, one byte longer or shorter, and of 512, about the ends of blocks. */
static void buffer_sizes(void)
{
    static uint8_t data[DATA_MOST];
    const size_t length = make_five(image);

    for (size_t len = 1; len <= DATA_MOST + 2; len++) {
        const size_t sizes[] = { len - 1, len, len + 1, DATA_MOST };
        for (size_t i = 0; i < COUNT(sizes); i++) {
            const size_t size = sizes[i] < DATA_MOST ? sizes[i] : DATA_MOST;
            binary_call it = binary_on(image, BINARY_READ, FIVE, NORMAL);
            it.position = (len + i) % (5 * tried->payload - LINE_MOST + 1);
            it.buffer_len = len;
            chance_bytes(data, size);
            put_line(FIVE, it.position, data, size);
            for (it.mode = 0; it.mode < MODES; it.mode++) {
                const size_t due = try_binary("buffer size", len, length, it).status;
                CHECK_NUMBER(due, size > len ? INVALID : 0, "buffer of %zu for %zu", len, size);
            }
        }
    }
}

/* A line of 517 bytes from every position of a block: over two blocks of form 1, and over five of form 3. */
static void long_lines(void)
{
    static uint8_t data[DATA_MOST];
    const size_t length = make_five(image), payload = tried->payload;
    binary_call it = binary_on(image, BINARY_READ, FIVE, NORMAL);

    it.buffer_len = DATA_MOST;
    for (size_t number = 0; number < 2 * payload; number++) {
        it.position = number % payload;
        if (it.position + LINE_MOST > 5 * payload)
            continue;
        it.mode = number / payload;
        chance_bytes(data, DATA_MOST);
        put_line(FIVE, it.position, data, DATA_MOST);
        const binary_answer due = try_binary("long line", number, length, it);
        CHECK_NUMBER(due.status, 0, "long line %zu: status", number);
        CHECK_NUMBER(due.next, it.position + LINE_MOST, "long line %zu: position", number);
        CHECK_BYTES(buffer, data, DATA_MOST, "long line %zu: data", number);
    }
}

/* From every position of a file, its end and those behind it too, as a new line and as the rest of one. */
static void positions(void)
{
    static const size_t lens[] = { 1, 5, 80, 512 };
    static uint8_t bytes[5 * PAYLOAD_MOST];
    const size_t total = 5 * tried->payload;

    for (size_t i = 0; i < MODES * COUNT(lens); i++) {
        const size_t length = make_five(image);
        binary_call it = binary_on(image, BINARY_READ, FIVE, i % MODES);
        chance_lines(bytes, total, 30);
        put_text(image, FIVE, 0, bytes, total);
        it.buffer_len = lens[i / MODES];
        for (; it.position < total + 4; it.position += 1 + chance(3)) {
            it.to_come = chance(2) ? 0 : chance(512);
            it.sum = it.to_come ? chance(256) : 0;
            try_binary("position", i, length, it);
        }
        for (size_t k = 0; k < COUNT(huge); k++)
            for (it.position = huge[k] - 2; it.position != huge[k] + 3; it.position++)
                if (it.position > total)
                    CHECK_NUMBER(try_binary("position", i, length, it).code, 044, "position %zu", it.position);
    }
}

/* Every filled count, and such as are too large, for lines of several lengths, also such as are too long. */
static void filled_counts(void)
{
    static const size_t sizes[] = { 0, 1, 120, 121, 122, 505, 506, 511, 512, 513, 514, 1024, 4096, TEXT_ROOM };
    static uint8_t pack[SMALL_ROOM];
    const size_t payload = tried->payload, length = make_open(pack), counts = payload + 4 + COUNT(huge);

    for (size_t number = 0; number < counts * COUNT(sizes); number++) {
        const size_t count = number % counts;
        binary_call it = binary_on(pack, BINARY_WRITE, THREE, NORMAL);
        it.filled = count < payload + 4 ? count : huge[count - payload - 4];
        it.data_len = sizes[number / counts];
        if (it.data_len > DATA_MOST && it.filled % 16 > 1)
            continue;
        chance_bytes(text, it.data_len < DATA_MOST ? it.data_len : DATA_MOST);
        memcpy(image, pack, length);
        const size_t code = try_binary("filled count", number, length, it).code;
        CHECK_NUMBER(code, it.filled < payload && it.data_len <= DATA_MOST ? 0 : 041, "filled %zu, data of %zu",
                     it.filled, it.data_len);
    }
}

/* Data of every length that there can be, and one more; and one that is right in its low 16 bits. */
static void data_lengths(void)
{
    static uint8_t pack[SMALL_ROOM], many[65536 + DATA_MOST];
    const size_t length = make_open(pack), payload = tried->payload;
    const file_key key = entry_key(pack, THREE);

    for (size_t size = 0; size <= DATA_MOST + 1; size++) {
        binary_call it = binary_on(pack, BINARY_WRITE, THREE, NORMAL);
        it.filled = (7 * size) % payload;
        it.data_len = size;
        chance_bytes(text, size);
        memcpy(image, pack, length);
        CHECK_NUMBER(try_binary("data", size, length, it).code, size <= DATA_MOST ? 0 : 041, "data of %zu", size);
    }
    for (size_t size = 65535; size <= sizeof many; size++)
        CHECK_NUMBER(abz_binary_write(image, length, ME, FILE4(key), many, size, gather, payload, 0).code, 041,
                     "data of %zu", size);
}

/* Every size of the gather buffer up to two blocks of any form, and those that are right in their low 16 bits. */
static void gather_sizes(void)
{
    enum { END = 2 * BLOCK_MOST };
    const size_t payload = tried->payload, more[] = { 65535, 65536, 65535 + payload, 65536 + payload };
    static uint8_t pack[SMALL_ROOM];
    const size_t length = make_open(pack);

    for (size_t i = 0; i <= END + COUNT(more); i++) {
        binary_call it = binary_on(pack, BINARY_WRITE, THREE, NORMAL);
        it.buffer_len = i <= END ? i : more[i - END - 1];
        it.filled = 7;
        it.data_len = 11;
        memcpy(image, pack, length);
        const size_t code = try_binary("size", i, length, it).code;
        CHECK_NUMBER(code, it.buffer_len == payload ? 0 : 041, "gather buffer of %zu", it.buffer_len);
    }
}

/* The numbers of a call, one after another. */
enum { CALL_NUMBERS = 10 };

static size_t *call_number(binary_call *it, size_t i)
{
    size_t *const numbers[CALL_NUMBERS] = { &it->caller, &it->file.name1, &it->file.name2, &it->file.extension,
                                            &it->file.uic, &it->mode, &it->position, &it->to_come, &it->sum,
                                            &it->filled };

    return numbers[i];
}

/* One number of a right call, or each of them, is made huge, or 65536 higher; then another beside it. */
static void huge_calls(void)
{
    static uint8_t pack[SMALL_ROOM];
    const size_t length = make_open(pack);

    for (size_t what = 0; what < BINARY_CALLS; what++)
        for (size_t i = 0; i <= CALL_NUMBERS; i++)
            for (size_t h = 0; h <= COUNT(huge); h++) {
                binary_call it = binary_on(pack, what, THREE, SPECIAL);
                it.file.uic = h % 2 ? ME : 0;
                it.to_come = h % 3;
                it.filled = tried->payload - 10;
                it.data_len = 100;
                for (size_t k = 0; k < CALL_NUMBERS; k++)
                    if (k == i || i == CALL_NUMBERS)
                        *call_number(&it, k) = h < COUNT(huge) ? huge[h] : *call_number(&it, k) + 65536;
                memcpy(image, pack, length);
                try_binary("huge numbers", i, length, it);
                *call_number(&it, chance(CALL_NUMBERS)) = huge[chance(COUNT(huge))];
                memcpy(image, pack, length);
                try_binary("huge numbers", i, length, it);
            }
}

/* ---- Rights, and several causes at once ---- */

/* Every protect code, for the owner, his group and others. */
static void protect_codes(void)
{
    static const size_t callers[] = { ME, GROUP, OTHER, 0, ME + 65536, GROUP + 65536, 023 * 256, 022 * 256 + 010 };
    static uint8_t pack[SMALL_ROOM];
    const size_t length = make_open(pack);

    for (size_t what = 0; what < BINARY_CALLS; what++)
        for (size_t c = 0; c < COUNT(callers); c++)
            for (size_t protect = 0; protect < 256; protect++) {
                binary_call it = binary_on(pack, what, THREE, NORMAL);
                it.caller = callers[c];
                it.filled = protect % 2;
                memcpy(image, pack, length);
                set_field(image, THREE, PROTECT, protect);
                try_binary("protect code", protect, length, it);
            }
}

/*
 * Each kind and way of being open, also such as no consistent pack has, with right values and wrong ones of each
 * argument.
 */
static void causes(void)
{
    static const size_t protects[] = { 0, 4, 0100 }, callers[] = { ME, OTHER }, sums_so_far[] = { 0, 1, 256 };
    const size_t all_free[] = { small(8), small(10), small(11), small(13), small(14) }, payload = tried->payload;
    const size_t places[] = { 0, payload, 3 * payload + 1 }, counts[] = { 0, payload - 1, payload };
    const size_t lens[] = { payload, 1, 0 }, to_come[] = { 0, 511, 512 }, data[] = { 0, 512, 513 };
    const file_key wrong[] = { key_of("A     ", "DAT", ME), { 1600, 0, 64000, ME } };
    static uint8_t pack[SMALL_ROOM], full[SMALL_ROOM];
    const size_t length = make_closed(pack);

    memcpy(full, pack, length);
    put_linked(full, FILES, key_of("FULL  ", "   ", OTHER), all_free, COUNT(all_free));
    for (size_t number = 0;; number++) {
        size_t rest = number;
        const size_t entry = digit(&rest, OTHERS), writer = digit(&rest, 4), name = digit(&rest, 1 + COUNT(wrong));
        binary_call it = binary_on(pack, digit(&rest, BINARY_CALLS), entry, digit(&rest, MODES + 1));
        const size_t third = digit(&rest, 3), fourth = digit(&rest, 3), fifth = digit(&rest, 3);

        memcpy(image, fifth == 1 ? full : pack, length);
        set_open(image, entry, writer, digit(&rest, 2));
        set_field(image, entry, PROTECT, protects[number / 7 % COUNT(protects)]);
        if (name < COUNT(wrong))
            it.file = wrong[name];
        it.caller = callers[digit(&rest, COUNT(callers))];
        it.buffer_len = lens[digit(&rest, COUNT(lens))];
        it.position = places[third];
        it.filled = counts[third];
        it.to_come = to_come[fourth];
        it.data_len = data[fourth];
        it.sum = sums_so_far[fifth];
        if (rest > 0)
            break;
        try_binary("several causes", number, length, it);
    }
}

/* ---- By chance ---- */

static size_t chance_position(size_t total)
{
    const size_t payload = tried->payload;

    switch (chance(4)) {
    case 0: return payload * chance(total / payload + 1) + chance(4) - 2; /* about a block's end; also below 0 */
    case 1: return total - chance(20);
    default: return chance(total + 2);
    }
}

static binary_call chance_binary(const uint8_t *pack)
{
    const size_t payload = tried->payload;
    binary_call it = { .what = chance(BINARY_CALLS), .file = likely_key(pack), .mode = chance(MODES) };

    it.caller = likely_caller(pack, it.file.uic);
    it.position = chance_position(payload * file_of(pack, it.file).length);
    it.to_come = chance(3) ? 0 : chance(chance(2) ? 20 : 513);
    it.sum = it.to_come ? chance(256) : 0;
    it.filled = chance(3) ? chance(payload) : chance(2) ? 0 : payload - chance(4);
    it.data_len = chance(3) ? chance(60) : chance(513 + chance(4));
    it.buffer_len = it.what == BINARY_WRITE ? payload : 1 + chance(chance(2) ? 30 : 600);
    if (chance(16) == 0)
        it.buffer_len = chance(2 * tried->block);
    if (it.caller == it.file.uic && chance(2))
        it.file.uic = 0;
    while (chance(8) == 0)
        spoil(call_number(&it, chance(CALL_NUMBERS)));
    chance_bytes(text, it.data_len);
    return it;
}

/* So that more is granted: linked files open for both, and with lines in them. */
static void ease_binary(uint8_t *pack)
{
    static uint8_t bytes[16 * PAYLOAD_MOST];
    const size_t payload = tried->payload;

    ease(pack);
    for (size_t entry = 0; entry < entry_count(pack); entry++) {
        if (get_field(pack, entry, KIND) != LINKED)
            continue;
        if (chance(3))
            set_open(pack, entry, 2 + chance(2), 1 + chance(2));
        const size_t size = payload * get_field(pack, entry, LENGTH);
        chance_lines(bytes, size, chance(2) ? 20 : DATA_MOST);
        put_text(pack, entry, 0, bytes, size);
    }
}

/* Binary lines, lines of text and the other requests one after another, each from what those before it left. */
static void chance_calls(void)
{
    for (size_t pack = 0; pack < 200; pack++) {
        const size_t c = contents_like(1 + chance(3)), n = 16 + chance(pack % 2 ? 16 : 64);
        const size_t length = chance_pack(image, n, c, 4 + chance(12));
        if (pack % 4)
            ease_binary(image);
        for (size_t i = 0; i < 50; i++)
            if (chance(5))
                try_binary("pack by chance", pack, length, chance_binary(image));
            else
                try_request("pack by chance", pack, length, chance_request(chance(REQUESTS), image));
    }
}

/* A read in an image that is compared when all reads are done; the buffer goes on as it is. */
static void read_quickly(size_t number, size_t length, binary_call it)
{
    const binary_answer due = model_binary_read(wanted + GUARD, wanted_buffer + GUARD, &it);
    const binary_answer answer = call_binary(length, &it);

    CHECK_NUMBER(memcmp(&answer, &due, sizeof due) == 0, true,
                 "read %zu: mode %zu, position %zu, to come %zu, sum %zu, buffer of %zu: answer", number, it.mode,
                 it.position, it.to_come, it.sum, it.buffer_len);
    CHECK_NUMBER(memcmp(lent_buffer, wanted_buffer, GUARD + it.buffer_len + GUARD) == 0, true,
                 "read %zu: mode %zu, position %zu, to come %zu, sum %zu, buffer of %zu: buffer", number, it.mode,
                 it.position, it.to_come, it.sum, it.buffer_len);
    binary_codes[BINARY_READ][due.code]++;
    binary_statuses[it.mode][due.status]++;
}

/* Very many reads of payloads by chance: of lines, and of bytes of any kind. */
static void chance_reads(void)
{
    enum { FILES_OF_LINES = 90, READS = 8000 };
    static uint8_t bytes[5 * PAYLOAD_MOST];
    const size_t total = 5 * tried->payload;

    chance_bytes(lent_buffer, sizeof lent_buffer);
    memcpy(wanted_buffer, lent_buffer, sizeof lent_buffer);
    for (size_t number = 0; number < FILES_OF_LINES; number++) {
        const size_t length = make_five(image);
        chance_lines(bytes, total, number % 3 ? 12 : number % 2 ? 100 : DATA_MOST);
        put_text(image, FIVE, 0, bytes, total);
        memcpy(wanted, lent, sizeof lent);
        for (size_t i = 0; i < READS; i++) {
            binary_call it = binary_on(image, BINARY_READ, FIVE, chance(MODES));
            it.position = chance(8) ? chance(total + 1) : total - chance(9);
            it.to_come = chance(2) ? 0 : 1 + chance(chance(2) ? 9 : 511);
            it.sum = it.to_come ? chance(256) : 0;
            it.buffer_len = 1 + chance(chance(2) ? 9 : 520);
            read_quickly(number, length, it);
        }
        CHECK_BYTES(lent, wanted, GUARD + length + GUARD, "reads %zu: image", number);
    }
}

/* 40 wherever we judge so, and whatever is asked. */
static void damaged_packs(void)
{
    static uint8_t sound[ROOM];
    size_t refused = 0;

    for (size_t pack = 0; pack < 60; pack++) {
        const size_t c = contents_like(1 + chance(2)), length = chance_pack(sound, 16 + chance(24), c, 16);
        for (size_t i = 0; i < 24; i++) {
            const binary_call it = chance_binary(sound);
            const size_t damaged_len = damage(sound, length, (i % 3 ? system_bytes(sound) : length) / 2);
            refused += try_binary("damaged pack", pack, damaged_len, it).code == 040;
        }
    }
    CHECK_NUMBER(refused > 200, true, "damaged packs: %zu refused", refused);

    for (size_t short_len = 0; short_len < 40; short_len++) {
        memcpy(image, sound, tried->block * get_word(sound, BLOCKS));
        const size_t code = try_binary("short image", short_len, short_len, chance_binary(sound)).code;
        CHECK_NUMBER(code, 040, "short image of %zu", short_len);
    }
}

/* A pack whose word 0 is another number, of no form or of one that it is not of: 40, whatever is asked. */
static void other_form_words(void)
{
    static uint8_t sound[SMALL_ROOM];
    const size_t length = make_open(sound);

    for (size_t what = 0; what < BINARY_CALLS; what++)
        for (size_t i = 0; i < FORM_WORDS; i++) {
            binary_call it = chance_binary(sound);
            it.what = what;
            memcpy(image, sound, length);
            set_word(image, FORM, form_words[i]);
            const size_t code = try_binary("form", form_words[i], length, it).code;
            CHECK_NUMBER(code != 040, right_as(form_words[i]), "%s: form %zu for form %zu", binary_names[what],
                         form_words[i], tried->number);
        }
}

/* As many files and blocks as there can be. */
static void large_packs(void)
{
    for (size_t pack = 0; pack < 3; pack++) {
        const size_t length = chance_pack(image, tried->blocks_most - pack, tried->contents_most, 96);
        ease_binary(image);
        for (size_t i = 0; i < 40; i++)
            try_binary("large pack", pack, length, chance_binary(image));
    }
}

/* ---- All that can be given ---- */

static void codes_seen(void)
{
    static const size_t codes[BINARY_CALLS][8] = {
        [BINARY_READ] = { 040, 015, 041, 2, 6, 043, 045, 044 },
        [BINARY_WRITE] = { 040, 015, 041, 2, 6, 043, 045, 042 },
    };

    for (size_t what = 0; what < BINARY_CALLS; what++) {
        bool can[CODES] = { true }; /* 0 */
        for (size_t i = 0; i < COUNT(codes[what]); i++)
            can[codes[what][i]] = true;
        for (size_t code = 0; code < CODES; code++)
            CHECK_NUMBER(binary_codes[what][code] > 0, can[code], "%s: whether code %zo was given", binary_names[what],
                         code);
    }
}

/* 0, 1, 2, 4 and 64 in both modes, 3 and 65 in normal only, and no other. */
static void statuses_seen(void)
{
    for (size_t mode = 0; mode < MODES; mode++)
        for (size_t status = 0; status < STATUSES; status++) {
            const bool single = status == 0 || status == INVALID || status == WRONG_SUM || status == WRONG_FORMAT
                                || status == ENDED;
            const bool both = status == INVALID + WRONG_SUM || status == INVALID + ENDED;
            CHECK_NUMBER(binary_statuses[mode][status] > 0, single || (both && mode == NORMAL),
                         "binary read in mode %zu: whether status %zu was given", mode, status);
        }
}

int main(void)
{
    header_numbers();
    EACH_FORM {
        read_examples();
        write_examples();
        refused_reads();
        refused_writes();
        header_bytes();
        header_words();
        cut_lines();
        sums();
        parts();
        buffer_sizes();
        long_lines();
        positions();
        filled_counts();
        data_lengths();
        gather_sizes();
        huge_calls();
        protect_codes();
        causes();
        chance_calls();
        chance_reads();
        damaged_packs();
        other_form_words();
        large_packs();
    }
    codes_seen();
    statuses_seen();
    return check_end("binary");
}
