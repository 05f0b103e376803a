/*
 * Formatted binary lines that are written one behind another, held to binary.h: until there is no room, while they are
 * read, read back at once and in parts, and with one byte changed.
 */
#include "binary.h"

/* ---- Room ---- */

/* As many blocks are free as become full, or one less by a byte. */
static void room(void)
{
    const size_t others[] = { small(8), small(10), small(11), small(13), small(14) }, payload = tried->payload;

    for (size_t left = 0; left <= COUNT(others); left++)
        for (size_t over = 0; over < 2; over++)
            for (size_t filled = 0; filled < payload; filled++) {
                const size_t laid = payload * (left + 1) - 1 - filled + over;
                if (laid < HEADER + 1 || laid > LINE_MOST)
                    continue;
                const size_t length = make_open(image);
                binary_call it = binary_on(image, BINARY_WRITE, THREE, NORMAL);
                put_linked(image, FILES, key_of("FULL  ", "   ", OTHER), others, COUNT(others) - left);
                it.filled = filled;
                it.data_len = laid - HEADER - 1;
                chance_bytes(text, it.data_len);
                const size_t code = try_binary("room", filled, length, it).code;
                CHECK_NUMBER(code, over ? 042 : 0, "room for %zu blocks, %zu filled", left, filled);
            }
}

/* A file that grows line by line until there is no room for one; then one that needs no block is taken, and ended. */
static void growing(void)
{
    const size_t payload = tried->payload;

    for (size_t pack = 0; pack < 24; pack++) {
        const size_t c = 1 + pack % 2;
        const size_t length = make_pack(image, block_like(c, 16 + pack % 3), contents_like(c), users, COUNT(users));
        binary_answer due = { 0 };

        put_linked(image, 3, key_of("GROWS ", "   ", ME), NULL, 0);
        set_open(image, 3, 2 + pack % 2, 0);
        chance_bytes(lent_buffer, GUARD + payload + GUARD);
        binary_call it = binary_on(image, BINARY_WRITE, 3, NORMAL);
        do {
            it.filled = due.next;
            it.data_len = chance(pack < 12 ? 100 : DATA_MOST + 1);
            chance_bytes(text, it.data_len);
            due = go_on_binary("growing", pack, length, it);
        } while (due.code == 0);
        CHECK_NUMBER(due.code, 042, "growing %zu", pack);

        line_call end = call_on(image, LINE_END, 3, NORMAL);
        end.filled = payload - 1;
        while (go_on("growing", pack, length, end).code == 0)
            ;
        if (it.filled + HEADER + 1 < payload) {
            it.data_len = payload - it.filled - HEADER - 2;
            due = go_on_binary("growing", pack, length, it);
            CHECK_NUMBER(due.next, payload - 1, "growing %zu: no block needed", pack);
        }
        end.filled = 0;
        CHECK_NUMBER(go_on("growing", pack, length, end).code, 0, "growing %zu: ended at 0", pack);
    }
}

/* ---- Written, then read back ---- */

enum { LINES = 40 };

static uint8_t written[LINES][DATA_MOST];
static size_t written_len[LINES], line_count;

/* Data of any bytes, also such as look like lines, and as NULs, TABs and terminators of texts do. */
static void chance_data(uint8_t *data, size_t size)
{
    static uint8_t line[LINE_MOST];

    switch (chance(4)) {
    case 0: memset(data, (int)chance(256), size); break;
    case 1: chance_text(data, size, 2); break;
    case 2:
        chance_bytes(data, size);
        for (size_t at = 0, count; at < size; at += count) {
            count = binary_line(line, data + at, chance(9) % (size - at));
            memcpy(data + at, line, count < size - at ? count : size - at);
        }
        break;
    default: chance_bytes(data, size);
    }
}

/* Lines for some blocks, now and then ended before the next: then NULs are between them. */
static void write_lines(size_t round, size_t length, file_key key)
{
    binary_call it = { .what = BINARY_WRITE, .caller = ME, .file = key, .buffer_len = tried->payload };
    line_call end = { .what = LINE_END, .caller = ME, .file = key, .buffer_len = tried->payload };
    size_t total = 0;

    for (line_count = 0; line_count < LINES && total < 5 * tried->payload; line_count++) {
        it.data_len = written_len[line_count] = chance(8) == 0 ? DATA_MOST : chance(chance(4) ? 60 : DATA_MOST + 1);
        chance_data(text, it.data_len);
        memcpy(written[line_count], text, it.data_len);
        total += it.data_len + HEADER + 1;
        const binary_answer due = go_on_binary("writing", round, length, it);
        CHECK_NUMBER(due.code, 0, "writing %zu: code", round);
        CHECK_NUMBER(due.count, it.data_len, "writing %zu: count", round);
        it.filled = due.next;
        if (chance(6) == 0) {
            end.filled = it.filled;
            it.filled = go_on("ending", round, length, end).next;
        }
    }
    end.filled = it.filled;
    CHECK_NUMBER(go_on("ending", round, length, end).code, 0, "ending %zu", round);
}

/* "What is written reads back", at once, or in parts where the buffer does not hold it. */
static void read_lines(size_t round, size_t length, file_key key, size_t mode, size_t size)
{
    binary_call it = { .what = BINARY_READ, .caller = ME, .file = key, .mode = mode, .buffer_len = size };

    for (size_t i = 0; i < line_count; i++) {
        size_t at = 0;
        do {
            const size_t left = written_len[i] - at, now = left > size ? size : left;
            const binary_answer due = try_binary("reading", round, length, it);
            CHECK_NUMBER(due.count, now, "reading %zu: line %zu, count", round, i);
            CHECK_NUMBER(due.status, left > size ? INVALID : 0, "reading %zu: line %zu, status", round, i);
            CHECK_NUMBER(due.to_come, left - now, "reading %zu: line %zu, to come", round, i);
            CHECK_BYTES(buffer, written[i] + at, now, "reading %zu: line %zu from %zu", round, i, at);
            at += now;
            it.position = due.next;
            it.to_come = due.to_come;
            it.sum = due.sum;
        } while (it.to_come > 0);
        CHECK_NUMBER(at, written_len[i], "reading %zu: line %zu, whole", round, i);
    }

    const binary_answer due = try_binary("reading", round, length, it);
    CHECK_NUMBER(due.count, 0, "reading %zu: at the end, count", round);
    CHECK_NUMBER(due.status, ENDED, "reading %zu: at the end, status", round);
}

static void expect_request(size_t round, size_t length, size_t what, file_key key, size_t mode)
{
    const request it = { .what = what, .caller = ME, .file = key, .mode = mode };

    CHECK_NUMBER(try_request("round trip", round, length, it), 0, "round trip %zu: %s", round, request_names[what]);
}

static void round_trips(void)
{
    const file_key key = key_of("OUT   ", "LDA", ME);

    for (size_t round = 0; round < 60; round++) {
        const size_t c = 1 + chance(2), n = 40 + chance(20), extends = round % 2;
        chance_bytes(image, tried->block * n);
        const size_t length = make_pack(image, n, c, users, COUNT(users));

        expect_request(round, length, OPENO, key, 0);
        if (extends) {
            expect_request(round, length, CLOSE, key, 2);
            expect_request(round, length, OPENE, key, 0);
        }
        chance_bytes(lent_buffer, GUARD + tried->payload + GUARD);
        write_lines(round, length, key);
        expect_request(round, length, CLOSE, key, 2 + extends);
        expect_request(round, length, OPENI, key, 0);
        read_lines(round, length, key, NORMAL, DATA_MOST);
        read_lines(round, length, key, SPECIAL, DATA_MOST);
        read_lines(round, length, key, SPECIAL, 1 + chance(80));
        read_lines(round, length, key, SPECIAL, round % 4 ? tried->payload : 1);
    }
}

/* ---- Both kinds of lines in one file ---- */

/* A line of text, a binary line, and a line of text, in one gather buffer; each is read from where it stands. */
static void beside_text(void)
{
    static uint8_t gather[PAYLOAD_MOST], bytes[DATA_MOST];
    const size_t length = make_closed(image), p = tried->payload;
    const file_key key = entry_key(image, EMPTY);

#define DONE(call) CHECK_NUMBER(call, 0, "beside text: " #call)
    DONE(abz_opene(image, length, ME, FILE4(key)));
    DONE(abz_openi(image, length, ME, FILE4(key)));
    DONE(abz_line_write(image, length, ME, FILE4(key), NORMAL, (const uint8_t *)"AB\n", 3, gather, p, 0).code);
    DONE(abz_binary_write(image, length, ME, FILE4(key), (const uint8_t *)"CD", 2, gather, p, 3).code);
    DONE(abz_line_write(image, length, ME, FILE4(key), NORMAL, (const uint8_t *)"EF\n", 3, gather, p, 10).code);
    DONE(abz_line_end(image, length, ME, FILE4(key), gather, p, 13));
    CHECK_NUMBER(abz_line_read(image, length, ME, FILE4(key), NORMAL, 0, bytes, 9).position, 3, "beside text: first");
    const abz_binary_answer answer = abz_binary_read(image, length, ME, FILE4(key), NORMAL, 3, 0, 0, bytes, 9);
    CHECK_NUMBER(answer.status, 0, "beside text: status");
    CHECK_NUMBER(answer.position, 10, "beside text: position");
    CHECK_BYTES(bytes, (const uint8_t *)"CD", 2, "beside text: data");
    CHECK_NUMBER(abz_line_read(image, length, ME, FILE4(key), NORMAL, 10, bytes, 9).count, 3, "beside text: last");
    CHECK_NUMBER(abz_binary_read(image, length, ME, FILE4(key), NORMAL, 0, 0, 0, bytes, 9).status, WRONG_FORMAT,
                 "beside text: a text is no binary line");
#undef DONE
}

/* ---- One byte changed ---- */

/* "where the buffer holds the line a change to any one data byte sets bit 1": each byte, to some values or to all. */
static void changed_bytes(void)
{
    static const size_t sizes[] = { 1, 2, 64, 511, 512 };
    const size_t all_free[] = { small(8), small(10), small(11), small(13), small(14) };
    static uint8_t data[DATA_MOST], found[DATA_MOST], line[LINE_MOST];
    const size_t length = make_open(image);
    const file_key key = key_of("FIVE  ", "LDA", ME);

    put_linked(image, FILES, key, all_free, COUNT(all_free));
    set_open(image, FILES, 0, 1);
    const file five = file_of(image, key);
    for (size_t i = 0; i < COUNT(sizes); i++) {
        const size_t size = sizes[i], position = chance(5 * tried->payload - LINE_MOST + 1);
        chance_bytes(data, size);
        put_text(image, FILES, position, line, binary_line(line, data, size));
        for (size_t at = 0; at < size; at++) {
            uint8_t *const byte = text_byte(image, five, position + HEADER + at);
            for (size_t change = 1; change < 256; change += size < 8 ? 1 : 1 + chance(90)) {
                *byte = (uint8_t)(data[at] + change);
                const size_t room = change % 2 ? DATA_MOST : size;
                for (size_t mode = 0; mode < MODES; mode++) {
                    const abz_binary_answer answer = abz_binary_read(image, length, ME, FILE4(key), mode, position, 0,
                                                                     0, found, room);
                    CHECK_NUMBER(answer.status, WRONG_SUM, "byte %zu of %zu changed by %zu", at, size, change);
                    CHECK_NUMBER(answer.count, size, "byte %zu of %zu changed by %zu: count", at, size, change);
                    CHECK_NUMBER(found[at], *byte, "byte %zu of %zu changed by %zu: laid down", at, size, change);
                }
            }
            *byte = data[at];
        }
        CHECK_NUMBER(abz_binary_read(image, length, ME, FILE4(key), NORMAL, position, 0, 0, found, size).status, 0,
                     "line of %zu with no byte changed", size);
    }
}

/* ---- A full pack ---- */

/* The longest lines until no block is left. The library alone: beside the model this would take long. */
static void full_pack(void)
{
    static uint8_t gather[PAYLOAD_MOST], before[PAYLOAD_MOST], data[DATA_MOST], found[DATA_MOST];
    static block_owner owners[BLOCKS_MOST];
    const file_key key = key_of("LONG  ", "LDA", ME);
    const size_t payload = tried->payload, length = make_pack(image, tried->blocks_most, 1, users, COUNT(users));
    const size_t total = payload * (tried->blocks_most - first_body(tried, 1)), due = (total + payload - 1) / LINE_MOST;
    abz_write_answer answer = { 0, 0, 0, 0 };
    size_t lines = 0, position = 0;

    CHECK_NUMBER(abz_openo(image, length, ME, FILE4(key), 0), 0, "full pack: OPENO");
    for (;; lines++) {
        const size_t filled = answer.filled;
        memset(data, (int)(lines % 251), sizeof data);
        memcpy(before, gather, payload);
        memcpy(kept, image, length);
        answer = abz_binary_write(image, length, ME, FILE4(key), data, DATA_MOST, gather, payload, filled);
        if (answer.code != 0)
            break;
    }
    CHECK_NUMBER(answer.code, 042, "full pack: code");
    CHECK_NUMBER(lines, due, "full pack: lines");
    CHECK_BYTES(image, kept, length, "full pack: refused, image");
    CHECK_BYTES(gather, before, payload, "full pack: refused, gather buffer");
    CHECK_NUMBER(judge(image, length, owners), true, "full pack: consistent");
    CHECK_NUMBER(abz_close(image, length, ME, FILE4(key), 2), 0, "full pack: CLOSE");
    CHECK_NUMBER(abz_openi(image, length, ME, FILE4(key)), 0, "full pack: OPENI");
    const size_t added = get_field(image, 0, LENGTH) * payload;
    for (size_t i = 0; (i + 1) * LINE_MOST <= added; i++) {
        memset(data, (int)(i % 251), sizeof data);
        const abz_binary_answer read = abz_binary_read(image, length, ME, FILE4(key), NORMAL, position, 0, 0, found,
                                                       DATA_MOST);
        CHECK_NUMBER(read.status, 0, "full pack: line %zu, status", i);
        CHECK_NUMBER(read.position, position + LINE_MOST, "full pack: line %zu, position", i);
        CHECK_BYTES(found, data, DATA_MOST, "full pack: line %zu", i);
        position = read.position;
    }
}

int main(void)
{
    EACH_FORM {
        room();
        growing();
        round_trips();
        beside_text();
        changed_bytes();
        full_pack();
    }
    return check_end("binaries");
}
