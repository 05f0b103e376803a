/* Texts that are written line by line, held to lines.h: until there is no room, while they are read, and read back. */
#include "lines.h"

/* ---- Room ---- */

/* As many blocks are free as become full, or one less by a byte: in both modes, and with TABs, which count twice. */
static void room(void)
{
    const size_t others[] = { small(8), small(10), small(11), small(13), small(14) }, payload = tried->payload;
    const size_t counts[] = { 0, 1, payload / 2, payload - 1 };

    for (size_t number = 0;; number++) {
        size_t rest = number;
        const size_t length = make_open(image), left = digit(&rest, COUNT(others) + 1), over = digit(&rest, 2);
        line_call it = call_on(image, LINE_WRITE, THREE, digit(&rest, MODES));
        it.filled = counts[digit(&rest, COUNT(counts))];
        const size_t size = payload * (left + 1) - 1 - it.filled + over, tabs = digit(&rest, 2) * (size / 3);
        if (rest > 0)
            break;

        put_linked(image, FILES, key_of("FULL  ", "   ", OTHER), others, COUNT(others) - left);
        memset(text, 'R', size);
        memset(text, TAB, tabs);
        it.text_len = size - tabs;
        CHECK_NUMBER(try_line("room", number, length, it).code, over ? 042 : 0, "room %zu for %zu", number, left);

        /* Where it was taken there is no block for the end; else, if there is one at all, there is. */
        it.what = LINE_END;
        it.filled = over ? it.filled : payload - 1;
        const bool refused = it.filled > 0 && (left == 0 || !over);
        CHECK_NUMBER(go_on("room", number, length, it).code, refused ? 042 : 0, "room %zu for the end", number);
    }
}

/* A text that grows line by line until there is no room for one; then one that needs no block is taken, and ended. */
static void growing(void)
{
    const size_t payload = tried->payload;

    for (size_t pack = 0; pack < 24; pack++) {
        const size_t c = 1 + pack % 2;
        const size_t length = make_pack(image, block_like(c, 16 + pack % 3), contents_like(c), users, COUNT(users));
        line_answer due = { 0 };

        put_linked(image, 3, key_of("GROWS ", "   ", ME), NULL, 0);
        set_open(image, 3, 2 + pack % 2, 0);
        chance_bytes(lent_buffer, GUARD + payload + GUARD);
        line_call it = call_on(image, LINE_WRITE, 3, pack / 2 % MODES);
        do {
            it.filled = due.next;
            it.text_len = 1 + chance(pack < 12 ? 200 : 1200);
            chance_text(text, it.text_len, 12);
            due = go_on("growing", pack, length, it);
        } while (due.code == 0);
        CHECK_NUMBER(due.code, 042, "growing %zu", pack);

        it.text_len = payload - 1 - it.filled;
        memset(text, 'G', it.text_len);
        CHECK_NUMBER(go_on("growing", pack, length, it).next, payload - 1, "growing %zu: no block needed", pack);
        it.what = LINE_END;
        it.filled = payload - 1;
        while (go_on("growing", pack, length, it).code == 0)
            ;
        it.filled = 0;
        CHECK_NUMBER(go_on("growing", pack, length, it).code, 0, "growing %zu: ended at 0", pack);
    }
}

/* ---- Read while it is written ---- */

static const uint8_t day_line[] = "1971-02-01\tWIND 4\tSEA 3\n";

enum { DAY_LINE = sizeof day_line - 1, DAY_LAID = DAY_LINE + 2 };

/* As many as come into a fourth block. */
static size_t days(void)
{
    return 3 * tried->payload / DAY_LAID + 2;
}

/* Writes the line again; the library alone. */
static void write_day(size_t length, file_key key, uint8_t *gather, size_t *filled)
{
    const abz_write_answer answer = abz_line_write(image, length, ME, FILE4(key), SPECIAL, day_line, DAY_LINE, gather,
                                                   tried->payload, *filled);

    CHECK_NUMBER(answer.code, 0, "at once: line written, code");
    CHECK_NUMBER(answer.count, DAY_LINE, "at once: line written, count");
    CHECK_NUMBER(answer.filled, (*filled + DAY_LAID) % tried->payload, "at once: line written, filled");
    *filled = answer.filled;
}

/* Reads the line that so many are before; or what there is of it, where the text ends too soon. */
static void read_day(size_t length, file_key key, size_t mode, size_t before, size_t total)
{
    const size_t position = DAY_LAID * before;
    const bool whole = position + DAY_LAID <= total;
    uint8_t bytes[DAY_LINE];
    const abz_read_answer answer = abz_line_read(image, length, ME, FILE4(key), mode, position, bytes, DAY_LINE);

    CHECK_NUMBER(answer.code, 0, "at once: line %zu read, code", before);
    CHECK_NUMBER(answer.status, whole ? 0 : 64, "at once: line %zu read, status", before);
    CHECK_NUMBER(answer.position, whole ? position + DAY_LAID : total, "at once: line %zu read, position", before);
    CHECK_BYTES(bytes, day_line, answer.count, "at once: line %zu read", before);
    if (whole)
        CHECK_NUMBER(answer.count, DAY_LINE, "at once: line %zu read, count", before);
}

/* One file open for extension and for input: what was added is there to be read, and what is gathered is not. */
static void at_once(void)
{
    static uint8_t gather[PAYLOAD_MOST];
    const size_t length = make_closed(image), payload = tried->payload;
    const file_key key = entry_key(image, EMPTY);
    size_t filled = 0, read = 0;

    CHECK_NUMBER(abz_opene(image, length, ME, FILE4(key)), 0, "at once: OPENE");
    CHECK_NUMBER(abz_openi(image, length, ME, FILE4(key)), 0, "at once: OPENI");
    for (size_t day = 1; day <= days(); day++) {
        const size_t total = day * DAY_LAID / payload * payload;
        write_day(length, key, gather, &filled);
        for (; DAY_LAID * (read + 1) <= total; read++)
            read_day(length, key, day % MODES, read, total);
        read_day(length, key, day % MODES, read, total);
    }

    /* The reader stays where he was; when the rest is added he goes on to the end. */
    CHECK_NUMBER(abz_line_end(image, length, ME, FILE4(key), gather, payload, filled), 0, "at once: line end");
    CHECK_NUMBER(abz_close(image, length, ME, FILE4(key), 3), 0, "at once: CLOSE");
    for (; read < days(); read++)
        read_day(length, key, NORMAL, read, 4 * payload);
    const abz_read_answer answer = abz_line_read(image, length, ME, FILE4(key), NORMAL, DAY_LAID * days(), gather, 1);
    CHECK_NUMBER(answer.count, 0, "at once: behind the last line, count");
    CHECK_NUMBER(answer.status, 64, "at once: behind the last line, status");
    CHECK_NUMBER(answer.position, 4 * payload, "at once: behind the last line, position");
}

/* ---- Written, then read back ---- */

enum { LINES = 60, LINE_MOST = 1100 };

static uint8_t written[LINES][LINE_MOST];
static size_t written_len[LINES], line_count;

/* "7-bit characters without NUL or RUBOUT, each with its one terminator at its end". */
static void chance_line(uint8_t *line, size_t size)
{
    for (size_t i = 0; i + 1 < size; i++)
        do
            line[i] = (uint8_t)(chance(8) ? 1 + chance(126) : TAB);
        while (terminates(line[i]));
    line[size - 1] = (uint8_t)(LF + chance(3));
}

/* Writes what is in text, in a call or in several, and takes it away. Returns the filled count. */
static size_t write_text(size_t round, size_t length, line_call it, size_t *size)
{
    while (*size > 0) {
        it.mode = chance(MODES);
        it.text_len = chance(4) ? *size : 1 + chance(*size);
        const line_answer due = go_on("writing", round, length, it);
        CHECK_NUMBER(due.code, 0, "writing %zu", round);
        it.filled = due.next;
        *size -= due.count;
        memmove(text, text + due.count, *size);
    }
    return it.filled;
}

/* Lines for some blocks: one, two or more of them at a time, now and then ended before the next. */
static void write_lines(size_t round, size_t length, file_key key)
{
    line_call it = { .what = LINE_WRITE, .caller = ME, .file = key, .buffer_len = tried->payload };
    size_t total = 0, size = 0;

    for (line_count = 0; line_count < LINES && total < 5 * tried->payload; line_count++) {
        const size_t line_len = written_len[line_count] = 1 + chance(chance(4) ? 60 : LINE_MOST);
        chance_line(written[line_count], line_len);
        memcpy(text + size, written[line_count], line_len);
        total += line_len;
        size += line_len;
        if (chance(3))
            it.filled = write_text(round, length, it, &size);
        if (chance(8) == 0 && size == 0) {
            it.what = LINE_END;
            it.filled = go_on("ending", round, length, it).next;
            it.what = LINE_WRITE;
        }
    }
    it.filled = write_text(round, length, it, &size);
    it.what = LINE_END;
    CHECK_NUMBER(go_on("ending", round, length, it).code, 0, "ending %zu", round);
}

/* "must read back the same when the count allows them"; and in special mode piece by piece where it does not. */
static void read_lines(size_t round, size_t length, file_key key, size_t mode, size_t size)
{
    line_call it = { .what = LINE_READ, .caller = ME, .file = key, .mode = mode, .buffer_len = size };

    for (size_t i = 0; i < line_count; i++)
        for (size_t at = 0; at < written_len[i];) {
            const size_t left = written_len[i] - at;
            const line_answer due = try_line("reading", round, length, it);
            CHECK_NUMBER(due.count, left > size ? size : left, "reading %zu: line %zu, count", round, i);
            CHECK_NUMBER(due.status, left > size ? INVALID : 0, "reading %zu: line %zu, status", round, i);
            CHECK_BYTES(buffer, written[i] + at, due.count, "reading %zu: line %zu from %zu", round, i, at);
            at += due.count;
            it.position = due.next;
        }

    const line_answer due = try_line("reading", round, length, it);
    CHECK_NUMBER(due.count, 0, "reading %zu: at the end, count", round);
    CHECK_NUMBER(due.status, ENDED, "reading %zu: at the end, status", round);
}

static void expect_request(size_t round, size_t length, size_t what, file_key key, size_t mode)
{
    const request it = { .what = what, .caller = ME, .file = key, .mode = mode };

    CHECK_NUMBER(try_request("round trip", round, length, it), 0, "round trip %zu: %s", round, request_names[what]);
}

static void round_trips(void)
{
    const file_key key = key_of("TEXT  ", "   ", ME);

    for (size_t round = 0; round < 60; round++) {
        const size_t c = 1 + chance(2), n = 40 + chance(20), extends = round % 2;
        chance_bytes(image, tried->block * n);
        const size_t length = make_pack(image, n, c, users, COUNT(users));

        expect_request(round, length, OPENO, key, 0);
        if (extends) {
            expect_request(round, length, CLOSE, key, 2);
            expect_request(round, length, OPENE, key, 0);
        }
        chance_bytes(lent_buffer, GUARD + tried->payload + GUARD);
        write_lines(round, length, key);
        expect_request(round, length, CLOSE, key, 2 + extends);
        expect_request(round, length, OPENI, key, 0);
        read_lines(round, length, key, NORMAL, LINE_MOST);
        read_lines(round, length, key, SPECIAL, LINE_MOST);
        read_lines(round, length, key, SPECIAL, 1 + chance(80));
        read_lines(round, length, key, SPECIAL, round % 4 ? tried->payload : 1);
    }
}

/* ---- The longest text there is ---- */

static uint8_t longest[PAYLOAD_MOST * BLOCKS_MOST];

/* How many bytes it has. What is written has a block more, which no pack has room for. */
static size_t longest_len(void)
{
    return tried->payload * (tried->blocks_most - first_body(tried, 1));
}

/* All blocks full, and the gather buffer but for a byte; with that byte too it would be refused whole. */
static void write_longest(size_t length, file_key key)
{
    static uint8_t gather[PAYLOAD_MOST], before[PAYLOAD_MOST];
    const size_t payload = tried->payload, size = longest_len() + payload;

    chance_bytes(gather, payload);
    memcpy(before, gather, payload);
    memcpy(kept, image, length);
    abz_write_answer answer = abz_line_write(image, length, ME, FILE4(key), NORMAL, longest, size, gather, payload, 0);
    CHECK_NUMBER(answer.code, 042, "longest: a byte more");
    CHECK_BYTES(image, kept, length, "longest: a byte more, image");
    CHECK_BYTES(gather, before, payload, "longest: a byte more, gather buffer");

    answer = abz_line_write(image, length, ME, FILE4(key), NORMAL, longest, size - 1, gather, payload, 0);
    CHECK_NUMBER(answer.code, 0, "longest: code");
    CHECK_NUMBER(answer.count, size - 1, "longest: count");
    CHECK_NUMBER(answer.filled, payload - 1, "longest: filled");
    CHECK_BYTES(gather, longest + longest_len(), payload - 1, "longest: gather buffer");
    CHECK_NUMBER(abz_line_end(image, length, ME, FILE4(key), gather, payload, payload - 1), 042, "longest: end");
}

static void read_longest(size_t length, file_key key)
{
    static uint8_t bytes[sizeof longest];
    const size_t total = longest_len();

    abz_read_answer answer = abz_line_read(image, length, ME, FILE4(key), SPECIAL, 0, bytes, total);
    CHECK_NUMBER(answer.count, total, "longest: count read");
    CHECK_NUMBER(answer.status, 0, "longest: status");
    CHECK_NUMBER(answer.position, total, "longest: position");
    CHECK_BYTES(bytes, longest, total, "longest: text");
    answer = abz_line_read(image, length, ME, FILE4(key), NORMAL, 0, bytes, 1);
    CHECK_NUMBER(answer.count, total, "longest: count for a buffer of 1");
    CHECK_NUMBER(answer.status, 1, "longest: status for a buffer of 1");
    CHECK_NUMBER(bytes[0], VT, "longest: buffer of 1");
    answer = abz_line_read(image, length, ME, FILE4(key), NORMAL, total, bytes, 1);
    CHECK_NUMBER(answer.status, 64, "longest: status at the end");
    answer = abz_line_read(image, length, ME, FILE4(key), NORMAL, total + 1, bytes, 1);
    CHECK_NUMBER(answer.code, 044, "longest: behind the end");
}

/* One line. The library alone: beside the model this would take long. */
static void longest_text(void)
{
    static block_owner owners[BLOCKS_MOST];
    const file_key key = key_of("LONG  ", "   ", ME);
    const size_t length = make_pack(image, tried->blocks_most, 1, users, COUNT(users));

    for (size_t i = 0; i < sizeof longest; i++)
        longest[i] = (uint8_t)('0' + i % 7 + i / tried->payload % 60);
    longest[longest_len() - 1] = VT;
    CHECK_NUMBER(abz_openo(image, length, ME, FILE4(key), 0), 0, "longest: OPENO");
    write_longest(length, key);
    CHECK_NUMBER(judge(image, length, owners), true, "longest: consistent");
    CHECK_NUMBER(abz_close(image, length, ME, FILE4(key), 2), 0, "longest: CLOSE");
    CHECK_NUMBER(abz_openi(image, length, ME, FILE4(key)), 0, "longest: OPENI");
    read_longest(length, key);
}

int main(void)
{
    EACH_FORM {
        room();
        growing();
        at_once();
        round_trips();
        longest_text();
    }
    return check_end("texts");
}
