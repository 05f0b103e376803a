/*
 * The free map of form 2 (document 02, §7). The library alone, with no model between: after each call the map is read
 * bit by bit and held to a walk over the files that is written here, with the paper's own numbers.
 */
#include "lines.h"

static const file_key file_a = { 1600, 0, 0, ME }, file_b = { 3200, 0, 0, ME }; /* A and B */
static const uint8_t uics[] = { ME % 256, ME / 256 };

static uint8_t payload[510], gather[510];

#define DONE(call) CHECK_NUMBER(call, 0, "%s: " #call, step)

/* What is tried, for the messages. */
static const char *step;

/* ---- The map ---- */

/* "block b is bit b mod 16 of word b / 16", and bit 8 of a word is bit 0 of its second byte. */
static bool bit_of(size_t block)
{
    const uint8_t *map = image + 512 * (get_word(image, CONTENTS) + 1);

    return map[2 * (block / 16) + block % 16 / 8] >> block % 8 & 1;
}

/* "1 if system or held, 0 otherwise and for b from n up", by the entries, extents and chains that there are. */
static void map_agrees(void)
{
    const size_t n = get_word(image, BLOCKS), c = get_word(image, CONTENTS);
    bool due[4096] = { false };

    for (size_t block = 0; block <= c + 1; block++)
        due[block] = true;
    for (size_t entry = 0; entry < 16 * c; entry++) {
        const uint8_t *words = image + 512 + 32 * entry;
        size_t block = get_word(words, FIRST);
        for (size_t left = get_word(words, LENGTH); left > 0; left--) {
            const bool right = block > c + 1 && block < n && !due[block];
            CHECK_NUMBER(right, true, "%s: block %zu of entry %zu", step, block, entry);
            if (!right)
                return;
            due[block] = true;
            block = get_word(words, KIND) == CONTIGUOUS ? block + 1 : get_word(image + 512 * block, 0);
        }
    }
    for (size_t block = 0; block < 4096; block++)
        CHECK_NUMBER(bit_of(block), due[block], "%s: bit of block %zu of %zu", step, block, n);
    CHECK_NUMBER(abz_report(image, 512 * n).rule, ABZ_CONSISTENT, "%s: report", step);
}

static size_t format(size_t n, size_t c)
{
    memset(image, 0xA5, 512 * n);
    DONE(abz_format(image, 512 * n, 2, n, c, uics, sizeof uics));
    return 512 * n;
}

/* ---- Bits that are written out ---- */

/* On a pack of 33 blocks, of which blocks 0 to 2 are the system's. Digits for these blocks, of which 33 is n. */
static void expect_bits(const char *digits)
{
    static const size_t blocks[] = { 0, 2, 3, 11, 12, 13, 14, 15, 16, 31, 32, 33, 4095 };

    for (size_t i = 0; i < COUNT(blocks); i++)
        CHECK_NUMBER('0' + bit_of(blocks[i]), (size_t)digits[i], "%s: bit of block %zu", step, blocks[i]);
    map_agrees();
}

static void taken_and_given_up(void)
{
    step = "Format";
    const size_t length = format(33, 1);
    expect_bits("1100000000000");
    CHECK_NUMBER(get_word(image, 512), 7, "word 0 of the map");
    CHECK_NUMBER(image[3 * 512], 0xA5, "the first body after Format");
    CHECK_NUMBER(image[length - 1], 0xA5, "the last body after Format");

    step = "ALLOC";
    CHECK_NUMBER(abz_alloc(image, length, ME, FILE4(file_a), 0, 4 * 17).number, 16, "ALLOC: first block");
    expect_bits("1100000011100");
    step = "ALLOC refused";
    CHECK_NUMBER(abz_alloc(image, length, ME, FILE4(file_b), 0, 4 * 13 + 1).code, ABZ_NO_ROOM, "ALLOC: too much");
    expect_bits("1100000011100");
    step = "OPENO";
    DONE(abz_openo(image, length, ME, FILE4(file_b), 0));
    expect_bits("1100000011100");
    step = "linked add";
    CHECK_NUMBER(abz_linked_add(image, length, ME, FILE4(file_b), payload, 510).number, 15, "linked add: block");
    expect_bits("1100000111100");

    /* Two blocks that get full, and a byte of the next; then its end; then an end that adds none. */
    static const uint8_t text_of_two[1021] = { 'X' };
    step = "line write";
    CHECK_NUMBER(abz_line_write(image, length, ME, FILE4(file_b), 0, text_of_two, 1021, gather, 510, 0).filled, 1,
                 "line write: filled");
    expect_bits("1100011111100");
    step = "line end";
    DONE(abz_line_end(image, length, ME, FILE4(file_b), gather, 510, 1));
    expect_bits("1100111111100");
    DONE(abz_line_end(image, length, ME, FILE4(file_b), gather, 510, 0));
    expect_bits("1100111111100");

    step = "DELET of a contiguous file";
    DONE(abz_delet(image, length, ME, FILE4(file_a)));
    expect_bits("1100111100000");
    step = "DELET refused";
    CHECK_NUMBER(abz_delet(image, length, ME, FILE4(file_b)), ABZ_OPEN, "DELET of an open file");
    expect_bits("1100111100000");
    step = "DELET of a linked file";
    DONE(abz_close(image, length, ME, FILE4(file_b), ABZ_OUTPUT));
    DONE(abz_delet(image, length, ME, FILE4(file_b)));
    expect_bits("1100000000000");
}

/* A file of each kind goes, and one that is kept stays. */
static void finished(void)
{
    static const file_key kept_file = { 4800, 0, 0, ME }; /* C */

    step = "before Finish";
    const size_t length = format(33, 1);
    DONE(abz_alloc(image, length, ME, FILE4(file_a), 0, 4).code);
    DONE(abz_alloc(image, length, ME, FILE4(kept_file), 0200, 4 * 16).code);
    DONE(abz_openo(image, length, ME, FILE4(file_b), 0));
    DONE(abz_linked_add(image, length, ME, FILE4(file_b), payload, 510).code);
    DONE(abz_linked_add(image, length, ME, FILE4(file_b), payload, 510).code);
    DONE(abz_close(image, length, ME, FILE4(file_b), ABZ_OUTPUT));
    expect_bits("1100001111100"); /* A has block 32, C 16 to 31, B 15 and 14 */
    step = "Finish";
    CHECK_NUMBER(abz_finish(image, length, ME).number, 2, "Finish: files");
    expect_bits("1100000011000");
    CHECK_NUMBER(abz_finish(image, length, ME).number, 0, "Finish: files again");
    expect_bits("1100000011000");
}

/* The requests that take and give up nothing leave every byte of it. */
static void left_alone(void)
{
    static uint8_t map[512];
    static const uint8_t block[512] = { 7 };
    static const file_key other = { 4800, 0, 0, ME }; /* C */

    step = "left alone";
    const size_t length = format(33, 1);
    DONE(abz_alloc(image, length, ME, FILE4(file_a), 0, 8).code);
    for (size_t i = 0; i < 2; i++) {
        const file_key key = i ? other : file_b;
        DONE(abz_openo(image, length, ME, FILE4(key), 0));
        DONE(abz_linked_add(image, length, ME, FILE4(key), payload, 510).code);
        DONE(abz_close(image, length, ME, FILE4(key), ABZ_OUTPUT));
    }
    memcpy(map, image + 2 * 512, 512);
#define SAME(call)                                                             \
    do {                                                                       \
        DONE(call);                                                            \
        CHECK_BYTES(image + 2 * 512, map, 512, "the map behind " #call);       \
    } while (0)
    SAME(abz_appnd(image, length, ME, FILE4(other), FILE4(file_b)));
    SAME(abz_renam(image, length, ME, FILE4(other), file_b.name1, 0, 0, 0));
    SAME(abz_keep(image, length, ME, FILE4(file_b)));
    SAME(abz_openi(image, length, ME, FILE4(file_b)));
    SAME(abz_opene(image, length, ME, FILE4(file_b)));
    SAME(abz_linked_read(image, length, ME, FILE4(file_b), 1, gather, 510));
    SAME(abz_close(image, length, ME, FILE4(file_b), ABZ_EXTEND));
    SAME(abz_openu(image, length, ME, FILE4(file_a)));
    SAME(abz_block_out(image, length, ME, FILE4(file_a), 1, block, 512));
    SAME(abz_block_in(image, length, ME, FILE4(file_a), 0, lent_buffer, 512));
#undef SAME
    map_agrees();
}

/* The highest block of several packs is taken in each way and given up: n - 1 is 15, 16, 4095 and others. */
static void highest_block(void)
{
    static const struct {
        size_t n, c;
    } packs[] = { { 16, 13 }, { 16, 1 }, { 17, 14 }, { 18, 15 }, { 32, 1 }, { 35, 32 }, { 1025, 9 }, { 4095, 32 },
                  { 4096, 1 }, { 4096, 32 } };

    for (size_t i = 0; i < COUNT(packs); i++) {
        const size_t n = packs[i].n, length = (step = "Format", format(n, packs[i].c));
#define HIGHEST(name, set)                                                            \
    do {                                                                              \
        step = name;                                                                  \
        CHECK_NUMBER(bit_of(n - 1), set, "%s: bit of block %zu", step, n - 1);        \
        if (n < 4096)                                                                 \
            CHECK_NUMBER(bit_of(n) || bit_of(4095), 0, "%s: bits from %zu", step, n); \
        map_agrees();                                                                 \
    } while (0)
        HIGHEST("Format", 0);
        CHECK_NUMBER(abz_alloc(image, length, ME, FILE4(file_a), 0, 1).number, n - 1, "ALLOC: block");
        HIGHEST("ALLOC", 1);
        DONE(abz_delet(image, length, ME, FILE4(file_a)));
        HIGHEST("DELET", 0);
        DONE(abz_openo(image, length, ME, FILE4(file_b), 0));
        CHECK_NUMBER(abz_linked_add(image, length, ME, FILE4(file_b), payload, 510).number, n - 1, "linked add: block");
        HIGHEST("linked add", 1);
        DONE(abz_close(image, length, ME, FILE4(file_b), ABZ_OUTPUT));
        CHECK_NUMBER(abz_finish(image, length, ME).number, 1, "Finish: files");
        HIGHEST("Finish", 0);
        DONE(abz_openo(image, length, ME, FILE4(file_b), 0));
        DONE(abz_line_write(image, length, ME, FILE4(file_b), 0, payload, 510, gather, 510, 0).code);
        HIGHEST("line write", 1);
        DONE(abz_close(image, length, ME, FILE4(file_b), ABZ_OUTPUT));
        DONE(abz_delet(image, length, ME, FILE4(file_b)));
        HIGHEST("DELET of a linked file", 0);
        DONE(abz_openo(image, length, ME, FILE4(file_b), 0));
        DONE(abz_line_end(image, length, ME, FILE4(file_b), gather, 510, 509));
        HIGHEST("line end", 1);
#undef HIGHEST
    }
}

/* ---- The largest packs ---- */

static file_key of_many(size_t number)
{
    char name[] = "M000  ";

    for (size_t i = 3; i > 0; i--, number /= 10)
        name[i] = (char)('0' + number % 10);
    return key_of(name, "   ", ME);
}

/* 511 files of 7 blocks, every second one linked, and one that has the rest; then they go, in another order. */
static void filled_and_emptied(void)
{
    static uint8_t text_of_seven[7 * 510];
    size_t taken = 34;

    step = "filled";
    const size_t length = format(4096, 32);
    for (size_t i = 0; i < 511; i++) {
        const file_key key = of_many(i);
        if (i % 2) {
            DONE(abz_openo(image, length, ME, FILE4(key), 0));
            DONE(abz_line_write(image, length, ME, FILE4(key), 0, text_of_seven, 3570, gather, 510, 0).code);
            DONE(abz_close(image, length, ME, FILE4(key), ABZ_OUTPUT));
        } else {
            DONE(abz_alloc(image, length, ME, FILE4(key), 0, 28).code);
        }
        taken += 7;
        if (i % 16 == 0 || i > 500)
            map_agrees();
    }
    const file_key last = of_many(511);
    DONE(abz_openo(image, length, ME, FILE4(last), 0200));
    for (; taken < 4096; taken++)
        CHECK_NUMBER(abz_linked_add(image, length, ME, FILE4(last), payload, 510).number, 4095 - (taken - 34),
                     "filled: block %zu", taken);
    CHECK_NUMBER(abz_linked_add(image, length, ME, FILE4(last), payload, 510).code, ABZ_NO_ROOM, "filled: no room");
    for (size_t block = 0; block < 4096; block++)
        CHECK_NUMBER(bit_of(block), 1, "filled: bit of block %zu", block);
    map_agrees();

    step = "emptied";
    for (size_t i = 0; i < 300; i++) {
        const file_key key = of_many(i * 211 % 511);
        DONE(abz_delet(image, length, ME, FILE4(key)));
        taken -= 7;
        if (i % 16 == 0)
            map_agrees();
    }
    map_agrees();

    /* What was given up is taken again, the highest first; then all but the last file goes at once. */
    step = "filled again";
    CHECK_NUMBER(abz_alloc(image, length, ME, FILE4(file_a), 0, 4).code, 0, "filled again: ALLOC");
    map_agrees();
    step = "emptied at once";
    CHECK_NUMBER(abz_finish(image, length, ME).number, 212, "emptied: Finish");
    map_agrees();
    DONE(abz_close(image, length, ME, FILE4(last), ABZ_OUTPUT));
    DONE(abz_delet(image, length, ME, FILE4(last)));
    for (size_t block = 0; block < 4096; block++)
        CHECK_NUMBER(bit_of(block), block < 34, "emptied: bit of block %zu", block);
    map_agrees();
}

/* One file has all bodies: contiguous, then linked, in one write. */
static void one_file(void)
{
    static uint8_t all[4093 * 510];

    step = "one file";
    const size_t length = format(4096, 1);
    CHECK_NUMBER(abz_alloc(image, length, ME, FILE4(file_a), 0, 4 * 4093 + 1).code, ABZ_NO_ROOM, "a segment more");
    map_agrees();
    CHECK_NUMBER(abz_alloc(image, length, ME, FILE4(file_a), 0, 4 * 4093).number, 3, "one file: ALLOC");
    for (size_t block = 0; block < 4096; block++)
        CHECK_NUMBER(bit_of(block), 1, "one file: bit of block %zu", block);
    map_agrees();
    DONE(abz_delet(image, length, ME, FILE4(file_a)));
    map_agrees();
    DONE(abz_openo(image, length, ME, FILE4(file_b), 0));
    CHECK_NUMBER(abz_line_write(image, length, ME, FILE4(file_b), 0, all, sizeof all, gather, 510, 510 - 1).filled, 509,
                 "one file: filled");
    map_agrees();
    CHECK_NUMBER(abz_line_end(image, length, ME, FILE4(file_b), gather, 510, 509), ABZ_NO_ROOM, "one file: line end");
    map_agrees();
}

/* ---- "ALLOC and linked add choose the same blocks as a walk would" ---- */

/* The same calls on a pack of form 1 and on one of form 2 that has as many bodies: each block is one higher. */
static void same_blocks(void)
{
    enum { BODIES = 40, CONTENTS_BLOCKS = 2 };
    static uint8_t one[512 * (1 + CONTENTS_BLOCKS + BODIES)];
    const size_t n = 1 + CONTENTS_BLOCKS + BODIES;
    size_t taken = 0;

    step = "same blocks";
    const size_t length = format(n + 1, CONTENTS_BLOCKS);
    DONE(abz_format(one, sizeof one, 1, n, CONTENTS_BLOCKS, uics, sizeof uics));
    for (size_t i = 0; i < 3000; i++) {
        const file_key key = of_many(chance(14));
        const size_t what = chance(8), segments = 1 + chance(chance(4) ? 20 : 120);
        abz_answer first = { 0, 0 }, second = { 0, 0 };
        switch (what) {
        case 0:
        case 1:
            first = abz_alloc(one, sizeof one, ME, FILE4(key), 0, segments);
            second = abz_alloc(image, length, ME, FILE4(key), 0, segments);
            break;
        case 2:
            first.code = abz_openo(one, sizeof one, ME, FILE4(key), 0);
            second.code = abz_openo(image, length, ME, FILE4(key), 0);
            break;
        case 3:
            first.code = abz_close(one, sizeof one, ME, FILE4(key), ABZ_OUTPUT);
            second.code = abz_close(image, length, ME, FILE4(key), ABZ_OUTPUT);
            break;
        case 4:
            first.code = abz_delet(one, sizeof one, ME, FILE4(key));
            second.code = abz_delet(image, length, ME, FILE4(key));
            break;
        default:
            first = abz_linked_add(one, sizeof one, ME, FILE4(key), payload, 510);
            second = abz_linked_add(image, length, ME, FILE4(key), payload, 510);
            break;
        }
        CHECK_NUMBER(second.code, first.code, "same blocks %zu: code", i);
        CHECK_NUMBER(second.number, first.number + (first.number > 0), "same blocks %zu: block", i);
        taken += first.number > 0;
        map_agrees();
    }
    CHECK_NUMBER(taken > 300, true, "same blocks: %zu taken", taken);
}

/* ---- Bounds ---- */

/* The bounds of n and c in Format (41), in an image that is right but for them (40), and in a report (HEADER). */
static void bounds(void)
{
    static const struct {
        size_t n, c, word; /* which is wrong, or 0 */
    } packs[] = {
        { 16, 1, 0 },    { 15, 1, BLOCKS },   { 4096, 1, 0 },   { 4097, 1, BLOCKS },  { 4096, 32, 0 },
        { 4097, 32, BLOCKS }, { 64, 0, CONTENTS }, { 64, 33, CONTENTS }, { 64, 32, 0 }, { 16, 13, 0 },
        { 16, 14, CONTENTS }, { 35, 32, 0 },  { 34, 32, CONTENTS }, { 17, 15, CONTENTS }, { 1025, 9, 0 },
    };
    static const size_t me[] = { ME };

    for (size_t i = 0; i < COUNT(packs); i++) {
        const size_t n = packs[i].n, c = packs[i].c, length = make_form(form_numbered(2), image, n, c, me, 1);
        const abz_report_answer told = abz_report(image, length);

        CHECK_NUMBER(told.rule, packs[i].word ? ABZ_RULE_HEADER : 0, "bounds %zu: rule", i);
        CHECK_NUMBER(told.word, packs[i].word, "bounds %zu: word", i);
        CHECK_NUMBER(told.entry + told.block, 0, "bounds %zu: entry and block", i);
        CHECK_NUMBER(abz_look(image, length, ME, FILE4(file_a)).code, packs[i].word ? 040 : 2, "bounds %zu: LOOK", i);
        CHECK_NUMBER(abz_openo(image, length, ME, FILE4(file_a), 0), packs[i].word ? 040 : 0, "bounds %zu: OPENO", i);
        CHECK_NUMBER(abz_format(image, length, 2, n, c, uics, 2), packs[i].word ? 041 : 0, "bounds %zu: Format", i);
    }

    /* Form 1 keeps 1024 and 8: so many blocks and contents are right in form 2 alone. */
    static const struct {
        size_t n, c, word;
    } others[] = { { 1025, 1, BLOCKS }, { 4096, 8, BLOCKS }, { 64, 9, CONTENTS } };
    for (size_t i = 0; i < COUNT(others); i++) {
        const size_t n = others[i].n, c = others[i].c, length = make_form(form_numbered(2), image, n, c, me, 1);
        CHECK_NUMBER(abz_report(image, length).rule, 0, "bounds of form 1 %zu: rule as form 2", i);
        CHECK_NUMBER(abz_format(image, length, 1, n, c, uics, 2), 041, "bounds of form 1 %zu: Format", i);
        set_word(image, FORM, 1);
        CHECK_NUMBER(abz_report(image, length).word, others[i].word, "bounds of form 1 %zu: word", i);
        CHECK_NUMBER(abz_look(image, length, ME, FILE4(file_a)).code, 040, "bounds of form 1 %zu: LOOK", i);
    }
}

/* ---- A map that is wrong ---- */

/* Every call on the pack is refused with 40 and keeps it, and the report names the block. */
static void expect_wrong(const uint8_t *pack, size_t length, size_t block)
{
    static const uint8_t line[] = "A\n";
    const file_key three = entry_key(pack, THREE);
    const abz_report_answer told = abz_report(pack, length);
    uint8_t byte = '?';

    CHECK_NUMBER(told.rule, ABZ_RULE_MAP, "wrong map %zu: rule", block);
    CHECK_NUMBER(told.block, block, "wrong map %zu: block", block);
    CHECK_NUMBER(told.entry + told.word, 0, "wrong map %zu: entry and word", block);
    for (size_t what = 0; what < REQUESTS; what++) {
        memcpy(image, pack, length);
        CHECK_NUMBER(try_request("wrong map", block, length, chance_request(what, pack)), 040, "%s", request_names[what]);
    }
    CHECK_NUMBER(abz_look(image, length, ME, FILE4(three)).code, 040, "wrong map %zu: LOOK", block);
    CHECK_NUMBER(abz_owner(image, length, 0).code, 040, "wrong map %zu: owner", block);
    CHECK_NUMBER(abz_line_read(image, length, ME, FILE4(three), 0, 0, &byte, 1).code, 040, "wrong map %zu: line read",
                 block);
    CHECK_NUMBER(abz_line_write(image, length, ME, FILE4(three), 0, line, 2, gather, 510, 509).code, 040,
                 "wrong map %zu: line write", block);
    CHECK_NUMBER(abz_line_end(image, length, ME, FILE4(three), gather, 510, 509), 040, "wrong map %zu: line end", block);
    CHECK_BYTES(image, pack, length, "wrong map %zu: image", block);
    CHECK_NUMBER(byte, '?', "wrong map %zu: buffer", block);
}

/* A bit of each sort of block, alone and with others above it. */
static void wrong_maps(void)
{
    static uint8_t pack[SMALL_ROOM];
    tried = form_numbered(2);
    const size_t length = make_closed(pack), n = get_word(pack, BLOCKS);
    const size_t some[] = { 0, 1, 2, 3, small(6), small(8), small(11), 15, 16, n, n + 1, 31, 32, 4094, 4095 };

    set_open(pack, THREE, 3, 1);
    CHECK_NUMBER(abz_report(pack, length).rule, 0, "wrong maps: the pack before");
    for (size_t i = 0; i < COUNT(some); i++)
        for (size_t j = i; j < COUNT(some); j++) {
            turn_bit(pack, some[i]);
            if (j > i)
                turn_bit(pack, some[j]);
            expect_wrong(pack, length, some[i]);
            turn_bit(pack, some[i]);
            if (j > i)
                turn_bit(pack, some[j]);
        }
    CHECK_NUMBER(abz_report(pack, length).rule, 0, "wrong maps: the pack behind");
}

int main(void)
{
    chance_bytes(payload, sizeof payload);
    taken_and_given_up();
    finished();
    left_alone();
    highest_block();
    filled_and_emptied();
    one_file();
    same_blocks();
    bounds();
    wrong_maps();
    return check_end("map");
}
