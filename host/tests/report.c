/*
 * The report on an image, from outside: each rule with what it names, every word of header and entries broken in turn,
 * two faults at once in both orders, images cut short, loops, blocks of several files, and maps. Each answer is held to
 * the judgement of report.h, and most to one that is written out here; LOOK refuses with 40 wherever a fault is told.
 */
#include "abezolit.h"

#include "check.h"
#include "image.h"
#include "report.h"

enum { GUARD = 16, ROOM = IMAGE_MOST + BLOCK_MOST, RULES = 11, ME = 023 * 256 + 010, OTHER = 012 * 256 + 04, N = 32 };

/* The image is lent with bytes around it, which are looked after. */
static uint8_t lent[GUARD + ROOM + GUARD], kept[sizeof lent];
static uint8_t *const image = lent + GUARD;

static size_t rules_seen[RULES];

static void check_answer(abz_report_answer answer, abz_report_answer expected, const char *name)
{
    CHECK_NUMBER(answer.rule, expected.rule, "%s: rule", name);
    CHECK_NUMBER(answer.entry, expected.entry, "%s: entry", name);
    CHECK_NUMBER(answer.word, expected.word, "%s: word", name);
    CHECK_NUMBER(answer.block, expected.block, "%s: block", name);
}

/* Reports as report.h does, reads nothing but the image, writes nothing, and names a fault exactly if LOOK gives 40. */
static abz_report_answer try_report(size_t length, const char *name)
{
    static block_owner owners[BLOCKS_MOST];

    memset(lent, 0xA5, GUARD);
    memset(image + length, 0x5A, GUARD);
    memcpy(kept, lent, GUARD + length + GUARD);

    const abz_report_answer answer = abz_report(image, length), expected = judge_report(image, length);

    check_answer(answer, expected, name);
    CHECK_BYTES(lent, kept, GUARD + length + GUARD, "%s: bytes", name);
    CHECK_NUMBER(answer.rule == 0, judge(image, length, owners), "%s: consistent", name);
    CHECK_NUMBER(abz_look(image, length, ME, 1600, 0, 0, 0).code == ABZ_INCONSISTENT, answer.rule != 0, "%s: LOOK", name);
    if (answer.rule < RULES)
        rules_seen[answer.rule]++;
    return answer;
}

/* A block of the sample, as form 1 numbers it; 0, 1 and what is behind the sample stay as they are. */
static size_t at(size_t block)
{
    return block < 2 || block > N ? block : block_like(2, block);
}

static void expect(size_t length, size_t rule, size_t entry, size_t word, size_t block, const char *name)
{
    check_answer(try_report(length, name), told(rule, entry, word, at(block)), name);
}

/* Entry 0 contiguous of 3 blocks, 1 linked of 4, 2 linked without blocks, 5 linked of 1, 20 contiguous of 1; c is 2. */
static size_t sample(void)
{
    static const size_t uics[] = { ME, OTHER };
    const size_t chain[] = { at(20), at(9), at(31), at(3) }, one[] = { at(12) };

    memset(image, 0x77, tried->block * at(N));
    const size_t length = make_pack(image, at(N), contents_like(2), uics, 2);
    put_contiguous(image, 0, key_of("FREQ  ", "DAT", ME), at(4), 3);
    put_linked(image, 1, key_of("LINKED", "   ", ME), chain, 4);
    put_linked(image, 2, key_of("EMPTY ", "L  ", OTHER), NULL, 0);
    put_linked(image, 5, key_of("FREQ  ", "DAT", OTHER), one, 1);
    put_contiguous(image, 20, key_of("Z     ", "999", OTHER), at(14), 1);
    return length;
}

static void relink(size_t block, size_t next)
{
    set_link(image, at(block), at(next));
}

/* Sets a word of an entry of the sample, words 6 and 8 to a block. */
static void set_like(size_t entry, size_t word, size_t value)
{
    set_field(image, entry, word, word == FIRST || word == LAST ? at(value) : value);
}

/* ---- Cases ---- */

static void try_sizes(void)
{
    const size_t length = sample();

    expect(length, 0, 0, 0, 0, "sample");
    expect(length - 1, 1, 0, 0, 0, "cut by a byte");
    expect(length - tried->block, 1, 0, 0, 0, "cut by a block");
    expect(length + 1, 1, 0, 0, 0, "longer by a byte");
    for (size_t short_length = 0; short_length <= 12; short_length++)
        expect(short_length, 1, 0, 0, 0, "a few bytes");
    set_word(image, BLOCKS, 0);
    for (size_t short_length = 0; short_length <= 12; short_length++)
        expect(short_length, 1, 0, 0, 0, "no blocks");
    expect(length, 1, 0, 0, 0, "no blocks, whole");
    set_word(image, BLOCKS, at(N) + 1);
    expect(length, 1, 0, 0, 0, "another number of blocks");
    sample();
    set_word(image, BLOCKS, 1);
    expect(tried->block, 2, 0, BLOCKS, 0, "one block");
    set_word(image, BLOCKS, 15);
    expect(15 * tried->block, 2, 0, BLOCKS, 0, "15 blocks");
    set_word(image, FORM, 0); /* so it is measured as form 1 is */
    expect(15 * forms->block, 2, 0, FORM, 0, "15 blocks of no form");
}

/* Each word of block 0 with several values: below, above, 0, and as another. */
static void try_header(void)
{
    static const size_t values[] = { 0,  1,  2,  3,  4,  8,  9,     15,   16,   32,
                                     33, 60, 61, 64, 65, ME, OTHER, 1024, 1025, 65535 };
    const size_t length = sample();

    for (size_t word = 0; word < tried->block / 2; word++) {
        const size_t old = get_word(image, word);
        for (size_t i = 0; i < sizeof values / sizeof *values; i++) {
            set_word(image, word, values[i]);
            try_report(length, "header word");
        }
        set_word(image, word, old);
    }

    set_word(image, FORM, 65535);
    expect(length, tried->block == forms->block ? 2 : 1, 0, 0, 0, "form");
    sample();
    set_word(image, CONTENTS, 0);
    expect(length, 2, 0, 2, 0, "no contents");
    set_word(image, CONTENTS, tried->contents_most + 1);
    expect(length, 2, 0, 2, 0, "much contents");
    sample();
    set_word(image, UICS, tried->uics_most + 1);
    expect(length, 2, 0, 3, 0, "many UICs");
    sample();
    set_word(image, UIC_LIST + 1, ME);
    expect(length, 2, 0, UIC_LIST + 1, 0, "two UICs alike");
    set_word(image, UIC_LIST, 0);
    expect(length, 2, 0, UIC_LIST, 0, "a UIC 0");
    sample();
    set_word(image, tried->block / 2 - 1, 1);
    expect(length, 2, 0, tried->block / 2 - 1, 0, "last word of block 0");
}

/* Packs without files of every number of blocks of contents, also such that no body is left. */
static void try_contents(void)
{
    static const size_t uics[] = { ME };

    for (size_t c = 0; c <= tried->contents_most + 2; c++)
        for (size_t n = tried->blocks_least; n <= tried->contents_most + 4; n++) {
            const bool right = c >= tried->contents_least && c <= tried->contents_most && first_body(tried, c) < n;
            expect(make_pack(image, n, c, uics, 1), right ? 0 : 2, 0, right ? 0 : CONTENTS, 0, "contents");
        }
}

/* The size and n by the form that word 0 names, written out: of one length a pack of one form, and none of the other. */
static void try_forms(void)
{
    static const struct { size_t form, blocks, length, rule, word; } images[] = {
        { 1, 16, 8192, 0, 0 }, { 1, 64, 8192, 1, 0 }, { 3, 64, 8192, 0, 0 }, { 3, 16, 8192, 1, 0 }, { 3, 16, 2048, 0, 0 },
        { 1, 16, 2048, 1, 0 }, { 0, 16, 8192, 2, 0 }, { 2, 64, 8192, 1, 0 }, { 2, 16, 2048, 1, 0 }, { 4, 16, 8192, 2, 0 },
        { 4, 16, 2048, 1, 0 }, { 259, 64, 8192, 1, 0 }, { 3, 15, 1920, 2, 1 }, { 3, 1025, 131200, 2, 1 },
        { 1, 15, 7680, 2, 1 }, { 1, 1025, 524800, 2, 1 }, { 2, 15, 7680, 2, 1 }, { 2, 4097, 2097664, 2, 1 },
        /* of form 2 all is right but for the map, in which block 0 is free */
        { 2, 16, 8192, 10, 0 }, { 2, 1025, 524800, 10, 0 }, { 2, 4096, 2097152, 10, 0 },
    };

    for (size_t i = 0; i < sizeof images / sizeof *images; i++) {
        memset(image, 0, images[i].length);
        set_word(image, FORM, images[i].form);
        set_word(image, BLOCKS, images[i].blocks);
        set_word(image, CONTENTS, 1);
        expect(images[i].length, images[i].rule, 0, images[i].word, 0, "form and length");
    }
}

/* Each word of each entry with several values; then what each is told as. */
static void try_entries(void)
{
    static const size_t values[] = { 0, 1, 2, 3, 4, 5, 12, 14, 20, 29, 31, 32, 61, 62, 63, 255, 256, 1023, 63999, 64000, 65535 };
    const size_t length = sample();

    for (size_t entry = 0; entry < 32; entry++)
        for (size_t word = 0; word < ENTRY_WORDS; word++) {
            const size_t old = get_field(image, entry, word);
            for (size_t i = 0; i < sizeof values / sizeof *values; i++) {
                set_field(image, entry, word, values[i]);
                try_report(length, "word of an entry");
            }
            set_field(image, entry, word, old);
        }

    static const struct { size_t entry, word, value, rule, told_word; } cases[] = {
        { 0, NAME1, 0, 3, 0 }, { 0, NAME1, 29, 3, 0 }, { 0, NAME1, 64000, 3, 0 }, { 0, NAME2, 64000, 3, 1 },
        { 0, NAME1, 1600, 3, 1 }, /* a name of one character has a second word of blanks */
        { 0, EXTENSION, 28, 3, 2 }, { 0, UIC, 0, 3, 3 }, { 0, UIC, 1, 3, 3 }, { 0, PROTECT, 256, 3, 4 },
        { 0, KIND, 0, 3, 5 }, { 0, KIND, 3, 3, 5 }, { 0, WRITER, 2, 3, 9 }, { 1, WRITER, 1, 3, 9 }, { 1, WRITER, 4, 3, 9 },
        { 0, READERS, 63, 3, 10 }, { 0, 11, 1, 3, 11 }, { 0, 15, 1, 3, 15 }, { 7, 15, 1, 3, 0 }, { 7, 6, 9, 3, 0 },
        { 5, UIC, ME, 4, 3 },
        { 0, FIRST, 2, 5, 6 }, { 0, FIRST, 32, 5, 6 }, { 0, LENGTH, 0, 5, 7 }, { 0, LENGTH, 29, 5, 7 }, { 0, LENGTH, 65535, 5, 7 },
        { 0, LENGTH, 4, 5, 8 }, { 0, LAST, 5, 5, 8 }, { 1, FIRST, 2, 5, 6 }, { 1, FIRST, 32, 5, 6 }, { 1, LAST, 4, 5, 8 },
        { 1, LENGTH, 0, 5, 6 }, { 2, FIRST, 1, 5, 6 }, { 2, LAST, 3, 5, 8 }, { 2, LENGTH, 1, 5, 6 }, { 1, LENGTH, 3, 5, 8 },
    };
    for (size_t i = 0; i < sizeof cases / sizeof *cases; i++) {
        char name[64];
        sample();
        set_like(cases[i].entry, cases[i].word, cases[i].value);
        sprintf(name, "entry %zu word %zu value %zu", cases[i].entry, cases[i].word, cases[i].value);
        expect(length, cases[i].rule, cases[i].entry, cases[i].told_word, 0, name);
    }

    sample();
    set_open(image, 0, 1, 62);
    expect(length, 3, 0, READERS, 0, "62 readers and a writer");
    set_open(image, 0, 1, 61);
    expect(length, 0, 0, 0, 0, "61 readers and a writer");
    set_open(image, 0, 0, 62);
    expect(length, 0, 0, 0, 0, "62 readers");
}

static void try_links(void)
{
    const size_t length = sample(); /* entry 1: 20, 9, 31, 3 */

    relink(20, 0);
    expect(length, 6, 1, 0, 20, "chain ends early");
    relink(20, 2);
    expect(length, 6, 1, 0, 20, "link into the contents");
    relink(20, N);
    expect(length, 6, 1, 0, 20, "link behind the pack");
    sample();
    relink(31, 65535);
    expect(length, 6, 1, 0, 31, "link far behind the pack");
    sample();
    relink(3, 8);
    expect(length, 8, 1, 0, 3, "chain goes on");
    relink(3, 20);
    expect(length, 8, 1, 0, 3, "the end leads back");

    /* loops of 1, 2, 3 and 4 blocks; with a huge length too */
    for (size_t huge = 0; huge < 2; huge++) {
        sample();
        set_field(image, 1, LENGTH, huge ? 65535 : 4);
        relink(20, 20);
        expect(length, 7, 1, 0, 20, "loop of 1 block");
        relink(20, 9), relink(9, 20);
        expect(length, 7, 1, 0, 20, "loop of 2 blocks");
        relink(9, 31), relink(31, 9);
        expect(length, 7, 1, 0, 9, "loop of 2 blocks behind the first");
        relink(31, 20);
        expect(length, 7, 1, 0, 20, "loop of 3 blocks");
    }
    relink(31, 3), relink(3, 20);
    expect(length, 7, 1, 0, 20, "loop of 4 blocks");
    relink(3, 0);
    expect(length, 6, 1, 0, 3, "a huge length");
    set_field(image, 5, LENGTH, 65535);
    set_field(image, 1, LENGTH, 4);
    relink(12, 12);
    expect(length, 7, 5, 0, 12, "loop of the only block");

    /* every body in one chain that leads back to the first, with any length above it: as many steps as there are bodies */
    sample();
    memset(image + tried->block, 0, system_bytes(image) - tried->block);
    size_t blocks[N], chain[N];
    for (size_t i = 0; i < N - 3; i++)
        chain[i] = at(blocks[i] = 3 + (7 * i) % (N - 3));
    put_linked(image, 31, key_of("ALL   ", "   ", ME), chain, N - 3);
    expect(length, 0, 0, 0, 0, "all bodies in one chain");
    relink(blocks[N - 4], blocks[0]);
    expect(length, 8, 31, 0, blocks[N - 4], "all bodies, and back");
    set_field(image, 31, LENGTH, N - 2);
    expect(length, 7, 31, 0, blocks[0], "loop of all bodies");
    set_field(image, 31, LENGTH, 65535);
    expect(length, 7, 31, 0, blocks[0], "loop of all bodies, huge");
    relink(blocks[N - 4], blocks[N - 5]);
    expect(length, 7, 31, 0, blocks[N - 5], "loop at the end");
}

static void try_shared(void)
{
    const size_t length = sample();

    set_like(20, FIRST, 12), set_like(20, LAST, 12);
    expect(length, 9, 20, 0, 12, "shared with a linked file");
    set_like(20, FIRST, 4), set_like(20, LAST, 4);
    expect(length, 9, 20, 0, 4, "shared with a contiguous file");
    set_field(image, 20, LENGTH, 29), set_like(20, FIRST, 3), set_like(20, LAST, 31);
    expect(length, 9, 20, 0, 3, "one holds all");

    /* three holders of block 12: entries 0, 5 and 20 */
    sample();
    put_contiguous(image, 0, key_of("FREQ  ", "DAT", ME), at(11), 3);
    put_contiguous(image, 20, key_of("Z     ", "999", OTHER), at(12), 1);
    expect(length, 9, 5, 0, 12, "three holders");
    put_contiguous(image, 20, key_of("Z     ", "999", OTHER), at(11), 1);
    expect(length, 9, 20, 0, 11, "two shared blocks: the lower, though of later files");
    put_contiguous(image, 3, key_of("FIRST ", "   ", OTHER), at(30), 2);
    expect(length, 9, 20, 0, 11, "a third shared block");

    /* two chains that meet */
    sample();
    set_field(image, 5, LENGTH, 3), set_like(5, LAST, 3), relink(12, 31);
    expect(length, 9, 5, 0, 3, "two chains that meet");
}

/* Two faults at once: the one that comes first in the order is told, wherever it stands. */
static void try_two(void)
{
    static const struct { size_t entry, word, value; } faults[] = {
        { 0, NAME1, 29 }, { 0, EXTENSION, 28 }, { 0, UIC, 1 }, { 0, PROTECT, 256 }, { 0, KIND, 3 }, { 0, FIRST, 2 }, { 0, LENGTH, 0 },
        { 0, LAST, 9 }, { 0, WRITER, 3 }, { 0, READERS, 63 }, { 0, 12, 1 }, { 1, NAME2, 64000 }, { 1, FIRST, 0 }, { 1, LAST, 0 },
        { 1, WRITER, 1 }, { 2, LAST, 9 }, { 5, UIC, ME }, { 5, PROTECT, 256 }, { 20, FIRST, 12 }, { 20, LENGTH, 40 }, { 7, 3, 1 },
    };
    const size_t count = sizeof faults / sizeof *faults, length = sample();

    for (size_t i = 0; i < count; i++)
        for (size_t j = 0; j < count; j++) {
            sample();
            set_like(faults[i].entry, faults[i].word, faults[i].value);
            set_like(faults[j].entry, faults[j].word, faults[j].value);
            try_report(length, "two faults");
            relink(9, 20);
            try_report(length, "two faults and a loop");
            set_word(image, 60, 1);
            expect(length, 2, 0, 60, 0, "two faults behind one of the header");
        }

    sample();
    set_like(0, FIRST, 2), set_field(image, 0, WRITER, 2);
    expect(length, 3, 0, WRITER, 0, "word 9 before word 6");
    sample();
    set_like(20, FIRST, 12), set_like(20, LAST, 12), set_field(image, 20, 15, 1);
    expect(length, 3, 20, 15, 0, "an entry before shared blocks");
    sample();
    set_field(image, 5, UIC, ME), set_field(image, 5, PROTECT, 256);
    expect(length, 4, 5, 3, 0, "the name before word 4");
    sample();
    relink(20, 0), set_like(1, LAST, 9);
    expect(length, 6, 1, 0, 20, "a link before word 8");
    sample();
    relink(3, 3), set_like(1, LAST, 9);
    expect(length, 5, 1, LAST, 0, "word 8 before the end");
    sample();
    set_like(1, FIRST, 1), set_like(1, LAST, 9), relink(9, 9);
    expect(length, 5, 1, FIRST, 0, "word 6 before all else of a chain");
}

/* The map alone is wrong: told is the lowest such block, also from n up; and a map that is wrong behind all other rules. */
static void try_map(void)
{
    const size_t length = sample(), some[] = { 0, 1, 2, 3, at(3), 15, 16, at(20), at(N) - 1, at(N), at(N) + 1, 4095 };
    const size_t count = sizeof some / sizeof *some;

    if (!has_map(tried))
        return;
    for (size_t block = 0; block < MAP_BITS; block++) {
        turn_bit(image, block);
        check_answer(try_report(length, "one bit"), told(10, 0, 0, block), "one bit");
        turn_bit(image, block);
    }
    for (size_t i = 0; i < count; i++)
        for (size_t j = 0; j < count; j++)
            if (some[i] < some[j]) {
                turn_bit(image, some[i]), turn_bit(image, some[j]);
                check_answer(try_report(length, "two bits"), told(10, 0, 0, some[i]), "two bits");
                turn_bit(image, some[i]), turn_bit(image, some[j]);
            }
    expect(length, 0, 0, 0, 0, "all bits put right");

    /* All of them, and put right from below. */
    for (size_t block = 0; block < MAP_BITS; block++)
        turn_bit(image, block);
    for (size_t block = 0; block < MAP_BITS; block++) {
        check_answer(try_report(length, "bits from here on"), told(10, 0, 0, block), "bits from here on");
        turn_bit(image, block);
    }
    expect(length, 0, 0, 0, 0, "all bits put right again");

    /* A file that goes leaves its bits; one that comes has none. */
    memset(image + 2 * entry_word(image, 5, 0), 0, ABZ_ENTRY_BYTES);
    check_answer(try_report(length, "a file less"), told(10, 0, 0, at(12)), "a file less");
    sample();
    set_field(image, 0, LENGTH, 4), set_like(0, LAST, 7);
    check_answer(try_report(length, "a block more"), told(10, 0, 0, at(7)), "a block more");

    /* Behind every other rule. */
    sample();
    turn_bit(image, 0);
    set_like(20, FIRST, 31), set_like(20, LAST, 31);
    expect(length, 9, 20, 0, 31, "a shared block before the map");
    relink(3, 8);
    expect(length, 8, 1, 0, 3, "an end before the map");
    set_field(image, 20, 15, 1);
    expect(length, 8, 1, 0, 3, "an entry before a later one");
    set_word(image, CONTENTS, tried->contents_most + 1);
    expect(length, 2, 0, CONTENTS, 0, "the header before the map");
}

static void copy_entry(size_t to, size_t from)
{
    memcpy(image + 2 * entry_word(image, to, 0), image + 2 * entry_word(image, from, 0), ABZ_ENTRY_BYTES);
}

/* Packs by chance, whole and with a few bytes or words changed. */
static void try_chance(void)
{
    for (int round = 0; round < 3000; round++) {
        const size_t c = 1 + chance(round % 16 ? contents_like(8) : tried->contents_most);
        const size_t first = first_body(tried, c), entries = tried->entries * c, n = first + 14 + chance(64);
        const size_t files = chance(entries + 1);
        const size_t length = chance_pack(image, n, c, files);

        expect(length, 0, 0, 0, 0, "a pack by chance");
        for (int change = 0; change < 3; change++) {
            const size_t entry = chance(entries), near = get_field(image, entry, chance(ENTRY_WORDS));
            switch (chance(5)) {
            case 0: image[chance(length)] ^= (uint8_t)(1 << chance(8)); break;
            case 1: set_field(image, entry, chance(ENTRY_WORDS), chance(n + 2)); break;
            case 2: set_link(image, first + chance(n - first), chance(n + 1)); break;
            case 3: set_field(image, chance(entries), FIRST + chance(3), near); break;
            default: copy_entry(entry, chance(entries)); break;
            }
            try_report(length, "a pack by chance, changed");
        }
    }
    for (int round = 0; round < 200; round++) {
        const size_t length = chance(2 * tried->block);
        chance_bytes(image, length);
        try_report(length, "bytes by chance");
    }
}

int main(void)
{
    try_forms();
    EACH_FORM {
        try_sizes();
        try_header();
        try_contents();
        try_entries();
        try_links();
        try_shared();
        try_two();
        try_map();
        try_chance();
    }
    for (size_t rule = 0; rule < RULES; rule++)
        CHECK_NUMBER(rules_seen[rule] > 0, 1, "rule %zu was told", rule);
    return check_end("report");
}
