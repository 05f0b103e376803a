/* The listing program, run on packs of each form that are built word by word, against texts that are written out. */
#define _POSIX_C_SOURCE 200809L

#include <string.h>

#include "check.h"
#include "image.h"
#include "listing.h"

enum {
    LONGEST = 65536,
    ROOM = LONGEST + 3 * BLOCK_MOST
};

#define REFUSED "REFUSED 40\n"

static uint8_t image[ROOM];
static size_t length;

static size_t uic(size_t group, size_t user)
{
    return 256 * group + user;
}

/* Every byte of a body is set, since none is to be looked at but the links of linked files. */
static void format(size_t blocks, size_t contents, size_t uics, const size_t *list)
{
    memset(image, 0xA5, tried->block * blocks);
    length = make_pack(image, blocks, contents, list, uics);
}

/* A name is nine characters: six, and three of the extension. */
static void set_contiguous(size_t e, const char *name, size_t owner, size_t protect, size_t first, size_t count)
{
    put_contiguous(image, e, key_of(name, name + 6, owner), first, count);
    set_field(image, e, PROTECT, protect);
}

static void set_linked(size_t e, const char *name, size_t owner, size_t protect, const size_t *blocks, size_t count)
{
    put_linked(image, e, key_of(name, name + 6, owner), blocks, count);
    set_field(image, e, PROTECT, protect);
}

static void try_image(const char *text, const char *name)
{
    try_listing(image, length, text, name);
}

/* ---- The tests ---- */

/* "Format with n = 16, c = 1, UIC [23,10]; ALLOC FREQ.DAT, N = 9, protect 3." In form 3 it is 3 segments. */
static void build_example(void)
{
    format(16, 1, 1, (size_t[]){ uic(023, 010) });
    set_contiguous(0, "FREQ  DAT", uic(023, 010), 3, 13, 3);
}

static void example(void)
{
    build_example();
    try_image(has_map(tried) ? "BLOCKS 00016 FREE 00010\n"
                               "FREQ  .DAT C 00003 [023,010] 003\n"
                             : "BLOCKS 00016 FREE 00011\n"
                               "FREQ  .DAT C 00003 [023,010] 003\n",
              "example");
}

static void empty_pack(void)
{
    format(16, 1, 0, NULL);
    try_image(has_map(tried) ? "BLOCKS 00016 FREE 00013\n" : "BLOCKS 00016 FREE 00014\n", "empty pack");

    format(100, 8, 2, (size_t[]){ uic(1, 0), uic(0, 1) });
    try_image(has_map(tried) ? "BLOCKS 00100 FREE 00090\n" : "BLOCKS 00100 FREE 00091\n",
              "empty pack of 8 blocks of contents");
}

/* A block of the mixed pack, as form 1 numbers it. */
static size_t at(size_t block)
{
    return block_like(2, block);
}

/* Entries stand apart, in another order than their blocks, and the last in the last block of contents. */
static void build_mixed(void)
{
    format(at(20), contents_like(2), 3, (size_t[]){ uic(0377, 0377), uic(1, 0), uic(0, 0123) });
    set_linked(1, "A     9Z ", uic(0377, 0377), 0377, (size_t[]){ at(19), at(3), at(7) }, 3);
    set_contiguous(4, "ZZZZZZ   ", uic(1, 0), 0, at(4), 2);
    set_linked(5, "0X2Y4ZDAT", uic(0, 0123), 0100, NULL, 0);
    set_linked(15, "FREQ  DAT", uic(1, 0), 052, (size_t[]){ at(12) }, 1);
    set_contiguous(31, "FREQ  DAT", uic(0377, 0377), 7, at(17), 1);
    set_open(image, 1, 3, 61);
    set_open(image, 4, 1, 0);
    set_open(image, 5, 2, 0);
}

static void mixed(void)
{
    char text[LISTING_ROOM];

    build_mixed();
    sprintf(text, "BLOCKS %05zu FREE 00010\n"
                  "A     .9Z  L 00003 [377,377] 377\n"
                  "ZZZZZZ.    C 00002 [001,000] 000\n"
                  "0X2Y4Z.DAT L 00000 [000,123] 100\n"
                  "FREQ  .DAT L 00001 [001,000] 052\n"
                  "FREQ  .DAT C 00001 [377,377] 007\n", at(20));
    try_image(text, "linked, contiguous and empty files");
}

/* One word of the mixed pack changed, each time another rule broken. */
static void damaged(void)
{
    build_mixed(); /* where a word is goes by its form */
#define ENTRY(e, word) entry_word(image, e, word)
#define LINK(block) link_word(image, at(block))
    const struct {
        const char *rule;
        size_t word, value;
    } changes[] = {
        { "fewer blocks than the image has", BLOCKS, at(19) },
        { "no contents", CONTENTS, 0 },
        { "a UIC twice", UIC_LIST + 1, 0177777 },
        { "a UIC 0", UIC_LIST + 2, 0 },
        { "rest of block 0", ENTRY(0, NAME1) - 1, 1 },
        { "a name with a code of no character", ENTRY(1, NAME1), 29 },
        { "a name that begins with a blank", ENTRY(1, NAME1), 1 },
        { "an extension with a period", ENTRY(4, EXTENSION), 28 },
        { "a UIC that is not listed", ENTRY(4, UIC), 0401 },
        { "protect code", ENTRY(4, PROTECT), 256 },
        { "kind", ENTRY(4, KIND), 3 },
        { "a linked file as a contiguous one", ENTRY(1, KIND), 1 },
        { "first block in the contents", ENTRY(31, FIRST), 2 },
        { "length", ENTRY(4, LENGTH), 3 },
        { "last block", ENTRY(1, LAST), at(3) },
        { "writer", ENTRY(1, WRITER), 1 },
        { "62 readers and a writer", ENTRY(1, READERS), 62 },
        { "word 15 of an entry", ENTRY(31, 15), 1 },
        { "an entry that is not all zero", ENTRY(2, PROTECT), 1 },
        { "a chain that loops", LINK(7), at(19) },
        { "a chain that leaves the pack", LINK(3), at(20) },
        { "a chain that is too short", LINK(3), 0 },
        { "a chain that is too long", LINK(7), at(8) },
        { "a chain into another file", LINK(3), at(4) },
        { "two files of one name, extension and UIC", ENTRY(31, UIC), 0400 },
    };

    for (size_t i = 0; i < sizeof changes / sizeof *changes; i++) {
        build_mixed();
        set_word(image, changes[i].word, changes[i].value);
        try_image(REFUSED, changes[i].rule);
    }
    for (size_t block = 0; has_map(tried) && block < MAP_BITS; block += block < at(20) ? 1 : MAP_BITS - 1 - at(20)) {
        build_mixed();
        turn_bit(image, block);
        try_image(REFUSED, "a bit of the map");
    }
#undef LINK
#undef ENTRY
}

/* Another number in word 0: of no form, or of one that the pack is not of. */
static void other_forms(void)
{
    for (size_t i = 0; i < FORM_WORDS; i++) {
        char name[64];

        build_mixed();
        set_word(image, FORM, form_words[i]);
        sprintf(name, "form %zu for form %zu", form_words[i], tried->number);
        if (!right_as(form_words[i]))
            try_image(REFUSED, name);
    }
}

/* Nothing at all, parts of a pack, and bytes behind it. */
static void other_lengths(void)
{
    const size_t block = tried->block, whole = 16 * block;
    const size_t lengths[] = { 0, 1, 2, 3, 7, 8, 9, block - 1, block, block + 1, 2 * block - 1, 2 * block, 4 * block,
                               whole - 2, whole - 1, whole + 1, whole + block, LONGEST };

    for (size_t i = 0; i < sizeof lengths / sizeof *lengths; i++) {
        char name[64];

        memset(image, 0, sizeof image);
        build_example();
        length = lengths[i];
        sprintf(name, "the example in %zu bytes", length);
        try_image(REFUSED, name);
    }
}

/*
 * Each entry of the most blocks of contents has a file, so that the text is as long as it can be. Of the blocks 128 are
 * taken, from 0 on.
 */
static void build_largest(size_t blocks, char *text)
{
    const size_t files = tried->entries * tried->contents_most, held = 128 - first_body(tried, tried->contents_most);

    format(blocks, tried->contents_most, 1, (size_t[]){ uic(2, 3) });
    text += sprintf(text, "BLOCKS %05zu FREE %05zu\n", blocks, blocks - 128);
    for (size_t e = 0; e < files; e++) {
        char name[32];

        sprintf(name, "N%05zuEXT", e);
        if (e < held) {
            set_contiguous(e, name, uic(2, 3), 0, 128 - 1 - e, 1);
            text += sprintf(text, "%.6s.EXT C 00001 [002,003] 000\n", name);
        } else {
            set_linked(e, name, uic(2, 3), 0, NULL, 0);
            text += sprintf(text, "%.6s.EXT L 00000 [002,003] 000\n", name);
        }
    }
}

/* From a pipe the image comes in parts: a byte, then the rest in what the pipe can hold. */
static void largest(void)
{
    static const char parts[] = "(head -c 1 " LISTED "; sleep 0.1; tail -c +2 " LISTED ") 2>/dev/null | " LISTING;
    static char text[LISTING_ROOM];
    const size_t blocks = LONGEST / tried->block;

    build_largest(blocks, text);
    CHECK_NUMBER(length, LONGEST, "largest: length");
    CHECK_NUMBER(strlen(text), 24 + (has_map(tried) ? 512 : 128) * 33, "largest: length of the text");
    try_image(text, "largest");
    try_command(parts, text, "largest, from a pipe");

    length++;
    try_image(REFUSED, "largest and a byte more");
    try_command(parts, REFUSED, "largest and a byte more, from a pipe");

    build_largest(blocks + 1, text);
    try_image(REFUSED, "a consistent pack of a block more");
    try_command(parts, REFUSED, "a consistent pack of a block more, from a pipe");
    try_command("cat " LISTED " " LISTED " " LISTED " 2>/dev/null | " LISTING, REFUSED, "three packs");
}

int main(void)
{
    EACH_FORM {
        example();
        empty_pack();
        mixed();
        damaged();
        other_forms();
        other_lengths();
        largest();
    }
    return check_end("listing");
}
