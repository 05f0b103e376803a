/*
 * Packs as document 01 describes them, with nothing taken from the library: put together entry by entry, judged, and
 * each block's owner told. The judgement is for reading beside document 01, so it is plain before it is quick. The
 * measures are those of form.h, which pack.c holds to the numbers of document 01: of an image those of the form that it
 * names, of a new pack those of the form that is tried.
 */
#ifndef IMAGE_H
#define IMAGE_H

#include <stdbool.h>
#include <stddef.h>
#include <stdint.h>
#include <string.h>

#include "../form.h"

/* A test goes through the forms. */
static const pack_form *tried = forms;

#define EACH_FORM for (tried = forms; tried < forms + FORMS; tried++)

/* What word 0 may say: the number of each form, and such as no form has, also where their low byte is one's. */
static const size_t form_words[] = { 0, 1, 2, 3, 4, 5, 6, 7, 8, 255, 256, 257, 258, 259, 513, 771, 32769, 65535 };

enum { FORM_WORDS = sizeof form_words / sizeof *form_words };

enum { ENTRY_WORDS = ABZ_ENTRY_BYTES / 2 };

/* The words of block 0, and those of an entry. */
enum { FORM, BLOCKS, CONTENTS, UICS, UIC_LIST };
enum { NAME1, NAME2, EXTENSION, UIC, PROTECT, KIND, FIRST, LENGTH, LAST, WRITER, READERS, ZEROS };

enum { CONTIGUOUS = 1, LINKED = 2 };

typedef struct {
    size_t name1, name2, extension, uic;
} file_key;

typedef struct {
    enum { SYSTEM, FREE, HELD } kind;
    size_t entry, place; /* 0 unless HELD */
} block_owner;

/* ---- Words ---- */

static inline size_t get_word(const uint8_t *image, size_t word)
{
    return image[2 * word] + (size_t)256 * image[2 * word + 1];
}

static inline void set_word(uint8_t *image, size_t word, size_t value)
{
    image[2 * word] = (uint8_t)(value % 256);
    image[2 * word + 1] = (uint8_t)(value / 256 % 256);
}

/* Where in the image a word of an entry is, and the link of a block. */
static inline size_t entry_word(const uint8_t *image, size_t entry, size_t word)
{
    return form_of(image)->block / 2 + ENTRY_WORDS * entry + word;
}

static inline size_t link_word(const uint8_t *image, size_t block)
{
    return form_of(image)->block / 2 * block;
}

static inline size_t get_field(const uint8_t *image, size_t entry, size_t word)
{
    return get_word(image, entry_word(image, entry, word));
}

static inline void set_field(uint8_t *image, size_t entry, size_t word, size_t value)
{
    set_word(image, entry_word(image, entry, word), value);
}

static inline size_t get_link(const uint8_t *image, size_t block)
{
    return get_word(image, link_word(image, block));
}

static inline void set_link(uint8_t *image, size_t block, size_t next)
{
    set_word(image, link_word(image, block), next);
}

/* ---- The free map ---- */

enum { MAP_BITS = 8 * ABZ_BLOCK_BYTES };

/* The bit of a block in the map of a pack: "bit b mod 16 of word b / 16". */
static inline size_t map_word(const uint8_t *image, size_t block)
{
    return link_word(image, map_block(get_word(image, CONTENTS))) + block / 16;
}

static inline bool get_bit(const uint8_t *image, size_t block)
{
    return get_word(image, map_word(image, block)) >> block % 16 & 1;
}

static inline void turn_bit(uint8_t *image, size_t block)
{
    const size_t word = map_word(image, block);

    set_word(image, word, get_word(image, word) ^ (size_t)1 << block % 16);
}

/* ---- Names ---- */

#define LETTERS_AND_DIGITS "ABCDEFGHIJKLMNOPQRSTUVWXYZ0123456789"

static const char radix50[] = " ABCDEFGHIJKLMNOPQRSTUVWXYZ$.?0123456789"; /* ? for 29, which has no character */

static inline size_t pack_three(const char *text)
{
    size_t word = 0;

    for (int i = 0; i < 3; i++)
        word = 40 * word + (size_t)(strchr(radix50, text[i]) - radix50);
    return word;
}

/* name is six characters and extension three, blanks included. */
static inline file_key key_of(const char *name, const char *extension, size_t uic)
{
    file_key key = { pack_three(name), pack_three(name + 3), pack_three(extension), uic };

    return key;
}

/* Radix-50 words that spell least or more of A-Z, 0-9, then blanks. */
static inline bool spelled_legally(const size_t *words, size_t count, size_t least)
{
    char text[7] = "";

    for (size_t i = 0; i < count; i++) {
        if (words[i] >= 64000)
            return false;
        text[3 * i] = radix50[words[i] / 1600];
        text[3 * i + 1] = radix50[words[i] / 40 % 40];
        text[3 * i + 2] = radix50[words[i] % 40];
    }

    size_t taken = strspn(text, LETTERS_AND_DIGITS);
    return taken >= least && strspn(text + taken, " ") == 3 * count - taken;
}

static inline bool legal(file_key key)
{
    size_t name[] = { key.name1, key.name2 };

    return spelled_legally(name, 2, 1) && spelled_legally(&key.extension, 1, 0);
}

/* ---- Entries ---- */

static inline size_t entry_count(const uint8_t *image)
{
    return form_of(image)->entries * get_word(image, CONTENTS);
}

/* Where the bodies begin: a block's number, and a byte of the image. */
static inline size_t bodies_from(const uint8_t *image)
{
    return first_body(form_of(image), get_word(image, CONTENTS));
}

static inline size_t system_bytes(const uint8_t *image)
{
    return form_of(image)->block * bodies_from(image);
}

static inline bool used(const uint8_t *image, size_t entry)
{
    for (size_t word = 0; word < ENTRY_WORDS; word++)
        if (get_field(image, entry, word) != 0)
            return true;
    return false;
}

static inline file_key entry_key(const uint8_t *image, size_t entry)
{
    file_key key = { get_field(image, entry, NAME1), get_field(image, entry, NAME2),
                     get_field(image, entry, EXTENSION), get_field(image, entry, UIC) };

    return key;
}

/* The first used entry below end that has this key, or end. There is no caller here, for whom UIC 0 could stand. */
static inline size_t find_below(const uint8_t *image, file_key key, size_t end)
{
    for (size_t entry = 0; entry < end; entry++)
        if (get_field(image, entry, NAME1) == key.name1 && get_field(image, entry, NAME2) == key.name2
            && get_field(image, entry, EXTENSION) == key.extension && get_field(image, entry, UIC) == key.uic
            && used(image, entry))
            return entry;
    return end;
}

/* Of a consistent pack: the block of a file at a place below its length. */
static inline size_t block_at(const uint8_t *image, size_t entry, size_t place)
{
    size_t block = get_field(image, entry, FIRST);

    if (get_field(image, entry, KIND) == CONTIGUOUS)
        return block + place;
    for (; place > 0; place--)
        block = get_link(image, block);
    return block;
}

/* ---- The judgement ---- */

static inline bool listed(const uint8_t *image, size_t uic)
{
    for (size_t i = 0; i < get_word(image, UICS); i++)
        if (get_word(image, UIC_LIST + i) == uic)
            return true;
    return false;
}

static inline bool header_right(const uint8_t *image, size_t length)
{
    const pack_form *form = length < 2 ? NULL : form_numbered(get_word(image, FORM));

    if (!form || length < form->block) /* n is more than 1; and this much must be there to be read */
        return false;

    size_t n = get_word(image, BLOCKS), c = get_word(image, CONTENTS), u = get_word(image, UICS);

    if (length != form->block * n || n < form->blocks_least || n > form->blocks_most)
        return false;
    if (c < form->contents_least || c > form->contents_most || first_body(form, c) >= n || u > form->uics_most)
        return false;
    for (size_t i = 0; i < u; i++) {
        if (get_word(image, UIC_LIST + i) == 0)
            return false;
        for (size_t j = 0; j < i; j++)
            if (get_word(image, UIC_LIST + i) == get_word(image, UIC_LIST + j))
                return false;
    }
    for (size_t word = UIC_LIST + u; word < form->block / 2; word++)
        if (get_word(image, word) != 0)
            return false;
    return true;
}

static inline bool entry_right(const uint8_t *image, size_t entry)
{
    file_key key = entry_key(image, entry);
    size_t kind = get_field(image, entry, KIND), writer = get_field(image, entry, WRITER);

    if (!legal(key) || !listed(image, key.uic) || find_below(image, key, entry) != entry)
        return false;
    for (size_t word = ZEROS; word < ENTRY_WORDS; word++)
        if (get_field(image, entry, word) != 0)
            return false;
    if (get_field(image, entry, PROTECT) > 255 || get_field(image, entry, READERS) + (writer != 0) > 62)
        return false;
    return (kind == CONTIGUOUS && (writer == 0 || writer == 1))
           || (kind == LINKED && (writer == 0 || writer == 2 || writer == 3));
}

/* Goes through the blocks of a file and gives each to it. A block met twice, in a loop too, is no longer free. */
static inline bool blocks_right(const uint8_t *image, size_t entry, block_owner *owners)
{
    bool contiguous = get_field(image, entry, KIND) == CONTIGUOUS;
    size_t n = get_word(image, BLOCKS), length = get_field(image, entry, LENGTH);
    size_t block = get_field(image, entry, FIRST), last = 0;

    for (size_t place = 0; place < length; place++) {
        if (block >= n || owners[block].kind != FREE)
            return false;
        owners[block].kind = HELD;
        owners[block].entry = entry;
        owners[block].place = place;
        last = block;
        block = contiguous ? block + 1 : get_link(image, block);
    }
    if (get_field(image, entry, LAST) != last) /* 0 at length 0 */
        return false;
    return contiguous ? length > 0 : block == 0; /* behind the last; the first itself at length 0 */
}

/* "1 if system or held, 0 otherwise and for b from n up", word by word of the map. */
static inline bool map_right(const uint8_t *image, const block_owner *owners)
{
    const size_t n = get_word(image, BLOCKS), map = map_word(image, 0);

    for (size_t word = 0; has_map(form_of(image)) && word < MAP_BITS / 16; word++) {
        size_t due = 0;
        for (size_t block = 16 * word; block < 16 * word + 16 && block < n; block++)
            due += (size_t)(owners[block].kind != FREE) << block % 16;
        if (get_word(image, map + word) != due)
            return false;
    }
    return true;
}

/* Whether an image is consistent. If so, owners[b] says whose block b is, for every b below n. */
static inline bool judge(const uint8_t *image, size_t length, block_owner owners[BLOCKS_MOST])
{
    if (!header_right(image, length))
        return false;

    for (size_t block = 0; block < get_word(image, BLOCKS); block++) {
        owners[block].kind = block < bodies_from(image) ? SYSTEM : FREE;
        owners[block].entry = owners[block].place = 0;
    }
    for (size_t entry = 0; entry < entry_count(image); entry++)
        if (used(image, entry) && !(entry_right(image, entry) && blocks_right(image, entry, owners)))
            return false;
    return map_right(image, owners);
}

/* ---- Making packs, right ones and wrong ones: nothing is tested ---- */

/*
 * Makes the map what the files say, in a form that has one. Where a file leaves the bodies it is followed no further, and
 * a block of two files is held.
 */
static inline void put_map(uint8_t *image)
{
    const size_t first = bodies_from(image), end = get_word(image, BLOCKS);

    if (!has_map(form_of(image)))
        return;
    memset(image + 2 * map_word(image, 0), 0, form_of(image)->block);
    for (size_t block = 0; block < first; block++)
        turn_bit(image, block);
    for (size_t entry = 0; entry < entry_count(image); entry++) {
        size_t block = get_field(image, entry, FIRST), left = get_field(image, entry, LENGTH);
        for (; left > 0 && block >= first && block < end; left--) {
            if (!get_bit(image, block))
                turn_bit(image, block);
            block = get_field(image, entry, KIND) == CONTIGUOUS ? block + 1 : get_link(image, block);
        }
    }
}

/* An empty pack; the bodies keep what they hold. Returns the length of the image. */
static inline size_t make_form(const pack_form *form, uint8_t *image, size_t n, size_t c, const size_t *uics, size_t u)
{
    memset(image, 0, form->block * first_body(form, c));
    set_word(image, FORM, form->number);
    set_word(image, BLOCKS, n);
    set_word(image, CONTENTS, c);
    set_word(image, UICS, u);
    for (size_t i = 0; i < u; i++)
        set_word(image, UIC_LIST + i, uics[i]);
    put_map(image);
    return form->block * n;
}

static inline size_t make_pack(uint8_t *image, size_t n, size_t c, const size_t *uics, size_t u)
{
    return make_form(tried, image, n, c, uics, u);
}

/* A closed file with protect code 0; what is to be otherwise is set afterwards. The map is made to agree. */
static inline void put_file(uint8_t *image, size_t entry, file_key key, size_t kind, size_t first, size_t length,
                            size_t last)
{
    memset(image + 2 * entry_word(image, entry, 0), 0, 2 * ENTRY_WORDS);
    set_field(image, entry, NAME1, key.name1);
    set_field(image, entry, NAME2, key.name2);
    set_field(image, entry, EXTENSION, key.extension);
    set_field(image, entry, UIC, key.uic);
    set_field(image, entry, KIND, kind);
    set_field(image, entry, FIRST, first);
    set_field(image, entry, LENGTH, length);
    set_field(image, entry, LAST, last);
    put_map(image);
}

static inline void put_contiguous(uint8_t *image, size_t entry, file_key key, size_t first, size_t length)
{
    put_file(image, entry, key, CONTIGUOUS, first, length, first + length - 1);
}

static inline void put_linked(uint8_t *image, size_t entry, file_key key, const size_t *blocks, size_t length)
{
    for (size_t i = 0; i < length; i++)
        set_link(image, blocks[i], i + 1 < length ? blocks[i + 1] : 0);
    put_file(image, entry, key, LINKED, length ? blocks[0] : 0, length, length ? blocks[length - 1] : 0);
}

static inline void set_open(uint8_t *image, size_t entry, size_t writer, size_t readers)
{
    set_field(image, entry, WRITER, writer);
    set_field(image, entry, READERS, readers);
}

/*
 * ---- Packs laid out by hand ----
 *
 * They are written in the numbers of form 1. In another form such a pack has as many entries, or a few more, and as many
 * bodies in the same order, but its contents and its bodies have other numbers.
 */

/* The blocks of contents, if form 1 has c. */
static inline size_t contents_like(size_t c)
{
    return (forms->entries * c + tried->entries - 1) / tried->entries;
}

/* The number of a body, which in form 1 lies behind c blocks of contents; or how many blocks there are. */
static inline size_t block_like(size_t c, size_t block)
{
    return block - first_body(forms, c) + first_body(tried, contents_like(c));
}

/* The same in the small pack: in form 1 it has 16 blocks, of which one is contents. */
static inline size_t small(size_t block)
{
    return block_like(1, block);
}

/*
 * Whether a pack of the form that is tried is one also where word 0 is this number: only its own; but what is right in
 * form 2 and not too large is right in form 1, where the block of the map is a free one.
 */
static inline bool right_as(size_t number)
{
    return number == tried->number || (number == ABZ_FORM && has_map(tried));
}

enum { SMALL_ROOM = 24 * BLOCK_MOST };

static inline size_t small_bytes(void)
{
    return tried->block * small(16);
}

static inline size_t make_small_pack(uint8_t *image, const size_t *uics, size_t u)
{
    return make_pack(image, small(16), contents_like(1), uics, u);
}

/* ---- Chance, the same in every run ---- */

static inline size_t chance(size_t below)
{
    static uint64_t state = 0x9E3779B97F4A7C15;

    state ^= state << 13;
    state ^= state >> 7;
    state ^= state << 17;
    return (size_t)(state >> 16) % below;
}

static inline void chance_bytes(uint8_t *bytes, size_t length)
{
    for (size_t i = 0; i < length; i++)
        bytes[i] = (uint8_t)chance(256);
}

/* Of few names, so that files often have all but one part alike. */
static inline file_key chance_key(const uint8_t *image)
{
    static const char names[16][7] = { "A     ", "B     ", "AB    ", "ABC   ", "ABCA  ", "ABCDEF",
                                       "0     ", "999999", "ZZZZZZ", "FREQ  ", "123456", "X0    ",
                                       "DT1   ", "Z9Z9Z9", "KEEP  ", "AAAAAA" };
    static const char extensions[6][4] = { "   ", "A  ", "B  ", "AB ", "DAT", "999" };
    size_t uic = get_word(image, UIC_LIST + chance(get_word(image, UICS)));

    return key_of(names[chance(16)], extensions[chance(6)], uic);
}

static inline void shuffle(size_t *blocks, size_t count)
{
    for (size_t i = count; i > 1; i--) {
        size_t other = chance(i), block = blocks[other];
        blocks[other] = blocks[i - 1];
        blocks[i - 1] = block;
    }
}

/* Gives the linked files, which have no block yet, some of the free ones; and every file a protect code and opens. */
static inline void chance_fields(uint8_t *image, const size_t *free, size_t count)
{
    for (size_t entry = 0; entry < entry_count(image); entry++) {
        bool linked = get_field(image, entry, KIND) == LINKED;
        size_t length = chance(6), writer = chance(2) ? 0 : linked ? 2 + chance(2) : 1, most = writer ? 61 : 62;
        if (!used(image, entry))
            continue;
        if (linked && length <= count)
            put_linked(image, entry, entry_key(image, entry), free + (count -= length), length);
        set_field(image, entry, PROTECT, chance(256));
        set_open(image, entry, writer, chance(3) ? chance(3) : most - chance(2));
    }
}

/*
 * A consistent pack with so many files, at most all of its entries, its bodies full of random bytes. Contiguous files lie
 * behind one another with gaps, and linked ones are scattered over all that remains. Returns the length of the image.
 */
static inline size_t chance_pack(uint8_t *image, size_t n, size_t c, size_t files)
{
    const size_t entries = tried->entries * c, step = entries % 13 ? 13 : 11; /* which comes to every entry */
    const size_t least = 2 + files / 48; /* UICs, so that there are twice as many keys as files */
    size_t uics[UICS_MOST], rest[BLOCKS_MOST], count = 0, next = first_body(tried, c);

    chance_bytes(image, tried->block * n);
    uics[0] = 65535;
    for (size_t i = 1; i < tried->uics_most; i++)
        uics[i] = 100 * i + chance(100);
    make_pack(image, n, c, uics, least + chance(tried->uics_most + 1 - least));

    for (size_t entry = chance(entries); files > 0; files--) {
        size_t gap = chance(3), length = 1 + chance(5);
        file_key key;
        do
            key = chance_key(image);
        while (find_below(image, key, entries) != entries);
        if (chance(2) && next + gap + length <= n) {
            for (; gap > 0; gap--)
                rest[count++] = next++;
            put_contiguous(image, entry, key, next, length);
            next += length;
        } else {
            put_linked(image, entry, key, NULL, 0);
        }
        entry = (entry + step) % entries;
    }
    for (; next < n; next++)
        rest[count++] = next;
    shuffle(rest, count);
    chance_fields(image, rest, count);
    return tried->block * n;
}

#endif
