/*
 * Packs moved between forms 1 and 2 (document 02, §8). Each target is held to one that is put together here, with the
 * paper's own numbers; then to the way back, which has to give every byte of the source again; and each block there to
 * the owner of its twin here.
 */
#include "check.h"
#include "image.h"

#define COUNT(array) (sizeof(array) / sizeof *(array))

enum { GUARD = 16, ROOM = 512 * 1030, UP = 0, DOWN = 1, WAYS = 2 };
enum { ME = 023 * 256 + 010 };

static uint8_t lent_source[GUARD + IMAGE_MOST + BLOCK_MOST + GUARD], kept_source[sizeof lent_source];
static uint8_t lent_target[GUARD + IMAGE_MOST + BLOCK_MOST + GUARD], wanted_target[sizeof lent_target];
static uint8_t *const source = lent_source + GUARD, *const target = lent_target + GUARD, *const wanted = wanted_target + GUARD;

static const char *const way_names[WAYS] = { "to form 2", "to form 1" };

/* How often each code was given, each way. */
static size_t given[WAYS][0100];

/* ---- Document 02 ---- */

static size_t moved(size_t way, size_t number)
{
    return way == UP ? number + 1 : number - 1;
}

/*
 * "contents are copied with the new form and n, the map is made, every body moves up by one block, and first, last and
 * link numbers that are not 0 rise by one. Free bodies and contiguous ones are copied untouched."
 */
static void move_by_paper(size_t way, const uint8_t *here, uint8_t *there)
{
    const size_t n = get_word(here, BLOCKS), c = get_word(here, CONTENTS);

    memcpy(there, here, 512 * (c + 1));
    set_word(there, FORM, way == UP ? 2 : 1);
    set_word(there, BLOCKS, moved(way, n));
    for (size_t block = bodies_from(here); block < n; block++)
        memcpy(there + 512 * moved(way, block), here + 512 * block, 512);
    for (size_t entry = 0; entry < 16 * c; entry++) {
        const size_t first = get_field(here, entry, FIRST), last = get_field(here, entry, LAST);
        size_t block = first;
        set_field(there, entry, FIRST, first == 0 ? 0 : moved(way, first));
        set_field(there, entry, LAST, last == 0 ? 0 : moved(way, last));
        if (get_field(here, entry, KIND) != LINKED)
            continue;
        for (size_t left = get_field(here, entry, LENGTH); left > 0; left--) {
            const size_t next = get_link(here, block);
            set_link(there, moved(way, block), next == 0 ? 0 : moved(way, next));
            block = next;
        }
    }
    if (way == UP)
        put_map(there);
}

/* "40, source not consistent or not of that form; 41, target of the wrong size, or a form 2 pack whose n - 1 is not 16 to
 * 1024 or whose c is over 8; in that order." */
static size_t code_by_paper(size_t way, size_t source_len, size_t target_len)
{
    static block_owner owners[BLOCKS_MOST];

    if (!judge(source, source_len, owners) || get_word(source, FORM) != (way == UP ? 1 : 2))
        return 040;

    const size_t n = get_word(source, BLOCKS), c = get_word(source, CONTENTS);
    if (target_len != 512 * moved(way, n))
        return 041;
    return way == DOWN && (n - 1 < 16 || n - 1 > 1024 || c > 8) ? 041 : 0;
}

static size_t call(size_t way, size_t source_len, size_t target_len)
{
    return way == UP ? abz_to_form2(source, source_len, target, target_len)
                     : abz_to_form1(source, source_len, target, target_len);
}

/* ---- One call ---- */

/* A call into a target full of rubbish, with bytes around both slices that stay. Returns the code. */
static size_t try_move(const char *name, size_t way, size_t source_len, size_t target_len)
{
    chance_bytes(lent_target, GUARD + target_len + GUARD);
    memcpy(wanted_target, lent_target, GUARD + target_len + GUARD);
    memcpy(kept_source, lent_source, GUARD + source_len + GUARD);

    const size_t due = code_by_paper(way, source_len, target_len);
    if (due == 0)
        move_by_paper(way, source, wanted);
    const size_t code = call(way, source_len, target_len);
    CHECK_NUMBER(code, due, "%s, %s: code", name, way_names[way]);
    CHECK_BYTES(lent_target, wanted_target, GUARD + target_len + GUARD, "%s, %s: target", name, way_names[way]);
    CHECK_BYTES(lent_source, kept_source, GUARD + source_len + GUARD, "%s, %s: source", name, way_names[way]);
    if (code < 0100)
        given[way][code]++;
    return code;
}

/* Each block there is whose its twin is here. */
static void same_owners(const char *name, size_t way, const uint8_t *here, const uint8_t *there)
{
    static block_owner before[BLOCKS_MOST], after[BLOCKS_MOST];
    const size_t n = get_word(here, BLOCKS);

    CHECK_NUMBER(judge(here, 512 * n, before), true, "%s, %s: source consistent", name, way_names[way]);
    CHECK_NUMBER(judge(there, 512 * moved(way, n), after), true, "%s, %s: target consistent", name, way_names[way]);
    for (size_t block = bodies_from(here); block < n; block++) {
        const block_owner *twin = &after[moved(way, block)];
        CHECK_NUMBER(twin->kind, before[block].kind, "%s, %s: kind of block %zu", name, way_names[way], block);
        CHECK_NUMBER(twin->entry, before[block].entry, "%s, %s: entry of block %zu", name, way_names[way], block);
        CHECK_NUMBER(twin->place, before[block].place, "%s, %s: place of block %zu", name, way_names[way], block);
    }
}

/* There and back: what is lent as the source is moved, and its target moved back is the source. */
static void there_and_back(const char *name, size_t way, size_t length)
{
    static uint8_t start[IMAGE_MOST];
    const size_t there = 512 * moved(way, get_word(source, BLOCKS));

    memcpy(start, source, length);
    if (try_move(name, way, length, there) != 0)
        return;
    same_owners(name, way, start, target);
    CHECK_NUMBER(abz_report(target, there).rule, ABZ_CONSISTENT, "%s, %s: report", name, way_names[way]);
    memcpy(source, target, there);
    CHECK_NUMBER(try_move(name, 1 - way, there, length), 0, "%s, back %s", name, way_names[1 - way]);
    CHECK_BYTES(target, start, length, "%s, %s and back", name, way_names[way]);
}

/* ---- Packs ---- */

/* An empty pack of the form that is tried, its bodies full of rubbish. */
static size_t empty_pack(size_t n, size_t c)
{
    const size_t uics[] = { ME };

    chance_bytes(source, 512 * n);
    return make_pack(source, n, c, uics, COUNT(uics));
}

/* Every body in files: one of half of them in a row, then linked ones whose blocks are scattered; the last entry is used. */
static size_t full_pack(size_t n, size_t c, bool contiguous)
{
    const size_t length = empty_pack(n, c), first = bodies_from(source), files = 16 * c;
    const size_t run = contiguous ? (n - first + 1) / 2 : 0, rest = n - first - run;
    size_t blocks[BLOCKS_MOST], taken = 0;

    for (size_t i = 0; i < rest; i++)
        blocks[i] = first + run + i;
    shuffle(blocks, rest);
    if (run > 0)
        put_contiguous(source, 0, key_of("ROW   ", "   ", ME), first, run);
    for (size_t entry = run > 0; entry < files; entry++) {
        const size_t left = rest - taken, count = entry + 1 == files ? left : chance(left / 2 + 1);
        file_key key = key_of("LINK  ", "   ", ME);
        key.extension = 1600 * (1 + entry % 26) + 40 * (30 + entry / 26);
        put_linked(source, entry, key, blocks + taken, count);
        taken += count;
    }
    return length;
}

static void sizes(void)
{
    static const size_t counts[] = { 16, 17, 18, 31, 32, 33, 255, 256, 257, 1022, 1023, 1024 };
    static const size_t contents[] = { 1, 2, 8 };

    for (size_t i = 0; i < COUNT(counts); i++)
        for (size_t j = 0; j < COUNT(contents); j++) {
            const size_t n = counts[i], c = contents[j];
            tried = form_numbered(1);
            there_and_back("empty", UP, empty_pack(n, c));
            there_and_back("full and linked", UP, full_pack(n, c, false));
            there_and_back("full", UP, full_pack(n, c, true));
            tried = form_numbered(2);
            there_and_back("empty", DOWN, empty_pack(n + 1, c));
            there_and_back("full and linked", DOWN, full_pack(n + 1, c, false));
            there_and_back("full", DOWN, full_pack(n + 1, c, true));
        }
}

/* Packs by chance: contiguous and linked files, scattered, some open, of any protect code, and free bodies between. */
static void packs_by_chance(void)
{
    for (size_t i = 0; i < 300; i++) {
        const size_t n = 16 + chance(i % 10 ? 60 : 1009), c = 1 + chance(8), files = chance(16 * c + 1);
        tried = form_numbered(1);
        there_and_back("by chance", UP, chance_pack(source, n, c, files));
        tried = form_numbered(2);
        there_and_back("by chance", DOWN, chance_pack(source, n + 1, c, files));
    }
}

/* ---- What is seen by itself ---- */

/* A contiguous body begins with a word that would be a link, a linked file's last link is 0, and a free body has a number. */
static void words_in_bodies(void)
{
    const size_t scattered[] = { 9, 5, 12 };

    tried = form_numbered(1);
    const size_t length = empty_pack(16, 1);
    put_contiguous(source, 0, key_of("ROW   ", "   ", ME), 6, 2);
    put_linked(source, 1, key_of("LINK  ", "   ", ME), scattered, 3);
    put_linked(source, 2, key_of("NONE  ", "   ", ME), NULL, 0);
    set_open(source, 0, 1, 3);
    set_open(source, 1, 3, 60);
    set_link(source, 6, 9);
    set_link(source, 15, 5);
    CHECK_NUMBER(try_move("words", UP, length, 512 * 17), 0, "words in bodies");

    CHECK_NUMBER(get_word(target, FORM), 2, "form");
    CHECK_NUMBER(get_word(target, BLOCKS), 17, "n");
    CHECK_NUMBER(get_word(target, CONTENTS), 1, "c");
    CHECK_NUMBER(get_field(target, 0, FIRST), 7, "first block of the row");
    CHECK_NUMBER(get_field(target, 0, LAST), 8, "last block of the row");
    CHECK_NUMBER(get_field(target, 0, WRITER), 1, "writer of the row");
    CHECK_NUMBER(get_field(target, 0, READERS), 3, "readers of the row");
    CHECK_NUMBER(get_field(target, 1, FIRST), 10, "first linked block");
    CHECK_NUMBER(get_field(target, 1, LAST), 13, "last linked block");
    CHECK_NUMBER(get_field(target, 1, READERS), 60, "readers of the chain");
    CHECK_NUMBER(get_field(target, 2, FIRST), 0, "first of an empty file");
    CHECK_NUMBER(get_field(target, 2, LAST), 0, "last of an empty file");
    CHECK_NUMBER(get_link(target, 7), 9, "word 0 of a contiguous body");
    CHECK_NUMBER(get_link(target, 10), 6, "a link");
    CHECK_NUMBER(get_link(target, 6), 13, "the next");
    CHECK_NUMBER(get_link(target, 13), 0, "the last link");
    CHECK_NUMBER(get_link(target, 16), 5, "word 0 of a free body");
    CHECK_NUMBER(get_word(target, 512), 1 << 0 | 1 << 1 | 1 << 2 | 1 << 6 | 1 << 7 | 1 << 8 | 1 << 10 | 1 << 13, "word 0 of the map");
    CHECK_NUMBER(get_word(target, 513), 0, "word 1 of the map");
}

/* ---- Refusals ---- */

/* "41, target of the wrong size": a byte, a word or a block too short or too long, the source's own size, none. */
static void target_sizes(void)
{
    for (size_t way = UP; way <= DOWN; way++) {
        tried = form_numbered(way == UP ? 1 : 2);
        const size_t length = full_pack(20, 1, true), right = way == UP ? length + 512 : length - 512;
        const size_t wrong[] = { 0, 1, 512, right - 512, right - 128, right - 2, right - 1, right + 1, right + 2, right + 128, right + 512 };
        for (size_t i = 0; i < COUNT(wrong); i++)
            CHECK_NUMBER(try_move("size of the target", way, length, wrong[i]), 041, "%s: target of %zu", way_names[way], wrong[i]);
        CHECK_NUMBER(try_move("size of the target", way, length, right), 0, "%s: target of %zu", way_names[way], right);
    }
}

/* "or a form 2 pack whose n - 1 is not 16 to 1024 or whose c is over 8": the size of the target may be right all the same. */
static void measures_of_form_2(void)
{
    static const size_t cases[][3] = { { 16, 1, 041 },   { 17, 1, 0 },   { 1025, 1, 0 },    { 1026, 1, 041 }, { 1026, 8, 041 },
                                       { 16, 8, 041 },   { 17, 8, 0 },   { 1025, 8, 0 },    { 17, 9, 041 },   { 40, 9, 041 },
                                       { 1025, 9, 041 }, { 40, 32, 041 }, { 1025, 32, 041 }, { 2048, 8, 041 }, { 4096, 32, 041 } };

    tried = form_numbered(2);
    for (size_t i = 0; i < COUNT(cases); i++) {
        const size_t n = cases[i][0], c = cases[i][1], length = empty_pack(n, c);
        CHECK_NUMBER(try_move("measures", DOWN, length, 512 * (n - 1)), cases[i][2], "n = %zu, c = %zu", n, c);
        CHECK_NUMBER(try_move("measures", DOWN, length, 512 * n), 041, "n = %zu, c = %zu, a block too long", n, c);
    }
}

/* "40, source not consistent or not of that form", whatever the target is. */
static void other_sources(void)
{
    for (size_t i = 0; i < FORMS; i++) {
        tried = &forms[i];
        const size_t n = 40, length = chance_pack(source, n, 2, 8), number = tried->number;
        for (size_t way = UP; way <= DOWN; way++) {
            const bool right = number == (way == UP ? 1 : 2);
            CHECK_NUMBER(try_move("form", way, length, tried->block * moved(way, n)), right ? 0 : 040, "%s: form %zu", way_names[way], number);
            CHECK_NUMBER(try_move("form", way, length, 1), right ? 041 : 040, "%s: form %zu, target too short", way_names[way], number);
        }
    }
}

/* One word of a pack changed, or its length: 40 wherever we judge so, before all else. */
static void damaged_sources(void)
{
    static uint8_t sound[ROOM];
    size_t refused = 0;

    for (size_t i = 0; i < 3000; i++) {
        const size_t way = i % WAYS, n = 17 + chance(24);
        tried = form_numbered(way == UP ? 1 : 2);
        size_t length = chance_pack(sound, n, 1 + chance(2), 16);
        memcpy(source, sound, length);
        if (i % 5 == 0)
            length = chance(2) ? chance(length) : length + 1 - 2 * chance(2);
        else
            set_word(source, chance((i % 3 ? system_bytes(sound) : length) / 2), chance(2) ? chance(65536) : chance(n + 2));
        refused += try_move("damaged", way, length, 512 * moved(way, n) - chance(2)) == 040;
    }
    CHECK_NUMBER(refused > 1000, true, "damaged packs: %zu refused", refused);
    for (size_t short_len = 0; short_len < 40; short_len++)
        for (size_t way = UP; way <= DOWN; way++) {
            memcpy(source, sound, 512 * 17);
            CHECK_NUMBER(try_move("short", way, short_len, 512 * 17), 040, "%s: source of %zu bytes", way_names[way], short_len);
        }
}

int main(void)
{
    sizes();
    packs_by_chance();
    words_in_bodies();
    target_sizes();
    measures_of_form_2();
    other_sources();
    damaged_sources();
    for (size_t way = UP; way <= DOWN; way++)
        CHECK_NUMBER(given[way][0] > 0 && given[way][040] > 0 && given[way][041] > 0, true, "%s: every code", way_names[way]);
    return check_end("moves");
}
