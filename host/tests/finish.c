/*
 * Finish, document 02 §12, held to requests.h, and to the library itself: its DELETs one after another leave the same
 * image, and a second Finish has nothing left to do.
 */
#include "requests.h"

static uint8_t pack[ROOM];

/* How many files were removed in all, and how many times there was none to be removed. */
static size_t removed, idle;

/* The DELETs of the files that are due, in stored order: each is done, and they leave what Finish left. */
static void deletes_one_by_one(const char *name, size_t number, size_t length, size_t caller)
{
    static uint8_t deleted[ROOM];
    size_t count = 0;

    memcpy(deleted, kept + GUARD, length);
    for (size_t entry = 0; entry < entry_count(kept + GUARD); entry++) {
        const file_key key = entry_key(kept + GUARD, entry);
        if (!is_scratch(kept + GUARD, entry, caller))
            continue;
        CHECK_NUMBER(abz_delet(deleted, length, caller, FILE4(key)), 0, "%s %zu: DELET of entry %zu", name, number,
                     entry);
        count++;
    }
    CHECK_BYTES(image, deleted, length, "%s %zu: what the DELETs leave", name, number);
    removed += count;
    idle += count == 0;
}

/* What was not removed has the same words and bytes, and only the blocks of what was are free. */
static void leaves_the_rest(const char *name, size_t number, size_t length, size_t caller)
{
    static block_owner before[BLOCKS_MOST], after[BLOCKS_MOST];

    CHECK_NUMBER(judge(kept + GUARD, length, before), true, "%s %zu: consistent before", name, number);
    CHECK_NUMBER(judge(image, length, after), true, "%s %zu: consistent after", name, number);
    for (size_t block = 0; block < get_word(image, BLOCKS); block++) {
        const bool goes = before[block].kind == HELD && is_scratch(kept + GUARD, before[block].entry, caller);
        CHECK_NUMBER(after[block].kind, goes ? FREE : before[block].kind, "%s %zu: whose block %zu is", name, number,
                     block);
    }
    CHECK_BYTES(image + system_bytes(image), kept + GUARD + system_bytes(image), length - system_bytes(image),
                "%s %zu: bodies", name, number);
}

/* A Finish on the image, and where it is done all that is said of one. Returns how many files it removed. */
static size_t try_finish(const char *name, size_t number, size_t length, size_t caller)
{
    const request it = { .what = FINISH, .caller = caller };
    const size_t files = removed;

    if (try_request(name, number, length, it) != 0)
        return 0;
    deletes_one_by_one(name, number, length, caller);
    leaves_the_rest(name, number, length, caller);

    const abz_answer again = abz_finish(image, length, caller);
    CHECK_NUMBER(again.code, 0, "%s %zu: code of a second Finish", name, number);
    CHECK_NUMBER(again.number, 0, "%s %zu: number of a second Finish", name, number);
    CHECK_BYTES(lent, wanted, GUARD + length + GUARD, "%s %zu: image after a second Finish", name, number);
    return removed - files;
}

/* Written out, with no model between: a file of each sort, and which of them are left. */
enum {
    SCRATCH, KEPT, READ, UPDATED, EXTENDED, BIT_6, FREE_FOR_ALL, FREE_FOR_GROUP, NO_BLOCKS, OWNERS_ONLY, HOLE, LAST_ONE,
    SORTS
};

static size_t make_sorts(uint8_t *bytes)
{
    const size_t two[] = { small(9), small(7) }, one[] = { small(12) }, another[] = { small(14) };

    chance_bytes(bytes, tried->block * small(32));
    const size_t length = make_pack(bytes, small(32), contents_like(1), users, COUNT(users));
    put_contiguous(bytes, SCRATCH, key_of("A     ", "   ", ME), small(2), 3);
    put_linked(bytes, KEPT, key_of("B     ", "   ", ME), two, 2);
    set_field(bytes, KEPT, PROTECT, 0200);
    put_contiguous(bytes, READ, key_of("C     ", "   ", ME), small(15), 1);
    set_open(bytes, READ, 0, 1);
    put_contiguous(bytes, UPDATED, key_of("D     ", "   ", ME), small(16), 2);
    set_open(bytes, UPDATED, 1, 0);
    put_linked(bytes, EXTENDED, key_of("E     ", "   ", ME), one, 1);
    set_open(bytes, EXTENDED, 3, 2);
    put_contiguous(bytes, BIT_6, key_of("F     ", "   ", ME), small(18), 1);
    set_field(bytes, BIT_6, PROTECT, 0100);
    put_contiguous(bytes, FREE_FOR_ALL, key_of("A     ", "   ", OTHER), small(19), 1);
    put_contiguous(bytes, FREE_FOR_GROUP, key_of("A     ", "   ", GROUP), small(20), 1);
    set_field(bytes, FREE_FOR_GROUP, PROTECT, 7);
    put_linked(bytes, NO_BLOCKS, key_of("G     ", "DAT", ME), NULL, 0);
    put_linked(bytes, OWNERS_ONLY, key_of("H     ", "DAT", ME), another, 1);
    set_field(bytes, OWNERS_ONLY, PROTECT, 077);
    put_contiguous(bytes, LAST_ONE, key_of("I     ", "DAT", ME), small(31), 1);
    return length;
}

static void sorts(void)
{
    static const bool mine[SORTS] = { [SCRATCH] = true, [NO_BLOCKS] = true, [OWNERS_ONLY] = true, [LAST_ONE] = true };
    const size_t length = make_sorts(image);
    abz_answer answer;

    CHECK_NUMBER(abz_owner(image, length, small(3)).kind, ABZ_HELD, "sorts: block 3 before");
    answer = abz_finish(image, length, ME);
    CHECK_NUMBER(answer.code, 0, "sorts: code");
    CHECK_NUMBER(answer.number, 4, "sorts: number");
    for (size_t entry = 0; entry < SORTS; entry++)
        CHECK_NUMBER(used(image, entry), entry != HOLE && !mine[entry], "sorts: whether entry %zu is left", entry);
    CHECK_NUMBER(abz_owner(image, length, small(3)).kind, ABZ_FREE, "sorts: block 3");
    CHECK_NUMBER(abz_owner(image, length, small(14)).kind, ABZ_FREE, "sorts: block 14");
    CHECK_NUMBER(abz_owner(image, length, small(31)).kind, ABZ_FREE, "sorts: block 31");
    CHECK_NUMBER(abz_owner(image, length, small(7)).place, 1, "sorts: place of block 7");
    CHECK_NUMBER(abz_owner(image, length, small(19)).kind, ABZ_HELD, "sorts: block 19");
    answer = abz_finish(image, length, ME);
    CHECK_NUMBER(answer.code, 0, "sorts: code of a second Finish");
    CHECK_NUMBER(answer.number, 0, "sorts: number of a second Finish");

    /* Closed, they are scratch files too; kept ones never are. */
    set_open(image, READ, 0, 0);
    CHECK_NUMBER(abz_finish(image, length, ME).number, 1, "sorts: number after a CLOSE");
    CHECK_NUMBER(used(image, READ), false, "sorts: whether the closed file is left");
    CHECK_NUMBER(abz_finish(image, length, OTHER).number, 1, "sorts: number of the other");
    CHECK_NUMBER(abz_finish(image, length, GROUP).number, 1, "sorts: number of the group's");
    CHECK_NUMBER(used(image, FREE_FOR_ALL) || used(image, FREE_FOR_GROUP), false, "sorts: theirs");

    make_sorts(pack);
    for (size_t caller = 0; caller < COUNT(users); caller++) {
        memcpy(image, pack, length);
        try_finish("sorts", caller, length, users[caller]);
    }
}

/* Every protect code with every way of being open, for the owner and for others. */
static void states(void)
{
    static const size_t callers[] = { ME, GROUP, OTHER, 0, ME + 65536, 023 * 256, 022 * 256 + 010, SIZE_MAX };
    static const size_t writers[] = { 0, 0, 0, 2, 3, 3 }, readers[] = { 0, 1, 62, 0, 0, 61 };
    const size_t blocks[] = { small(6) }, length = make_small_pack(pack, users, COUNT(users));

    put_linked(pack, 3, key_of("ABC   ", "   ", ME), blocks, 1);
    for (size_t c = 0; c < COUNT(callers); c++)
        for (size_t protect = 0; protect < 256; protect++)
            for (size_t w = 0; w < COUNT(writers); w++) {
                memcpy(image, pack, length);
                set_field(image, 3, PROTECT, protect);
                set_open(image, 3, writers[w], readers[w]);
                CHECK_NUMBER(try_finish("protect code", protect, length, callers[c]),
                             callers[c] == ME && (protect & 0300) == 0 && w == 0, "protect code %zo of %zu, open %zu",
                             protect, callers[c], w);
            }
}

/* Callers who have no files: 0, whose UIC every empty entry has, and such as are in no list. */
static void nobody(void)
{
    static const size_t callers[] = { 0, 1, 65535, GROUP + 1 };

    for (size_t i = 0; i < 60; i++) {
        const size_t length = i % 2 ? make_sorts(image) : make_pack(image, 16, 1 + i % 8, users, i % 4);
        for (size_t c = 0; c < COUNT(callers); c++)
            CHECK_NUMBER(try_finish("nobody", i, length, callers[c]), 0, "nobody: files of %zu", callers[c]);
        for (size_t h = 0; h < COUNT(huge); h++)
            CHECK_NUMBER(try_finish("nobody", i, length, huge[h]), 0, "nobody: files of %zu", huge[h]);
    }
}

/* Contents that are full, with all of the files the caller's, none, or some of them. */
static void full_contents(void)
{
    for (size_t c = tried->contents_least; c <= tried->contents_most; c += tried->entries * c < 128 ? 1 : 8)
        for (size_t sort = 0; sort < 6; sort++) {
            const size_t entries = tried->entries * c, first = first_body(tried, c);
            const size_t length = make_pack(image, first + entries + 16, c, users, COUNT(users));
            size_t due = 0;

            for (size_t entry = 0; entry < entries; entry++) {
                const bool goes = sort == 0 || (sort == 2 && entry == 0) || (sort == 3 && entry == entries - 1)
                                  || (sort == 4 && entry % 2) || (sort == 5 && chance(2));
                file_key key = key_of("AAA   ", "   ", goes ? ME : users[1 + chance(2)]);
                key.name2 = 1600 * (1 + entry / 26) + 40 * (1 + entry % 26);
                put_contiguous(image, entry, key, first + entry, 1);
                due += goes;
            }
            CHECK_NUMBER(try_finish("full contents", 10 * c + sort, length, ME), due, "full contents %zu %zu", c, sort);
        }
}

/* Packs by chance, on which everyone finishes. */
static void by_chance(void)
{
    for (size_t i = 0; i < 200; i++) {
        const size_t c = 1 + chance(i % 16 ? contents_like(8) : tried->contents_most);
        const size_t n = first_body(tried, c) + 14 + chance(i % 10 ? 100 : 900);
        size_t files = chance(tried->entries * c + 1), length;

        length = chance_pack(image, n, c, files < 90 ? files : 90);
        if (i % 4)
            ease(image);
        for (size_t u = 0; u < get_word(image, UICS); u++)
            try_finish("pack by chance", i, length, get_word(image, UIC_LIST + u));
        for (size_t entry = 0; entry < entry_count(image); entry++)
            if (used(image, entry))
                CHECK_NUMBER(is_scratch(image, entry, get_field(image, entry, UIC)), false,
                             "pack by chance %zu: whether entry %zu could still go", i, entry);
    }
}

int main(void)
{
    EACH_FORM {
        sorts();
        states();
        nobody();
        full_contents();
        by_chance();
        damaged_images(FINISH, FINISH + 1, 400);
    }
    check_given(FINISH, FINISH + 1);
    CHECK_NUMBER(removed > 2000, true, "files removed: %zu", removed);
    CHECK_NUMBER(idle > 2000, true, "Finish with nothing to do: %zu", idle);
    return check_end("finish");
}
