/* ALLOC and OPENO, held to requests.h; and all requests one after another on packs that so grow and shrink. */
#include "requests.h"

/* A name for each number below 100. */
static file_key numbered(size_t number, size_t uic)
{
    char name[] = "F00   ";

    name[1] = (char)('0' + number / 10);
    name[2] = (char)('0' + number % 10);
    return key_of(name, "   ", uic);
}

static size_t make_empty(uint8_t *pack, size_t n, size_t c)
{
    memset(pack, 0xA5, tried->block * n);
    return make_pack(pack, n, c, users, COUNT(users));
}

static size_t make_small_empty(uint8_t *pack)
{
    return make_empty(pack, small(16), contents_like(1));
}

/* Linked files with no block in all entries but so many. */
static void fill_entries(uint8_t *pack, size_t spared)
{
    for (size_t entry = 0; entry < entry_count(pack) - spared; entry++)
        put_linked(pack, entry, numbered(entry, OTHER), NULL, 0);
}

static void expect_alloc(size_t length, size_t segments, size_t code, size_t first)
{
    abz_answer answer = abz_alloc(image, length, ME, 10325, 27200, 6460, 0, 3, segments);

    CHECK_NUMBER(answer.code, code, "example: ALLOC of %zu, code", segments);
    CHECK_NUMBER(answer.number, first, "example: ALLOC of %zu, first block", segments);
}

/* Document 01's, written out, with no model between: 9 segments, which are 3 blocks in form 1. */
static void listing_example(void)
{
    static const uint8_t entry[32] = { 0125, 050, 0100, 0152, 074, 031, 010, 023, 3, 0, 1, 0, 13, 0, 3, 0, 15, 0 };
    const size_t length = make_small_empty(image), body = tried->block * 13;

    expect_alloc(length, 9, 0, 13);
    CHECK_BYTES(image + tried->block, entry, sizeof entry, "example: ALLOC of 9, entry");
    CHECK_NUMBER(image[body - 1], 0xA5, "example: ALLOC of 9, the byte before its body");
    CHECK_NUMBER(image[body], 0, "example: ALLOC of 9, body");
    CHECK_NUMBER(image[length - 1], 0, "example: ALLOC of 9, the last byte of its body");
}

/* On the 64-word disk a segment is a block, written out too. */
static void segment_example(void)
{
    static const uint8_t entry[32] = { 0125, 050, 0100, 0152, 074, 031, 010, 023, 3, 0, 1, 0, 7, 0, 9, 0, 15, 0 };
    static const uint8_t uics[] = { 010, 023 };

    memset(image, 0xA5, 128 * 16);
    CHECK_NUMBER(abz_format(image, 128 * 16, 3, 16, 1, uics, sizeof uics), 0, "example: format of form 3");
    expect_alloc(128 * 16, 15, 042, 0);
    expect_alloc(128 * 16, 9, 0, 7);
    CHECK_BYTES(image + 128, entry, sizeof entry, "example: ALLOC of 9 in form 3, entry");
    CHECK_NUMBER(image[128 * 7 - 1], 0xA5, "example: ALLOC of 9 in form 3, the byte before its body");
    CHECK_NUMBER(image[128 * 7], 0, "example: ALLOC of 9 in form 3, body");
    CHECK_NUMBER(image[128 * 16 - 1], 0, "example: ALLOC of 9 in form 3, the last byte of its body");
}

/* 14 blocks are free, or there is no entry. */
static void alloc_examples(void)
{
    const size_t all = 14 * tried->segments;
    const size_t refused[] = { all + 1, all + 2, all + 4, all + 5, all + 8, 65535, 65536, 65536 + 4, SIZE_MAX / 4 + 2,
                               SIZE_MAX - 3, SIZE_MAX - 2, SIZE_MAX - 1, SIZE_MAX };
    size_t length;

    for (size_t segments = all - tried->segments + 1; segments <= all; segments++) {
        length = make_small_empty(image);
        expect_alloc(length, segments, 0, small(2));
        expect_alloc(length, 1, 2, 0);
    }
    length = make_small_empty(image);
    for (size_t i = 0; i < COUNT(refused); i++)
        expect_alloc(length, refused[i], 042, 0);
    expect_alloc(length, 0, 041, 0);

    /* The directory is full and there is no room; the same with room. */
    length = make_small_empty(image);
    fill_entries(image, 0);
    expect_alloc(length, all + 1, 012, 0);
    expect_alloc(length, SIZE_MAX, 012, 0);
    expect_alloc(length, 1, 012, 0);
    CHECK_NUMBER(abz_openo(image, length, ME, 10325, 27200, 6460, 0, 0), 012, "example: OPENO, directory full");
}

static void openo_examples(void)
{
    static const uint8_t open_entry[32] = { 0125, 050, 0100, 0152, 074, 031, 010, 023, 0377, 0, 2, 0,
                                            0,    0,   0,    0,    0,   0,   2,   0 };
    const size_t length = make_small_empty(image);

    /* OPENO needs an entry but no block. */
    put_contiguous(image, 1, numbered(0, ME), small(2), 14);
    expect_alloc(length, 1, 042, 0);
    CHECK_NUMBER(abz_openo(image, length, ME, 10325, 27200, 6460, ME, 0377), 0, "example: OPENO, no block free");
    CHECK_BYTES(image + tried->block, open_entry, sizeof open_entry, "example: OPENO, entry");
    CHECK_NUMBER(abz_openo(image, length, ME, 10325, 27200, 6460, 0, 256), 041, "example: OPENO, protect 256");
    CHECK_NUMBER(abz_openo(image, length, ME, 10325, 27200, 6460, 0, 0), 2, "example: OPENO again");
    CHECK_NUMBER(abz_openi(image, length, ME, 10325, 27200, 6460, 0), 2, "example: OPENI of a file open for output");
    CHECK_NUMBER(abz_close(image, length, ME, 10325, 27200, 6460, 0, 2), 0, "example: CLOSE");
    CHECK_NUMBER(abz_openi(image, length, ME, 10325, 27200, 6460, 0), 0, "example: OPENI");

    /* Under another's UIC, and under one that is not listed. */
    CHECK_NUMBER(abz_openo(image, length, ME, 1600, 0, 0, GROUP, 0), 6, "example: OPENO for another");
    CHECK_NUMBER(abz_openo(image, length, 7, 1600, 0, 0, 7, 0), 013, "example: OPENO for one not listed");
    CHECK_NUMBER(abz_openo(image, length, 0, 1600, 0, 0, 0, 0), 013, "example: OPENO for nobody");
    CHECK_NUMBER(abz_openo(image, length, ME + 65536, 1600, 0, 0, 0, 0), 013, "example: OPENO for one beyond 16 bits");
}

/* A run of blocks that has just been taken: all of it is zero, and reads so. */
static void reads_cleared(size_t length, size_t first, size_t count)
{
    static const uint8_t zeros[BLOCK_MOST];
    uint8_t buffer[BLOCK_MOST];

    CHECK_NUMBER(abz_openi(image, length, ME, 10325, 27200, 6460, 0), 0, "run of %zu from %zu, OPENI", count, first);
    for (size_t place = 0; place < count; place++) {
        memset(buffer, 0xA5, sizeof buffer);
        CHECK_NUMBER(abz_block_in(image, length, ME, 10325, 27200, 6460, 0, place, buffer, tried->block), 0,
                     "run of %zu from %zu, place %zu, code", count, first, place);
        CHECK_BYTES(buffer, zeros, tried->block, "run of %zu from %zu, place %zu", count, first, place);
        CHECK_BYTES(image + tried->block * (first + place), zeros, tried->block, "run of %zu from %zu, block at %zu",
                    count, first, place);
    }
}

/* The blocks on both sides of it are what they were, and a refused ALLOC clears nothing. */
static void cleared_run(size_t first, size_t count)
{
    static uint8_t before[SMALL_ROOM];
    const size_t length = make_small_empty(image), bodies = system_bytes(image), entry = tried->block + ABZ_ENTRY_BYTES;
    const size_t below = tried->block * first, above = tried->block * (first + count);
    const size_t contents_end = tried->block * (1 + contents_like(1));

    for (size_t i = bodies; i < length; i++)
        image[i] = (uint8_t)(1 + chance(255));
    put_contiguous(image, 3, numbered(1, OTHER), small(2), first - small(2));
    put_contiguous(image, 4, numbered(2, OTHER), first + count, small(16) - (first + count));
    memcpy(before, image, length);

    expect_alloc(length, tried->segments * count + 1, 042, 0);
    expect_alloc(length, 0, 041, 0);
    CHECK_BYTES(image, before, length, "refused, run of %zu from %zu", count, first);

    expect_alloc(length, tried->segments * count - first % tried->segments, 0, first);
    CHECK_BYTES(image, before, tried->block, "run of %zu from %zu, block 0", count, first);
    CHECK_BYTES(image + entry, before + entry, contents_end - entry, "run of %zu from %zu, contents", count, first);
    CHECK_BYTES(image + bodies, before + bodies, below - bodies, "run of %zu from %zu, below", count, first);
    CHECK_BYTES(image + above, before + above, length - above, "run of %zu from %zu, above", count, first);
    reads_cleared(length, first, count);
}

/* Document 02 §2, on packs full of rubbish, with no model between: every run that lies between two files. */
static void cleared_runs(void)
{
    for (size_t first = small(3); first < small(15); first++)
        for (size_t count = 1; first + count < small(16); count++)
            cleared_run(first, count);
}

/* Every pattern of held and free blocks in 9 of them, with every number of segments that could fit, and some more. */
static void free_runs(void)
{
    static uint8_t pack[SMALL_ROOM];

    for (size_t pattern = 0; pattern < 1 << 9; pattern++) {
        size_t length = make_small_empty(pack), blocks[16], count = 0;
        for (size_t block = 2; block < 16; block++)
            if (block < 11 ? pattern >> (block - 2) & 1 : block < 15)
                blocks[count++] = small(block);
        put_linked(pack, 5, numbered(1, OTHER), blocks, count);
        for (size_t segments = 0; segments <= 40; segments++) {
            request it = { .what = ALLOC, .caller = ME, .file = numbered(0, 0), .segments = segments };
            it.protect = pattern % 256;
            memcpy(image, pack, length);
            try_request("pattern", pattern, length, it);
        }
    }
}

/* Several causes at once: of each argument a right value and wrong ones, the directory full or not, room or none. */
static void causes(void)
{
    static const size_t uics[] = { 0, ME, GROUP, OTHER, 7, 65536 + ME }, protects[] = { 0, 255, 256 };
    static const size_t segments[] = { 0, 1, 8, SIZE_MAX };
    const file_key names[] = { numbered(0, 0), numbered(50, 0), { 1600 * 27, 0, 0, 0 }, { 1600, 0, 64000, 0 } };
    static uint8_t pack[SMALL_ROOM];

    for (size_t state = 0; state < 4; state++) {
        size_t length = make_small_empty(pack);
        fill_entries(pack, state & 1 ? 0 : 3);
        put_linked(pack, 1, numbered(0, ME), NULL, 0);
        put_contiguous(pack, 2, numbered(0, GROUP), small(2), state & 2 ? 14 : 13);
        for (size_t what = ALLOC; what <= OPENO; what++)
            for (size_t caller = 0; caller < COUNT(uics); caller++)
                for (size_t uic = 0; uic < COUNT(uics); uic++)
                    for (size_t name = 0; name < COUNT(names); name++)
                        for (size_t p = 0; p < COUNT(protects); p++)
                            for (size_t s = 0; s < COUNT(segments); s++) {
                                request it = { .what = what, .caller = uics[caller], .file = names[name] };
                                it.file.uic = uics[uic];
                                it.protect = protects[p];
                                it.segments = segments[s];
                                memcpy(image, pack, length);
                                try_request("state", state, length, it);
                            }
    }
}

/* Files until the directory is full, or the pack; the lowest empty entry each time, also of one that was deleted. */
static void filling(void)
{
    static const struct {
        size_t n, c, what, files, code;
    } packs[] = {
        { 16, 1, ALLOC, 14, 042 }, { 17, 1, ALLOC, 15, 042 }, { 18, 1, ALLOC, 16, 012 },  { 40, 1, ALLOC, 16, 012 },
        { 16, 8, ALLOC, 7, 042 },  { 60, 3, ALLOC, 48, 012 }, { 16, 1, OPENO, 16, 012 },  { 900, 4, OPENO, 64, 012 },
    };

    for (size_t i = 0; i < COUNT(packs); i++) {
        const size_t c = packs[i].c, n = block_like(c, packs[i].n);
        size_t length = make_empty(image, n, contents_like(c)), files = 0, code;
        request it = { .what = packs[i].what, .caller = ME, .segments = 1 };
        do {
            it.file = numbered(files, 0);
            code = try_request("filling", i, length, it);
            files += code == 0;
        } while (code == 0 && files < 100);
        CHECK_NUMBER(files, packs[i].files, "filling %zu: files", i);
        CHECK_NUMBER(code, packs[i].code, "filling %zu: code", i);
        CHECK_NUMBER(find_below(image, numbered(files - 1, ME), files), files - 1, "filling %zu: last entry", i);

        /* Entries 2 to 4 become empty, and with ALLOC three blocks free, of which two are taken then. */
        for (size_t gone = 2; gone < 5; gone++) {
            request delet = { .what = packs[i].what == OPENO ? CLOSE : DELET, .caller = ME, .mode = 2 };
            delet.file = numbered(gone, ME);
            try_request("making room", i, length, delet);
            delet.what = DELET;
            try_request("making room", i, length, delet);
        }
        it.file = numbered(99, 0);
        it.segments = tried->segments + 1;
        CHECK_NUMBER(try_request("filling a gap", i, length, it), 0, "filling a gap %zu", i);
        CHECK_NUMBER(find_below(image, numbered(99, ME), files), 2, "filling a gap %zu: entry", i);
    }
}

static void huge_everywhere(void)
{
    static uint8_t pack[SMALL_ROOM];
    const size_t length = make_small_empty(pack);

    for (size_t what = ALLOC; what <= OPENO; what++) {
        request it = { .what = what, .caller = ME, .file = numbered(1, ME), .protect = 3, .segments = 9 };
        huge_numbers(it, pack, length);
        it.file.uic = 0;
        huge_numbers(it, pack, length);
    }
}

static void large_packs(void)
{
    for (size_t pack = 0; pack < 3; pack++) {
        size_t length = chance_pack(image, tried->blocks_most - pack, tried->contents_most, 90);
        for (size_t i = 0; i < 40; i++)
            try_request("large pack", pack, length, chance_request(ALLOC + i % 2, image));
    }

    /* The largest file there is. */
    const size_t n = tried->blocks_most, length = make_empty(image, n, 1);
    request it = { .what = ALLOC, .caller = ME, .file = numbered(1, 0) };
    it.segments = tried->segments * (n - first_body(tried, 1)) + 1;
    CHECK_NUMBER(try_request("largest", 1, length, it), 042, "one segment too many");
    it.segments--;
    CHECK_NUMBER(try_request("largest", 0, length, it), 0, "the largest file");
}

/* A name for each number below 1000. */
static file_key of_many(size_t number)
{
    char name[] = "M000  ";

    for (size_t i = 3; i > 0; i--, number /= 10)
        name[i] = (char)('0' + number % 10);
    return key_of(name, "   ", ME);
}

/* Adds to a linked file until no block is free. Returns how many were added. */
static size_t add_all(size_t length, file_key key)
{
    request it = { .what = LINKED_ADD, .caller = ME, .file = key, .buffer_len = tried->payload };
    size_t count = 0;

    while (try_request("full pack", count, length, it) == 0)
        count++;
    return count;
}

/* As many blocks, contents and files as there can be, and no block free: a file of 6 blocks in each entry but the last. */
static void full_pack(void)
{
    const size_t n = tried->blocks_most, c = tried->contents_most, files = tried->entries * c;
    const size_t length = make_empty(image, n, c), bodies = n - first_body(tried, c);
    request it = { .what = ALLOC, .caller = ME, .segments = 6 * tried->segments };

    CHECK_NUMBER(files, tried->number == 2 ? 512 : 128, "full pack: files");
    for (size_t i = 0; i + 1 < files; i++) {
        it.file = of_many(i);
        CHECK_NUMBER(try_request("full pack", i, length, it), 0, "full pack: file %zu", i);
    }
    it.what = OPENO;
    it.file = of_many(files - 1);
    CHECK_NUMBER(try_request("full pack", files, length, it), 0, "full pack: the last file");
    CHECK_NUMBER(add_all(length, it.file), bodies - 6 * (files - 1), "full pack: blocks of the last file");
    for (size_t block = 0; block < n; block++)
        CHECK_NUMBER(abz_owner(image, length, block).kind == ABZ_FREE, false, "full pack: block %zu", block);
    CHECK_NUMBER(abz_report(image, length).rule, 0, "full pack: report");

    /* No entry, and no room behind that; where one file goes, there is an entry, and its blocks are room. */
    it.file = of_many(files);
    CHECK_NUMBER(try_request("full pack", files, length, it), 012, "full pack: OPENO");
    it.what = ALLOC;
    CHECK_NUMBER(try_request("full pack", files, length, it), 012, "full pack: ALLOC");
    request delet = { .what = DELET, .caller = ME, .file = of_many(77) };
    CHECK_NUMBER(try_request("full pack", 77, length, delet), 0, "full pack: DELET");
    it.segments++;
    CHECK_NUMBER(try_request("full pack", files, length, it), 042, "full pack: ALLOC of too much");
    it.segments--;
    CHECK_NUMBER(try_request("full pack", files, length, it), 0, "full pack: ALLOC of what went");
    CHECK_NUMBER(find_below(image, it.file, files), 77, "full pack: its entry");
}

int main(void)
{
    listing_example();
    segment_example();
    EACH_FORM {
        alloc_examples();
        openo_examples();
        cleared_runs();
        free_runs();
        causes();
        filling();
        huge_everywhere();
        chance_requests(ALLOC, REQUESTS, 200, 20);
        chance_requests(OPENI, REQUESTS, 200, 60);
        damaged_images(ALLOC, REQUESTS, 60);
        other_forms(ALLOC, REQUESTS);
        large_packs();
        full_pack();
        check_given(ALLOC, REQUESTS);
    }
    return check_end("creating");
}
