/* Format, LOOK, and whose a block is, held to the judgement of image.h. */
#include "abezolit.h"

#include "check.h"
#include "image.h"

enum {
    GUARD = 16,
    ROOM = IMAGE_MOST + 8 * BLOCK_MOST,
    UICS_ROOM = 2 * (65536 + 66), /* so that the count of UICs can be wrong in its high bits alone */
    ME = 023 * 256 + 010,
    OTHER = 012 * 256 + 04
};

#define COUNT(array) (sizeof(array) / sizeof *(array))

/* Among them numbers that are in order in their low 16 or 32 bits, or when multiplied by a measure of the pack. */
static const size_t huge[] = {
    65535, 65536, 65537, 65536 + 16, UINT32_MAX, (size_t)UINT32_MAX + 1, (size_t)UINT32_MAX + 2,
    (size_t)UINT32_MAX + 17, SIZE_MAX / BLOCK_MOST, SIZE_MAX / BLOCK_MOST + 1, SIZE_MAX / BLOCK_MOST + 2,
    SIZE_MAX / BLOCK_MOST + 17, SIZE_MAX / ABZ_BLOCK_BYTES_3 + 1, SIZE_MAX / ABZ_BLOCK_BYTES_3 + 17,
    SIZE_MAX / ABZ_ENTRY_BYTES + 1, SIZE_MAX / ABZ_ENTRY_BYTES + 17, SIZE_MAX / 2,
    SIZE_MAX / 2 + 1, SIZE_MAX - 1, SIZE_MAX
};

/* A lent slice has guards on both sides and is compared with them. What to expect is told from the kept copy. */
static uint8_t lent[GUARD + ROOM + GUARD], kept[sizeof lent], filling[sizeof lent];
static uint8_t lent_uics[GUARD + UICS_ROOM + GUARD], kept_uics[sizeof lent_uics];
static uint8_t *const image = lent + GUARD, *const before = kept + GUARD, *const uics = lent_uics + GUARD;

/* Which image is tried, for the messages. */
static const char *name;
static size_t number;

static void call_it(const char *new_name, size_t new_number)
{
    name = new_name;
    number = new_number;
}

#define CASE "%s %zu, length %zu: "
#define CASE_ARGUMENTS name, number, length

static const file_key freq = { 10325, 27200, 6460, ME }; /* FREQ.DAT */

/* ---- Questions to an image ---- */

static void try_look(size_t length, bool consistent, size_t caller, file_key key)
{
    abz_look_answer expected = { 0 };
    file_key meant = key;
    size_t entry;

    if (meant.uic == 0)
        meant.uic = caller;
    if (!consistent) {
        expected.code = ABZ_INCONSISTENT;
    } else if (!legal(meant)) {
        expected.code = ABZ_NAME;
    } else if ((entry = find_below(before, meant, entry_count(before))) == entry_count(before)) {
        expected.code = ABZ_EXISTENCE;
    } else {
        expected.kind = get_field(before, entry, KIND);
        expected.first = get_field(before, entry, FIRST);
        expected.length = get_field(before, entry, LENGTH);
        expected.protect = get_field(before, entry, PROTECT);
        expected.writer = get_field(before, entry, WRITER);
        expected.readers = get_field(before, entry, READERS);
    }

    abz_look_answer answer = abz_look(image, length, caller, key.name1, key.name2, key.extension, key.uic);

#define CHECK_MEMBER(member)                                                                                       \
    CHECK_NUMBER(answer.member, expected.member, CASE "look for %zu at %zu %zu %zu %zu, " #member, CASE_ARGUMENTS, \
                 caller, key.name1, key.name2, key.extension, key.uic)
    CHECK_MEMBER(code);
    CHECK_MEMBER(kind);
    CHECK_MEMBER(first);
    CHECK_MEMBER(length);
    CHECK_MEMBER(protect);
    CHECK_MEMBER(writer);
    CHECK_MEMBER(readers);
#undef CHECK_MEMBER
}

/* owners is NULL where the image is not consistent. */
static void try_owner(size_t length, const block_owner *owners, size_t block)
{
    abz_owner_answer expected = { 0 };

    if (!owners) {
        expected.code = ABZ_INCONSISTENT;
    } else if (block >= get_word(before, BLOCKS)) {
        expected.code = ABZ_NO_BLOCK;
    } else {
        expected.kind = owners[block].kind == SYSTEM ? ABZ_SYSTEM : owners[block].kind == FREE ? ABZ_FREE : ABZ_HELD;
        expected.entry = owners[block].entry;
        expected.place = owners[block].place;
    }

    abz_owner_answer answer = abz_owner(image, length, block);

#define CHECK_MEMBER(member) \
    CHECK_NUMBER(answer.member, expected.member, CASE "owner of %zu, " #member, CASE_ARGUMENTS, block)
    CHECK_MEMBER(code);
    CHECK_MEMBER(kind);
    CHECK_MEMBER(entry);
    CHECK_MEMBER(place);
#undef CHECK_MEMBER
}

/* A file by its own name; by UIC 0, for its owner and for others; and with one of the four numbers changed. */
static void try_looks(size_t length, size_t entry)
{
    file_key key = entry_key(before, entry);
    size_t uic = key.uic, *const parts[] = { &key.name1, &key.name2, &key.extension, &key.uic };
    size_t *const part = parts[chance(4)], old = *part;
    const size_t others[] = { 0, old + 1, old - 1, old + 40, chance(65536), old + 65536, huge[chance(COUNT(huge))] };

    try_look(length, true, 0, key);
    try_look(length, true, SIZE_MAX, key);

    key.uic = 0;
    try_look(length, true, uic, key);
    try_look(length, true, 0, key);
    try_look(length, true, OTHER, key);
    try_look(length, true, uic + 65536, key);
    try_look(length, true, huge[chance(COUNT(huge))], key);
    key.uic = uic;

    for (size_t i = 0; i < COUNT(others); i++) {
        *part = others[i];
        try_look(length, true, uic, key);
    }
}

static void check_kept(size_t length)
{
    CHECK_BYTES(lent, kept, GUARD + length + GUARD, CASE "slice behind %d guard bytes", CASE_ARGUMENTS, GUARD);
}

/* Whether the library's verdict is ours, which is returned. Where it is 40, no other cause shows. */
static bool try_verdict(size_t length, block_owner *owners)
{
    static const file_key illegal = { 64000, SIZE_MAX, 29, SIZE_MAX };

    memcpy(kept, lent, GUARD + length + GUARD);
    bool consistent = judge(before, length, owners);

    try_look(length, consistent, ME, freq);
    try_look(length, consistent, SIZE_MAX, illegal);
    try_owner(length, consistent ? owners : NULL, 0);
    try_owner(length, consistent ? owners : NULL, SIZE_MAX);
    check_kept(length);
    return consistent;
}

/* All that can be asked of an image. */
static bool try_image(size_t length)
{
    static block_owner owners[BLOCKS_MOST];

    if (!try_verdict(length, owners))
        return false;

    for (size_t entry = 0; entry < entry_count(before); entry++)
        if (used(before, entry))
            try_looks(length, entry);
    for (size_t block = 0; block <= get_word(before, BLOCKS) + 1; block++)
        try_owner(length, owners, block);
    for (size_t i = 0; i < COUNT(huge); i++)
        try_owner(length, owners, huge[i]);
    check_kept(length);
    return true;
}

/* The same two where the verdict is known beforehand, so that the judgement is tested as well. */
static void expect_verdict(size_t length, bool consistent)
{
    static block_owner owners[BLOCKS_MOST];

    CHECK_NUMBER(try_verdict(length, owners), consistent, CASE "judged consistent", CASE_ARGUMENTS);
}

static void expect_image(size_t length, bool consistent)
{
    CHECK_NUMBER(try_image(length), consistent, CASE "judged consistent", CASE_ARGUMENTS);
}

/* ---- Format ---- */

static bool format_right(size_t length, const pack_form *form, size_t blocks, size_t contents, size_t uics_len)
{
    size_t u = uics_len / 2;

    if (!form || blocks < form->blocks_least || blocks > form->blocks_most || length != form->block * blocks)
        return false;
    if (contents < form->contents_least || contents > form->contents_most || first_body(form, contents) >= blocks)
        return false;
    if (uics_len % 2 == 1 || u > form->uics_most)
        return false;
    for (size_t i = 0; i < u; i++) {
        if (get_word(uics, i) == 0)
            return false;
        for (size_t j = 0; j < i; j++)
            if (get_word(uics, i) == get_word(uics, j))
                return false;
    }
    return true;
}

/* The UICs are those in the lent slice. Returns whether there is a pack now. */
static bool try_format(size_t length, size_t form, size_t blocks, size_t contents, size_t uics_len)
{
    const pack_form *const chosen = form_numbered(form);
    bool right = format_right(length, chosen, blocks, contents, uics_len);

    memcpy(lent, filling, GUARD + length + GUARD);
    memcpy(kept, filling, GUARD + length + GUARD);
    memcpy(kept_uics, lent_uics, GUARD + uics_len + GUARD);
    if (right) {
        size_t list[UICS_MOST];
        for (size_t i = 0; i < uics_len / 2; i++)
            list[i] = get_word(uics, i);
        make_form(chosen, before, blocks, contents, list, uics_len / 2);
    }

    size_t code = abz_format(image, length, form, blocks, contents, uics, uics_len);

#define FORMAT "format of %zu bytes, form %zu, %zu blocks, contents %zu, %zu bytes of UICs"
#define ARGUMENTS length, form, blocks, contents, uics_len
    CHECK_NUMBER(code, right ? ABZ_OK : ABZ_ARGUMENT, FORMAT ": code", ARGUMENTS);
    CHECK_BYTES(lent, kept, GUARD + length + GUARD, FORMAT ": image behind %d guard bytes", ARGUMENTS, GUARD);
    CHECK_BYTES(lent_uics, kept_uics, GUARD + uics_len + GUARD, FORMAT ": UICs behind %d guard bytes", ARGUMENTS,
                GUARD);
#undef ARGUMENTS
#undef FORMAT
    return right;
}

/* Of 16 blocks, with one of contents. */
static bool format_small(size_t uics_len)
{
    return try_format(tried->block * 16, tried->number, 16, 1, uics_len);
}

static void fill_uics(size_t count)
{
    for (size_t i = 0; i < count; i++)
        set_word(uics, i, 65535 - 1021 * i); /* distinct up to 65536 of them; 0 is none of the first 66 */
}

/* After Format: a consistent pack, of which every body is free. */
static void try_formatted(size_t length, size_t contents)
{
    static block_owner owners[BLOCKS_MOST];
    const size_t blocks = length / tried->block;

    call_it("formatted with contents", contents);
    CHECK_NUMBER(try_verdict(length, owners), true, CASE "judged consistent", CASE_ARGUMENTS);
    for (size_t block = 0; block < blocks; block++) {
        CHECK_NUMBER(owners[block].kind, block < first_body(tried, contents) ? SYSTEM : FREE, CASE "block %zu",
                     CASE_ARGUMENTS, block);
        try_owner(length, owners, block);
    }
    try_owner(length, owners, blocks);
}

/* The next number of blocks to try: all up to 1030 and about the most that there can be, and some between. */
static size_t next_size(size_t n)
{
    const size_t near = tried->blocks_most - 3;

    if (n < 1030 || n >= near)
        return n + 1;
    return n + 211 < near ? n + 211 : near;
}

static void format_sizes(void)
{
    const size_t block = tried->block, form = tried->number;

    fill_uics(66);
    for (size_t n = 0; n <= tried->blocks_most + 6; n = next_size(n)) {
        size_t contents = 1 + n % tried->contents_most, uics_len = 2 * (n % (tried->uics_most + 1)), right = block * n;
        size_t wrong[] = { 0, n, right - 1, right + 1, right - block, right + block, right / 2, right % 65536 };

        if (try_format(right, form, n, contents, uics_len))
            try_formatted(right, contents);
        for (size_t i = 0; i < COUNT(wrong); i++)
            if (wrong[i] <= ROOM) /* and so not below 0 */
                try_format(wrong[i], form, n, contents, uics_len);
    }
}

static void format_counts(void)
{
    const size_t least = tried->blocks_least, most = tried->blocks_most;
    const size_t sizes[] = { least - 1, least, least + 1, 100, most, most + 1 };

    fill_uics(66);
    for (size_t contents = 0; contents <= tried->contents_most + 2; contents++)
        for (size_t uics_len = 0; uics_len <= 2 * 66; uics_len++)
            if (try_format(tried->block * 16, tried->number, 16, contents, uics_len))
                try_formatted(tried->block * 16, contents);
    for (size_t i = 0; i < COUNT(sizes); i++)
        for (size_t contents = 0; contents <= tried->contents_most + 2; contents++)
            for (size_t form = 0; form <= 4; form++)
                try_format(tried->block * sizes[i], form, sizes[i], contents, 2);

    /* Right in the low 16 bits of their count. */
    fill_uics(UICS_ROOM / 2);
    for (size_t u = 0; u <= 66; u++)
        format_small(2 * (65536 + u));
}

static void format_uics(void)
{
    static const size_t near[] = { 1, 2, 0x0100, 0x0101, 0x0201, 0x0102, 0x7FFF, 0x8000, 0xFF00, 0x00FF, 0xFFFF };

    for (size_t u = 1; u <= tried->uics_most; u += 21)
        for (size_t i = 0; i < u; i++) {
            fill_uics(u);
            set_word(uics, i, 0);
            format_small(2 * u);
            for (size_t j = 0; j < i; j++) {
                set_word(uics, i, get_word(uics, j));
                format_small(2 * u);
            }
        }

    /* Alike in one byte, or in both but the other way round: distinct all the same. */
    for (size_t i = 0; i < COUNT(near); i++)
        set_word(uics, i, near[i]);
    CHECK_NUMBER(format_small(2 * COUNT(near)), true, "format with UICs that are alike in a byte");

    /* What lies behind the list does not matter, whether it is 0 or a UIC again. */
    for (size_t u = 0; u < tried->uics_most; u++) {
        fill_uics(tried->uics_most);
        set_word(uics, u, u ? get_word(uics, 0) : 0);
        CHECK_NUMBER(format_small(2 * u), true, "format with a wrong UIC behind %zu", u);
    }
}

/* The bounds of forms 2 and 3, written out; sizes of another form; and forms that are not there. */
static void format_examples(void)
{
    static const struct {
        size_t length, form, blocks, contents, uics_len, code;
    } formats[] = {
        { 128 * 16, 3, 16, 1, 2, 0 },       { 128 * 16, 3, 16, 14, 0, 0 },      { 128 * 34, 3, 34, 32, 120, 0 },
        { 128 * 1024, 3, 1024, 32, 120, 0 },

        { 128 * 15, 3, 15, 1, 2, 041 },     { 128 * 1025, 3, 1025, 1, 2, 041 }, { 128 * 64, 3, 64, 33, 2, 041 },
        { 128 * 64, 3, 64, 0, 2, 041 },     { 128 * 16, 3, 16, 15, 2, 041 },    { 128 * 33, 3, 33, 32, 2, 041 },
        { 128 * 16, 3, 16, 1, 122, 041 },   { 128 * 16, 3, 16, 1, 1, 041 },     { 128 * 16, 3, 16, 1, 119, 041 },
        { 128 * 16 + 1, 3, 16, 1, 2, 041 }, { 128 * 16 - 1, 3, 16, 1, 2, 041 }, { 512 * 16, 3, 16, 1, 2, 041 },

        { 512 * 16, 2, 16, 1, 2, 0 },       { 512 * 16, 2, 16, 13, 0, 0 },      { 512 * 35, 2, 35, 32, 128, 0 },
        { 512 * 4096, 2, 4096, 32, 128, 0 }, { 512 * 4096, 2, 4096, 1, 2, 0 },  { 512 * 1025, 2, 1025, 9, 2, 0 },

        { 512 * 15, 2, 15, 1, 2, 041 },     { 512 * 4097, 2, 4097, 1, 2, 041 }, { 512 * 64, 2, 64, 33, 2, 041 },
        { 512 * 64, 2, 64, 0, 2, 041 },     { 512 * 16, 2, 16, 14, 2, 041 },    { 512 * 34, 2, 34, 32, 2, 041 },
        { 512 * 16, 2, 16, 1, 130, 041 },   { 512 * 16, 2, 16, 1, 1, 041 },     { 512 * 16, 2, 17, 1, 2, 041 },
        { 512 * 16 + 1, 2, 16, 1, 2, 041 }, { 512 * 16 - 1, 2, 16, 1, 2, 041 }, { 128 * 16, 2, 16, 1, 2, 041 },

        { 512 * 1025, 1, 1025, 1, 2, 041 }, { 512 * 4096, 1, 4096, 1, 2, 041 }, { 512 * 64, 1, 64, 9, 2, 041 },
        { 128 * 16, 1, 16, 1, 2, 041 },     { 128 * 64, 1, 64, 1, 2, 041 },     { 512 * 16, 0, 16, 1, 2, 041 },
        { 512 * 16, 4, 16, 1, 2, 041 },     { 128 * 16, 4, 16, 1, 2, 041 },     { 128 * 16, 259, 16, 1, 2, 041 },
        { 512 * 16, 258, 16, 1, 2, 041 },
    };

    fill_uics(66);
    for (size_t i = 0; i < COUNT(formats); i++)
        CHECK_NUMBER(try_format(formats[i].length, formats[i].form, formats[i].blocks, formats[i].contents,
                                formats[i].uics_len) ? 0 : 041, formats[i].code, "example: format %zu", i);
}

/* One, two or all three numbers. */
static void format_huge(void)
{
    const size_t lengths[] = { 0, 16, tried->block, tried->block * 16 }, form = tried->number;
    const size_t end = COUNT(huge);

    fill_uics(2);
    for (size_t f = 0; f <= end; f++)
        for (size_t b = 0; b <= end; b++)
            for (size_t c = 0; c <= end; c++)
                for (size_t i = 0; i < COUNT(lengths); i++)
                    try_format(lengths[i], f < end ? huge[f] : form, b < end ? huge[b] : 16, c < end ? huge[c] : 1, 4);
}

/* ---- Images ---- */

/* A file of each sort, and room left. The tables of known changes and files count on what is where. */
static size_t make_small(void)
{
    static const size_t users[] = { ME, OTHER };
    const size_t three[] = { small(9), small(7), small(12) }, one[] = { small(6) };

    memset(image, 0xFF, small_bytes());
    size_t length = make_small_pack(image, users, 2);
    put_contiguous(image, 0, key_of("A     ", "DAT", ME), small(2), 3);
    set_open(image, 0, 1, 61);
    put_linked(image, 1, key_of("B     ", "DAT", ME), three, 3);
    set_open(image, 1, 0, 62);
    put_linked(image, 2, key_of("ABC   ", "   ", OTHER), NULL, 0);
    set_open(image, 2, 2, 0);
    put_linked(image, 4, key_of("A     ", "DAT", OTHER), one, 1);
    set_open(image, 4, 3, 5);
    put_contiguous(image, 15, key_of("999999", "999", OTHER), small(15), 1);
    set_field(image, 15, PROTECT, 0377);
    return length;
}

/* Document 01's example, which is of form 1, written out. */
static void example(void)
{
    static const uint8_t header[] = { 1, 0, 16, 0, 1, 0, 1, 0, 010, 023, 0 };
    static const uint8_t entry[32] = { 0125, 050, 0100, 0152, 074, 031, 010, 023, 3, 0, 1, 0, 13, 0, 3, 0, 15, 0 };
    static const uint8_t me[] = { 010, 023 };
    const size_t length = tried->block * 16;

    call_it("example", 0);
    CHECK_NUMBER(abz_format(image, length, 1, 16, 1, me, sizeof me), ABZ_OK, "example: format");
    CHECK_BYTES(image, header, sizeof header, "example: header");
    memcpy(image + tried->block, entry, sizeof entry);
    expect_image(length, true);

    abz_look_answer look = abz_look(image, length, ME, 10325, 27200, 6460, 0);
    CHECK_NUMBER(look.code, 0, "example: code");
    CHECK_NUMBER(look.kind, 1, "example: kind");
    CHECK_NUMBER(look.first, 13, "example: first");
    CHECK_NUMBER(look.length, 3, "example: length");
    CHECK_NUMBER(look.protect, 3, "example: protect");
    CHECK_NUMBER(look.writer, 0, "example: writer");
    CHECK_NUMBER(look.readers, 0, "example: readers");
    CHECK_NUMBER(abz_look(image, length, OTHER, 10325, 27200, 6460, 0).code, 02, "example: another's");
    CHECK_NUMBER(abz_look(image, length, OTHER, 64000, 27200, 6460, 0).code, 015, "example: a bad name");
    CHECK_NUMBER(abz_look(image, length - 1, OTHER, 64000, 27200, 6460, 0).code, 040, "example: cut short");

    for (size_t block = 0; block < 16; block++) {
        abz_owner_answer owner = abz_owner(image, length, block);
        CHECK_NUMBER(owner.code, 0, "example: owner of %zu", block);
        CHECK_NUMBER(owner.kind, block < 2 ? 0 : block < 13 ? 1 : 2, "example: owner of %zu, kind", block);
        CHECK_NUMBER(owner.entry, 0, "example: owner of %zu, entry", block);
        CHECK_NUMBER(owner.place, block < 13 ? 0 : block - 13, "example: owner of %zu, place", block);
    }
    CHECK_NUMBER(abz_owner(image, length, 16).code, 044, "example: owner of 16");
    CHECK_NUMBER(abz_owner(image, length - 1, 16).code, 040, "example: owner of 16, cut short");
}

/* No pack is so short; what makes it one may still stand behind it in memory. */
static void short_images(void)
{
    const size_t block = tried->block, more = 65536 / block;

    for (size_t length = 0; length <= 4 * block; length++) {
        memset(lent, 0, GUARD + length + GUARD);
        call_it("zeros", 0);
        expect_verdict(length, false);

        chance_bytes(lent, GUARD + length + GUARD);
        call_it("random bytes", 0);
        expect_verdict(length, false);

        make_small();
        call_it("beginning of a pack", 16);
        expect_verdict(length, false);

        /* As many blocks as the length has, which are too few; and as many bytes in their low 16 bits. */
        set_word(image, BLOCKS, length / block);
        call_it("pack of blocks", length / block);
        expect_verdict(length, false);
        set_word(image, BLOCKS, more + length / block);
        call_it("pack of blocks", more + length / block);
        expect_verdict(length, false);
    }
}

static void other_lengths(void)
{
    const size_t block = tried->block, right = small_bytes();

    memset(image, 0, right + 2 * block);
    make_small();
    call_it("small pack", 0);
    for (size_t length = right - block; length <= right + block; length++)
        expect_verdict(length, length == right);
}

/* LOOK with every word there is, in each part of a name, and beyond: legal or not. */
static void name_words(void)
{
    size_t length = make_small();
    const file_key first = key_of("A     ", "DAT", ME), second = key_of("ABC   ", "   ", OTHER);

    call_it("small pack", 0);
    expect_image(length, true);
    for (size_t word = 0; word <= 65536 + 1640; word++) {
        file_key keys[] = { first, first, first, second };
        keys[0].name1 = keys[1].name2 = keys[2].extension = keys[3].name2 = word;
        for (size_t i = 0; i < COUNT(keys); i++)
            try_look(length, true, 0, keys[i]);
    }
    check_kept(length);
}

/* Packs without files, right but for a number or a UIC in block 0. */
static void headers(void)
{
    size_t users[80];

    for (size_t i = 0; i < COUNT(users); i++)
        users[i] = 65535 - i;
    for (size_t n = 0; n <= tried->blocks_most + 6; n = next_size(n)) {
        call_it("empty pack of blocks", n);
        expect_verdict(make_pack(image, n, 1, users, 1), n >= tried->blocks_least && n <= tried->blocks_most);
    }
    for (size_t c = 0, most = tried->contents_most; c <= most + 12; c++) {
        call_it("empty pack with contents", c);
        expect_verdict(make_pack(image, most + 13, c, users, 1), c >= tried->contents_least && c <= most);
    }
    for (size_t c = 0, least = tried->blocks_least; c <= tried->contents_most + 2; c++) {
        call_it("empty pack of the fewest blocks with contents", c);
        expect_verdict(make_pack(image, least, c, users, 1),
                       c >= tried->contents_least && c <= tried->contents_most && first_body(tried, c) < least);
    }
    for (size_t u = 0; u <= COUNT(users); u++) {
        call_it("empty pack with UICs", u);
        expect_verdict(make_pack(image, 16, 1, users, u), u <= tried->uics_most);
    }
    for (size_t i = 0; i < tried->uics_most; i++) {
        size_t length = make_pack(image, 16, 1, users, tried->uics_most);
        call_it("empty pack with a wrong UIC", i);
        set_word(image, UIC_LIST + i, 0);
        expect_verdict(length, false);
        for (size_t j = 0; j < i; j++) {
            set_word(image, UIC_LIST + i, users[j]);
            expect_verdict(length, false);
        }
    }
}

static const size_t owners_to_be[] = { ME, OTHER, 1, 0xFF00, 0x00FF, 0x0100, 0xFFFF };

/* Every entry used, with files that differ in one part only. */
static void full_directories(void)
{
    static const char names[7][7] = { "A     ", "B     ", "A0    ", "ABC   ", "ABCA  ", "ABCDEF", "0     " };
    static const char extensions[12][4] = { "   ", "A  ", "AA ", "B  ", "BA ", "BAA", "0  ", "0A ", "0AA", "Z  ", "ZA ",
                                            "ZAA" };
    const size_t n = tried->contents_most + 8;

    for (size_t c = 1; c <= tried->contents_most; c++) {
        const size_t length = make_pack(image, n, c, owners_to_be, COUNT(owners_to_be));
        for (size_t entry = 0; entry < tried->entries * c; entry++) {
            const char *extension = extensions[entry / 7 % 3 + 3 * (entry / 147)];
            put_linked(image, entry, key_of(names[entry % 7], extension, owners_to_be[entry / 21 % 7]), NULL, 0);
        }
        call_it("full directory, contents", c);
        expect_image(length, true);
    }
}

/* One file that has all bodies: one extent, a chain upwards, a chain downwards. */
static void full_packs(void)
{
    size_t list[BLOCKS_MOST], length;

    for (size_t n = tried->blocks_least; n <= tried->blocks_most; n += (tried->blocks_most - tried->blocks_least) / 4) {
        const size_t c = n / 252 + 1, first = first_body(tried, c), bodies = n - first;
        for (size_t i = 0; i < bodies; i++)
            list[i] = first + i;
        length = make_pack(image, n, c, owners_to_be, 1);
        put_contiguous(image, 0, freq, first, bodies);
        call_it("one extent", n);
        expect_image(length, true);

        length = make_pack(image, n, c, owners_to_be, 1);
        put_linked(image, 0, freq, list, bodies);
        call_it("one chain", n);
        expect_image(length, true);

        set_link(image, list[bodies - 1], list[0]);
        call_it("one chain, closed", n);
        expect_image(length, false);

        for (size_t i = 0; i < bodies; i++)
            list[i] = n - 1 - i;
        length = make_pack(image, n, c, owners_to_be, 1);
        put_linked(image, tried->entries * c - 1, freq, list, bodies);
        call_it("one chain downwards", n);
        expect_image(length, true);
    }
}

static void made_packs(void)
{
    size_t length;

    call_it("no users", 0);
    expect_image(make_pack(image, tried->contents_most + 8, tried->contents_most, NULL, 0), true);

    call_it("small pack", 0);
    expect_image(make_small(), true);

    /* Every way of being open. */
    for (size_t writer = 0; writer <= 4; writer++)
        for (size_t readers = 0; readers <= 64; readers++) {
            length = make_small();
            call_it("contiguous, writer and readers", 100 * writer + readers);
            set_open(image, 0, writer, readers);
            expect_image(length, writer < 2 && readers + writer <= 62);

            length = make_small();
            call_it("linked, writer and readers", 100 * writer + readers);
            set_open(image, 1, writer, readers);
            expect_image(length, writer == 0 ? readers <= 62 : writer != 1 && writer != 4 && readers <= 61);
        }
}

/* Words of the small pack set to another value, and whether it is consistent then. */
static void known_changes(void)
{
    make_small(); /* where a word is goes by its form */
    const size_t n = small(16), c = contents_like(1), last = tried->block / 2 - 1;
#define ENTRY(entry, word) entry_word(image, entry, word)
#define LINK(block) link_word(image, small(block))
    const struct {
        size_t word, value;
        bool consistent;
    } changes[] = {
        { FORM, 0, false },                { FORM, tried->number + 1, false }, { FORM, tried->number + 256, false },
        { BLOCKS, 0, false },              { BLOCKS, n - 1, false },           { BLOCKS, n + 1, false },
        { BLOCKS, n + 256, false },        { CONTENTS, 0, false },             { CONTENTS, c + 1, false },
        { CONTENTS, tried->contents_most + 1, false },                         { UICS, tried->uics_most + 1, false },
        { UICS, 1, false },                { UICS, 3, false },                 { UICS, 0, false },
        { UIC_LIST, 0, false },            { UIC_LIST, OTHER, false },         { UIC_LIST, 5, false },
        { UIC_LIST + 2, 5, false },        { last, 1, false },                 { last, 256, false },

        { ENTRY(0, NAME1), 0, false },             /* blanks */
        { ENTRY(0, NAME1), 1, false },             /* "  A" */
        { ENTRY(0, NAME1), 40, false },            /* " A " */
        { ENTRY(0, NAME1), 1601, false },          /* "A A" */
        { ENTRY(0, NAME1), 1640, true },           /* "AA " */
        { ENTRY(0, NAME1), 1641, true },           /* "AAA" */
        { ENTRY(0, NAME1), 30 * 1600, true },      /* "0  " */
        { ENTRY(0, NAME1), 27 * 1600, false },     /* "$  " */
        { ENTRY(0, NAME1), 28 * 1600, false },     /* ".  " */
        { ENTRY(0, NAME1), 29 * 1600, false },
        { ENTRY(0, NAME1), 1600 + 29 * 40, false },
        { ENTRY(0, NAME1), 1641 - 1 + 29, false },
        { ENTRY(0, NAME1), 1641 - 1 + 27, false }, /* "AA$" */
        { ENTRY(0, NAME1), 63999, true },          /* "999" */
        { ENTRY(0, NAME1), 64000, false },
        { ENTRY(0, NAME1), 65535, false },
        { ENTRY(0, NAME2), 1600, false },          /* "A  A  " */
        { ENTRY(2, NAME2), 1600, true },           /* "ABCA  " */
        { ENTRY(2, NAME2), 1641, true },
        { ENTRY(2, NAME2), 1, false },             /* "ABC  A" */
        { ENTRY(2, NAME2), 1601, false },          /* "ABCA A" */
        { ENTRY(2, NAME2), 64000, false },
        { ENTRY(2, NAME1), 1640, true },           /* "AA    " */
        { ENTRY(15, NAME2), 0, true },             /* "999   " */
        { ENTRY(15, NAME1), 39 * 1640, false },    /* "99 999" */

        { ENTRY(0, EXTENSION), 0, true },          { ENTRY(0, EXTENSION), 1600, true },
        { ENTRY(0, EXTENSION), 1, false },         { ENTRY(0, EXTENSION), 40, false },
        { ENTRY(0, EXTENSION), 1601, false },      { ENTRY(0, EXTENSION), 29, false },
        { ENTRY(0, EXTENSION), 27 * 1600, false }, { ENTRY(0, EXTENSION), 64000, false },
        { ENTRY(0, EXTENSION), 63999, true },

        { ENTRY(0, UIC), 0, false },               { ENTRY(0, UIC), ME + 1, false },
        { ENTRY(0, UIC), OTHER, false },           { ENTRY(1, UIC), OTHER, true },
        { ENTRY(4, UIC), ME, false },              { ENTRY(1, NAME1), 1600, false },

        { ENTRY(0, PROTECT), 255, true },          { ENTRY(0, PROTECT), 256, false },
        { ENTRY(0, PROTECT), 65535, false },
        { ENTRY(0, KIND), 0, false },              { ENTRY(0, KIND), 2, false },
        { ENTRY(0, KIND), 3, false },              { ENTRY(0, KIND), 257, false },
        { ENTRY(1, KIND), 1, false },              { ENTRY(2, KIND), 1, false },

        { ENTRY(0, FIRST), small(3), false },             { ENTRY(0, FIRST), 1, false },
        { ENTRY(0, FIRST), 0, false },             { ENTRY(0, LENGTH), 0, false },
        { ENTRY(0, LENGTH), 2, false },            { ENTRY(0, LENGTH), 4, false },
        { ENTRY(0, LENGTH), 65535, false },        { ENTRY(0, LAST), small(3), false },
        { ENTRY(0, LAST), small(5), false },              { ENTRY(0, LAST), 0, false },
        { ENTRY(15, FIRST), small(14), false },           { ENTRY(15, FIRST), small(16), false },
        { ENTRY(15, LENGTH), 2, false },           { ENTRY(15, LAST), small(16), false },

        { ENTRY(1, FIRST), small(7), false },             { ENTRY(1, FIRST), 0, false },
        { ENTRY(1, FIRST), small(12), false },            { ENTRY(1, LENGTH), 0, false },
        { ENTRY(1, LENGTH), 2, false },            { ENTRY(1, LENGTH), 4, false },
        { ENTRY(1, LAST), small(7), false },              { ENTRY(1, LAST), small(9), false },
        { ENTRY(1, LAST), 0, false },              { ENTRY(2, FIRST), small(8), false },
        { ENTRY(2, LAST), small(8), false },              { ENTRY(2, LENGTH), 1, false },

        { ENTRY(0, ZEROS), 1, false },             { ENTRY(0, ZEROS + 1), 1, false },
        { ENTRY(0, ZEROS + 2), 256, false },       { ENTRY(0, ZEROS + 3), 1, false },
        { ENTRY(0, ZEROS + 4), 32768, false },     { ENTRY(3, NAME1), 1600, false },
        { ENTRY(3, ZEROS + 4), 1, false },         { ENTRY(14, KIND), 2, false },

        { LINK(9), 0, false },                     { LINK(9), small(9), false },
        { LINK(9), small(12), false },                    { LINK(9), small(8), false },
        { LINK(9), small(6), false },                     { LINK(9), small(2), false },
        { LINK(9), 1, false },                     { LINK(9), small(16), false },
        { LINK(9), 65535, false },                 { LINK(9), 7 + 256, false },
        { LINK(7), small(9), false },                     { LINK(7), small(7), false },
        { LINK(12), small(9), false },                    { LINK(12), small(12), false },
        { LINK(12), small(8), false },                    { LINK(12), 65535, false },
        { LINK(6), small(12), false },                    { LINK(6), 256, false },

        { LINK(2), 0, true },                      { LINK(3), small(3), true },  /* of a contiguous file */
        { LINK(8), small(9), true },                      { LINK(14), 0, true }, /* free */
        { LINK(9) + 1, 0, true },                  { LINK(13) - 1, 0, true },
    };

    for (size_t i = 0; i < COUNT(changes); i++) {
        size_t length = make_small();
        set_word(image, changes[i].word, changes[i].value);
        call_it("known change", i);
        expect_image(length, changes[i].consistent);
    }
#undef LINK
#undef ENTRY
}

/* A block of the small pack, as form 1 numbers it; 0, 1 and what no pack has stay as they are. */
static size_t like(size_t block)
{
    return block < 2 || block == 65535 ? block : small(block);
}

/* One file more in the small pack, and whether it may be there. */
static void known_files(void)
{
    static const struct {
        size_t kind, first, length, last;
        bool consistent;
    } files[] = {
        { CONTIGUOUS, 5, 1, 5, true },          { CONTIGUOUS, 8, 1, 8, true },    { CONTIGUOUS, 10, 2, 11, true },
        { CONTIGUOUS, 13, 2, 14, true },        { CONTIGUOUS, 5, 2, 6, false },   { CONTIGUOUS, 4, 2, 5, false },
        { CONTIGUOUS, 11, 2, 12, false },       { CONTIGUOUS, 13, 3, 15, false }, { CONTIGUOUS, 15, 1, 15, false },
        { CONTIGUOUS, 0, 0, 0, false },         { CONTIGUOUS, 5, 0, 4, false },   { CONTIGUOUS, 5, 0, 5, false },
        { CONTIGUOUS, 5, 0, 0, false },         { CONTIGUOUS, 0, 1, 0, false },   { CONTIGUOUS, 1, 1, 1, false },
        { CONTIGUOUS, 16, 1, 16, false },       { CONTIGUOUS, 17, 2, 18, false }, { CONTIGUOUS, 65535, 7, 5, false },
        { CONTIGUOUS, 65535, 1, 65535, false }, { CONTIGUOUS, 6, 65535, 4, false },
        { LINKED, 0, 0, 0, true },              { LINKED, 5, 0, 0, false },       { LINKED, 0, 0, 5, false },
        { LINKED, 5, 0, 5, false },             { LINKED, 0, 1, 0, false },       { LINKED, 1, 1, 1, false },
        { LINKED, 12, 1, 12, false },           { LINKED, 7, 2, 12, false },      { LINKED, 6, 1, 6, false },
        { LINKED, 5, 1, 5, false }, /* its link is 65535 */
        { LINKED, 16, 1, 16, false },           { LINKED, 65535, 1, 65535, false },
    };

    for (size_t i = 0; i < COUNT(files); i++) {
        size_t length = make_small();
        put_file(image, 3, freq, files[i].kind, like(files[i].first), files[i].length, like(files[i].last));
        call_it("known file", i);
        expect_image(length, files[i].consistent);
    }
}

/* A pack of each form with another number in word 0: of none, or of one that it is not of. */
static void other_forms(void)
{
    for (size_t i = 0; i < FORM_WORDS; i++) {
        const size_t length = make_small();
        set_word(image, FORM, form_words[i]);
        call_it("small pack of form", form_words[i]);
        expect_image(length, right_as(form_words[i]));
    }
}

/* Every word of the small pack that means anything, set to a good many values. */
static void word_changes(void)
{
    static const size_t values[] = { 0,   1,   2,   3,   4,    5,    6,    7,    8,    9,     10,    12,    13,
                                     14,  15,  16,  17,  40,   61,   62,   63,   64,   254,   255,   256,   257,
                                     512, 777, 888, 999, 1023, 1024, 1025, 1600, 1640, 63999, 64000, 65534, 65535 };
    static block_owner owners[BLOCKS_MOST];

    const size_t bodies = tried->block / 2 * small(2), end = small_bytes() / 2;

    for (size_t word = 0; word < end; word += word < bodies ? 1 : tried->block / 2) {
        size_t length = make_small(), old = get_word(image, word);
        call_it("changed word", word);
        for (size_t i = 0; i < COUNT(values); i++) {
            set_word(image, word, values[i]);
            try_verdict(length, owners);
        }
        for (size_t bit = 1; bit <= 32768; bit *= 2) {
            set_word(image, word, old ^ bit);
            try_verdict(length, owners);
        }
    }
}

/* Each bit of the map of the small pack, also of those from n up, and of one without files; and all of them at once. */
static void map_bits(void)
{
    if (!has_map(tried))
        return;
    for (size_t pack = 0; pack < 2; pack++) {
        const size_t length = pack ? make_pack(image, 16, 13, NULL, 0) : make_small();
        for (size_t block = 0; block < MAP_BITS; block++) {
            call_it("bit of the map", block);
            turn_bit(image, block);
            expect_verdict(length, false);
            turn_bit(image, block);
        }
        call_it("bits put right", pack);
        expect_image(length, true);
        call_it("map all 0, then all 1", pack);
        memset(image + 2 * map_word(image, 0), 0, tried->block);
        expect_verdict(length, false);
        memset(image + 2 * map_word(image, 0), 0xFF, tried->block);
        expect_verdict(length, false);
    }
}

/* ---- Damage to packs made by chance ---- */

/* The pack before the damage, two linked and two contiguous files with blocks in it, and the damaged pack's length. */
static uint8_t sound[IMAGE_MOST];
static size_t chain, other_chain, extent, other_extent, damaged_len;

static size_t chance_file(size_t kind)
{
    size_t entry;

    do
        entry = chance(entry_count(sound));
    while (get_field(sound, entry, KIND) != kind || get_field(sound, entry, LENGTH) == 0);
    return entry;
}

static size_t files_with_blocks(size_t kind)
{
    size_t count = 0;

    for (size_t entry = 0; entry < entry_count(sound); entry++)
        count += get_field(sound, entry, KIND) == kind && get_field(sound, entry, LENGTH) > 0;
    return count;
}

static void pick_files(void)
{
    chain = chance_file(LINKED);
    extent = chance_file(CONTIGUOUS);
    do
        other_chain = chance_file(LINKED);
    while (other_chain == chain);
    do
        other_extent = chance_file(CONTIGUOUS);
    while (other_extent == extent);
}

static size_t chance_place(size_t entry)
{
    return chance(get_field(sound, entry, LENGTH));
}

static size_t chance_block(size_t entry)
{
    return block_at(sound, entry, chance_place(entry));
}

static void disturb(size_t word)
{
    size_t old = get_word(sound, word);
    size_t values[] = { 0, old + 1, old - 1, old ^ ((size_t)1 << chance(16)), chance(get_word(sound, BLOCKS)),
                        chance(65536) };

    set_word(image, word, values[chance(COUNT(values))]);
}

static void one_word(void)
{
    switch (chance(6)) {
    case 0: disturb(chance(damaged_len / 2)); break;
    case 1: disturb(chance(UIC_LIST + get_word(sound, UICS) + 1)); break;
    case 2: disturb(entry_word(sound, chance(entry_count(sound)), chance(ENTRY_WORDS))); break;
    case 3: disturb(entry_word(sound, extent, chance(ENTRY_WORDS))); break;
    case 4: disturb(entry_word(sound, chain, chance(ENTRY_WORDS))); break;
    case 5: disturb(link_word(sound, chance_block(chain))); break;
    }
}

static void two_words(void)
{
    one_word();
    one_word();
}

static void cut_short(void)
{
    damaged_len -= 1 + chance(chance(2) ? 3 : damaged_len);
}

static void one_byte_more(void)
{
    image[damaged_len++] = (uint8_t)chance(2);
}

/* By up to three blocks, more or less. */
static void resized(void)
{
    damaged_len += tried->block * chance(4);
    damaged_len -= tried->block * chance(4);
    set_word(image, BLOCKS, damaged_len / tried->block);
}

static void other_contents(void)
{
    disturb(CONTENTS);
}

static void entries_exchanged(void)
{
    size_t from = 2 * entry_word(sound, chain, 0), to = 2 * entry_word(sound, chance(entry_count(sound)), 0);

    memcpy(image + from, sound + to, 2 * ENTRY_WORDS);
    memcpy(image + to, sound + from, 2 * ENTRY_WORDS);
}

static void extent_moved(void)
{
    size_t first = chance(2) ? chance_block(other_extent) : chance(get_word(sound, BLOCKS));

    set_field(image, extent, FIRST, first);
    set_field(image, extent, LAST, first + get_field(sound, extent, LENGTH) - 1);
}

static void extent_resized(void)
{
    size_t length = chance(8);

    set_field(image, extent, LENGTH, length);
    set_field(image, extent, LAST, get_field(sound, extent, FIRST) + length - 1);
}

/* Right in itself, but it ends with another file's blocks. */
static void chain_into_chain(void)
{
    size_t place = chance_place(other_chain);

    set_link(image, get_field(sound, chain, LAST), block_at(sound, other_chain, place));
    set_field(image, chain, LENGTH, get_field(sound, chain, LENGTH) + get_field(sound, other_chain, LENGTH) - place);
    set_field(image, chain, LAST, get_field(sound, other_chain, LAST));
}

/* Right in itself, with one block more at its end: any, so it may be free. */
static void chain_longer(void)
{
    size_t block = chance(2) ? chance_block(extent) : chance(get_word(sound, BLOCKS));

    set_link(image, get_field(sound, chain, LAST), block);
    set_link(image, block, 0);
    set_field(image, chain, LENGTH, get_field(sound, chain, LENGTH) + 1);
    set_field(image, chain, LAST, block);
}

/* Right in itself, with fewer blocks. */
static void chain_shorter(void)
{
    size_t place = chance_place(chain), block = block_at(sound, chain, place);

    set_link(image, block, 0);
    set_field(image, chain, LENGTH, place + 1);
    set_field(image, chain, LAST, block);
}

static void chain_loop(void)
{
    size_t from = chance_place(chain), to = chance(from + 1);

    set_link(image, block_at(sound, chain, from), block_at(sound, chain, to));
    set_field(image, chain, LENGTH, chance(2) ? 65535 - chance(2) : from + 1 + chance(8));
    set_field(image, chain, LAST, chance_block(chain));
}

static void chain_goes_on(void)
{
    set_link(image, get_field(sound, chain, LAST), chance(get_word(sound, BLOCKS)));
}

static void wrong_last(void)
{
    size_t entry = chance(2) ? chain : extent;

    set_field(image, entry, LAST, chance(2) ? chance_block(entry) : chance_block(other_chain));
}

static void wrong_length(void)
{
    size_t entry = chance(2) ? chain : extent;

    set_field(image, entry, LENGTH, get_field(sound, entry, LENGTH) + chance(3) - 1);
}

static void emptied(void)
{
    size_t entry = chance(2) ? chain : extent;

    set_field(image, entry, FIRST, chance(4) ? 0 : chance_block(entry));
    set_field(image, entry, LENGTH, 0);
    set_field(image, entry, LAST, chance(4) ? 0 : chance_block(entry));
}

static void words_11_to_15(void)
{
    size_t entry = chance(2) ? chain : chance(entry_count(sound));

    set_field(image, entry, ZEROS + chance(ENTRY_WORDS - ZEROS), 1 + chance(65535));
}

/* All four words, or all but one. */
static void key_copied(void)
{
    size_t from = chance(2) ? other_chain : extent, spared = chance(8);

    for (size_t word = NAME1; word <= UIC; word++)
        if (word != spared)
            set_field(image, chain, word, get_field(sound, from, word));
}

static void user_removed(void)
{
    size_t u = get_word(sound, UICS);

    set_word(image, UICS, u - 1);
    set_word(image, UIC_LIST + u - 1, 0);
    if (chance(2))
        set_field(image, chain, UIC, get_word(sound, UIC_LIST));
}

static void other_kind(void)
{
    set_field(image, chain, KIND, CONTIGUOUS);
    if (chance(2))
        set_open(image, chain, 0, 0);
    if (chance(2))
        set_field(image, chain, LAST, get_field(sound, chain, FIRST) + get_field(sound, chain, LENGTH) - 1);
}

static void opened(void)
{
    set_open(image, chance(2) ? chain : extent, chance(5), chance(2) ? 60 + chance(5) : chance(3));
}

static void damaged_packs(void)
{
    enum { PACKS = 100, TIMES = 2 };
    enum { NEVER, AT_TIMES, ALWAYS };
    static const struct {
        const char *name;
        void (*damage)(void);
        int refused;
    } damages[] = {
        { "one word", one_word, AT_TIMES },
        { "two words", two_words, AT_TIMES },
        { "cut short", cut_short, ALWAYS },
        { "one byte more", one_byte_more, ALWAYS },
        { "resized", resized, AT_TIMES },
        { "other contents", other_contents, AT_TIMES },
        { "entries exchanged", entries_exchanged, NEVER },
        { "extent moved", extent_moved, AT_TIMES },
        { "extent resized", extent_resized, AT_TIMES },
        { "chain into chain", chain_into_chain, ALWAYS },
        { "chain longer", chain_longer, AT_TIMES },
        { "chain shorter", chain_shorter, NEVER },
        { "chain loop", chain_loop, ALWAYS },
        { "chain goes on", chain_goes_on, AT_TIMES },
        { "wrong last block", wrong_last, AT_TIMES },
        { "wrong length", wrong_length, AT_TIMES },
        { "emptied", emptied, AT_TIMES },
        { "words 11 to 15", words_11_to_15, ALWAYS },
        { "key copied", key_copied, AT_TIMES },
        { "user removed", user_removed, AT_TIMES },
        { "other kind", other_kind, AT_TIMES },
        { "opened", opened, AT_TIMES },
    };
    size_t refused[COUNT(damages)] = { 0 };

    for (size_t pack = 0; pack < PACKS; pack++) {
        size_t c = contents_like(1 + chance(3)), n = 24 + chance(80), length;
        size_t files = pack % 4 ? 8 + chance(8) : tried->entries * c;

        do
            length = chance_pack(sound, n, c, files);
        while (files_with_blocks(LINKED) < 2 || files_with_blocks(CONTIGUOUS) < 2);
        memcpy(image, sound, length);
        call_it("pack by chance", pack);
        expect_image(length, true);

        for (size_t i = 0; i < TIMES * COUNT(damages); i++) {
            memcpy(image, sound, length);
            damaged_len = length;
            pick_files();
            damages[i / TIMES].damage();
            call_it(damages[i / TIMES].name, pack);
            if (has_map(tried)) { /* which most damage leaves wrong; then it is made right, so that it is not what is seen */
                try_image(damaged_len);
                if (header_right(image, damaged_len))
                    put_map(image);
            }
            refused[i / TIMES] += !try_image(damaged_len);
        }
    }

    /* So the damage is what it is called, and the judgement saw it. */
    for (size_t i = 0; i < COUNT(damages); i++)
        CHECK_NUMBER(refused[i] == 0 ? NEVER : refused[i] == PACKS * TIMES ? ALWAYS : AT_TIMES, damages[i].refused,
                     "%s: refused %zu of %d", damages[i].name, refused[i], PACKS * TIMES);
}

static void large_packs(void)
{
    for (size_t pack = 0; pack < 4; pack++) {
        size_t length = chance_pack(image, tried->blocks_most - pack % 2, tried->contents_most, pack < 2 ? 128 : 100);
        call_it("large pack by chance", pack);
        expect_image(length, true);
    }
}

/* The measures that the header names are the numbers of document 01, and of 02 §7 and §11. */
static void header_numbers(void)
{
    static const struct {
        size_t named, number;
    } numbers[] = {
        { ABZ_FORM, 1 },           { ABZ_BLOCK_BYTES, 512 },   { ABZ_PAYLOAD_BYTES, 510 }, { ABZ_BLOCK_SEGMENTS, 4 },
        { ABZ_BLOCKS_LEAST, 16 },  { ABZ_BLOCKS_MOST, 1024 },  { ABZ_CONTENTS_LEAST, 1 },  { ABZ_CONTENTS_MOST, 8 },
        { ABZ_BLOCK_ENTRIES, 16 }, { ABZ_ENTRY_BYTES, 32 },    { ABZ_UICS_MOST, 64 },

        { ABZ_FORM_2, 2 },            { ABZ_BLOCKS_MOST_2, 4096 },  { ABZ_CONTENTS_MOST_2, 32 },

        { ABZ_FORM_3, 3 },            { ABZ_BLOCK_BYTES_3, 128 },   { ABZ_PAYLOAD_BYTES_3, 126 },
        { ABZ_BLOCK_SEGMENTS_3, 1 },  { ABZ_CONTENTS_MOST_3, 32 },  { ABZ_BLOCK_ENTRIES_3, 4 },
        { ABZ_UICS_MOST_3, 60 },
    };

    for (size_t i = 0; i < COUNT(numbers); i++)
        CHECK_NUMBER(numbers[i].named, numbers[i].number, "header number %zu", i);
}

/* And so are those of each form; no form has more than the most of all. */
static void form_numbers(void)
{
    static const pack_form numbers[] = {
        { 1, 512, 510, 4, 16, 16, 1024, 1, 8, 64, 1 },
        { 2, 512, 510, 4, 16, 16, 4096, 1, 32, 64, 2 },
        { 3, 128, 126, 1, 4, 16, 1024, 1, 32, 60, 1 },
    };

    CHECK_NUMBER(COUNT(forms), COUNT(numbers), "forms");
    for (size_t i = 0; i < COUNT(numbers); i++) {
        const pack_form *const form = &forms[i];
        CHECK_BYTES((const uint8_t *)form, (const uint8_t *)&numbers[i], sizeof *form, "numbers of form %zu",
                    form->number);
        CHECK_NUMBER(form_numbered(form->number) == form, true, "form %zu", form->number);
        CHECK_NUMBER(form->block <= BLOCK_MOST && form->payload <= PAYLOAD_MOST && form->blocks_most <= BLOCKS_MOST
                         && form->block * form->blocks_most <= IMAGE_MOST
                         && form->entries * form->contents_most <= ENTRIES_MOST && form->uics_most <= UICS_MOST,
                     true, "the most of form %zu", form->number);
    }
    for (size_t number = 0; number <= 4; number++)
        CHECK_NUMBER(form_numbered(number) != NULL, number >= 1 && number <= 3, "whether there is form %zu", number);
}

int main(void)
{
    for (size_t i = 0; i < sizeof filling; i++)
        filling[i] = (uint8_t)(i * 31 + i / 256 * 7 + 0xA5);

    header_numbers();
    form_numbers();
    example();
    format_examples();
    EACH_FORM {
        format_sizes();
        format_counts();
        format_uics();
        format_huge();
        short_images();
        other_lengths();
        name_words();
        headers();
        full_directories();
        full_packs();
        made_packs();
        known_changes();
        known_files();
        other_forms();
        word_changes();
        map_bits();
        damaged_packs();
        large_packs();
    }
    return check_end("pack");
}
