/* BLOCK input and output, linked read and add, held to requests.h; and files that grow until there is no room. */
#include "requests.h"

/* make_closed's files, of which two are opened: one for BLOCK, one for linked read and add. */
static size_t make_open(uint8_t *pack)
{
    const size_t length = make_closed(pack);

    set_open(pack, EXTENT, 1, 0);
    set_open(pack, THREE, 3, 1);
    return length;
}

static size_t entry_for(size_t what)
{
    return what <= BLOCK_OUT ? EXTENT : THREE;
}

/* On the file of an entry, with the buffer that is asked for. */
static request request_on(const uint8_t *pack, size_t what, size_t entry, size_t place)
{
    request it = { .what = what, .caller = ME, .file = entry_key(pack, entry), .place = place };

    it.buffer_len = right_buffer(pack, what);
    return it;
}

#define EXPECT(call, expected) CHECK_NUMBER(call, expected, "example " #call)

/* Written out, with no model between. */
static void block_examples(void)
{
    static const file_key bad = { 64000, 0, 0, ME }, absent = { 1600, 0, 0, ME }; /* A */
    static uint8_t pack[SMALL_ROOM], bytes[BLOCK_MOST], filled[BLOCK_MOST];
    const size_t length = make_closed(image), block = tried->block, payload = tried->payload;
    const file_key freq = entry_key(image, EXTENT), three = entry_key(image, THREE);

    memset(filled, 0xE7, block);
    set_field(image, EXTENT, PROTECT, 3);

    /* Not open; a reader; the writer, who may also read. Another may read, not write. */
    EXPECT(abz_block_in(image, length, ME, FILE4(freq), 0, bytes, block), 045);
    EXPECT(abz_openi(image, length, OTHER, FILE4(freq)), 0);
    EXPECT(abz_block_in(image, length, OTHER, FILE4(freq), 2, bytes, block), 0);
    CHECK_BYTES(bytes, image + block * small(4), block, "example: BLOCK input of place 2");
    EXPECT(abz_block_out(image, length, OTHER, FILE4(freq), 2, filled, block), 6);
    EXPECT(abz_block_out(image, length, ME, FILE4(freq), 2, filled, block), 045);
    EXPECT(abz_close(image, length, ME, FILE4(freq), 4), 0);
    EXPECT(abz_openu(image, length, ME, FILE4(freq)), 0);
    EXPECT(abz_block_in(image, length, ME, freq.name1, freq.name2, freq.extension, 0, 0, bytes, block), 0);
    CHECK_BYTES(bytes, image + block * small(2), block, "example: BLOCK input of place 0");

    /* The bytes of one block, and no others. */
    memcpy(pack, image, length);
    memcpy(pack + block * small(3), filled, block);
    EXPECT(abz_block_out(image, length, ME, FILE4(freq), 1, filled, block), 0);
    CHECK_BYTES(image, pack, length, "example: BLOCK output to place 1");

    /* Behind the end; other sizes; a name that is not legal, or of no file; a linked file. */
    EXPECT(abz_block_in(image, length, ME, FILE4(freq), 3, bytes, block), 044);
    EXPECT(abz_block_out(image, length, ME, FILE4(freq), SIZE_MAX, filled, block), 044);
    EXPECT(abz_block_in(image, length, ME, FILE4(freq), 0, bytes, block - 1), 041);
    EXPECT(abz_block_out(image, length, ME, FILE4(freq), 0, filled, payload), 041);
    EXPECT(abz_block_in(image, length, ME, FILE4(freq), 0, bytes, 0), 041);
    EXPECT(abz_block_in(image, length, ME, FILE4(bad), 0, bytes, 0), 015);
    EXPECT(abz_block_out(image, length, ME, FILE4(absent), 0, filled, block), 2);
    EXPECT(abz_block_in(image, length, ME, FILE4(three), 0, bytes, block), 043);
    EXPECT(abz_block_out(image, length, ME, FILE4(three), 0, filled, block), 043);
    CHECK_BYTES(image, pack, length, "example: BLOCK refused, image");
    CHECK_BYTES(bytes, image + block * small(2), block, "example: BLOCK refused, buffer");
}

static void read_examples(void)
{
    const size_t blocks[] = { small(9), small(7), small(12) };
    static uint8_t bytes[BLOCK_MOST], filled[BLOCK_MOST];
    const size_t length = make_closed(image), block = tried->block, payload = tried->payload;
    const file_key freq = entry_key(image, EXTENT), none = entry_key(image, EMPTY), three = entry_key(image, THREE);

    memset(filled, 0xE7, block);

    /* Places go by the chain; only a reader serves, whatever writer there is. */
    EXPECT(abz_opene(image, length, ME, FILE4(three)), 0);
    EXPECT(abz_linked_read(image, length, ME, FILE4(three), 0, bytes, payload), 045);
    EXPECT(abz_openi(image, length, ME, FILE4(three)), 0);
    for (size_t place = 0; place < 3; place++) {
        memcpy(bytes, filled, block);
        EXPECT(abz_linked_read(image, length, OTHER, FILE4(three), place, bytes, payload), 0);
        CHECK_BYTES(bytes, image + block * blocks[place] + 2, payload, "example: linked read of place %zu", place);
        CHECK_BYTES(bytes + payload, filled, 2, "example: linked read of place %zu, bytes behind", place);
    }
    EXPECT(abz_linked_read(image, length, ME, FILE4(three), 3, bytes, payload), 044);
    EXPECT(abz_linked_read(image, length, ME, FILE4(three), 0, bytes, block), 041);
    EXPECT(abz_linked_read(image, length, ME, FILE4(freq), 0, bytes, payload), 043);
    EXPECT(abz_openi(image, length, ME, FILE4(none)), 0);
    EXPECT(abz_linked_read(image, length, ME, FILE4(none), 0, bytes, payload), 044);
    set_open(image, THREE, 2, 1);
    EXPECT(abz_linked_read(image, length, ME, FILE4(three), 1, bytes, payload), 0);
    CHECK_BYTES(bytes, image + block * small(7) + 2, payload, "example: linked read of a file open for output too");
}

static void expect_add(size_t length, file_key key, const uint8_t *payload, size_t size, size_t code, size_t block)
{
    const abz_answer answer = abz_linked_add(image, length, ME, FILE4(key), payload, size);

    CHECK_NUMBER(answer.code, code, "example: linked add of %zu for %zu, code", size, block);
    CHECK_NUMBER(answer.number, block, "example: linked add of %zu for %zu, block", size, block);
}

/* Blocks 8, 10, 11, 13 and 14 are free, as form 1 numbers them. */
static void add_examples(void)
{
    static uint8_t pack[SMALL_ROOM], filled[BLOCK_MOST];
    const size_t length = make_closed(image), block = tried->block, payload = tried->payload;
    const file_key freq = entry_key(image, EXTENT), none = entry_key(image, EMPTY), three = entry_key(image, THREE);

    memset(filled, 0xE7, block);
    memcpy(pack, image, length);
    expect_add(length, none, filled, payload, 045, 0);
    expect_add(length, freq, filled, payload, 043, 0);
    expect_add(length, none, filled, block, 041, 0);
    CHECK_BYTES(image, pack, length, "example: linked add refused, image");

    /* To a file that had no block: no link is written into block 0. */
    set_open(image, EMPTY, 2, 0);
    memcpy(pack, image, length);
    set_field(pack, EMPTY, FIRST, small(14));
    set_field(pack, EMPTY, LENGTH, 1);
    set_field(pack, EMPTY, LAST, small(14));
    memcpy(pack + block * small(14) + 2, filled, payload);
    set_link(pack, small(14), 0);
    put_map(pack);
    expect_add(length, none, filled, payload, 0, small(14));
    CHECK_BYTES(image, pack, length, "example: linked add, first block");

    /* And on; the link of the last block leads to the new one. */
    set_field(pack, EMPTY, LENGTH, 2);
    set_field(pack, EMPTY, LAST, small(13));
    memcpy(pack + block * small(13) + 2, filled, payload);
    set_link(pack, small(13), 0);
    set_link(pack, small(14), small(13));
    put_map(pack);
    expect_add(length, none, filled, payload, 0, small(13));
    CHECK_BYTES(image, pack, length, "example: linked add, second block");

    /* The same for extension, with readers, until no block is free; but not where the owner denies himself writing. */
    set_open(image, THREE, 3, 61);
    set_field(image, THREE, PROTECT, 0100);
    expect_add(length, three, filled, payload, 6, 0);
    set_field(image, THREE, PROTECT, 0277);
    expect_add(length, three, filled, payload, 0, small(11));
    EXPECT(get_link(image, small(12)), small(11));
    EXPECT(get_field(image, THREE, FIRST), small(9));
    EXPECT(get_field(image, THREE, READERS), 61);
    expect_add(length, none, filled, payload, 0, small(10));
    expect_add(length, three, filled, payload, 0, small(8));
    expect_add(length, three, filled, payload, 042, 0);
    expect_add(length, none, filled, payload, 042, 0);
    EXPECT(get_field(image, THREE, LENGTH), 5);
    EXPECT(get_field(image, EMPTY, LENGTH), 3);
}
#undef EXPECT

/* Every protect code, for the owner, his group and others. */
static void protect_codes(void)
{
    static const size_t callers[] = { ME, GROUP, OTHER, 0, ME + 65536, GROUP + 65536, 023 * 256, 022 * 256 + 010 };
    static uint8_t pack[SMALL_ROOM];
    const size_t length = make_open(pack);

    for (size_t what = BLOCK_IN; what < ALLOC; what++)
        for (size_t c = 0; c < COUNT(callers); c++)
            for (size_t protect = 0; protect < 256; protect++) {
                request it = request_on(pack, what, entry_for(what), 1);
                it.caller = callers[c];
                memcpy(image, pack, length);
                set_field(image, entry_for(what), PROTECT, protect);
                try_request("protect code", protect, length, it);
            }
}

/*
 * Several causes at once: each kind and way of being open, also such as no consistent pack has, with right values and
 * wrong ones of each argument.
 */
static void causes(void)
{
    static const size_t readers[] = { 0, 1, 61 }, protects[] = { 0, 4, 0100 }, callers[] = { ME, OTHER };
    const size_t places[] = { 0, 2, 3 }, sizes[] = { tried->block, tried->payload, 0 };
    const file_key wrong[] = { key_of("A     ", "DAT", ME), { 1600 * 27, 0, 0, ME }, { 1600, 0, 64000, ME } };
    const size_t all_free[] = { small(8), small(10), small(11), small(13), small(14) };
    static uint8_t pack[SMALL_ROOM], full[SMALL_ROOM];
    const size_t length = make_closed(pack);

    memcpy(full, pack, length);
    put_linked(full, FILES, key_of("FULL  ", "   ", OTHER), all_free, COUNT(all_free));
    for (size_t number = 0;; number++) {
        size_t rest = number;
        const size_t entry = digit(&rest, OTHERS), writer = digit(&rest, 4), name = digit(&rest, 1 + COUNT(wrong));
        request it = request_on(pack, BLOCK_IN + digit(&rest, ALLOC - BLOCK_IN), entry, 0);

        memcpy(image, digit(&rest, 2) ? full : pack, length);
        set_open(image, entry, writer, readers[digit(&rest, COUNT(readers))]);
        set_field(image, entry, PROTECT, protects[digit(&rest, COUNT(protects))]);
        if (name < COUNT(wrong))
            it.file = wrong[name];
        it.caller = callers[digit(&rest, COUNT(callers))];
        it.place = places[digit(&rest, COUNT(places))];
        it.buffer_len = sizes[digit(&rest, COUNT(sizes))];
        if (rest > 0)
            break;
        try_request("several causes", number, length, it);
    }
}

/* Every size up to two blocks of any form, and those that are right in their low 16 bits. */
static void sizes(void)
{
    enum { END = 2 * BLOCK_MOST };
    const size_t block = tried->block, payload = tried->payload;
    const size_t more[] = { 65535, 65536, 65535 + payload, 65536 + payload, 65535 + block, 65536 + block };
    static uint8_t pack[SMALL_ROOM];
    const size_t length = make_open(pack);

    for (size_t what = BLOCK_IN; what < ALLOC; what++)
        for (size_t i = 0; i <= END + COUNT(more); i++) {
            request it = request_on(pack, what, entry_for(what), 0);
            const size_t size = i <= END ? i : more[i - END - 1], code = size == it.buffer_len ? 0 : 041;
            it.buffer_len = size;
            memcpy(image, pack, length);
            CHECK_NUMBER(try_request("size", i, length, it), code, "size %zu", size);
        }
}

/* Packs of one length in every form: word 0 alone says whose buffers are taken. Those of the other device get 41. */
static void other_devices(void)
{
    enum { BYTES = 32 * BLOCK_MOST };
    static uint8_t pack[BYTES];
    const size_t n = BYTES / tried->block, two[] = { n - 5, n - 4 };

    chance_bytes(pack, BYTES);
    CHECK_NUMBER(make_pack(pack, n, 1, users, COUNT(users)), BYTES, "other devices: length");
    put_contiguous(pack, EXTENT, key_of("FREQ  ", "DAT", ME), n - 3, 3);
    put_linked(pack, THREE, key_of("ABCDEF", "999", ME), two, COUNT(two));
    set_open(pack, EXTENT, 1, 0);
    set_open(pack, THREE, 3, 1);
    for (size_t what = BLOCK_IN; what < ALLOC; what++)
        for (const pack_form *other = forms; other < forms + FORMS; other++) {
            request it = request_on(pack, what, entry_for(what), 1);
            it.buffer_len = what <= BLOCK_OUT ? other->block : other->payload;
            memcpy(image, pack, BYTES);
            CHECK_NUMBER(try_request("other device", other->number, BYTES, it), other->block == tried->block ? 0 : 041,
                         "%s: a buffer of form %zu for form %zu", request_names[what], other->number, tried->number);
        }
}

/*
 * Files of every length a small pack can hold, at every place, behind their end, and at such as are in order in their
 * low bits, when multiplied by the bytes of a block, or when the first block is added to them.
 */
static void places(void)
{
    const file_key key = key_of("FREQ  ", "DAT", ME);
    size_t blocks[16], length;

    for (size_t count = 1; count <= 14; count++)
        for (size_t what = BLOCK_IN; what <= LINKED_READ; what++) {
            const size_t first = small(what <= BLOCK_OUT ? 16 - count : 2 + count / 2);
            chance_bytes(image, small_bytes());
            length = make_small_pack(image, users, COUNT(users));
            for (size_t i = 0; i < count; i++)
                blocks[i] = small(2 + (count / 2 + 5 * i) % 14); /* 5 and 14 have no factor in common */
            if (what <= BLOCK_OUT)
                put_contiguous(image, 7, key, first, count);
            else
                put_linked(image, 7, key, blocks, count);
            set_open(image, 7, what <= BLOCK_OUT, 1);

            request it = request_on(image, what, 7, 0);
            for (; it.place < 20; it.place++) {
                const size_t code = it.place < count ? 0 : 044;
                CHECK_NUMBER(try_request("place", count, length, it), code, "place %zu", it.place);
            }
            for (size_t i = 0; i < COUNT(huge); i++)
                for (it.place = huge[i] - 3; it.place != huge[i] + 4; it.place++)
                    if (it.place >= count)
                        CHECK_NUMBER(try_request("huge place", count, length, it), 044, "place %zu", it.place);
            for (size_t block = 0; block < first; block++) {
                it.place = block - first;
                CHECK_NUMBER(try_request("place before the first", count, length, it), 044, "block %zu", block);
            }
        }
}

/* What is written to one place after another, in an order by chance, is what is read there. */
static void rewriting(void)
{
    static uint8_t written[30][BLOCK_MOST];
    const file_key key = key_of("FREQ  ", "DAT", ME);
    const size_t block = tried->block, first = block_like(2, 5);
    const size_t length = make_pack(image, block_like(2, 40), contents_like(2), users, COUNT(users));

    chance_bytes(image + system_bytes(image), length - system_bytes(image));
    put_contiguous(image, 20, key, first, COUNT(written));
    set_open(image, 20, 1, 0);
    for (size_t place = 0; place < COUNT(written); place++)
        memcpy(written[place], image + block * (first + place), block);
    for (size_t i = 0; i < 300; i++) {
        request it = request_on(image, i % 3 ? BLOCK_OUT : BLOCK_IN, 20, chance(COUNT(written)));
        CHECK_NUMBER(try_request("rewriting", i, length, it), 0, "rewriting %zu", i);
        if (it.what == BLOCK_OUT)
            memcpy(written[it.place], buffer, block);
        else
            CHECK_BYTES(buffer, written[it.place], block, "rewriting %zu: place %zu", i, it.place);
    }
}

/* Every pattern of held and free blocks in 9 of them, the other 5 held; then added to until none is free. */
static void free_blocks(void)
{
    for (size_t pattern = 0; pattern < 1 << 9; pattern++) {
        size_t length, blocks[16], held = 0, added = 0;
        chance_bytes(image, small_bytes());
        length = make_small_pack(image, users, COUNT(users));
        for (size_t block = 2; block < 16; block++)
            if (block >= 11 || pattern >> (block - 2) & 1)
                blocks[held++] = small(block);
        put_linked(image, 9, key_of("HELD  ", "   ", OTHER), blocks, held);
        put_linked(image, 3, key_of("GROWS ", "   ", ME), NULL, 0);
        set_open(image, 3, 2 + pattern % 2, 0);
        while (try_request("pattern", pattern, length, request_on(image, LINKED_ADD, 3, 0)) == 0)
            added++;
        CHECK_NUMBER(held + added, 14, "pattern %zu: blocks held and added", pattern);
    }
}

/* Closes a file that had that writer, opens it for input, and reads back what was written, place by place. */
static void read_back(size_t length, size_t entry, size_t writer, uint8_t written[][PAYLOAD_MOST], size_t count)
{
    request it = request_on(image, CLOSE, entry, 0);

    it.mode = writer;
    CHECK_NUMBER(try_request("reading back", entry, length, it), 0, "reading back: CLOSE");
    it.what = OPENI;
    CHECK_NUMBER(try_request("reading back", entry, length, it), 0, "reading back: OPENI");
    for (size_t place = 0; place <= count; place++) {
        it = request_on(image, LINKED_READ, entry, place);
        CHECK_NUMBER(try_request("reading back", entry, length, it), place < count ? 0 : 044, "place %zu", place);
        if (place < count)
            CHECK_BYTES(buffer, written[place], tried->payload, "reading back: place %zu", place);
    }
    it = request_on(image, CLOSE, entry, 0);
    it.mode = 4;
    CHECK_NUMBER(try_request("reading back", entry, length, it), 0, "reading back: CLOSE of input");
}

/* Two files, one open for output and one for extension, that grow by turns until no block is free. */
static void growing(void)
{
    static const struct {
        size_t n, c;
    } packs[] = { { 16, 1 }, { 16, 8 }, { 17, 1 }, { 40, 3 }, { 60, 1 } };
    static const size_t writers[] = { 2, 3 };
    static uint8_t written[2][60][PAYLOAD_MOST];

    chance_bytes(image, tried->block * 60);
    for (size_t i = 0; i < COUNT(packs); i++) {
        const size_t length = make_pack(image, packs[i].n, packs[i].c, users, COUNT(users));
        const size_t bodies = packs[i].n - first_body(tried, packs[i].c);
        size_t count[2] = { 0, 0 }, code, turn;

        put_linked(image, 0, key_of("A     ", "   ", ME), NULL, 0);
        put_linked(image, 1, key_of("B     ", "   ", ME), NULL, 0);
        set_open(image, 0, writers[0], 0);
        set_open(image, 1, writers[1], 0);
        do {
            turn = chance(2);
            code = try_request("growing", i, length, request_on(image, LINKED_ADD, turn, 0));
            if (code == 0)
                memcpy(written[turn][count[turn]++], buffer, tried->payload);
        } while (code == 0);
        CHECK_NUMBER(code, 042, "growing %zu: code", i);
        CHECK_NUMBER(count[0] + count[1], bodies, "growing %zu: blocks", i);
        for (turn = 0; turn < 2; turn++)
            read_back(length, turn, writers[turn], written[turn], count[turn]);

        /* When one is deleted its blocks are free, and the other goes on. */
        try_request("deleting", i, length, request_on(image, DELET, 0, 0));
        try_request("going on", i, length, request_on(image, OPENE, 1, 0));
        while (try_request("going on", i, length, request_on(image, LINKED_ADD, 1, 0)) == 0)
            memcpy(written[1][count[1]++], buffer, tried->payload);
        CHECK_NUMBER(count[1], bodies, "going on %zu: blocks", i);
        read_back(length, 1, 3, written[1], count[1]);
    }
}

/* The longest file there is. The library alone: beside the model this would take long. */
static void longest(void)
{
    static uint8_t written[BLOCKS_MOST][PAYLOAD_MOST], bytes[PAYLOAD_MOST];
    static block_owner owners[BLOCKS_MOST];
    const file_key key = key_of("LONG  ", "   ", ME);
    const size_t n = tried->blocks_most, bodies = n - first_body(tried, 1), payload = tried->payload;
    const size_t length = make_pack(image, n, 1, users, COUNT(users));

    CHECK_NUMBER(abz_openo(image, length, ME, FILE4(key), 0), 0, "longest: OPENO");
    for (size_t place = 0; place <= bodies; place++) {
        const bool room = place < bodies;
        chance_bytes(bytes, payload);
        const abz_answer answer = abz_linked_add(image, length, ME, FILE4(key), bytes, payload);
        CHECK_NUMBER(answer.code, room ? 0 : 042, "longest: add %zu, code", place);
        CHECK_NUMBER(answer.number, room ? n - 1 - place : 0, "longest: add %zu, block", place);
        if (room)
            memcpy(written[place], bytes, payload);
    }
    CHECK_NUMBER(judge(image, length, owners), true, "longest: consistent");
    CHECK_NUMBER(abz_close(image, length, ME, FILE4(key), 2), 0, "longest: CLOSE");
    CHECK_NUMBER(abz_openi(image, length, ME, FILE4(key)), 0, "longest: OPENI");
    for (size_t place = 0; place <= bodies; place++) {
        const size_t code = abz_linked_read(image, length, ME, FILE4(key), place, bytes, payload);
        const size_t last = place < bodies ? place : bodies - 1;
        CHECK_NUMBER(code, place < bodies ? 0 : 044, "longest: place %zu, code", place);
        CHECK_BYTES(bytes, written[last], payload, "longest: place %zu", place);
    }
}

static void huge_everywhere(void)
{
    static uint8_t pack[SMALL_ROOM];
    const size_t length = make_open(pack);

    for (size_t what = BLOCK_IN; what < ALLOC; what++) {
        request it = request_on(pack, what, entry_for(what), 1);
        huge_numbers(it, pack, length);
        it.file.uic = 0;
        huge_numbers(it, pack, length);
    }
}

/* Up to as many files and blocks as there can be. */
static void large_packs(void)
{
    for (size_t pack = 0; pack < 3; pack++) {
        size_t length = chance_pack(image, tried->blocks_most - pack, tried->contents_most, 96);
        for (size_t i = 0; i < 60; i++)
            try_request("large pack", pack, length, chance_request(BLOCK_IN + i % (ALLOC - BLOCK_IN), image));
    }
}

int main(void)
{
    EACH_FORM {
        block_examples();
        read_examples();
        add_examples();
        protect_codes();
        causes();
        sizes();
        other_devices();
        places();
        rewriting();
        free_blocks();
        growing();
        longest();
        huge_everywhere();
        chance_requests(BLOCK_IN, ALLOC, 300, 40);
        damaged_images(BLOCK_IN, ALLOC, 60);
        other_forms(BLOCK_IN, ALLOC);
        large_packs();
        check_given(BLOCK_IN, ALLOC);
    }
    return check_end("bodies");
}
