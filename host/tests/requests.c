/* OPENI, OPENU, OPENE, CLOSE, DELET, KEEP, RENAM, APPND and Finish, held to requests.h. */
#include "requests.h"

/* The header's names for the codes. */
static void header_codes(void)
{
    static const struct {
        size_t named, number;
    } codes[] = {
        { ABZ_OK, 0 },          { ABZ_INCONSISTENT, 32 }, { ABZ_NAME, 13 },   { ABZ_ARGUMENT, 33 }, { ABZ_NO_USER, 11 },
        { ABZ_EXISTENCE, 2 },   { ABZ_RIGHT, 6 },         { ABZ_KIND, 35 },   { ABZ_WRITER, 4 },    { ABZ_OPEN, 12 },
        { ABZ_NOT_LINKED, 5 },  { ABZ_NOT_OPEN, 37 },     { ABZ_OPENS, 3 },   { ABZ_NO_ENTRY, 10 }, { ABZ_NO_ROOM, 34 },
        { ABZ_NO_BLOCK, 36 },   { ABZ_CONVERSION, 48 },   { ABZ_UPDATE, 1 },  { ABZ_OUTPUT, 2 },    { ABZ_EXTEND, 3 },
        { ABZ_INPUT, 4 },
    };

    for (size_t i = 0; i < COUNT(codes); i++)
        CHECK_NUMBER(codes[i].named, codes[i].number, "header code %zu", i);
}

/* Written out: document 01's examples and what is easily got wrong, with no model between. */
static void examples(void)
{
    const size_t length = make_closed(image);
    static const file_key bad = { 64000, 0, 0, ME };
    static const file_key absent = { 1600, 0, 0, ME }; /* A */
    const file_key freq = entry_key(image, EXTENT), none = entry_key(image, EMPTY), three = entry_key(image, THREE),
                   one = entry_key(image, ONE), others = entry_key(image, OTHERS);

#define EXPECT(call, expected) CHECK_NUMBER(call, expected, "example " #call)
    /* APPND of a file to itself. */
    EXPECT(abz_appnd(image, length, ME, FILE4(bad), FILE4(bad)), 015);
    EXPECT(abz_appnd(image, length, ME, FILE4(one), FILE4(one)), 041);
    EXPECT(abz_appnd(image, length, ME, FILE4(absent), FILE4(absent)), 041);
    EXPECT(abz_appnd(image, length, ME, FILE4(absent), absent.name1, 0, 0, 0), 041);

    /* Protect 3: another may read, not write. */
    set_field(image, EXTENT, PROTECT, 3);
    EXPECT(abz_openi(image, length, OTHER, FILE4(freq)), 0);
    EXPECT(abz_openu(image, length, OTHER, FILE4(freq)), 6);
    EXPECT(abz_openu(image, length, ME, FILE4(freq)), 0);
    EXPECT(abz_openu(image, length, ME, FILE4(freq)), 4);
    EXPECT(abz_opene(image, length, ME, FILE4(freq)), 5);
    EXPECT(abz_delet(image, length, ME, FILE4(freq)), 014);
    EXPECT(abz_close(image, length, 0, FILE4(freq), 2), 045);
    EXPECT(abz_close(image, length, 0, FILE4(freq), 1), 0);
    EXPECT(abz_close(image, length, 0, FILE4(freq), 4), 0);
    EXPECT(abz_close(image, length, 0, FILE4(freq), 4), 045);
    EXPECT(abz_keep(image, length, OTHER, FILE4(freq)), 6);
    EXPECT(abz_keep(image, length, ME, FILE4(freq)), 0);
    EXPECT(get_field(image, EXTENT, PROTECT), 0203);

    /* The same name again; another one. */
    EXPECT(abz_renam(image, length, ME, FILE4(freq), freq.name1, freq.name2, freq.extension, 0), 2);
    EXPECT(abz_renam(image, length, ME, FILE4(freq), freq.name1, freq.name2, 0, 0377), 0);
    EXPECT(get_field(image, EXTENT, EXTENSION), 0);
    EXPECT(get_field(image, EXTENT, UIC), ME);
    EXPECT(get_field(image, EXTENT, PROTECT), 0377);

    /* Joined to an empty file, and another behind that; block 0 stays. */
    EXPECT(abz_appnd(image, length, ME, FILE4(none), FILE4(three)), 0);
    EXPECT(abz_appnd(image, length, ME, FILE4(none), FILE4(others)), 0);
    EXPECT(get_word(image, FORM), tried->number);
    EXPECT(get_field(image, EMPTY, FIRST), small(9));
    EXPECT(get_field(image, EMPTY, LENGTH), 5);
    EXPECT(get_field(image, EMPTY, LAST), small(5));
    EXPECT(get_link(image, small(9)), small(7));
    EXPECT(get_link(image, small(7)), small(12));
    EXPECT(get_link(image, small(12)), small(15));
    EXPECT(get_link(image, small(15)), small(5));
    EXPECT(get_link(image, small(5)), 0);
    EXPECT(abz_look(image, length, ME, FILE4(three)).code, 2);

    /* Its blocks are free when it is deleted, and stay as they were. */
    EXPECT(abz_owner(image, length, small(12)).kind, ABZ_HELD);
    EXPECT(abz_delet(image, length, OTHER, FILE4(none)), 0);
    EXPECT(abz_owner(image, length, small(12)).kind, ABZ_FREE);
    EXPECT(get_link(image, small(12)), small(15));

    /* 62 opens, and the writer counts. */
    for (size_t i = 0; i < 61; i++)
        EXPECT(abz_openi(image, length, ME, FILE4(one)), 0);
    EXPECT(abz_opene(image, length, ME, FILE4(one)), 0);
    EXPECT(abz_openi(image, length, ME, FILE4(one)), 3);
    EXPECT(abz_close(image, length, ME, FILE4(one), 3), 0);
    EXPECT(abz_openi(image, length, ME, FILE4(one)), 0);
    EXPECT(abz_opene(image, length, ME, FILE4(one)), 3);
#undef EXPECT
}

/* Every protect code, for the owner, his group and others; and every way of being open. */
static void states(void)
{
    static const size_t callers[] = { ME, GROUP, OTHER, 0, ME + 65536, GROUP + 65536, 023 * 256, 022 * 256 + 010 };
    static const size_t protects[] = { 0, 1, 2, 4, 0100, 010, 020, 0107, 0377 };
    static const size_t readers[] = { 0, 1, 2, 60, 61, 62 };
    static uint8_t pack[SMALL_ROOM];
    const size_t length = make_closed(pack);
    request it = { .mode = 4, .protect = 0201, .second = key_of("ZZZ   ", "   ", ME) };

    for (it.what = 0; it.what < BLOCK_IN; it.what++)
        for (size_t entry = EXTENT; entry <= THREE; entry += THREE - EXTENT)
            for (size_t c = 0; c < COUNT(callers); c++) {
                it.caller = callers[c];
                it.file = entry_key(pack, entry);
                if (it.what == APPND)
                    it.second = entry_key(pack, ONE);

                for (size_t protect = 0; protect < 256; protect++) {
                    memcpy(image, pack, length);
                    set_field(image, entry, PROTECT, protect);
                    try_request("protect code", protect, length, it);
                    if (it.what == APPND) { /* the same for the second file */
                        memcpy(image, pack, length);
                        set_field(image, ONE, PROTECT, protect);
                        try_request("second file's protect code", protect, length, it);
                    }
                }

                for (size_t p = 0; p < COUNT(protects); p++)
                    for (size_t writer = 0; writer < 4; writer++)
                        for (size_t r = 0; r < COUNT(readers); r++) {
                            if (readers[r] + (writer != 0) > 62 || (writer && (writer == 1) != (entry == EXTENT)))
                                continue;
                            for (it.mode = 0; it.mode < (it.what == CLOSE ? 6 : 1); it.mode++) {
                                memcpy(image, pack, length);
                                set_field(image, entry, PROTECT, protects[p]);
                                set_open(image, entry, writer, readers[r]);
                                try_request("writer", writer, length, it);
                            }
                            it.mode = 4;
                        }
            }
}

/* APPND of each file to each, and RENAM of each to the name of each. */
static void pairs(void)
{
    static uint8_t pack[SMALL_ROOM];
    const size_t length = make_closed(pack);

    for (size_t what = RENAM; what <= APPND; what++)
        for (size_t first = 0; first < FILES; first++)
            for (size_t second = 0; second < FILES; second++)
                for (size_t open = 0; open < 4; open++) {
                    request it = { .what = what, .caller = ME };
                    memcpy(image, pack, length);
                    it.file = entry_key(pack, first);
                    it.second = entry_key(pack, second);
                    if (open & 1)
                        set_field(image, first, READERS, 1);
                    if (open & 2)
                        set_field(image, second, WRITER, second == EXTENT ? 1 : 3);
                    try_request("pair", FILES * first + second, length, it);
                }
}

static void huge_everywhere(void)
{
    static uint8_t pack[SMALL_ROOM];
    const size_t length = make_closed(pack);

    set_open(pack, THREE, 3, 7);
    for (size_t what = 0; what < BLOCK_IN; what++) {
        request it = { .what = what, .caller = ME, .mode = 4 };
        it.file = entry_key(pack, what == OPENU ? EXTENT : what == CLOSE ? THREE : ONE);
        it.second = what == APPND ? entry_key(pack, OTHERS) : key_of("NEW   ", "   ", ME);
        huge_numbers(it, pack, length);
    }
}

/* Up to as many files and blocks as there can be. */
static void large_packs(void)
{
    for (size_t pack = 0; pack < 3; pack++) {
        size_t length = chance_pack(image, tried->blocks_most - pack, tried->contents_most, 96);
        ease(image);
        for (size_t i = 0; i < 60; i++) {
            request it = chance_request(i % BLOCK_IN, image);
            try_request("large pack", pack, length, it);
        }
    }
}

int main(void)
{
    header_codes();
    EACH_FORM {
        examples();
        states();
        pairs();
        huge_everywhere();
        chance_requests(OPENI, BLOCK_IN, 400, 40);
        damaged_images(OPENI, BLOCK_IN, 60);
        other_forms(OPENI, BLOCK_IN);
        large_packs();
    }
    for (size_t i = 0; i < COUNT(joined); i++)
        CHECK_NUMBER(joined[i] > 0, true, "APPND with %zu (1 the first, 2 the second) empty", i);
    check_given(OPENI, BLOCK_IN);
    return check_end("requests");
}
