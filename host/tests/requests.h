/*
 * The requests on files as document 01 describes them, and Finish as 02 does (§12), with nothing taken from the library,
 * and the library held to them. Codes are written as the numbers that the papers give them.
 */
#ifndef REQUESTS_H
#define REQUESTS_H

#include "abezolit.h"

#include "check.h"
#include "image.h"

#define COUNT(array) (sizeof(array) / sizeof *(array))

enum { GUARD = 16, ROOM = IMAGE_MOST + BLOCK_MOST, CODES = 0100 }; /* and a block too many */
enum { BUFFER_ROOM = 65536 + BLOCK_MOST }; /* so that a size can be wrong in its high bits alone */
enum { ME = 023 * 256 + 010, GROUP = 023 * 256 + 011, OTHER = 012 * 256 + 04 };

/*
 * From BLOCK_IN they move bodies and have a buffer, from ALLOC they create; those before need a file that is there, but
 * for FINISH, which names none.
 */
enum {
    OPENI, OPENU, OPENE, CLOSE, DELET, KEEP, RENAM, APPND, FINISH,
    BLOCK_IN, BLOCK_OUT, LINKED_READ, LINKED_ADD,
    ALLOC, OPENO,
    REQUESTS
};

static const char *const request_names[REQUESTS] = { "OPENI", "OPENU", "OPENE", "CLOSE", "DELET", "KEEP", "RENAM",
                                                     "APPND", "Finish", "BLOCK input", "BLOCK output",
                                                     "linked read", "linked add", "ALLOC", "OPENO" };

/* A request does not look at what it has no use for. second is APPND's second file and RENAM's new name. */
typedef struct {
    size_t what, caller;
    file_key file, second;
    size_t protect, segments, mode, place;
    size_t buffer_len; /* 0 where there is no buffer */
} request;

/* Among them numbers that are in order in their low 16 or 32 bits, or when multiplied by a measure of the pack. */
static const size_t huge[] = {
    65535, 65536, 65537, 65536 + 16, UINT32_MAX, (size_t)UINT32_MAX + 1, (size_t)UINT32_MAX + 2,
    SIZE_MAX / BLOCK_MOST + 1, SIZE_MAX / BLOCK_MOST + 17, SIZE_MAX / ABZ_BLOCK_BYTES_3 + 1,
    SIZE_MAX / ABZ_BLOCK_BYTES_3 + 17, SIZE_MAX / ABZ_ENTRY_BYTES + 1,
    SIZE_MAX / ABZ_BLOCK_SEGMENTS, SIZE_MAX / ABZ_BLOCK_SEGMENTS + 1, SIZE_MAX / ABZ_BLOCK_SEGMENTS + 2,
    SIZE_MAX / 2, SIZE_MAX / 2 + 1, SIZE_MAX - 3, SIZE_MAX - 2, SIZE_MAX - 1, SIZE_MAX
};

/* ---- Document 01 ---- */

/* "Of several, the first in this table is given." */
static const size_t table[] = { 040, 015, 041, 013, 2, 6, 5, 043, 4, 014, 045, 044, 3, 012, 042 };

/* What each request can give at all: readings.md, A2 to A5 and A7 to A16. */
static const size_t possible[REQUESTS][11] = {
    [OPENI] = { 040, 015, 2, 6, 3 },
    [OPENU] = { 040, 015, 2, 6, 043, 4, 3 },
    [OPENE] = { 040, 015, 2, 6, 5, 4, 3 },
    [CLOSE] = { 040, 015, 041, 2, 045 },
    [DELET] = { 040, 015, 2, 6, 014 },
    [KEEP] = { 040, 015, 2, 6 },
    [RENAM] = { 040, 015, 041, 2, 6, 014 },
    [APPND] = { 040, 015, 041, 2, 6, 043, 014 },
    [FINISH] = { 040 },
    [BLOCK_IN] = { 040, 015, 041, 2, 6, 043, 045, 044 },
    [BLOCK_OUT] = { 040, 015, 041, 2, 6, 043, 045, 044 },
    [LINKED_READ] = { 040, 015, 041, 2, 6, 043, 045, 044 },
    [LINKED_ADD] = { 040, 015, 041, 2, 6, 043, 045, 042 },
    [ALLOC] = { 040, 015, 041, 013, 2, 6, 012, 042 },
    [OPENO] = { 040, 015, 041, 013, 2, 6, 012 },
};

/* All 0 but for the entry if there is no such file. */
typedef struct {
    bool there;
    size_t entry, uic, protect, kind, length, writer, readers;
} file;

static inline file_key meant(file_key key, size_t caller)
{
    if (key.uic == 0)
        key.uic = caller;
    return key;
}

static inline bool same_key(file_key a, file_key b)
{
    return a.name1 == b.name1 && a.name2 == b.name2 && a.extension == b.extension && a.uic == b.uic;
}

static inline file file_of(const uint8_t *image, file_key key)
{
    file it = { 0 };

    it.entry = find_below(image, key, entry_count(image));
    if (it.entry < entry_count(image)) {
        it.there = true;
        it.uic = get_field(image, it.entry, UIC);
        it.protect = get_field(image, it.entry, PROTECT);
        it.kind = get_field(image, it.entry, KIND);
        it.length = get_field(image, it.entry, LENGTH);
        it.writer = get_field(image, it.entry, WRITER);
        it.readers = get_field(image, it.entry, READERS);
    }
    return it;
}

static inline size_t opens(file it)
{
    return it.readers + (it.writer != 0);
}

/* Each of them has those before it too. */
enum { NOTHING, MAY_READ, MAY_WRITE, MAY_DELETE };

static inline size_t rights(size_t caller, file it)
{
    static const size_t digit_gives[8] = { MAY_DELETE, MAY_WRITE, MAY_READ, MAY_READ };

    if (caller == it.uic)
        return it.protect & 0100 ? MAY_READ : MAY_DELETE;
    return digit_gives[caller / 256 == it.uic / 256 ? it.protect / 010 % 010 : it.protect % 010];
}

static inline size_t empty_entry(const uint8_t *image)
{
    size_t entry = 0;

    while (entry < entry_count(image) && used(image, entry))
        entry++;
    return entry;
}

/* The highest block from which so many are free, or 0. */
static inline size_t free_run(const uint8_t *image, const block_owner *owners, size_t length)
{
    for (size_t start = get_word(image, BLOCKS) - 1; start > 0; start--) {
        size_t count = 0;
        while (start + count < get_word(image, BLOCKS) && owners[start + count].kind == FREE && count < length)
            count++;
        if (count == length)
            return start;
    }
    return 0;
}

/* The blocks of a linked file, by their places. */
static inline void chain_of(const uint8_t *image, file it, size_t *blocks)
{
    size_t block = get_field(image, it.entry, FIRST);

    for (size_t place = 0; place < it.length; place++) {
        blocks[place] = block;
        block = get_link(image, block);
    }
}

/* Gives a file more blocks, behind its own. All links of its chain are set, also those that are right already. */
static inline void lengthen(uint8_t *image, file it, const size_t *more, size_t count)
{
    size_t blocks[BLOCKS_MOST];

    chain_of(image, it, blocks);
    for (size_t i = 0; i < count; i++)
        blocks[it.length + i] = more[i];
    put_linked(image, it.entry, entry_key(image, it.entry), blocks, it.length + count);
    set_field(image, it.entry, PROTECT, it.protect);
    set_open(image, it.entry, it.writer, it.readers);
}

static inline void clear_entry(uint8_t *image, size_t entry)
{
    memset(image + 2 * entry_word(image, entry, 0), 0, 2 * ENTRY_WORDS);
}

static inline void join(uint8_t *image, file first, file second)
{
    size_t blocks[BLOCKS_MOST];

    chain_of(image, second, blocks);
    lengthen(image, first, blocks, second.length);
    clear_entry(image, second.entry);
}

/*
 * "every file of the caller's UIC that has bit 7 clear, is not open, and that DELET would allow": the last is asked of
 * the rights again.
 */
static inline bool is_scratch(const uint8_t *image, size_t entry, size_t caller)
{
    if (!used(image, entry))
        return false;

    const file it = file_of(image, entry_key(image, entry));

    return it.uic == caller && !(it.protect & 0200) && opens(it) == 0 && rights(caller, it) >= MAY_DELETE;
}

/* Deletes them, in stored order, and returns how many. */
static inline size_t finish(uint8_t *image, size_t caller)
{
    size_t number = 0;

    for (size_t entry = 0; entry < entry_count(image); entry++)
        if (is_scratch(image, entry, caller)) {
            clear_entry(image, entry);
            number++;
        }
    return number;
}

/* Where in the image a block of a file starts. */
static inline uint8_t *body(uint8_t *image, file it, size_t place)
{
    return image + form_of(image)->block * block_at(image, it.entry, place);
}

/* What a request does to an image and a buffer, and answers. */
static inline abz_answer model(uint8_t *image, size_t length, uint8_t *buffer, const request *it)
{
    static block_owner owners[BLOCKS_MOST];
    bool cause[CODES] = { false };
    abz_answer answer = { 0, 0 };

    if (!judge(image, length, owners)) {
        answer.code = 040;
        return answer;
    }

    const pack_form *form = form_of(image);
    const size_t caller = it->caller, none = entry_count(image);
    const file_key key = meant(it->file, caller);
    const file one = file_of(image, key);
    const size_t may = rights(caller, one), empty = empty_entry(image);
    size_t start = 0, needed = it->segments / form->segments + (it->segments % form->segments != 0);
    file_key second_key = it->second;
    file two = { 0 };

    cause[015] = !legal(key);
    cause[2] = !one.there;

    switch (it->what) {
    case OPENI:
        cause[2] = !one.there || one.writer == 2;
        cause[6] = may < MAY_READ;
        cause[3] = opens(one) == 62;
        break;
    case OPENU:
        cause[2] = !one.there || one.writer == 2;
        cause[6] = may < MAY_WRITE;
        cause[043] = one.kind == LINKED;
        cause[4] = one.writer != 0;
        cause[3] = opens(one) == 62;
        break;
    case OPENE:
        cause[2] = !one.there || one.writer == 2;
        cause[6] = may < MAY_WRITE;
        cause[5] = one.kind == CONTIGUOUS;
        cause[4] = one.writer != 0;
        cause[3] = opens(one) == 62;
        break;
    case CLOSE:
        cause[041] = it->mode < 1 || it->mode > 4;
        cause[045] = it->mode == 4 ? one.readers == 0 : one.writer != it->mode;
        break;
    case DELET:
        cause[6] = may < MAY_DELETE;
        cause[014] = opens(one) > 0;
        break;
    case KEEP:
        cause[6] = caller != one.uic;
        break;
    case RENAM:
        second_key.uic = key.uic;
        two = file_of(image, second_key);
        cause[015] = !legal(key) || !legal(second_key);
        cause[041] = it->protect > 255;
        cause[2] = !one.there || two.there;
        cause[6] = may < MAY_WRITE;
        cause[014] = opens(one) > 0;
        break;
    case APPND:
        second_key = meant(second_key, caller);
        two = file_of(image, second_key);
        cause[015] = !legal(key) || !legal(second_key);
        cause[041] = same_key(key, second_key);
        cause[2] = !one.there || !two.there;
        cause[6] = may < MAY_WRITE || rights(caller, two) < MAY_DELETE;
        cause[043] = one.kind == CONTIGUOUS || two.kind == CONTIGUOUS;
        cause[014] = opens(one) > 0 || opens(two) > 0;
        break;
    case FINISH:
        cause[015] = cause[2] = false;
        break;
    case BLOCK_IN:
        cause[041] = it->buffer_len != form->block;
        cause[6] = may < MAY_READ;
        cause[043] = one.kind == LINKED;
        cause[045] = one.readers == 0 && one.writer != 1;
        cause[044] = it->place >= one.length;
        break;
    case BLOCK_OUT:
        cause[041] = it->buffer_len != form->block;
        cause[6] = may < MAY_WRITE;
        cause[043] = one.kind == LINKED;
        cause[045] = one.writer != 1;
        cause[044] = it->place >= one.length;
        break;
    case LINKED_READ:
        cause[041] = it->buffer_len != form->payload;
        cause[6] = may < MAY_READ;
        cause[043] = one.kind == CONTIGUOUS;
        cause[045] = one.readers == 0;
        cause[044] = it->place >= one.length;
        break;
    case LINKED_ADD:
        start = free_run(image, owners, 1);
        cause[041] = it->buffer_len != form->payload;
        cause[6] = may < MAY_WRITE;
        cause[043] = one.kind == CONTIGUOUS;
        cause[045] = one.writer != 2 && one.writer != 3;
        cause[042] = start == 0;
        break;
    case ALLOC:
        start = needed ? free_run(image, owners, needed) : 0;
        cause[041] = it->segments == 0 || it->protect > 255;
        cause[042] = start == 0;
        break;
    case OPENO:
        cause[041] = it->protect > 255;
        break;
    }
    if (it->what == ALLOC || it->what == OPENO) {
        cause[013] = !listed(image, key.uic);
        cause[2] = one.there;
        cause[6] = key.uic != caller;
        cause[012] = empty == none;
    }

    for (size_t i = 0; i < COUNT(table); i++)
        if (cause[table[i]]) {
            answer.code = table[i];
            return answer;
        }

    switch (it->what) {
    case OPENI: set_field(image, one.entry, READERS, one.readers + 1); break;
    case OPENU: set_field(image, one.entry, WRITER, 1); break;
    case OPENE: set_field(image, one.entry, WRITER, 3); break;
    case CLOSE:
        if (it->mode == 4)
            set_field(image, one.entry, READERS, one.readers - 1);
        else
            set_field(image, one.entry, WRITER, 0);
        break;
    case DELET: clear_entry(image, one.entry); break;
    case KEEP: set_field(image, one.entry, PROTECT, one.protect | 0200); break;
    case RENAM:
        set_field(image, one.entry, NAME1, it->second.name1);
        set_field(image, one.entry, NAME2, it->second.name2);
        set_field(image, one.entry, EXTENSION, it->second.extension);
        set_field(image, one.entry, PROTECT, it->protect);
        break;
    case APPND: join(image, one, two); break;
    case FINISH: answer.number = finish(image, caller); break;
    case BLOCK_IN: memcpy(buffer, body(image, one, it->place), form->block); break;
    case BLOCK_OUT: memcpy(body(image, one, it->place), buffer, form->block); break;
    case LINKED_READ: memcpy(buffer, body(image, one, it->place) + 2, form->payload); break;
    case LINKED_ADD:
        lengthen(image, one, &start, 1);
        memcpy(image + form->block * start + 2, buffer, form->payload);
        answer.number = start;
        break;
    case ALLOC:
        put_contiguous(image, empty, key, start, needed);
        set_field(image, empty, PROTECT, it->protect);
        memset(image + form->block * start, 0, form->block * needed);
        answer.number = start;
        break;
    case OPENO:
        put_linked(image, empty, key, NULL, 0);
        set_field(image, empty, PROTECT, it->protect);
        set_open(image, empty, 2, 0);
        break;
    }
    put_map(image); /* by a walk over the files that there are now */
    return answer;
}

/* ---- The library ---- */

#define FILE4(key) (key).name1, (key).name2, (key).extension, (key).uic

static inline abz_answer call_library(uint8_t *image, size_t length, uint8_t *buffer, const request *it)
{
    const size_t caller = it->caller;
    abz_answer answer = { SIZE_MAX, 0 };

    switch (it->what) {
    case OPENI: answer.code = abz_openi(image, length, caller, FILE4(it->file)); break;
    case OPENU: answer.code = abz_openu(image, length, caller, FILE4(it->file)); break;
    case OPENE: answer.code = abz_opene(image, length, caller, FILE4(it->file)); break;
    case CLOSE: answer.code = abz_close(image, length, caller, FILE4(it->file), it->mode); break;
    case DELET: answer.code = abz_delet(image, length, caller, FILE4(it->file)); break;
    case KEEP: answer.code = abz_keep(image, length, caller, FILE4(it->file)); break;
    case RENAM:
        answer.code = abz_renam(image, length, caller, FILE4(it->file), it->second.name1, it->second.name2,
                                it->second.extension, it->protect);
        break;
    case APPND: answer.code = abz_appnd(image, length, caller, FILE4(it->file), FILE4(it->second)); break;
    case FINISH: return abz_finish(image, length, caller);
    case BLOCK_IN:
        answer.code = abz_block_in(image, length, caller, FILE4(it->file), it->place, buffer, it->buffer_len);
        break;
    case BLOCK_OUT:
        answer.code = abz_block_out(image, length, caller, FILE4(it->file), it->place, buffer, it->buffer_len);
        break;
    case LINKED_READ:
        answer.code = abz_linked_read(image, length, caller, FILE4(it->file), it->place, buffer, it->buffer_len);
        break;
    case LINKED_ADD: return abz_linked_add(image, length, caller, FILE4(it->file), buffer, it->buffer_len);
    case ALLOC: return abz_alloc(image, length, caller, FILE4(it->file), it->protect, it->segments);
    case OPENO: answer.code = abz_openo(image, length, caller, FILE4(it->file), it->protect); break;
    }
    return answer;
}

/* ---- Trying a request ---- */

/* A lent slice has guards on both sides and is compared with them. */
static uint8_t lent[GUARD + ROOM + GUARD], kept[sizeof lent], wanted[sizeof lent];
static uint8_t lent_buffer[GUARD + BUFFER_ROOM + GUARD], kept_buffer[sizeof lent_buffer];
static uint8_t wanted_buffer[sizeof lent_buffer];
static uint8_t *const image = lent + GUARD, *const buffer = lent_buffer + GUARD;

/* How often each request gave each code, and APPND joined files that were empty (1 the first, 2 the second). */
static size_t given[REQUESTS][CODES], joined[4];

/*
 * The buffer is lent full of random bytes. Whatever the library did, image and buffer are then as they should be.
 * Returns the code that is due.
 */
static inline size_t try_request(const char *name, size_t number, size_t length, request it)
{
    static block_owner owners[BLOCKS_MOST];
    const size_t all = GUARD + length + GUARD, all_buffer = GUARD + it.buffer_len + GUARD;

    chance_bytes(lent_buffer, all_buffer);
    memcpy(kept, lent, all);
    memcpy(wanted, lent, all);
    memcpy(kept_buffer, lent_buffer, all_buffer);
    memcpy(wanted_buffer, lent_buffer, all_buffer);

    const abz_answer due = model(wanted + GUARD, length, wanted_buffer + GUARD, &it);
    const abz_answer answer = call_library(image, length, buffer, &it);

#define CASE                                                                                                 \
    "%s %zu, length %zu: %s for %zu of %zu %zu %zu %zu, second %zu %zu %zu %zu, protect %zu, segments %zu, " \
    "mode %zu, place %zu, buffer of %zu: "
#define CASE_ARGUMENTS                                                                                            \
    name, number, length, request_names[it.what], it.caller, FILE4(it.file), FILE4(it.second), it.protect, \
        it.segments, it.mode, it.place, it.buffer_len
    CHECK_NUMBER(answer.code, due.code, CASE "code", CASE_ARGUMENTS);
    CHECK_NUMBER(answer.number, due.number, CASE "number", CASE_ARGUMENTS);
    if (due.code == 0) {
        CHECK_BYTES(lent, wanted, all, CASE "image behind %d guard bytes", CASE_ARGUMENTS, GUARD);
        CHECK_BYTES(lent_buffer, wanted_buffer, all_buffer, CASE "buffer behind %d guard bytes", CASE_ARGUMENTS, GUARD);
    } else {
        CHECK_BYTES(lent, kept, all, CASE "refused, image behind %d guard bytes", CASE_ARGUMENTS, GUARD);
        CHECK_BYTES(lent_buffer, kept_buffer, all_buffer, CASE "refused, buffer behind %d guard bytes", CASE_ARGUMENTS,
                    GUARD);
    }
    if (due.code != 040)
        CHECK_NUMBER(judge(image, length, owners), true, CASE "consistent afterwards", CASE_ARGUMENTS);
#undef CASE_ARGUMENTS
#undef CASE

    if (due.code == 0 && it.what == APPND) {
        file one = file_of(kept + GUARD, meant(it.file, it.caller));
        file two = file_of(kept + GUARD, meant(it.second, it.caller));
        joined[(one.length == 0) + 2 * (two.length == 0)]++;
    }
    given[it.what][due.code]++;
    memcpy(lent, wanted, all);
    memcpy(lent_buffer, wanted_buffer, all_buffer);
    return due.code;
}

/* Each code that a request can give was given, and no other. */
static inline void check_given(size_t from, size_t end)
{
    for (size_t what = from; what < end; what++) {
        bool can[CODES] = { true }; /* 0 */
        for (size_t i = 0; i < COUNT(possible[what]); i++)
            can[possible[what][i]] = true;
        for (size_t code = 0; code < CODES; code++)
            CHECK_NUMBER(given[what][code] > 0, can[code], "%s: whether code %zo was given", request_names[what], code);
    }
}

/* ---- Cases that are counted ---- */

/* A number's last digit to some base, which is taken off it: so a number stands for one of several choices each time. */
static inline size_t digit(size_t *number, size_t base)
{
    size_t last = *number % base;

    *number /= base;
    return last;
}

/* ---- A pack to try requests on ---- */

static const size_t users[] = { ME, GROUP, OTHER };

/* A contiguous file and linked ones of 0, 1 and 3 blocks, closed, with protect code 0; and a linked one of OTHER. */
enum { EXTENT, EMPTY, ONE, THREE, OTHERS, FILES };

static inline size_t make_closed(uint8_t *pack)
{
    const size_t one[] = { small(6) }, three[] = { small(9), small(7), small(12) }, two[] = { small(15), small(5) };

    chance_bytes(pack, small_bytes());
    size_t length = make_small_pack(pack, users, COUNT(users));
    put_contiguous(pack, EXTENT, key_of("FREQ  ", "DAT", ME), small(2), 3);
    put_linked(pack, EMPTY, key_of("B     ", "DAT", ME), NULL, 0);
    put_linked(pack, ONE, key_of("ABC   ", "   ", ME), one, 1);
    put_linked(pack, THREE, key_of("ABCDEF", "999", ME), three, 3);
    put_linked(pack, OTHERS, key_of("ABC   ", "   ", OTHER), two, 2);
    return length;
}

/* ---- Requests by chance ---- */

/* Of a file that is there, for the most part. The pack has a UIC. */
static inline file_key likely_key(const uint8_t *pack)
{
    size_t entry = chance(entry_count(pack));

    for (size_t i = 0; i < 8 && !used(pack, entry); i++)
        entry = chance(entry_count(pack));
    return used(pack, entry) && chance(16) ? entry_key(pack, entry) : chance_key(pack);
}

static inline size_t likely_caller(const uint8_t *pack, size_t uic)
{
    switch (chance(8)) {
    case 0: return uic / 256 * 256 + chance(256);
    case 1: return get_word(pack, UIC_LIST + chance(get_word(pack, UICS)));
    case 2: return chance(65536);
    default: return uic;
    }
}

/* The numbers of a request, one after another. */
enum { NUMBERS = 13 };

static inline size_t *number_of(request *it, size_t i)
{
    size_t *const numbers[NUMBERS] = { &it->caller,
                                       &it->file.name1, &it->file.name2, &it->file.extension, &it->file.uic,
                                       &it->second.name1, &it->second.name2, &it->second.extension, &it->second.uic,
                                       &it->protect, &it->segments, &it->mode, &it->place };

    return numbers[i];
}

static inline void spoil(size_t *number)
{
    const size_t old = *number;
    const size_t others[] = { 0,       old + 1,         old - 1,    old + 40, old + 256,
                              old ^ 1, chance(65536), old + 65536, 64000,    huge[chance(COUNT(huge))] };

    *number = others[chance(COUNT(others))];
}

/* The size that a request on a pack asks of its buffer. */
static inline size_t right_buffer(const uint8_t *pack, size_t what)
{
    switch (what) {
    case BLOCK_IN:
    case BLOCK_OUT: return form_of(pack)->block;
    case LINKED_READ:
    case LINKED_ADD: return form_of(pack)->payload;
    default: return 0;
    }
}

static inline request chance_request(size_t what, const uint8_t *pack)
{
    const pack_form *form = form_of(pack);
    request it = { .what = what, .file = likely_key(pack), .second = likely_key(pack) };

    it.caller = likely_caller(pack, it.file.uic);
    if (what == RENAM || what == ALLOC || what == OPENO) {
        file_key *const new_key = what == RENAM ? &it.second : &it.file;
        if (chance(8))
            *new_key = chance_key(pack);
        if (chance(8))
            it.caller = it.file.uic;
    }
    if (what == APPND && chance(32) == 0)
        it.second = it.file;
    it.protect = chance(256);
    it.segments = chance(4) ? 1 + chance(24) : chance(5 * get_word(pack, BLOCKS));
    it.mode = 1 + chance(4);
    it.place = chance(7);
    it.buffer_len = right_buffer(pack, what);
    if (it.buffer_len > 0 && chance(16) == 0)
        it.buffer_len = chance(2) ? form->block + form->payload - it.buffer_len : chance(2 * form->block);
    if (it.caller == it.file.uic && chance(2))
        it.file.uic = 0;
    if (it.caller == it.second.uic && chance(2))
        it.second.uic = 0;
    while (chance(6) == 0)
        spoil(number_of(&it, chance(NUMBERS)));
    return it;
}

/* So that more is granted: some files closed, and some with all rights. */
static inline void ease(uint8_t *pack)
{
    for (size_t entry = 0; entry < entry_count(pack); entry++)
        if (used(pack, entry)) {
            if (chance(2))
                set_open(pack, entry, 0, 0);
            if (chance(2))
                set_field(pack, entry, PROTECT, chance(2) ? 0 : 0200);
        }
}

/* One request after another on packs made by chance, each from what those before it left. */
static inline void chance_requests(size_t from, size_t end, size_t packs, size_t times)
{
    for (size_t pack = 0; pack < packs; pack++) {
        size_t c = contents_like(1 + chance(3)), n = 16 + chance(64);
        size_t files = pack % 3 ? 4 + chance(12) : tried->entries * c;
        size_t length = chance_pack(image, n, c, files);
        if (pack % 4)
            ease(image);
        for (size_t i = 0; i < times; i++) {
            request it = chance_request(from + chance(end - from), image);
            try_request("pack by chance", pack, length, it);
        }
    }
}

/* Makes the image a pack with one of its first words changed, a link of it, or its length. Returns the length. */
static inline size_t damage(const uint8_t *sound, size_t length, size_t words)
{
    const size_t word = chance(words), old = get_word(sound, word), n = get_word(sound, BLOCKS);
    size_t block;

    memcpy(image, sound, length);
    switch (chance(5)) {
    case 0: return chance(2) ? chance(length) : length + 1 - 2 * chance(2);
    case 1:
        do
            block = chance(n);
        while (block < bodies_from(sound));
        set_link(image, block, chance(2) ? 0 : chance(n));
        return length;
    default:
        set_word(image, word, chance(2) ? old ^ ((size_t)1 << chance(16)) : chance(65536));
        return length;
    }
}

/* One word of a pack changed, or its length: 40 wherever we judge so, and whatever is asked. */
static inline void damaged_images(size_t from, size_t end, size_t packs)
{
    static uint8_t sound[ROOM];
    size_t refused = 0;

    for (size_t pack = 0; pack < packs; pack++) {
        size_t c = contents_like(1 + chance(2)), length = chance_pack(sound, 16 + chance(24), c, 16);
        for (size_t i = 0; i < 8 * (end - from); i++) {
            request it = chance_request(from + i % (end - from), sound);
            size_t damaged_len = damage(sound, length, (i % 3 ? system_bytes(sound) : length) / 2);
            refused += try_request("damaged pack", pack, damaged_len, it) == 040;
        }
    }
    CHECK_NUMBER(refused > packs * (end - from), true, "damaged packs: %zu refused", refused);

    /* Far too short, with what would make it a pack behind it. */
    for (size_t short_len = 0; short_len < 40; short_len++)
        for (size_t what = from; what < end; what++) {
            request it = chance_request(what, sound);
            memcpy(image, sound, tried->block * get_word(sound, BLOCKS));
            CHECK_NUMBER(try_request("short image", what, short_len, it), 040, "short image of %zu", short_len);
        }
}

/* A pack whose word 0 is another number, of no form or of one that it is not of: 40, whatever is asked. */
static inline void other_forms(size_t from, size_t end)
{
    static uint8_t sound[SMALL_ROOM];
    const size_t length = make_closed(sound);

    for (size_t what = from; what < end; what++)
        for (size_t i = 0; i < FORM_WORDS; i++) {
            request it = chance_request(what, sound);
            memcpy(image, sound, length);
            set_word(image, FORM, form_words[i]);
            const size_t code = try_request("form", form_words[i], length, it);
            CHECK_NUMBER(code != 040, right_as(form_words[i]), "%s: form %zu for form %zu", request_names[what],
                         form_words[i], tried->number);
        }
}

/* One number of a right request made huge, two of them, or all; and put 65536 higher. */
static inline void huge_numbers(request right, const uint8_t *pack, size_t length)
{
#define TRY(it)                                                 \
    do {                                                        \
        memcpy(image, pack, length);                            \
        try_request("huge numbers", right.what, length, (it));  \
    } while (0)

    memcpy(image, pack, length);
    CHECK_NUMBER(try_request("right request", right.what, length, right), 0, "%s", request_names[right.what]);
    for (size_t i = 0; i < NUMBERS; i++) {
        request it = right;
        *number_of(&it, i) += 65536;
        TRY(it);
        *number_of(&it, i) += UINT32_MAX - (size_t)65535;
        TRY(it);
        for (size_t h = 0; h < COUNT(huge); h++) {
            it = right;
            *number_of(&it, i) = huge[h];
            TRY(it);
            for (size_t j = 0; j < i; j++) {
                *number_of(&it, j) = huge[chance(COUNT(huge))];
                TRY(it);
                *number_of(&it, j) = *number_of(&right, j);
            }
        }
    }
    for (size_t h = 0; h < COUNT(huge); h++) {
        request it = right;
        for (size_t i = 0; i < NUMBERS; i++)
            *number_of(&it, i) = huge[h];
        TRY(it);
    }
#undef TRY
}

#endif
