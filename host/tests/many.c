/*
 * Many requests in one call, document 02 §9, held to requests.h record by record, and to the library itself: the same
 * requests made singly give the same answers and leave the same image. Records are put together and read by the tables
 * of docs/MANY.md.
 */
#include "requests.h"

enum { RECORD = 32, MOST = 64, LIST_ROOM = RECORD * (MOST + 6) };

/* The request that a number in word 0 names; 0 and those behind the last name none. */
static const size_t listed_as[] = { REQUESTS, ALLOC, DELET, RENAM, APPND, KEEP, OPENO, OPENI, OPENU, OPENE, CLOSE };

static uint8_t records[LIST_ROOM], lent_answers[GUARD + LIST_ROOM + GUARD], wanted_answers[sizeof lent_answers];
static uint8_t *const answers = lent_answers + GUARD;

/* How many records named no request, on consistent images and on others; and how many lists were made. */
static size_t unknown[2], lists;

/* ---- Records ---- */

static uint8_t *record_at(size_t i)
{
    return records + RECORD * i;
}

static void put_key(uint8_t *record, size_t word, file_key key)
{
    set_word(record, word, key.name1);
    set_word(record, word + 1, key.name2);
    set_word(record, word + 2, key.extension);
    set_word(record, word + 3, key.uic);
}

static file_key get_key(const uint8_t *record, size_t word)
{
    const file_key key = { get_word(record, word), get_word(record, word + 1), get_word(record, word + 2),
                           get_word(record, word + 3) };

    return key;
}

/* Words that the request does not name keep what they hold. Of a number the low 16 bits are taken. */
static void put_record(uint8_t *record, const request *it)
{
    size_t number = 1;

    while (listed_as[number] != it->what)
        number++;
    set_word(record, 0, number);
    set_word(record, 1, it->caller);
    put_key(record, 2, it->file);
    switch (it->what) {
    case ALLOC:
        set_word(record, 6, it->protect);
        set_word(record, 7, it->segments);
        break;
    case RENAM:
        set_word(record, 6, it->second.name1);
        set_word(record, 7, it->second.name2);
        set_word(record, 8, it->second.extension);
        set_word(record, 9, it->protect);
        break;
    case APPND: put_key(record, 6, it->second); break;
    case OPENO: set_word(record, 6, it->protect); break;
    case CLOSE: set_word(record, 6, it->mode); break;
    }
}

/* What a record asks; its request is REQUESTS where it names none. */
static request read_record(const uint8_t *record)
{
    const size_t number = get_word(record, 0);
    request it = { .what = number < COUNT(listed_as) ? listed_as[number] : REQUESTS, .caller = get_word(record, 1) };

    it.file = get_key(record, 2);
    it.second = get_key(record, 6);
    it.protect = get_word(record, it.what == RENAM ? 9 : 6);
    it.segments = get_word(record, 7);
    it.mode = get_word(record, 6);
    return it;
}

/* ---- Trying a list ---- */

/* The records made one after another: by the model on `wanted`, and by single calls of the library on `alone`. */
static void make_singly(const char *name, size_t number, size_t length, size_t count)
{
    static uint8_t alone[ROOM];
    static block_owner owners[BLOCKS_MOST];

    memcpy(alone, image, length);
    for (size_t i = 0; i < count; i++) {
        const request it = read_record(record_at(i));
        uint8_t *const answer = wanted_answers + GUARD + RECORD * i;
        abz_answer due = { 041, 0 };

        if (it.what == REQUESTS) {
            unknown[!judge(wanted + GUARD, length, owners)]++;
        } else {
            due = model(wanted + GUARD, length, buffer, &it);
            given[it.what][due.code]++;
            const abz_answer single = call_library(alone, length, buffer, &it);
            CHECK_NUMBER(single.code, due.code, "%s %zu: code of record %zu made singly", name, number, i);
            CHECK_NUMBER(single.number, due.number, "%s %zu: number of record %zu made singly", name, number, i);
        }
        memset(answer, 0, RECORD);
        set_word(answer, 0, due.code);
        set_word(answer, 1, due.number);
    }
    CHECK_BYTES(alone, wanted + GUARD, length, "%s %zu: image of the records made singly", name, number);
}

/* Makes the records on the image, with room for so many bytes of answers. Returns the code of the whole call. */
static size_t try_list(const char *name, size_t number, size_t length, size_t records_len, size_t answers_len)
{
    static uint8_t records_kept[LIST_ROOM];
    const size_t all = GUARD + length + GUARD, all_answers = GUARD + answers_len + GUARD;
    const bool refused = records_len > RECORD * MOST || records_len % RECORD != 0 || answers_len < records_len;

    chance_bytes(lent_answers, all_answers);
    memcpy(wanted, lent, all);
    memcpy(wanted_answers, lent_answers, all_answers);
    memcpy(records_kept, records, sizeof records);
    if (!refused)
        make_singly(name, number, length, records_len / RECORD);

    const size_t code = abz_many(image, length, records, records_len, answers, answers_len);
    CHECK_NUMBER(code, refused ? 041 : 0, "%s %zu: code of %zu bytes of records, %zu of answers", name, number,
                 records_len, answers_len);
    CHECK_BYTES(lent, wanted, all, "%s %zu: image behind %d guard bytes", name, number, GUARD);
    CHECK_BYTES(lent_answers, wanted_answers, all_answers, "%s %zu: answers behind %d guard bytes", name, number, GUARD);
    CHECK_BYTES(records, records_kept, sizeof records, "%s %zu: records", name, number);
    memcpy(lent, wanted, all);
    lists++;
    return code;
}

/* A request by chance, or now and then a number that names none; the words that are not named are any. */
static void chance_record(uint8_t *record, const uint8_t *pack, size_t strange)
{
    chance_bytes(record, RECORD);
    if (chance(strange) == 0) {
        set_word(record, 0, chance(2) ? COUNT(listed_as) + chance(10) : chance(2) ? 0 : chance(65536));
        return;
    }

    const request it = chance_request(listed_as[1 + chance(COUNT(listed_as) - 1)], pack);
    put_record(record, &it);
}

/* ---- What is tried ---- */

/* The example of docs/MANY.md, byte by byte. */
static void example(void)
{
    static const uint8_t two[2 * RECORD] = { 0x01, 0, 0x08, 0x13, 0x55, 0x28, 0x40, 0x6A, 0x3C, 0x19, 0, 0, 3, 0, 9, 0,
                                             [RECORD] = 0x05, 0, 0x08, 0x13, 0x55, 0x28, 0x40, 0x6A, 0x3C, 0x19 };
    static const uint8_t due[2 * RECORD] = { 0, 0, 0x0D };
    const size_t length = make_form(forms, image, 16, 1, users, COUNT(users));

    CHECK_NUMBER(abz_many(image, length, two, sizeof two, answers, sizeof two), 0, "example: code");
    CHECK_BYTES(answers, due, sizeof due, "example: answers");
    CHECK_NUMBER(get_field(image, 0, PROTECT), 0203, "example: protect code");
}

/* One file is made, kept, opened, closed, renamed, joined and deleted in one call, with what is refused between. */
static void one_file(void)
{
    const file_key a = key_of("A     ", "DAT", 0), b = key_of("B     ", "DAT", ME), c = key_of("C     ", "   ", 0);
    const struct {
        request it;
        size_t code, number;
    } steps[] = {
        { { .what = OPENO, .file = a, .protect = 3 }, 0, 0 },
        { { .what = OPENO, .file = a, .protect = 3 }, 2, 0 },
        { { .what = OPENI, .file = a }, 2, 0 },
        { { .what = CLOSE, .file = a, .mode = 3 }, 045, 0 },
        { { .what = CLOSE, .file = a, .mode = 2 }, 0, 0 },
        { { .what = KEEP, .file = a }, 0, 0 },
        { { .what = OPENI, .file = a }, 0, 0 },
        { { .what = OPENE, .file = a }, 0, 0 },
        { { .what = OPENE, .file = a }, 4, 0 },
        { { .what = DELET, .file = a }, 014, 0 },
        { { .what = CLOSE, .file = a, .mode = 4 }, 0, 0 },
        { { .what = CLOSE, .file = a, .mode = 3 }, 0, 0 },
        { { .what = RENAM, .file = a, .second = b, .protect = 0 }, 0, 0 },
        { { .what = KEEP, .file = a }, 2, 0 },
        { { .what = ALLOC, .file = c, .segments = 1 }, 0, small(15) },
        { { .what = APPND, .file = b, .second = c }, 043, 0 },
        { { .what = OPENU, .file = c }, 0, 0 },
        { { .what = CLOSE, .file = c, .mode = 1 }, 0, 0 },
        { { .what = DELET, .file = c }, 0, 0 },
        { { .what = OPENO, .file = c }, 0, 0 },
        { { .what = CLOSE, .file = c, .mode = 2 }, 0, 0 },
        { { .what = APPND, .file = b, .second = c }, 0, 0 },
        { { .what = DELET, .file = b }, 0, 0 },
        { { .what = DELET, .file = b }, 2, 0 },
        { { .what = ALLOC, .file = b, .segments = 1 }, 0, small(15) },
    };
    const size_t length = make_small_pack(image, users, COUNT(users));

    for (size_t i = 0; i < COUNT(steps); i++) {
        request it = steps[i].it;
        it.caller = ME;
        chance_bytes(record_at(i), RECORD);
        put_record(record_at(i), &it);
    }
    CHECK_NUMBER(try_list("one file", 0, length, RECORD * COUNT(steps), RECORD * COUNT(steps)), 0, "one file");
    for (size_t i = 0; i < COUNT(steps); i++) {
        CHECK_NUMBER(get_word(answers + RECORD * i, 0), steps[i].code, "one file: code of record %zu", i);
        CHECK_NUMBER(get_word(answers + RECORD * i, 1), steps[i].number, "one file: number of record %zu", i);
    }
}

/* Every count of records up to 66, with a part of one and without, and answers that are too short, exact and longer. */
static void lengths(void)
{
    const size_t parts[] = { 0, 1, 2, 16, 31 };
    const size_t length = make_closed(image);

    for (size_t count = 0; count <= MOST + 2; count++)
        for (size_t p = 0; p < COUNT(parts); p++) {
            const size_t size = RECORD * count + parts[p];
            for (size_t i = 0; i <= count; i++)
                chance_record(record_at(i), image, 8);
            const size_t rooms[] = { 0, size / RECORD * RECORD, size - (size > 0), size, size + 1, size + 45 };
            for (size_t r = 0; r < COUNT(rooms); r++)
                try_list("lengths", count, length, size, rooms[r]);
        }
}

/* Every number in word 0 but the ten, whatever stands behind it: 41, and the image stays. */
static void numbers(void)
{
    const size_t length = make_closed(image);

    for (size_t number = 0; number < 65536; number += MOST) {
        for (size_t i = 0; i < MOST; i++) {
            const request it = chance_request(DELET, image);
            chance_bytes(record_at(i), RECORD);
            put_record(record_at(i), &it);
            set_word(record_at(i), 0, number + i);
        }
        try_list("numbers", number, length, RECORD * MOST, RECORD * MOST);
    }
}

/* Lists by chance, each from what those before it left. */
static void by_chance(void)
{
    for (size_t pack = 0; pack < 240; pack++) {
        const size_t c = contents_like(1 + chance(3)), n = 16 + chance(64);
        const size_t length = chance_pack(image, n, c, pack % 3 ? 4 + chance(12) : tried->entries * c);

        if (pack % 4)
            ease(image);
        for (size_t list = 0; list < 4; list++) {
            const size_t count = chance(MOST + 1);
            for (size_t i = 0; i < count; i++)
                chance_record(record_at(i), image, 16);
            try_list("by chance", pack, length, RECORD * count, RECORD * count + chance(40));
        }
    }
}

/* Images with a word changed, or of another length: 40 for every record that names a request, 41 for the others. */
static void damaged(void)
{
    static uint8_t sound[ROOM];

    for (size_t pack = 0; pack < 80; pack++) {
        const size_t sound_len = chance_pack(sound, 16 + chance(24), contents_like(1 + chance(2)), 12);
        for (size_t i = 0; i < 8; i++) {
            const size_t count = chance(MOST + 1);
            const size_t length = damage(sound, sound_len, (i % 3 ? system_bytes(sound) : sound_len) / 2);
            for (size_t k = 0; k < count; k++)
                chance_record(record_at(k), sound, 4);
            try_list("damaged pack", pack, length, RECORD * count, RECORD * count);
        }
    }
    for (size_t length = 0; length < 40; length++) {
        memcpy(image, sound, tried->block * get_word(sound, BLOCKS));
        for (size_t k = 0; k < 8; k++)
            chance_record(record_at(k), sound, 4);
        try_list("short image", length, length, RECORD * 8, RECORD * 8);
    }
}

/* Up to as many files and blocks as there can be. */
static void large_packs(void)
{
    for (size_t pack = 0; pack < 3; pack++) {
        const size_t length = chance_pack(image, tried->blocks_most - pack, tried->contents_most, 96);
        ease(image);
        for (size_t i = 0; i < MOST; i++)
            chance_record(record_at(i), image, 16);
        try_list("large pack", pack, length, RECORD * MOST, RECORD * MOST);
    }
}

/* The words that a request does not name may be anything. */
static void other_words(void)
{
    static uint8_t pack[SMALL_ROOM], first_image[SMALL_ROOM], first_answers[LIST_ROOM];
    static request asked[MOST];
    const size_t length = make_closed(pack);

    for (size_t list = 0; list < 60; list++) {
        for (size_t i = 0; i < MOST; i++)
            asked[i] = chance_request(listed_as[1 + chance(COUNT(listed_as) - 1)], pack);
        for (size_t again = 0; again < 3; again++) {
            memcpy(image, pack, length);
            for (size_t i = 0; i < MOST; i++) {
                chance_bytes(record_at(i), RECORD);
                put_record(record_at(i), &asked[i]);
            }
            try_list("other words", list, length, RECORD * MOST, RECORD * MOST);
            if (again == 0) {
                memcpy(first_image, image, length);
                memcpy(first_answers, answers, RECORD * MOST);
            }
            CHECK_BYTES(image, first_image, length, "other words %zu: image", list);
            CHECK_BYTES(answers, first_answers, RECORD * MOST, "other words %zu: answers", list);
        }
    }
}

int main(void)
{
    CHECK_NUMBER(ABZ_RECORD_BYTES, RECORD, "bytes of a record");
    CHECK_NUMBER(ABZ_RECORDS_MOST, MOST, "most records");
    CHECK_NUMBER(listed_as[ABZ_LIST_ALLOC], ALLOC, "number of ALLOC");
    CHECK_NUMBER(listed_as[ABZ_LIST_DELET], DELET, "number of DELET");
    CHECK_NUMBER(listed_as[ABZ_LIST_RENAM], RENAM, "number of RENAM");
    CHECK_NUMBER(listed_as[ABZ_LIST_APPND], APPND, "number of APPND");
    CHECK_NUMBER(listed_as[ABZ_LIST_KEEP], KEEP, "number of KEEP");
    CHECK_NUMBER(listed_as[ABZ_LIST_OPENO], OPENO, "number of OPENO");
    CHECK_NUMBER(listed_as[ABZ_LIST_OPENI], OPENI, "number of OPENI");
    CHECK_NUMBER(listed_as[ABZ_LIST_OPENU], OPENU, "number of OPENU");
    CHECK_NUMBER(listed_as[ABZ_LIST_OPENE], OPENE, "number of OPENE");
    CHECK_NUMBER(listed_as[ABZ_LIST_CLOSE], CLOSE, "number of CLOSE");
    example();
    EACH_FORM {
        one_file();
        lengths();
        numbers();
        by_chance();
        damaged();
        large_packs();
        other_words();
    }
    check_given(OPENI, FINISH);
    check_given(ALLOC, REQUESTS);
    CHECK_NUMBER(unknown[0] > 1000, true, "records that name no request: %zu", unknown[0]);
    CHECK_NUMBER(unknown[1] > 1000, true, "records that name no request, on no consistent pack: %zu", unknown[1]);
    return check_end("many");
}
