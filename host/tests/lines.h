/*
 * The calls on lines as document 02, 1, describes them, with nothing taken from the library, and the library held to
 * them. Codes are written as the numbers that the papers give them.
 */
#ifndef LINES_H
#define LINES_H

#include "requests.h"

enum { NORMAL, SPECIAL, MODES };
enum { NUL = 0, TAB = 011, LF = 012, VT = 013, FF = 014, RUBOUT = 0177 };
enum { LINE_READ, LINE_WRITE, LINE_END, CALLS };
enum { INVALID = 1, ENDED = 64, STATUSES = 66, TEXT_ROOM = 16 * PAYLOAD_MOST };

static const char *const call_names[CALLS] = { "line read", "line write", "line end" };

/* A call does not look at what it has no use for. buffer_len is that of a read's buffer, or of the gather buffer. */
typedef struct {
    size_t what, caller;
    file_key file;
    size_t mode, position, filled, text_len, buffer_len;
} line_call;

typedef struct {
    size_t code, count, status, next; /* next: position or filled */
} line_answer;

/* ---- Document 02 ---- */

static inline bool terminates(uint8_t character)
{
    return character == LF || character == VT || character == FF;
}

/* Where in the image a byte of "the file's payloads, joined" is. */
static inline uint8_t *text_byte(uint8_t *pack, file it, size_t position)
{
    const size_t payload = form_of(pack)->payload;

    return body(pack, it, position / payload) + 2 + position % payload;
}

/*
 * "It clears bit 7 of each byte, discards NUL and RUBOUT, and ends after LINE FEED, VERTICAL TAB or FORM FEED. If the
 * maximum count, the lent buffer's length, comes first, status bit 0 is set: normal mode lays each surplus byte over
 * the last one and counts it, special mode stops and keeps the rest for the next read. Bit 6 means the file ended
 * before a terminator; normal mode may set both."
 */
static inline line_answer model_read(uint8_t *pack, uint8_t *bytes, const line_call *it)
{
    const file one = file_of(pack, meant(it->file, it->caller));
    line_answer answer = { 0, 0, 0, it->position };

    while (answer.next < form_of(pack)->payload * one.length) {
        const uint8_t character = *text_byte(pack, one, answer.next++) & 0177;
        if (character == NUL || character == RUBOUT)
            continue;
        bytes[answer.count < it->buffer_len ? answer.count : it->buffer_len - 1] = character;
        answer.count++;
        if (terminates(character))
            return answer;
        if (answer.count >= it->buffer_len) {
            answer.status = INVALID;
            if (it->mode == SPECIAL)
                return answer;
        }
    }
    answer.status += ENDED;
    return answer;
}

/* "Normal mode writes all it is given, special stops after the first terminator". */
static inline size_t taken(const uint8_t *text, const line_call *it)
{
    if (it->mode == SPECIAL)
        for (size_t i = 0; i < it->text_len; i++)
            if (terminates(text[i]))
                return i + 1;
    return it->text_len;
}

/*
 * The bytes that a write or the end lays: "It puts one RUBOUT after TAB and one NUL after FORM FEED"; "an ending call
 * fills the last with NUL, or adds none at 0". Returns how many they are.
 */
static inline size_t laid_bytes(uint8_t *laid, const uint8_t *text, size_t payload, const line_call *it)
{
    size_t size = 0;

    if (it->what == LINE_END) {
        if (it->filled > 0 && it->filled < payload)
            size = payload - it->filled;
        memset(laid, NUL, size);
        return size;
    }
    for (size_t i = 0; i < taken(text, it); i++) {
        laid[size++] = text[i];
        if (text[i] == TAB)
            laid[size++] = RUBOUT;
        if (text[i] == FF)
            laid[size++] = NUL;
    }
    return size;
}

/* "Writing gathers a block's payload in a lent ... buffer ... and adds full blocks". Returns the filled count. */
static inline size_t lay(uint8_t *pack, size_t length, uint8_t *gather, const uint8_t *laid, size_t size,
                         const line_call *it)
{
    const size_t payload = form_of(pack)->payload;
    const request add = { .what = LINKED_ADD, .caller = it->caller, .file = it->file, .buffer_len = payload };
    size_t filled = it->filled;

    for (size_t i = 0; i < size; i++) {
        gather[filled++] = laid[i];
        if (filled == payload) {
            model(pack, length, gather, &add);
            filled = 0;
        }
    }
    return filled;
}

/*
 * "Refusals: those of linked read and add; 41 also for a maximum count of 0 or a filled count" of a payload or more; "44
 * for a position beyond the payloads." And: "A write whose full blocks have no room is refused whole." size is how many
 * bytes are laid.
 */
static inline size_t refusal(const uint8_t *pack, size_t length, size_t size, const line_call *it)
{
    static block_owner owners[BLOCKS_MOST];
    bool cause[CODES] = { false };
    size_t room = 0;

    if (!judge(pack, length, owners))
        return 040;
    for (size_t block = 0; block < get_word(pack, BLOCKS); block++)
        room += owners[block].kind == FREE;

    const file_key key = meant(it->file, it->caller);
    const file one = file_of(pack, key);
    const size_t may = rights(it->caller, one), payload = form_of(pack)->payload;

    cause[015] = !legal(key);
    cause[2] = !one.there;
    cause[043] = one.kind == CONTIGUOUS;
    if (it->what == LINE_READ) {
        cause[041] = it->mode >= MODES || it->buffer_len == 0;
        cause[6] = may < MAY_READ;
        cause[045] = one.readers == 0;
        cause[044] = it->position > payload * one.length;
    } else {
        cause[041] = it->buffer_len != payload || it->filled >= payload
                     || (it->what == LINE_WRITE && it->mode >= MODES);
        cause[6] = may < MAY_WRITE;
        cause[045] = one.writer != 2 && one.writer != 3;
        cause[042] = (it->filled + size) / payload > room;
    }
    for (size_t i = 0; i < COUNT(table); i++)
        if (cause[table[i]])
            return table[i];
    return 0;
}

/* What a call does to an image and a buffer, and answers. */
static inline line_answer model_line(uint8_t *pack, size_t length, const uint8_t *text, uint8_t *bytes,
                                     const line_call *it)
{
    static uint8_t laid[2 * TEXT_ROOM];
    const size_t payload = length < 2 ? 0 : form_of(pack)->payload;
    const size_t size = it->what == LINE_READ ? 0 : laid_bytes(laid, text, payload, it);
    line_answer answer = { 0 };

    answer.code = refusal(pack, length, size, it);
    if (answer.code != 0)
        return answer;
    if (it->what == LINE_READ)
        return model_read(pack, bytes, it);
    answer.next = lay(pack, length, bytes, laid, size, it);
    if (it->what == LINE_WRITE) {
        /* "both return the count taken, and bit 0 says that its last character was none, or that it is 0" */
        answer.count = taken(text, it);
        answer.status = answer.count > 0 && terminates(text[answer.count - 1]) ? 0 : INVALID;
    }
    return answer;
}

/* ---- The library ---- */

static uint8_t lent_text[GUARD + TEXT_ROOM + GUARD], kept_text[sizeof lent_text];
static uint8_t *const text = lent_text + GUARD;

static inline line_answer call_line(size_t length, const line_call *it)
{
    line_answer answer = { 0 };

    if (it->what == LINE_READ) {
        const abz_read_answer found = abz_line_read(image, length, it->caller, FILE4(it->file), it->mode, it->position,
                                                    buffer, it->buffer_len);
        answer = (line_answer){ found.code, found.count, found.status, found.position };
    } else if (it->what == LINE_WRITE) {
        const abz_write_answer found = abz_line_write(image, length, it->caller, FILE4(it->file), it->mode, text,
                                                      it->text_len, buffer, it->buffer_len, it->filled);
        answer = (line_answer){ found.code, found.count, found.status, found.filled };
    } else {
        answer.code = abz_line_end(image, length, it->caller, FILE4(it->file), buffer, it->buffer_len, it->filled);
    }
    return answer;
}

/* ---- Trying a call ---- */

/* How often each call gave each code, and each status in each mode. */
static size_t codes_given[CALLS][CODES], statuses_given[CALLS][MODES][STATUSES];

/*
 * With text and buffer as they are. Whatever the library did, all slices are then as they should be. Returns the answer
 * that is due.
 */
static inline line_answer go_on(const char *name, size_t number, size_t length, line_call it)
{
    static block_owner owners[BLOCKS_MOST];
    const size_t all = GUARD + length + GUARD, all_buffer = GUARD + it.buffer_len + GUARD;
    const size_t all_text = GUARD + it.text_len + GUARD;

    memcpy(wanted, lent, all);
    memcpy(wanted_buffer, lent_buffer, all_buffer);
    memcpy(kept_text, lent_text, all_text);

    const line_answer due = model_line(wanted + GUARD, length, text, wanted_buffer + GUARD, &it);
    const line_answer answer = call_line(length, &it);

#define CASE                                                                                                     \
    "%s %zu, length %zu: %s for %zu of %zu %zu %zu %zu, mode %zu, position %zu, filled %zu, text of %zu, buffer " \
    "of %zu: "
#define CASE_ARGUMENTS                                                                                          \
    name, number, length, call_names[it.what], it.caller, FILE4(it.file), it.mode, it.position, it.filled, \
        it.text_len, it.buffer_len
    CHECK_NUMBER(answer.code, due.code, CASE "code", CASE_ARGUMENTS);
    CHECK_NUMBER(answer.count, due.count, CASE "count", CASE_ARGUMENTS);
    CHECK_NUMBER(answer.status, due.status, CASE "status", CASE_ARGUMENTS);
    CHECK_NUMBER(answer.next, due.next, CASE "next position or filled count", CASE_ARGUMENTS);
    CHECK_BYTES(lent, wanted, all, CASE "image behind %d guard bytes", CASE_ARGUMENTS, GUARD);
    CHECK_BYTES(lent_buffer, wanted_buffer, all_buffer, CASE "buffer behind %d guard bytes", CASE_ARGUMENTS, GUARD);
    CHECK_BYTES(lent_text, kept_text, all_text, CASE "text behind %d guard bytes", CASE_ARGUMENTS, GUARD);
    if (due.code != 040)
        CHECK_NUMBER(judge(image, length, owners), true, CASE "consistent afterwards", CASE_ARGUMENTS);
#undef CASE_ARGUMENTS
#undef CASE

    codes_given[it.what][due.code]++;
    if (due.code == 0 && it.what != LINE_END)
        statuses_given[it.what][it.mode][due.status]++;
    memcpy(lent, wanted, all);
    memcpy(lent_buffer, wanted_buffer, all_buffer);
    return due;
}

/* With the buffer full of random bytes. */
static inline line_answer try_line(const char *name, size_t number, size_t length, line_call it)
{
    chance_bytes(lent_buffer, GUARD + it.buffer_len + GUARD);
    return go_on(name, number, length, it);
}

/* ---- Files and texts to try calls on ---- */

/* A call of its owner on the file of an entry. */
static inline line_call call_on(const uint8_t *pack, size_t what, size_t entry, size_t mode)
{
    line_call it = { .what = what, .caller = ME, .file = entry_key(pack, entry), .mode = mode };

    it.buffer_len = form_of(pack)->payload;
    return it;
}

/* make_closed's files, of which the one of three blocks is open for extension and has a reader. */
static inline size_t make_open(uint8_t *pack)
{
    const size_t length = make_closed(pack);

    set_open(pack, THREE, 3, 1);
    return length;
}

/* Puts bytes into the payloads of a file, joined, from a position on. */
static inline void put_text(uint8_t *pack, size_t entry, size_t position, const void *bytes, size_t size)
{
    const file one = file_of(pack, entry_key(pack, entry));

    for (size_t i = 0; i < size; i++)
        *text_byte(pack, one, position + i) = ((const uint8_t *)bytes)[i];
}

/* Bytes of which about one in so many is of those that lines go by. */
static inline void chance_text(uint8_t *bytes, size_t size, size_t rare)
{
    static const uint8_t some[] = { TAB, LF, VT, FF, NUL, RUBOUT, 0200 | LF, 0200 | TAB, 0200, 0377, 015, 016 };

    for (size_t i = 0; i < size; i++)
        bytes[i] = (uint8_t)(chance(rare) ? ' ' + chance(95) : some[chance(COUNT(some))]);
}

#endif
