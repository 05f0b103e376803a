/*
 * The calls on formatted binary lines as document 02, 10, describes them, with nothing taken from the library, and the
 * library held to them. They go beside the calls on lines of text (lines.h), of which the ending call is theirs too.
 */
#ifndef BINARY_H
#define BINARY_H

#include "lines.h"

enum { BINARY_READ, BINARY_WRITE, BINARY_CALLS };
enum { WRONG_SUM = 2, WRONG_FORMAT = 4 };
enum { DATA_MOST = 512, HEADER = 4, LINE_MOST = HEADER + DATA_MOST + 1 };

static const char *const binary_names[BINARY_CALLS] = { "binary read", "binary write" };

/* A call does not look at what it has no use for. buffer_len is that of a read's buffer, or of the gather buffer. */
typedef struct {
    size_t what, caller;
    file_key file;
    size_t mode, position, to_come, sum, filled, data_len, buffer_len;
} binary_call;

typedef struct {
    size_t code, count, status, next, to_come, sum; /* next: position or filled */
} binary_answer;

/* ---- Document 02 ---- */

/* "the sum of all of them .. modulo 256" */
static inline size_t sum_of(const uint8_t *bytes, size_t size)
{
    size_t sum = 0;

    for (size_t i = 0; i < size; i++)
        sum += bytes[i];
    return sum % 256;
}

/*
 * "bytes 1 and 0, a count word of 4 plus the data bytes, low byte first, the data, then one byte that makes the sum of
 * all of them 0 modulo 256". Returns how many they are.
 */
static inline size_t binary_line(uint8_t *line, const uint8_t *data, size_t size)
{
    line[0] = 1;
    line[1] = 0;
    set_word(line, 1, 4 + size);
    memcpy(line + HEADER, data, size);
    line[HEADER + size] = (uint8_t)(256 - sum_of(line, HEADER + size));
    return HEADER + size + 1;
}

/* What a read goes through: a file, up to its end, and the place in it. */
typedef struct {
    uint8_t *pack;
    file one;
    size_t at, end;
} place_in;

/*
 * "NULs before a line are skipped." Then the header, word by word: "bit 2 a wrong first word or a count not 4 to 516
 * ..; bit 6 the data ending first, even inside a header word (then not bit 2)". Returns the status; where that is 0, how
 * many data bytes are to come and the sum of the header's bytes.
 */
static inline size_t header_read(place_in *in, size_t *to_come, size_t *sum)
{
    static const size_t least[] = { 1, 4 }, most[] = { 1, 516 };

    while (in->at < in->end && *text_byte(in->pack, in->one, in->at) == NUL)
        in->at++;
    for (size_t i = 0; i < 2; i++, in->at += 2) {
        if (in->end - in->at < 2)
            return ENDED;
        const size_t low = *text_byte(in->pack, in->one, in->at), high = *text_byte(in->pack, in->one, in->at + 1);
        const size_t word = low + 256 * high;
        if (word < least[i] || word > most[i])
            return WRONG_FORMAT;
        *to_come = word - least[i];
        *sum += low + high;
    }
    return 0;
}

/*
 * "a short buffer sets bit 0; normal lays surplus bytes over the last, counts them and verifies, special keeps the rest
 * and does not verify until its last part is read; the length still to come and the sum so far are given back .. Bit 1
 * is a wrong sum; .. bit 6 the data ending first, .. with the position at the end and nothing to come." Where a short
 * buffer and the end of the data meet, special mode has stopped before; a missing sum byte is bit 6 alone.
 */
static inline binary_answer data_read(place_in in, uint8_t *bytes, size_t to_come, size_t sum, const binary_call *it)
{
    binary_answer answer = { 0 };

    for (; to_come > 0; to_come--) {
        if (answer.count >= it->buffer_len) {
            answer.status = INVALID;
            if (it->mode == SPECIAL)
                return (binary_answer){ 0, answer.count, INVALID, in.at, to_come, sum % 256 };
        }
        if (in.at == in.end)
            break;
        const uint8_t byte = *text_byte(in.pack, in.one, in.at++);
        bytes[answer.count < it->buffer_len ? answer.count : it->buffer_len - 1] = byte;
        answer.count++;
        sum += byte;
    }
    if (in.at == in.end)
        answer.status += ENDED;
    else if ((sum + *text_byte(in.pack, in.one, in.at++)) % 256 != 0)
        answer.status += WRONG_SUM;
    answer.next = in.at;
    return answer;
}

/* "passed in again, 0 and 0 for a new line"; with bit 2 "nothing is laid down and the position stays". */
static inline binary_answer model_binary_read(uint8_t *pack, uint8_t *bytes, const binary_call *it)
{
    const file one = file_of(pack, meant(it->file, it->caller));
    place_in in = { pack, one, it->position, form_of(pack)->payload * one.length };
    size_t to_come = it->to_come, sum = it->sum;

    if (to_come == 0) {
        const size_t status = header_read(&in, &to_come, &sum);
        if (status != 0)
            return (binary_answer){ 0, 0, status, status == ENDED ? in.end : it->position, 0, 0 };
    }
    return data_read(in, bytes, to_come, sum, it);
}

/*
 * "Refusals: as §1; 41 also for a longer line, a length to come over 511, a sum over 255, or one not 0 with nothing to
 * come." size is how many bytes are laid.
 */
static inline size_t binary_refusal(const uint8_t *pack, size_t length, size_t size, const binary_call *it)
{
    line_call like = { it->what == BINARY_READ ? LINE_READ : LINE_WRITE, it->caller, it->file, it->mode, it->position,
                       it->filled, it->data_len, it->buffer_len };

    if (it->what == BINARY_READ) {
        if (it->to_come > 511 || it->sum > 255 || (it->sum != 0 && it->to_come == 0))
            like.mode = MODES; /* 41 */
    } else {
        like.mode = it->data_len > DATA_MOST ? MODES : NORMAL;
    }
    return refusal(pack, length, size, &like);
}

/* What a call does to an image and a buffer, and answers. */
static inline binary_answer model_binary(uint8_t *pack, size_t length, const uint8_t *data, uint8_t *bytes,
                                         const binary_call *it)
{
    static uint8_t line[LINE_MOST];
    const size_t size = it->what == BINARY_WRITE ? HEADER + it->data_len + 1 : 0;
    const line_call where = { .caller = it->caller, .file = it->file, .filled = it->filled };
    binary_answer answer = { 0 };

    answer.code = binary_refusal(pack, length, size, it);
    if (answer.code != 0)
        return answer;
    if (it->what == BINARY_READ)
        return model_binary_read(pack, bytes, it);
    binary_line(line, data, it->data_len);
    answer.count = it->data_len;
    answer.next = lay(pack, length, bytes, line, size, &where);
    return answer;
}

/* ---- The library ---- */

/* The data are lent where a text is. */
static inline binary_answer call_binary(size_t length, const binary_call *it)
{
    if (it->what == BINARY_READ) {
        const abz_binary_answer found = abz_binary_read(image, length, it->caller, FILE4(it->file), it->mode,
                                                        it->position, it->to_come, it->sum, buffer, it->buffer_len);
        return (binary_answer){ found.code, found.count, found.status, found.position, found.to_come, found.sum };
    }
    const abz_write_answer found = abz_binary_write(image, length, it->caller, FILE4(it->file), text, it->data_len,
                                                    buffer, it->buffer_len, it->filled);
    return (binary_answer){ found.code, found.count, found.status, found.filled, 0, 0 };
}

/* ---- Trying a call ---- */

/* How often each call gave each code, and a read each status in each mode. */
static size_t binary_codes[BINARY_CALLS][CODES], binary_statuses[MODES][STATUSES];

/*
 * With data and buffer as they are. Whatever the library did, all slices are then as they should be. Returns the answer
 * that is due.
 */
static inline binary_answer go_on_binary(const char *name, size_t number, size_t length, binary_call it)
{
    static block_owner owners[BLOCKS_MOST];
    const size_t all = GUARD + length + GUARD, all_buffer = GUARD + it.buffer_len + GUARD;
    const size_t all_data = GUARD + it.data_len + GUARD;

    memcpy(wanted, lent, all);
    memcpy(wanted_buffer, lent_buffer, all_buffer);
    memcpy(kept_text, lent_text, all_data);

    const binary_answer due = model_binary(wanted + GUARD, length, text, wanted_buffer + GUARD, &it);
    const binary_answer answer = call_binary(length, &it);

#define CASE                                                                                                        \
    "%s %zu, length %zu: %s for %zu of %zu %zu %zu %zu, mode %zu, position %zu, to come %zu, sum %zu, filled %zu, " \
    "data of %zu, buffer of %zu: "
#define CASE_ARGUMENTS                                                                                             \
    name, number, length, binary_names[it.what], it.caller, FILE4(it.file), it.mode, it.position, it.to_come, it.sum, \
        it.filled, it.data_len, it.buffer_len
    CHECK_NUMBER(answer.code, due.code, CASE "code", CASE_ARGUMENTS);
    CHECK_NUMBER(answer.count, due.count, CASE "count", CASE_ARGUMENTS);
    CHECK_NUMBER(answer.status, due.status, CASE "status", CASE_ARGUMENTS);
    CHECK_NUMBER(answer.next, due.next, CASE "next position or filled count", CASE_ARGUMENTS);
    CHECK_NUMBER(answer.to_come, due.to_come, CASE "to come", CASE_ARGUMENTS);
    CHECK_NUMBER(answer.sum, due.sum, CASE "sum", CASE_ARGUMENTS);
    CHECK_BYTES(lent, wanted, all, CASE "image behind %d guard bytes", CASE_ARGUMENTS, GUARD);
    CHECK_BYTES(lent_buffer, wanted_buffer, all_buffer, CASE "buffer behind %d guard bytes", CASE_ARGUMENTS, GUARD);
    CHECK_BYTES(lent_text, kept_text, all_data, CASE "data behind %d guard bytes", CASE_ARGUMENTS, GUARD);
    if (it.what == BINARY_WRITE && due.code != 040)
        CHECK_NUMBER(judge(image, length, owners), true, CASE "consistent afterwards", CASE_ARGUMENTS);
#undef CASE_ARGUMENTS
#undef CASE

    binary_codes[it.what][due.code]++;
    if (due.code == 0 && it.what == BINARY_READ)
        binary_statuses[it.mode][due.status]++;
    memcpy(lent, wanted, all);
    memcpy(lent_buffer, wanted_buffer, all_buffer);
    return due;
}

/* With the buffer full of random bytes. */
static inline binary_answer try_binary(const char *name, size_t number, size_t length, binary_call it)
{
    chance_bytes(lent_buffer, GUARD + it.buffer_len + GUARD);
    return go_on_binary(name, number, length, it);
}

/* ---- Calls and bytes to try ---- */

/* A call of its owner on the file of an entry. */
static inline binary_call binary_on(const uint8_t *pack, size_t what, size_t entry, size_t mode)
{
    binary_call it = { .what = what, .caller = ME, .file = entry_key(pack, entry), .mode = mode };

    it.buffer_len = form_of(pack)->payload;
    return it;
}

/*
 * Bytes as a file of such lines may have them: most lines right, some with a wrong byte, NULs between them, and now and
 * then bytes of no line. Lines have up to most data bytes.
 */
static inline void chance_lines(uint8_t *bytes, size_t size, size_t most)
{
    static uint8_t data[DATA_MOST], line[LINE_MOST];

    for (size_t at = 0; at < size;) {
        size_t count = chance(most + 1);
        chance_bytes(data, count);
        count = chance(12) ? binary_line(line, data, count) : 1 + chance(9);
        if (chance(6) == 0)
            line[chance(chance(2) ? count : 4)] ^= (uint8_t)(1 << chance(8));
        for (size_t nuls = chance(3) ? 0 : chance(9); nuls > 0 && at < size; nuls--)
            bytes[at++] = NUL;
        for (size_t i = 0; i < count && at < size; i++)
            bytes[at++] = line[i];
    }
}

#endif
