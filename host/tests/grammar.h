/*
 * Command lines as documents 01 and 02 describe them, with nothing taken from the library. The rules of the grammar are
 * written down one by one as an automaton, which is in all states at once that the characters of a line can lead to.
 * As long as there is one, the line could go on; and in a whole line the rules that its characters stand for say what
 * each of them is. So no parser decides how a line is read or where it is refused.
 */
#ifndef GRAMMAR_H
#define GRAMMAR_H

#include "abezolit.h"

#include <stdbool.h>
#include <stddef.h>
#include <stdint.h>
#include <string.h>

#include "image.h" /* words, characters and chance */

enum { RAW_MOST = 512, LINE_MOST = 128, SWITCH_WORDS = 3 * LINE_MOST / 2, STATES = 256 };

/* ---- The rules ---- */

#define LETTERS "ABCDEFGHIJKLMNOPQRSTUVWXYZ"
#define OCTAL_DIGITS "01234567"

/* What a character is in a line. A MARK says nothing that those beside it do not say too. */
enum {
    MARK, DEVICE, UNIT, NAME, EXTENDING, GROUP_DIGIT, USER_DIGIT,
    SWITCH, SWITCH_NAME, VALUE, VALUE_NAME, COMMA, LESS
};

/*
 * One of the characters accepted[state] leads from a state to the next one, and is role[state] there. An empty step
 * needs no character. last_state is where the rules lead to that are written so far.
 */
static const char *accepted[STATES];
static size_t role[STATES], last_state;
static bool empty_step[STATES][STATES];

static inline void one_of(const char *characters, size_t what)
{
    accepted[last_state] = characters;
    role[last_state++] = what;
}

/* The part that follows begins in a state of its own, so that a way back to it leads back to nothing before it. */
static inline size_t begin_part(void)
{
    empty_step[last_state][last_state + 1] = true;
    return ++last_state;
}

static inline void optional(size_t part)
{
    empty_step[part][last_state] = true;
}

static inline void any_number(size_t part)
{
    empty_step[last_state][part] = true;
    empty_step[part][++last_state] = true;
}

static inline void run_of(const char *characters, size_t least, size_t most, size_t what)
{
    for (size_t i = 0; i < most; i++)
        one_of(characters, what);
    for (size_t i = least; i < most; i++)
        empty_step[last_state - most + i][last_state] = true;
}

static inline void any_run_of(const char *characters, size_t what)
{
    size_t again = begin_part();

    one_of(characters, what);
    any_number(again);
}

/* "Device: 2 or 3 letters, then any number of octal digits" */
static inline void device_rule(void)
{
    run_of(LETTERS, 2, 3, DEVICE);
    any_run_of(OCTAL_DIGITS, UNIT);
}

/* "Switch: `/`, a letter, up to 5 more A-Z, 0-9; then any number of `:` with 1-6 A-Z, 0-9." */
static inline void switch_rule(void)
{
    one_of("/", SWITCH);
    one_of(LETTERS, SWITCH_NAME);
    run_of(LETTERS_AND_DIGITS, 0, 5, SWITCH_NAME);

    size_t values = begin_part();
    one_of(":", VALUE);
    run_of(LETTERS_AND_DIGITS, 1, 6, VALUE_NAME);
    any_number(values);
}

/*
 * "Specification, each part optional, in this order: device and `:`; name of 1-6 A-Z, 0-9, after which `.` and an
 * extension of 1-3 such may stand; `[`, one or more octal digits, `,`, one or more, `]`; any number of switches."
 */
static inline void specification_rule(void)
{
    size_t part = begin_part();
    device_rule();
    one_of(":", MARK);
    optional(part);

    part = begin_part();
    run_of(LETTERS_AND_DIGITS, 1, 6, NAME);
    size_t extension = begin_part();
    one_of(".", MARK);
    run_of(LETTERS_AND_DIGITS, 1, 3, EXTENDING);
    optional(extension);
    optional(part);

    part = begin_part();
    one_of("[", MARK);
    one_of(OCTAL_DIGITS, GROUP_DIGIT);
    any_run_of(OCTAL_DIGITS, GROUP_DIGIT);
    one_of(",", MARK);
    one_of(OCTAL_DIGITS, USER_DIGIT);
    any_run_of(OCTAL_DIGITS, USER_DIGIT);
    one_of("]", MARK);
    optional(part);

    part = begin_part();
    switch_rule();
    any_number(part);
}

/* "Side: one or more specifications; each comma outside brackets begins another." */
static inline void side_rule(void)
{
    specification_rule();
    size_t others = begin_part();
    one_of(",", COMMA);
    specification_rule();
    any_number(others);
}

/* "Command: output side, or output side, `<`, input side." */
static inline void command_rule(void)
{
    side_rule();
    size_t input = begin_part();
    one_of("<", LESS);
    side_rule();
    optional(input);
}

/* ---- The automaton ---- */

/* Where empty steps lead from a state, itself too. */
static bool reached[STATES][STATES];

static inline void reach(size_t from, size_t state)
{
    if (reached[from][state])
        return;
    reached[from][state] = true;
    for (size_t next = 0; next <= last_state; next++)
        if (empty_step[state][next])
            reach(from, next);
}

static inline void make_grammar(void)
{
    command_rule();
    for (size_t state = 0; state <= last_state; state++)
        reach(state, state);
}

static inline bool takes(size_t state, uint8_t byte)
{
    return accepted[state] && byte != 0 && strchr(accepted[state], byte);
}

/* The states after one character more. From each the last one can be reached, so that a line could go on from any. */
static inline bool advance(const bool *now, uint8_t byte, bool *next)
{
    memset(next, false, STATES);
    for (size_t state = 0; state < last_state; state++)
        if (now[state] && takes(state, byte))
            for (size_t to = 0; to <= last_state; to++)
                next[to] |= reached[state + 1][to];
    return memchr(next, true, STATES);
}

typedef struct {
    bool of_grammar, ambiguous;
    size_t place;           /* where it is refused */
    size_t what[LINE_MOST]; /* each character, if it is of the grammar */
} judgement;

/* "The place is the length of the longest beginning of the condensed line that begins some line of the grammar" */
static inline judgement judge_line(const uint8_t *line, size_t length)
{
    static bool now[LINE_MOST + 1][STATES];
    judgement it = { 0 };

    memcpy(now[0], reached[0], STATES);
    while (it.place < length && advance(now[it.place], line[it.place], now[it.place + 1]))
        it.place++;
    it.of_grammar = it.place == length && now[length][last_state];
    if (!it.of_grammar)
        return it;

    /* Back from the end, only those states are kept from which it was reached. */
    memset(now[length], false, STATES);
    now[length][last_state] = true;
    for (size_t i = length; i-- > 0;) {
        bool first = true;
        for (size_t state = 0; state <= last_state; state++) {
            bool leads = false;
            if (now[i][state] && takes(state, line[i]))
                for (size_t to = 0; to <= last_state; to++)
                    leads |= reached[state + 1][to] && now[i + 1][to];
            now[i][state] = leads;
            if (leads) {
                it.ambiguous |= !first && role[state] != it.what[i];
                it.what[i] = role[state];
                first = false;
            }
        }
    }
    return it;
}

/* ---- What a line says ---- */

typedef struct {
    abz_specification numbers; /* the answer that is due where there is room for the switches */
    size_t words[SWITCH_WORDS], word_count;
} specification;

typedef struct {
    judgement judged;
    specification at[2][LINE_MOST + 1];
    size_t count[2];
    bool over; /* is a number over its bound? */
} reading;

static inline specification *begin_specification(reading *it, size_t side)
{
    return memset(&it->at[side][it->count[side]++], 0, sizeof(specification));
}

/* Puts one more character behind the others in a Radix-50 word. */
static inline void spell(size_t *word, size_t others, uint8_t character)
{
    static const size_t weights[] = { 1600, 40, 1 };

    *word += weights[others] * (size_t)(strchr(radix50, character) - radix50);
}

/*
 * "A unit must be at most 7, a group and a user at most 377 octal, leading zeros allowed": once a number is over its
 * bound, no digit brings it back.
 */
static inline void append_digit(reading *it, size_t *number, uint8_t digit, size_t bound)
{
    const size_t next = *number * 8 + (digit - (size_t)'0');

    if (next > bound)
        it->over = true;
    else
        *number = next;
}

static inline void read_line(const uint8_t *line, size_t length, reading *it)
{
    it->judged = judge_line(line, length);
    it->count[0] = it->count[1] = 0;
    it->over = false;
    if (!it->judged.of_grammar)
        return;

    specification *now = begin_specification(it, 0);
    size_t side = 0, *of_switch = NULL;
    for (size_t i = 0, others = 0; i < length; i++) {
        const size_t what = it->judged.what[i];
        others = i > 0 && it->judged.what[i - 1] == what ? others + 1 : 0;
        switch (what) {
        case DEVICE:
            now->numbers.present |= 1;
            spell(&now->numbers.device, others, line[i]);
            break;
        case UNIT:
            append_digit(it, &now->numbers.unit, line[i], 7);
            break;
        case NAME:
            now->numbers.present |= 2;
            spell(others < 3 ? &now->numbers.name1 : &now->numbers.name2, others % 3, line[i]);
            break;
        case EXTENDING:
            now->numbers.present |= 4;
            spell(&now->numbers.extension, others, line[i]);
            break;
        case GROUP_DIGIT:
            now->numbers.present |= 8;
            append_digit(it, &now->numbers.group, line[i], 0377);
            break;
        case USER_DIGIT:
            append_digit(it, &now->numbers.user, line[i], 0377);
            break;
        case SWITCH:
            now->numbers.switches++;
            of_switch = now->words + now->word_count;
            now->word_count += 3;
            break;
        case SWITCH_NAME:
            spell(of_switch + 1 + others / 3, others % 3, line[i]);
            break;
        case VALUE:
            of_switch[0]++;
            now->word_count += 2;
            break;
        case VALUE_NAME:
            spell(now->words + now->word_count - 2 + others / 3, others % 3, line[i]);
            break;
        case LESS:
            side = 1; /* and another specification begins there, as behind a comma */
            /* fall through */
        case COMMA:
            now = begin_specification(it, side);
            break;
        }
    }
}

/* ---- CSI1 and CSI2 ---- */

/* "CSI1 drops blank, TAB, NUL and RUBOUT" */
static const char dropped[4] = { ' ', '\t', '\0', 0177 };

static inline size_t condense(const uint8_t *raw, size_t raw_len, uint8_t *line)
{
    size_t length = 0;

    for (size_t i = 0; i < raw_len; i++)
        if (!memchr(dropped, raw[i], sizeof dropped))
            line[length++] = raw[i];
    return length;
}

/* "Order: 53, raw line over 512 or condensed over 128; 52, buffer shorter than the condensed line; 50", and then 54 */
static inline abz_answer csi1_due(const uint8_t *raw, size_t raw_len, uint8_t *buffer, size_t buffer_len)
{
    uint8_t line[RAW_MOST];
    abz_answer due = { 053, 0 };

    if (raw_len > RAW_MOST)
        return due;
    const size_t length = condense(raw, raw_len, line);
    if (length > LINE_MOST)
        return due;
    due.code = 052;
    if (length > buffer_len)
        return due;

    static reading it;
    read_line(line, length, &it);
    due.code = !it.judged.of_grammar ? 050 : it.over ? 054 : 0;
    if (due.code == 050)
        due.number = it.judged.place;
    if (due.code == 0) {
        due.number = length;
        memcpy(buffer, line, length);
    }
    return due;
}

/*
 * "Order: 53, over 128; 50; 51, no such side or specification; 52, switch buffer too short.", and 54 behind 50. Takes the
 * line's reading.
 */
static inline abz_specification csi2_due(const reading *it, size_t length, size_t side, size_t k, uint8_t *buffer,
                                  size_t buffer_len)
{
    abz_specification due = { 0 };

    if (length > LINE_MOST) {
        due.code = 053;
    } else if (!it->judged.of_grammar) {
        due.code = 050;
        due.place = it->judged.place;
    } else if (it->over) {
        due.code = 054;
    } else if (side > 1 || k >= it->count[side]) {
        due.code = 051;
    } else if (buffer_len < 2 * it->at[side][k].word_count) {
        due.code = 052;
    } else {
        due = it->at[side][k].numbers;
        for (size_t i = 0; i < it->at[side][k].word_count; i++)
            set_word(buffer, i, it->at[side][k].words[i]);
    }
    return due;
}

#endif
