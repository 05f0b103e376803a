/*
 * A station's day, from format to delete. After each call of the library the text of the listing program, and whose
 * each block is, are what is written out here, for a form without a map. Where there is one it is block 2, which is free
 * all day in the others, and so one block fewer is free.
 */
#define _POSIX_C_SOURCE 200809L

#include "requests.h"

#include "listing.h"

/* The bytes of the pack, which has 16 blocks. */
static size_t pack;

/* What is written: to the logs, to the table, and to the month's text, a line for each day up to today. */
static uint8_t payloads[6][PAYLOAD_MOST], blocks[3][BLOCK_MOST];
static char lines[30][64];
static size_t today;

/* ---- What a step is held to ---- */

/* The part of the day, for the messages, and what was shown last. */
static const char *part, *whose, *text;

/* A call that is done shows in the listing, unless it is said that it does not; one that is refused never shows. */
#define DONE(call) CHECK_NUMBER(call, ABZ_OK, "%s: " #call, part)
#define DONE_UNSEEN(call)   \
    do {                    \
        DONE(call);         \
        shows(whose, text); \
    } while (0)
#define REFUSED(call, code)                           \
    do {                                              \
        CHECK_NUMBER(call, code, "%s: " #call, part); \
        shows(whose, text);                           \
    } while (0)

/* A text in the form that is tried: the second number in it is that of the free blocks. */
static const char *text_here(const char *written)
{
    static char here[LISTING_ROOM];
    unsigned blocks_in_all, free_blocks;

    CHECK_NUMBER((size_t)sscanf(written, "BLOCKS %u FREE %u", &blocks_in_all, &free_blocks), 2, "%s: numbers", part);
    sprintf(here, "BLOCKS %05u FREE %05u", blocks_in_all, free_blocks - has_map(tried));
    strcat(here, strchr(written, '\n'));
    return here;
}

/* For each block in turn: s for the system's, a point if it is free, or the digit of the entry that holds it. */
static void shows(const char *new_whose, const char *new_text)
{
    whose = new_whose;
    text = new_text;
    for (size_t block = 0; block < 16; block++) {
        const abz_owner_answer owner = abz_owner(image, pack, block);
        const size_t letter = owner.kind == ABZ_SYSTEM ? 's' : owner.kind == ABZ_FREE ? '.' : '0' + owner.entry;
        const bool map = has_map(tried) && block == map_block(1);
        DONE(owner.code);
        CHECK_NUMBER(letter, (size_t)(map ? 's' : whose[block]), "%s: whose block %zu is", part, block);
    }
    try_listing(image, pack, text_here(text), part);
}

/* The nine characters of a name and its extension, as a host makes words of them. */
static file_key named(const char *characters, size_t uic)
{
    size_t words[3];

    for (size_t i = 0; i < 3; i++) {
        const abz_answer word = abz_radpk((const uint8_t *)characters + 3 * i, 3);
        DONE(word.code);
        words[i] = word.number;
    }

    const file_key key = { words[0], words[1], words[2], uic };
    return key;
}

static void add(size_t caller, file_key key, uint8_t *payload, size_t block)
{
    chance_bytes(payload, tried->payload);

    const abz_answer answer = abz_linked_add(image, pack, caller, FILE4(key), payload, tried->payload);
    DONE(answer.code);
    CHECK_NUMBER(answer.number, block, "%s: block added", part);
}

/* Writes a line whole. filled is what the gather buffer has of the block to come. */
static void write_line(file_key key, const char *line, uint8_t *gather, size_t *filled)
{
    const abz_write_answer answer = abz_line_write(image, pack, ME, FILE4(key), ABZ_NORMAL, (const uint8_t *)line,
                                                   strlen(line), gather, tried->payload, *filled);

    DONE(answer.code);
    CHECK_NUMBER(answer.count, strlen(line), "%s: characters of %s", part, line);
    CHECK_NUMBER(answer.status, 0, "%s: status of %s", part, line);
    *filled = answer.filled;
}

/* Reads a line from a position, which goes on to the next. */
static void read_line(size_t caller, file_key key, const char *line, size_t *position)
{
    uint8_t bytes[64];
    const abz_read_answer answer = abz_line_read(image, pack, caller, FILE4(key), ABZ_NORMAL, *position, bytes,
                                                 sizeof bytes);

    DONE(answer.code);
    CHECK_NUMBER(answer.count, strlen(line), "%s: characters read of %s", part, line);
    CHECK_NUMBER(answer.status, 0, "%s: status of %s", part, line);
    CHECK_BYTES(bytes, (const uint8_t *)line, strlen(line), "%s: line read", part);
    *position = answer.position;
}

static void end_day(size_t caller, size_t number)
{
    const abz_answer answer = abz_finish(image, pack, caller);

    DONE(answer.code);
    CHECK_NUMBER(answer.number, number, "%s: files that Finish deleted", part);
}

/* ---- The day ---- */

/* An empty pack, and a file that grows; none but its writer can use it before it is closed. */
static void morning(void)
{
    static const uint8_t uics[] = { 010, 023, 04, 012 };
    const file_key log = named("MORN  LOG", 0);

    chance_bytes(image, pack);
    DONE(abz_format(image, pack, tried->number, 16, 1, uics, sizeof uics));
    shows("ss..............", "BLOCKS 00016 FREE 00014\n");

    DONE(abz_openo(image, pack, ME, FILE4(log), 3));
    shows("ss..............", "BLOCKS 00016 FREE 00014\n"
                              "MORN  .LOG L 00000 [023,010] 003\n");
    add(ME, log, payloads[0], 15);
    shows("ss.............0", "BLOCKS 00016 FREE 00013\n"
                              "MORN  .LOG L 00001 [023,010] 003\n");
    add(ME, log, payloads[1], 14);
    shows("ss............00", "BLOCKS 00016 FREE 00012\n"
                              "MORN  .LOG L 00002 [023,010] 003\n");
    add(ME, log, payloads[2], 13);
    shows("ss...........000", "BLOCKS 00016 FREE 00011\n"
                              "MORN  .LOG L 00003 [023,010] 003\n");

    REFUSED(abz_openi(image, pack, OTHER, FILE4(named("MORN  LOG", ME))), ABZ_EXISTENCE);
    REFUSED(abz_delet(image, pack, ME, FILE4(log)), ABZ_OPEN);
    DONE_UNSEEN(abz_close(image, pack, ME, FILE4(log), ABZ_OUTPUT));
    REFUSED(abz_linked_add(image, pack, ME, FILE4(log), payloads[0], tried->payload).code, ABZ_NOT_OPEN);
}

/* A second one, and a contiguous file that is filled. */
static void noon(void)
{
    const file_key log = named("NOON  LOG", 0), table = named("FREQ  DAT", 0);

    DONE(abz_openo(image, pack, ME, FILE4(log), 3));
    shows("ss...........000", "BLOCKS 00016 FREE 00011\n"
                              "MORN  .LOG L 00003 [023,010] 003\n"
                              "NOON  .LOG L 00000 [023,010] 003\n");
    add(ME, log, payloads[3], 12);
    shows("ss..........1000", "BLOCKS 00016 FREE 00010\n"
                              "MORN  .LOG L 00003 [023,010] 003\n"
                              "NOON  .LOG L 00001 [023,010] 003\n");
    add(ME, log, payloads[4], 11);
    shows("ss.........11000", "BLOCKS 00016 FREE 00009\n"
                              "MORN  .LOG L 00003 [023,010] 003\n"
                              "NOON  .LOG L 00002 [023,010] 003\n");
    DONE_UNSEEN(abz_close(image, pack, ME, FILE4(log), ABZ_OUTPUT));

    /* Of 9 blocks and a segment more; of 3 blocks, of which the last is asked for one segment. */
    REFUSED(abz_alloc(image, pack, ME, FILE4(table), 3, 9 * tried->segments + 1).code, ABZ_NO_ROOM);
    const abz_answer answer = abz_alloc(image, pack, ME, FILE4(table), 3, 2 * tried->segments + 1);
    DONE(answer.code);
    CHECK_NUMBER(answer.number, 8, "%s: first block", part);
    shows("ss......22211000", "BLOCKS 00016 FREE 00006\n"
                              "MORN  .LOG L 00003 [023,010] 003\n"
                              "NOON  .LOG L 00002 [023,010] 003\n"
                              "FREQ  .DAT C 00003 [023,010] 003\n");

    REFUSED(abz_block_out(image, pack, ME, FILE4(table), 0, blocks[0], tried->block), ABZ_NOT_OPEN);
    DONE_UNSEEN(abz_openu(image, pack, ME, FILE4(table)));
    for (size_t place = 0; place < 3; place++) {
        chance_bytes(blocks[place], tried->block);
        DONE_UNSEEN(abz_block_out(image, pack, ME, FILE4(table), place, blocks[place], tried->block));
    }
    REFUSED(abz_block_out(image, pack, ME, FILE4(table), 3, blocks[0], tried->block), ABZ_NO_BLOCK);
    DONE_UNSEEN(abz_close(image, pack, ME, FILE4(table), ABZ_UPDATE));
}

/* One log of two, to which another user adds, as its new protect code lets him. */
static void evening(void)
{
    const file_key morn = named("MORN  LOG", 0), noon = named("NOON  LOG", 0), day = named("DAY   LOG", ME);

    DONE(abz_renam(image, pack, ME, FILE4(morn), day.name1, day.name2, day.extension, 1));
    shows("ss......22211000", "BLOCKS 00016 FREE 00006\n"
                              "DAY   .LOG L 00003 [023,010] 001\n"
                              "NOON  .LOG L 00002 [023,010] 003\n"
                              "FREQ  .DAT C 00003 [023,010] 003\n");

    REFUSED(abz_appnd(image, pack, ME, FILE4(morn), FILE4(noon)), ABZ_EXISTENCE);
    DONE(abz_appnd(image, pack, ME, FILE4(day), FILE4(noon)));
    shows("ss......22200000", "BLOCKS 00016 FREE 00006\n"
                              "DAY   .LOG L 00005 [023,010] 001\n"
                              "FREQ  .DAT C 00003 [023,010] 003\n");

    DONE_UNSEEN(abz_opene(image, pack, OTHER, FILE4(day)));
    add(OTHER, day, payloads[5], 7);
    shows("ss.....022200000", "BLOCKS 00016 FREE 00005\n"
                              "DAY   .LOG L 00006 [023,010] 001\n"
                              "FREQ  .DAT C 00003 [023,010] 003\n");
    DONE_UNSEEN(abz_close(image, pack, OTHER, FILE4(day), ABZ_EXTEND));
}

/* The pack while the month's text has so many blocks, which are those below 7. */
static void shows_month(size_t length)
{
    static char letters[17], listing[200];

    strcpy(letters, "ss.....022200000");
    memset(letters + 7 - length, '1', length);
    sprintf(listing, "BLOCKS 00016 FREE %05zu\n"
                     "DAY   .LOG L 00006 [023,010] 001\n"
                     "MONTH .TXT L %05zu [023,010] 003\n"
                     "FREQ  .DAT C 00003 [023,010] 003\n", 5 - length, length);
    shows(letters, listing);
}

/*
 * A text with a line for each day of the month: those that are over, which fill two blocks and something of a third, and
 * then today's, which begins another block.
 */
static void month(void)
{
    static uint8_t gather[PAYLOAD_MOST];
    const file_key days = named("MONTH TXT", 0);
    size_t filled = 0, laid = 0;

    for (size_t i = 0; i < COUNT(lines); i++)
        sprintf(lines[i], "%02zu NOV 1971\t%zu MB\tWIND SW %zu\tSEA %zu\n", i + 1, 1003 + i, i % 9, i % 7);
    DONE(abz_openo(image, pack, ME, FILE4(days), 3));
    for (today = 0; laid <= 2 * tried->payload; today++) {
        shows_month(laid / tried->payload);
        write_line(days, lines[today], gather, &filled);
        laid += strlen(lines[today]) + 3; /* a RUBOUT behind each TAB */
        CHECK_NUMBER(filled, laid % tried->payload, "%s: filled", part);
    }
    shows_month(2);
    REFUSED(abz_line_end(image, pack, OTHER, FILE4(named("MONTH TXT", ME)), gather, tried->payload, filled), ABZ_RIGHT);
    DONE(abz_line_end(image, pack, ME, FILE4(days), gather, tried->payload, filled));
    shows_month(3);
    DONE_UNSEEN(abz_close(image, pack, ME, FILE4(days), ABZ_OUTPUT));

    filled = 0;
    DONE_UNSEEN(abz_opene(image, pack, ME, FILE4(days)));
    write_line(days, lines[today], gather, &filled);
    DONE_UNSEEN(abz_line_end(image, pack, ME, FILE4(days), gather, tried->payload, 0));
    DONE(abz_line_end(image, pack, ME, FILE4(days), gather, tried->payload, filled));
    shows_month(4);
    DONE_UNSEEN(abz_close(image, pack, ME, FILE4(days), ABZ_EXTEND));
}

/* All that was written is read back, by another user. */
static void reading(void)
{
    static uint8_t bytes[BLOCK_MOST];
    const file_key day = named("DAY   LOG", ME), table = named("FREQ  DAT", ME);

    DONE_UNSEEN(abz_openi(image, pack, OTHER, FILE4(day)));
    for (size_t place = 0; place < COUNT(payloads); place++) {
        DONE_UNSEEN(abz_linked_read(image, pack, OTHER, FILE4(day), place, bytes, tried->payload));
        CHECK_BYTES(bytes, payloads[place], tried->payload, "%s: linked read of place %zu", part, place);
    }
    REFUSED(abz_linked_read(image, pack, OTHER, FILE4(day), COUNT(payloads), bytes, tried->payload), ABZ_NO_BLOCK);

    DONE_UNSEEN(abz_openi(image, pack, OTHER, FILE4(table)));
    for (size_t place = 0; place < COUNT(blocks); place++) {
        DONE_UNSEEN(abz_block_in(image, pack, OTHER, FILE4(table), place, bytes, tried->block));
        CHECK_BYTES(bytes, blocks[place], tried->block, "%s: BLOCK input of place %zu", part, place);
    }
    REFUSED(abz_block_in(image, pack, OTHER, FILE4(table), COUNT(blocks), bytes, tried->block), ABZ_NO_BLOCK);
    REFUSED(abz_delet(image, pack, ME, FILE4(day)), ABZ_OPEN);

    DONE_UNSEEN(abz_close(image, pack, OTHER, FILE4(day), ABZ_INPUT));
    DONE_UNSEEN(abz_close(image, pack, OTHER, FILE4(table), ABZ_INPUT));
}

/* And so are the lines, the last of them behind the NULs that fill up a block. */
static void reading_lines(void)
{
    const file_key days = named("MONTH TXT", ME);
    size_t position = 0;
    uint8_t byte = '?';

    DONE_UNSEEN(abz_openi(image, pack, OTHER, FILE4(days)));
    for (size_t i = 0; i <= today; i++)
        read_line(OTHER, days, lines[i], &position);

    const abz_read_answer answer = abz_line_read(image, pack, OTHER, FILE4(days), ABZ_SPECIAL, position, &byte, 1);
    DONE_UNSEEN(answer.code);
    CHECK_NUMBER(answer.count, 0, "%s: behind the last line", part);
    CHECK_NUMBER(answer.status, ABZ_FILE_ENDED, "%s: status behind the last line", part);
    CHECK_NUMBER(answer.position, 4 * tried->payload, "%s: position behind the last line", part);
    CHECK_NUMBER(byte, '?', "%s: buffer behind the last line", part);
    position = answer.position + 1;
    REFUSED(abz_line_read(image, pack, OTHER, FILE4(days), ABZ_NORMAL, position, &byte, 1).code, ABZ_NO_BLOCK);
    DONE_UNSEEN(abz_close(image, pack, OTHER, FILE4(days), ABZ_INPUT));
    REFUSED(abz_line_read(image, pack, OTHER, FILE4(days), ABZ_NORMAL, 0, &byte, 1).code, ABZ_NOT_OPEN);
}

/* Everything is deleted, by its owner alone, who finishes the day; what was written stays in the image. */
static void night(void)
{
    static uint8_t before[SMALL_ROOM];
    const file_key day = named("DAY   LOG", ME), table = named("FREQ  DAT", ME), days = named("MONTH TXT", ME);

    memcpy(before, image, pack);
    DONE(abz_delet(image, pack, ME, FILE4(days)));
    shows("ss.....022200000", "BLOCKS 00016 FREE 00005\n"
                              "DAY   .LOG L 00006 [023,010] 001\n"
                              "FREQ  .DAT C 00003 [023,010] 003\n");
    REFUSED(abz_delet(image, pack, OTHER, FILE4(day)), ABZ_RIGHT);
    DONE(abz_keep(image, pack, ME, FILE4(table)));
    shows("ss.....022200000", "BLOCKS 00016 FREE 00005\n"
                              "DAY   .LOG L 00006 [023,010] 001\n"
                              "FREQ  .DAT C 00003 [023,010] 203\n");
    end_day(OTHER, 0);
    shows(whose, text);
    DONE_UNSEEN(abz_openi(image, pack, ME, FILE4(day)));
    end_day(ME, 0);
    shows(whose, text);
    DONE_UNSEEN(abz_close(image, pack, ME, FILE4(day), ABZ_INPUT));
    end_day(ME, 1);
    shows("ss......222.....", "BLOCKS 00016 FREE 00011\n"
                              "FREQ  .DAT C 00003 [023,010] 203\n");
    end_day(ME, 0);
    shows(whose, text);
    DONE(abz_delet(image, pack, ME, FILE4(table)));
    shows("ss..............", "BLOCKS 00016 FREE 00014\n");
    const size_t bodies = system_bytes(image);
    CHECK_BYTES(image + bodies, before + bodies, pack - bodies, "%s: bodies", part);
}

int main(void)
{
    static const struct {
        const char *name;
        void (*part)(void);
    } day[] = {
        { "morning", morning }, { "noon", noon },       { "evening", evening },       { "month", month },
        { "reading", reading }, { "reading lines", reading_lines }, { "night", night },
    };

    EACH_FORM {
        pack = tried->block * 16;
        for (size_t i = 0; i < COUNT(day); i++) {
            part = day[i].name;
            day[i].part();
        }
    }
    return check_end("day");
}
