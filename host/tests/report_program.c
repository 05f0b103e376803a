/* The program report, run on images of every rule: what it prints is the line of what the library answers, and of some the line is written out. */
#define _POSIX_C_SOURCE 200809L

#include "abezolit.h"

#include "image.h"
#include "listing.h"

#define REPORT "target/bin/report"
#define REPORTED "target/host/reported.image"

enum { LONGEST = 65536, ROOM = LONGEST + 2 * BLOCK_MOST, ME = 023 * 256 + 010, N = 32 };

static uint8_t image[ROOM];

static void try_image(size_t length, const char *line)
{
    FILE *file = fopen(REPORTED, "wb");

    CHECK_NUMBER(file && fwrite(image, 1, length, file) == length && fclose(file) == 0, true, "writing " REPORTED);
    try_command(REPORT " < " REPORTED, line, line);
}

/* The line of an answer, put together apart from the library. */
static const char *line_of(abz_report_answer answer)
{
    static const char *const names[] = { "", " SIZE", " HEADER", "", " NAME", " EXTENT", " LINK", " LOOP", " END", " SHARED",
                                         " MAP" };
    static char line[64];
    char *end = line;

    if (answer.rule == 0)
        return "CONSISTENT\n";
    end += sprintf(end, "FAULT%s", names[answer.rule]);
    if (answer.rule >= 3 && answer.rule <= 9)
        end += sprintf(end, " ENTRY %05zu", answer.entry);
    if (answer.rule >= 2 && answer.rule <= 5)
        end += sprintf(end, " WORD %05zu", answer.word);
    if (answer.rule >= 6)
        end += sprintf(end, " BLOCK %05zu", answer.block);
    sprintf(end, "\n");
    return line;
}

static void expect(size_t length, const char *line)
{
    CHECK_NUMBER(strcmp(line_of(abz_report(image, length)), line), 0, "answer for %s", line);
    try_image(length, line);
}

/* A line that ends with a number. */
static void expect_number(size_t length, const char *words, size_t number)
{
    char line[64];

    sprintf(line, "%s %05zu\n", words, number);
    expect(length, line);
}

/* A block of the sample, as form 1 numbers it. */
static size_t at(size_t block)
{
    return block_like(2, block);
}

static size_t sample(void)
{
    static const size_t uics[] = { ME };
    const size_t chain[] = { at(20), at(9), at(31), at(3) };

    memset(image, 0x77, tried->block * at(N));
    const size_t length = make_pack(image, at(N), contents_like(2), uics, 1);
    put_contiguous(image, 0, key_of("FREQ  ", "DAT", ME), at(4), 3);
    put_linked(image, 3, key_of("LINKED", "   ", ME), chain, 4);
    put_contiguous(image, 12, key_of("Z     ", "999", ME), at(14), 1);
    return length;
}

static void lines(void)
{
    const size_t length = sample(), last = tried->block / 2 - 1;

    expect(length, "CONSISTENT\n");
    expect(length - 1, "FAULT SIZE\n");
    expect(0, "FAULT SIZE\n");
    expect(3, "FAULT SIZE\n");
    set_word(image, last, 1);
    expect_number(length, "FAULT HEADER WORD", last);
    set_word(image, 3, 70);
    expect(length, "FAULT HEADER WORD 00003\n");
    sample();
    set_field(image, 12, PROTECT, 256);
    expect(length, "FAULT ENTRY 00012 WORD 00004\n");
    sample();
    put_contiguous(image, 7, key_of("FREQ  ", "DAT", ME), at(16), 1);
    expect(length, "FAULT NAME ENTRY 00007 WORD 00003\n");
    sample();
    set_field(image, 0, LENGTH, 0);
    expect(length, "FAULT EXTENT ENTRY 00000 WORD 00007\n");
    sample();
    set_link(image, at(9), 0);
    expect_number(length, "FAULT LINK ENTRY 00003 BLOCK", at(9));
    set_link(image, at(9), at(20));
    expect_number(length, "FAULT LOOP ENTRY 00003 BLOCK", at(20));
    sample();
    set_link(image, at(3), at(20));
    expect_number(length, "FAULT END ENTRY 00003 BLOCK", at(3));
    sample();
    put_contiguous(image, 12, key_of("Z     ", "999", ME), at(31), 1);
    expect_number(length, "FAULT SHARED ENTRY 00012 BLOCK", at(31));
}

/* The bits of blocks that are the system's, held, free and not there, each added to those above it. */
static void maps(void)
{
    const size_t length = sample(), some[] = { 0, 3, at(4), at(9), 15, 16, at(N) - 1, at(N), 4095 };

    for (size_t i = sizeof some / sizeof *some; has_map(tried) && i > 0; i--) {
        turn_bit(image, some[i - 1]);
        expect_number(length, "FAULT MAP BLOCK", some[i - 1]);
    }
}

/* Up to 65536 bytes; longer input is refused, a consistent pack too. */
static void lengths(void)
{
    static const size_t uics[] = { ME };
    const size_t n = LONGEST / tried->block, c = contents_like(8);
    const char *const parts = "(head -c 1 " REPORTED "; sleep 0.1; tail -c +2 " REPORTED ") 2>/dev/null | " REPORT;

    memset(image, 0, sizeof image);
    expect(make_pack(image, n, c, uics, 1), "CONSISTENT\n");
    try_command(parts, "CONSISTENT\n", "from a pipe");
    put_contiguous(image, 127, key_of("LAST  ", "   ", ME), n - 1, 2);
    expect(LONGEST, "FAULT EXTENT ENTRY 00127 WORD 00007\n");
    try_image(LONGEST + 1, "REFUSED 40\n");
    const size_t longer = make_pack(image, n + 1, c, uics, 1);
    CHECK_NUMBER(abz_report(image, longer).rule, 0, "a pack of a block more");
    try_image(longer, "REFUSED 40\n");
    try_command(parts, "REFUSED 40\n", "a pack of a block more, from a pipe");
}

/* By chance: a few words of packs changed. */
static void changed(void)
{
    for (int round = 0; round < 200; round++) {
        const size_t c = 1 + chance(tried->contents_most), n = first_body(tried, c) + 14 + chance(32);
        const size_t length = chance_pack(image, n, c, chance(tried->entries * c + 1));

        for (int change = 0; change < 2; change++)
            set_word(image, chance(length / 2), chance(n + 3));
        try_image(length, line_of(abz_report(image, length)));
    }
}

int main(void)
{
    EACH_FORM {
        lines();
        maps();
        lengths();
        changed();
    }
    return check_end("report_program");
}
