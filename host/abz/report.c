/* The command that tells what is wrong with a pack: the line of the program report, then the same in words. */
#include "commands.h"

#include "abezolit.h"
#include "contents.h"
#include "packfile.h"
#include "show.h"
#include "tell.h"

#include <stdio.h>

static pack_file pack;

/* The name of each rule as it is printed, and what it names besides. */
static const struct {
    const char *name;
    bool entry, word, block;
} rules[] = {
    [ABZ_RULE_SIZE] = { " SIZE", false, false, false },
    [ABZ_RULE_HEADER] = { " HEADER", false, true, false },
    [ABZ_RULE_ENTRY] = { "", true, true, false },
    [ABZ_RULE_NAME] = { " NAME", true, true, false },
    [ABZ_RULE_EXTENT] = { " EXTENT", true, true, false },
    [ABZ_RULE_LINK] = { " LINK", true, false, true },
    [ABZ_RULE_LOOP] = { " LOOP", true, false, true },
    [ABZ_RULE_END] = { " END", true, false, true },
    [ABZ_RULE_SHARED] = { " SHARED", true, false, true },
    [ABZ_RULE_MAP] = { " MAP", false, false, true },
};

/* ---- The line ---- */

static void show_member(bool named, const char *what, size_t number)
{
    if (!named)
        return;
    printf(" %s ", what);
    show_count(number);
}

static void show_line(const abz_report_answer *report)
{
    if (report->rule == ABZ_CONSISTENT) {
        printf("CONSISTENT\n");
        return;
    }
    printf("FAULT%s", rules[report->rule].name);
    show_member(rules[report->rule].entry, "ENTRY", report->entry);
    show_member(rules[report->rule].word, "WORD", report->word);
    show_member(rules[report->rule].block, "BLOCK", report->block);
    putchar('\n');
}

/* ---- The words ---- */

/* How many they are, or that no block is left behind them. */
static void show_contents_words(const pack_form *form)
{
    const size_t contents = contents_blocks(pack.image);

    if (contents < form->contents_least || contents > form->contents_most)
        printf("the blocks of contents are not %zu to %zu", form->contents_least, form->contents_most);
    else
        printf("the blocks of contents leave none for files");
}

static const char *list_words(size_t word)
{
    if (word < 4 + word_at(pack.image + 2 * 3))
        return "a UIC of the list is 0, or is in the list before";
    return "what stands behind the list of UICs is not 0";
}

static void show_header_words(size_t word)
{
    const pack_form *form = form_of(pack.image);

    switch (word) {
    case 0: printf("there is no form of that number"); break;
    case 1: printf("the number of blocks is not %zu to %zu", form->blocks_least, form->blocks_most); break;
    case 2: show_contents_words(form); break;
    case 3: printf("there are more than %zu UICs", form->uics_most); break;
    default: printf("%s", list_words(word)); break;
    }
}

static const char *entry_words(size_t word)
{
    switch (word) {
    case 0:
    case 1: return "its name is not legal";
    case 2: return "its extension is not legal";
    case 3: return "its owner is not in the pack's list of UICs";
    case 4: return "its protect code is above 377";
    case 5: return "its kind is neither contiguous nor linked";
    case 9: return "its writer is none that a file of its kind can have";
    case 10: return "it is open more than 62 times";
    default: return "a word of its entry is not 0 that must be";
    }
}

static const char *extent_words(size_t word)
{
    switch (word) {
    case 6: return "its first block is none that a file can have";
    case 7: return "its length is 0, or goes beyond the pack";
    default: return "its last block is not where it ends";
    }
}

static const char *file_words(const abz_report_answer *report)
{
    switch (report->rule) {
    case ABZ_RULE_ENTRY: return entry_words(report->word);
    case ABZ_RULE_NAME: return "a file before it has the same name, extension and owner";
    case ABZ_RULE_EXTENT: return extent_words(report->word);
    case ABZ_RULE_LINK: return "this block links to none that a file can have";
    case ABZ_RULE_LOOP: return "its chain comes to this block a second time";
    case ABZ_RULE_END: return "its chain goes on behind this block, its last";
    default: return "a file before it has this block too";
    }
}

/* Whose the block is shows in what its bit should be: nothing else is wrong with the pack. */
static const char *map_words(size_t block)
{
    const uint8_t *map = pack.image + form_of(pack.image)->block * map_block(contents_blocks(pack.image));

    if (block >= word_at(pack.image + 2))
        return "it has this block as taken, and the pack has none of that number";
    if (word_at(map + 2 * (block / 16)) >> block % 16 & 1)
        return "it has this block as taken, which is free";
    return "it has this block as free, which is the pack's own or a file's";
}

/* Sizes and bounds are those of the form that the image names. */
static void show_words(const abz_report_answer *report)
{
    switch (report->rule) {
    case ABZ_RULE_SIZE:
        printf("the length of the file is not %zu bytes for each block that the header tells of",
               form_of(pack.image)->block);
        break;
    case ABZ_RULE_HEADER: show_header_words(report->word); break;
    case ABZ_RULE_MAP: printf("%s", map_words(report->block)); break;
    default: printf("%s", file_words(report)); break;
    }
    putchar('\n');
}

/* Which file, by its name where that is legal; and its extension, if that is. */
static void show_faulty_file(const abz_report_answer *report)
{
    const bool entry = report->rule == ABZ_RULE_ENTRY;
    contents_entry file;

    contents_read(pack.image, report->entry, &file);
    if (entry && report->word < 2) {
        printf("a file without a name: ");
        return;
    }
    show_word(file.name1, file.name2);
    if (!(entry && report->word == 2) && file.extension != 0) {
        putchar('.');
        show_word(file.extension, 0);
    }
    putchar(' ');
    show_uic(file.uic);
    printf(": ");
}

int command_report(char **arguments)
{
    abz_report_answer report;

    if (!pack_read(&pack, arguments[0]))
        return STATUS_FAILED;
    report = abz_report(pack.image, pack.length);
    show_line(&report);
    if (report.rule == ABZ_CONSISTENT)
        return show_end() ? STATUS_DONE : STATUS_FAILED;
    if (rules[report.rule].entry)
        show_faulty_file(&report);
    else if (rules[report.rule].word)
        printf("the header: ");
    else if (rules[report.rule].block)
        printf("the free map: ");
    show_words(&report);
    return show_end() ? STATUS_DONE : STATUS_FAILED;
}
