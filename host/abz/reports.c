/* Commands that report on a whole pack: its files, and whose each of its blocks is. */
#include "commands.h"

#include "blocks.h"
#include "contents.h"
#include "modes.h"
#include "options.h"
#include "packfile.h"
#include "show.h"
#include "tell.h"
#include "use.h"

#include <stdio.h>

static pack_file pack;
static pack_blocks blocks;

/* ---- The listing: that of the listing program, but of packs of any size ---- */

static void show_opens(const contents_entry *file)
{
    printf(" writer %s readers ", mode_word(file->writer));
    show_count(file->readers);
}

static void show_entry(const contents_entry *file)
{
    if (option("--opens") && file->writer == 0 && file->readers == 0)
        return;
    show_file(file);
    if (option("--opens"))
        show_opens(file);
    if (option("--use")) {
        printf(" used ");
        show_use(&pack, contents_name(file), file->kind);
    }
    putchar('\n');
}

static void show_listing(void)
{
    contents_entry file;

    show_totals(blocks.count, blocks_count(&blocks, ABZ_FREE));
    for (size_t entry = 0; entry < contents_entries(pack.image); entry++)
        if (contents_read(pack.image, entry, &file))
            show_entry(&file);
}

int command_list(char **arguments)
{
    size_t code;

    if (!pack_read(&pack, arguments[0]))
        return STATUS_FAILED;
    code = blocks_ask(&blocks, &pack);
    if (code != ABZ_OK) {
        printf("REFUSED %zo\n", code); /* as the listing program has it; the words go to standard error */
        return tell_refusal("list", code);
    }
    show_listing();
    return show_end() ? STATUS_DONE : STATUS_FAILED;
}

/* ---- Owners ---- */

/* Whether the block behind is of the same owner, with a place that is so much further. */
static bool goes_on(size_t block, size_t step)
{
    return block + 1 < blocks.count && blocks_alike(&blocks, block, block + 1)
           && blocks.owners[block + 1].place == blocks.owners[block].place + step;
}

/*
 * The last block of the run that starts with this one. In a run of a file's blocks places go up by 1, or down by 1: a
 * linked file gets the highest free block each time, so that its places mostly go down. Other blocks have no places.
 */
static size_t last_of_run(size_t first)
{
    static const size_t steps[] = { 0, 1, (size_t)-1 };
    size_t last = first;

    for (size_t i = 0; i < 3 && last == first; i++)
        while (goes_on(last, steps[i]))
            last++;
    return last;
}

static void show_range(size_t first, size_t last)
{
    show_count(first);
    putchar('-');
    show_count(last);
}

static void show_owner(size_t first, size_t last)
{
    const abz_owner_answer *owners = blocks.owners;
    contents_entry file;

    if (owners[first].kind != ABZ_HELD) {
        printf("%s", owners[first].kind == ABZ_SYSTEM ? "system" : "free");
        return;
    }
    contents_read(pack.image, owners[first].entry, &file);
    show_name(file.name1, file.name2, file.extension);
    putchar(' ');
    show_uic(file.uic);
    printf(" places ");
    show_range(owners[first].place, owners[last].place);
}

int command_owners(char **arguments)
{
    size_t code, last;

    if (!pack_read(&pack, arguments[0]))
        return STATUS_FAILED;
    code = blocks_ask(&blocks, &pack);
    if (code != ABZ_OK)
        return tell_refusal("owners", code);
    for (size_t first = 0; first < blocks.count; first = last + 1) {
        last = last_of_run(first);
        show_range(first, last);
        putchar(' ');
        show_owner(first, last);
        putchar('\n');
    }
    return show_end() ? STATUS_DONE : STATUS_FAILED;
}
