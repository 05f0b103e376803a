/* The command that tells a pack's measures, what is free of it, and what each of its users owns. */
#include "commands.h"

#include "blocks.h"
#include "contents.h"
#include "packfile.h"
#include "show.h"
#include "tell.h"

#include <stdio.h>

static pack_file pack;
static pack_blocks blocks;

static void show_measure(const char *what, size_t number)
{
    printf("%-14s", what);
    show_count(number);
    putchar('\n');
}

static size_t free_entries(void)
{
    contents_entry file;
    size_t count = 0;

    for (size_t entry = 0; entry < contents_entries(pack.image); entry++)
        if (!contents_read(pack.image, entry, &file))
            count++;
    return count;
}

/* How many files a user owns, and how many blocks they have. */
static void show_owned(size_t uic)
{
    contents_entry file;
    size_t files = 0, held = 0;

    for (size_t entry = 0; entry < contents_entries(pack.image); entry++)
        if (contents_read(pack.image, entry, &file) && file.uic == uic) {
            files++;
            held += file.length;
        }
    show_uic(uic);
    printf("     files ");
    show_count(files);
    printf(" blocks ");
    show_count(held);
    putchar('\n');
}

int command_info(char **arguments)
{
    size_t code;

    if (!pack_read(&pack, arguments[0]))
        return STATUS_FAILED;
    code = blocks_ask(&blocks, &pack);
    if (code != ABZ_OK)
        return tell_refusal("info", code);
    show_measure("form", contents_form(pack.image));
    show_measure("blocks", blocks.count);
    show_measure("contents", contents_blocks(pack.image));
    show_measure("free blocks", blocks_count(&blocks, ABZ_FREE));
    show_measure("entries", contents_entries(pack.image));
    show_measure("free entries", free_entries());
    show_measure("UICs", contents_uics(pack.image));
    for (size_t i = 0; i < contents_uics(pack.image); i++)
        show_owned(contents_uic(pack.image, i));
    return show_end() ? STATUS_DONE : STATUS_FAILED;
}
