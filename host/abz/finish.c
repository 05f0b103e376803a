/* Finish: the service is called, what it took away is shown, and then the pack is written. */
#include "commands.h"

#include "abezolit.h"
#include "contents.h"
#include "names.h"
#include "options.h"
#include "packfile.h"
#include "show.h"
#include "tell.h"

#include <stdio.h>
#include <string.h>

static pack_file pack;
static uint8_t before[sizeof pack.image];

/* The files that were there before and are there no longer, in the order of the contents; and how many. */
static void show_gone(size_t number)
{
    contents_entry file, left;

    for (size_t entry = 0; entry < contents_entries(before); entry++)
        if (contents_read(before, entry, &file) && !contents_read(pack.image, entry, &left)) {
            show_file(&file);
            putchar('\n');
        }
    show_files(number);
}

int command_finish(char **arguments)
{
    const bool dry = option("--dry-run");
    size_t caller;
    abz_answer answer;

    if (!read_uic(arguments[1], &caller))
        return STATUS_USAGE;
    if (!(dry ? pack_read(&pack, arguments[0]) : pack_take(&pack, arguments[0])))
        return STATUS_FAILED;
    memcpy(before, pack.image, pack.length);
    answer = abz_finish(pack.image, pack.length, caller);
    if (answer.code != ABZ_OK)
        return tell_refusal("finish", answer.code);
    show_gone(answer.number);
    if (!show_end()) /* before the pack is written: where abz fails, the pack is to be as it was */
        return STATUS_FAILED;
    return dry || pack_write(&pack) ? STATUS_DONE : STATUS_FAILED;
}
