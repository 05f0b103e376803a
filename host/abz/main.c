/*
 * abz: the files of a pack, at the command line; and an example of a host of the service. How a host calls it is shown
 * in requests.c, closing.c, finish.c, run.c, bodies.c, text.c, binary.c, blocks.c, report.c, convert.c and reading.c,
 * and how it replaces a file in replace.c; the rest is what a program with files and arguments needs.
 */
#include "commands.h"
#include "files.h"
#include "help.h"
#include "lock.h"
#include "names.h"
#include "options.h"
#include "tell.h"

#include <limits.h>
#include <stdint.h>
#include <stdio.h>
#include <string.h>

static int command_help(char **arguments);

/* A variant stands behind its command. */
static const command commands[] = {
    { "format", "[--form FORM] [--force] PACK BLOCKS CONTENTS [UIC]...", 3, INT_MAX, command_format,
      "make an empty pack in the file PACK, also if there is one already:\n"
      "then all that it held is gone. A file that is no pack is overwritten\n"
      "only with --force. BLOCKS is 16 to 1024, of 512 bytes each. CONTENTS,\n"
      "1 to 8, is how many of them list the files, 16 in each. With --form 2\n"
      "BLOCKS is up to 4096, and CONTENTS up to 32. With --form 3 blocks have\n"
      "128 bytes, and CONTENTS is 1 to 32, with 4 files in each. Only the UICs\n"
      "given here can own files." },
    { "list", "[--opens] [--use] PACK", 1, 1, command_list,
      "how many blocks there are and are free; then each file: its name,\n"
      "C contiguous or L linked, its blocks, owner and protect code. With\n"
      "--opens only files that are open, with their writer and how many\n"
      "readers they have; with --use also how many bytes of a file are in\n"
      "use, which are those up to the last that is not NUL." },
    { "owners", "PACK", 1, 1, command_owners,
      "whose each block is: the pack's own, free, or a file's, and then at\n"
      "which places in the file, from 0" },
    { "info", "PACK", 1, 1, command_info,
      "the pack's measures, what is free, and its UICs in the order of their\n"
      "list: how many files each owns, and blocks in them" },
    { "map", "[--svg HOSTFILE] [--force] PACK", 1, 1, command_map,
      "a picture of the pack, a sign for each block, 64 in a row: # the\n"
      "pack's own, . free, else a file's by the list below it. Of more than\n"
      "62 files there are several pictures, and each shows the others' blocks\n"
      "as +. It has colours on a terminal, unless NO_COLOR is set. With --svg\n"
      "it is an SVG picture in HOSTFILE, for a report; --force overwrites one\n"
      "that is there." },
    { "report", "PACK", 1, 1, command_report,
      "whether the pack is consistent, and if not the first that is wrong\n"
      "with it: which rule, where, and in words" },
    { "convert", "[--force] PACK NEWPACK", 2, 2, command_convert,
      "write the pack of PACK into NEWPACK in the other form: one of form 1 in\n"
      "form 2, with a free map and so a block more, and one of form 2 in\n"
      "form 1, if that can have it. PACK stays as it is, and converted back\n"
      "it is the same in every byte. --force overwrites a NEWPACK that is\n"
      "there, but never PACK." },
    { "look", "PACK CALLER FILE", 3, 3, command_look,
      "all that the pack says of a file, and how many of its bytes are in\n"
      "use, which are those up to the last that is not NUL" },
    { "alloc", "PACK CALLER FILE SEGMENTS [PROTECT]", 4, 5, command_alloc,
      "make a contiguous file, of a block for every 4 SEGMENTS, in form 3 for\n"
      "every one; prints its first block. Its bytes are all 0." },
    { "delete", "PACK CALLER FILE", 3, 3, command_delete,
      "delete a file" },
    { "rename", "PACK CALLER OLD NEW [PROTECT]", 4, 5, command_rename,
      "give a file a new name, and a new protect code if one is given; its\n"
      "owner stays. To change only the code, rename the file twice." },
    { "append", "PACK CALLER FIRST SECOND", 4, 4, command_append,
      "put a linked file, the SECOND, at the end of another, the FIRST;\n"
      "the SECOND is then gone" },
    { "keep", "PACK CALLER FILE", 3, 3, command_keep,
      "set 200 in a file's protect code: Finish does not delete it" },
    { "finish", "[--dry-run] PACK CALLER", 2, 2, command_finish,
      "delete the caller's files, but for those that are kept or open, or\n"
      "have 100 in their protect code; lists them first, as list does, and\n"
      "how many they are. With --dry-run it only lists them." },
    { "close", "[--all] PACK CALLER FILE [MODE]", 3, 4, command_close,
      "take an open away from a file, whoever made it: a program may have\n"
      "left it behind. MODE says which; of input one reader goes. It may be\n"
      "missing where the file is open in one way only. With --all every open\n"
      "of MODE goes, or every open where MODE is missing." },
    { "run", "PACK CALLER HOSTFILE", 3, 3, command_run,
      "make the requests that stand in HOSTFILE, one in a line, each on what\n"
      "those before it left: all of them, or none. Prints the first block of\n"
      "each alloc, and how many requests there were. A line is one of these,\n"
      "and one that is empty or begins with # is passed over:\n"
      "    alloc FILE SEGMENTS [PROTECT]\n"
      "    delete FILE\n"
      "    rename OLD NEW PROTECT\n"
      "    append FIRST SECOND\n"
      "    keep FILE\n"
      "    open FILE MODE [PROTECT]        PROTECT for output only\n"
      "    close FILE MODE" },
    { "put", "[--binary] PACK CALLER FILE HOSTFILE [PROTECT]", 4, 5, command_put,
      "make a linked file with the bytes of HOSTFILE. It has 510 bytes in\n"
      "each block, in form 3 126; the last is filled up with NUL. With\n"
      "--binary they are the data of formatted binary lines, 512 in each but\n"
      "the last." },
    { "put --all", "[--protect PROTECT] PACK CALLER HOSTFILE...", 3, INT_MAX, command_put_all,
      "the same for each HOSTFILE, under its own name in capitals, without\n"
      "its directories: all of them, or none. Lists them, as list --use does,\n"
      "and how many they are." },
    { "get", "[--binary] [--trim] [--force] PACK CALLER FILE HOSTFILE", 4, 4, command_get,
      "write the bytes of a linked file to HOSTFILE; NULs that filled it up\n"
      "are among them. With --binary the file is of formatted binary lines,\n"
      "and what is written is their data; the first line that is not right is\n"
      "told, and then nothing is written. With --trim the NULs at the end are\n"
      "left away. --force overwrites a HOSTFILE that is there." },
    { "get --all", "[--trim] [--force] PACK CALLER PATTERN... DIRECTORY", 4, INT_MAX, command_get_all,
      "the same for each file that a PATTERN stands for, linked or\n"
      "contiguous, under its own name in DIRECTORY. Lists them, as list --use\n"
      "does, and how many they are. If one cannot be read, or is there\n"
      "already without --force, none is written; then they are written one\n"
      "after another." },
    { "load", "PACK CALLER FILE HOSTFILE", 4, 4, command_load,
      "make the bytes of HOSTFILE those of a contiguous file, with NUL behind\n"
      "them. A file that is there keeps its size and protect code, and must\n"
      "be large enough; else one is made that is just large enough." },
    { "dump", "[--trim] [--force] PACK CALLER FILE HOSTFILE", 4, 4, command_dump,
      "write the bytes of a contiguous file to HOSTFILE, with --trim without\n"
      "the NULs at the end. --force overwrites a HOSTFILE that is there." },
    { "type", "PACK CALLER FILE", 3, 3, command_type,
      "write the lines of a linked file to standard output: its text with\n"
      "no NUL and no RUBOUT, and in 7 bits" },
    { "enter", "PACK CALLER FILE [PROTECT]", 3, 4, command_enter,
      "make a linked file of the lines on standard input. They are ASCII\n"
      "without NUL and RUBOUT; the last gets a LINE FEED unless it ends with\n"
      "that, a VERTICAL TAB or a FORM FEED." },
    { "enter --append", "PACK CALLER FILE", 3, 3, command_enter_append,
      "put such lines at the end of a linked file that is there" },
    { "read", "LINE", 1, 1, command_read,
      "how a command line is understood, or where it goes wrong, or which of\n"
      "its numbers are over their bounds. Put LINE into quotes, for the shell\n"
      "has a use of its own for <." },
    { "help", "[COMMAND]", 0, 1, command_help,
      "this; or what a command does and takes, as COMMAND --help. Options\n"
      "stand before PACK, and -- ends them." },
};

enum { COMMANDS = sizeof commands / sizeof *commands };

static const char rest_of_help[] =
    "Numbers: UICs, protect codes, units and the codes of refusals are octal, as the\n"
    "handbook writes them: [023,010], 033, 001, refused 40. All others are decimal,\n"
    "and have five digits or stand beside their word: 00013, line 3, 1013 bytes.\n"
    "\n"
    "A file that is replaced keeps its owner, group, permissions, ACL and other\n"
    "attributes, or it is not replaced. Only if its group stays, and has the rights\n"
    "of the owner, it may become that of another member who writes it.\n"
    "\n"
    "Exit status: 0 if it was done; 1 if the service refused it, which is told with\n"
    "the code, if a file could not be read or written or is there already, if what\n"
    "is entered is no text, if a line for run is no request, or if a binary line is\n"
    "wrong; 2 if the arguments are wrong whatever PACK holds, and then no file was\n"
    "opened. Unless it is 0, PACK and a HOSTFILE to be replaced are as they were,\n"
    "also if a signal ended it (HUP, INT, QUIT, TERM and the like). A KILL, or a\n"
    "stop of the computer, leaves each as before or as after the command, and\n"
    "perhaps a file .abz-new.* beside it, which the next command there clears away.\n"
    "\n"
    "Example: a pack of 64 blocks for two users, and a file in it:\n"
    "  abz format station.pack 64 2 23,10 12,4\n"
    "  abz put station.pack 23,10 FREQ.DAT readings.txt\n"
    "  abz list station.pack\n";

static int command_help(char **arguments)
{
    return arguments[0] ? show_help_of(commands, COMMANDS, arguments[0])
                        : show_help(commands, COMMANDS, rest_of_help);
}

/* The row for these words: that of the variant whose option comes first, else the command's own. NULL if there is none. */
static const command *row_of(char **words)
{
    const command *found = NULL;

    for (size_t i = 0; i < COMMANDS; i++)
        if (is_of_command(&commands[i], words[0])) {
            const char *option = strchr(commands[i].name, ' ');
            if (option == NULL || (words[1] && strcmp(option + 1, words[1]) == 0))
                found = &commands[i];
        }
    return found;
}

/* PACK is the first argument of every command that takes one. */
static bool has_pack(const command *row, char **arguments)
{
    return strstr(row->synopsis, "PACK") == NULL || read_path("PACK", arguments[0]);
}

static int run(const command *row, char **words)
{
    char **arguments = words + (strchr(row->name, ' ') ? 2 : 1);
    int count = 0;

    if (!options_take(row->name, row->synopsis, &arguments))
        return STATUS_USAGE;
    if (option("--help"))
        return show_help_of(commands, COMMANDS, words[0]);
    while (arguments[count])
        count++;
    if (count >= row->least && count <= row->most)
        return has_pack(row, arguments) ? row->run(arguments) : STATUS_USAGE;
    fprintf(stderr, "usage: abz %s %s\n", row->name, row->synopsis);
    return STATUS_USAGE;
}

static int show_usage(void)
{
    fprintf(stderr, "usage: abz [--wait SECONDS] COMMAND ARGUMENT...; abz --help tells all\n");
    return STATUS_USAGE;
}

int main(int count, char **words)
{
    const command *row;
    size_t seconds;

    guard_standard_files();
    if (count > 1 && strcmp(words[1], "--wait") == 0) {
        if (count < 4)
            return show_usage();
        if (!read_decimal("--wait", words[2], 0, SIZE_MAX, &seconds))
            return STATUS_USAGE;
        wait_at_most(seconds);
        words += 2;
        count -= 2;
    }
    if (count < 2)
        return show_usage();
    if (strcmp(words[1], "--help") == 0 || strcmp(words[1], "-h") == 0)
        return show_help(commands, COMMANDS, rest_of_help);
    row = row_of(words + 1);
    if (row)
        return run(row, words + 1);
    complain("'%s' is no command; abz --help lists them", words[1]);
    return STATUS_USAGE;
}
