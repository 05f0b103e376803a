/* The help: of all commands, and of one. */
#include "help.h"

#include "show.h"
#include "tell.h"

#include <stdio.h>
#include <string.h>

static const struct {
    const char *names; /* as synopses have them; one text may do for several */
    const char *are;
} arguments[] = {
    { "PACK", "a regular file of this computer, with a pack in it" },
    { "NEWPACK",
      "another file of this computer, which gets the pack; - is standard\n"
      "output. It is made, or replaced if it is a regular file." },
    { "CALLER", "for whom it is done: a UIC as 23,10 or [23,10], whose rights count" },
    { "UIC", "group and user, each octal and at most 377: 23,10 or [23,10]" },
    { "FILE, OLD, NEW, FIRST, SECOND",
      "a file of the pack: FREQ.DAT is the caller's, 'FREQ.DAT[23,10]' is\n"
      "another UIC's. A name is 1 to 6 capitals and digits, an extension\n"
      "up to 3 of them; it may be missing, with its period or without." },
    { "PATTERN",
      "files of the pack: as FILE, and each * in the name or the extension\n"
      "stands for any characters, or none: '*.*' are all of the caller's\n"
      "files, '*' those without an extension." },
    { "PROTECT",
      "three octal digits, at most 377. The last is for everyone, the one\n"
      "before it for the owner's group: with 0 they may read, write and\n"
      "delete, with 1 read and write, with 2 or 3 read, else nothing. The\n"
      "first is a sum: 1 leaves the owner himself only reading, 2 keeps\n"
      "the file at Finish. If left out, a new file gets 033, and a renamed\n"
      "one has what it had." },
    { "MODE", "how a file is open: update, output, extension or input, or 1 to 4" },
    { "SEGMENTS", "decimal; of 128 bytes each" },
    { "FORM", "how a pack is laid out: 1; 2 with a free map, for more blocks; or 3\n"
              "for a disk with blocks of 64 words. If left out, it is 1." },
    { "BLOCKS, CONTENTS", "decimal" },
    { "HOSTFILE",
      "a file of this computer; - is standard input or standard output.\n"
      "One that is written is made, or replaced if it is a regular file;\n"
      "what is open already, /dev/stdout or /dev/fd/N, is written into." },
    { "DIRECTORY", "a directory of this computer" },
    { "LINE", "a command line, as an operator types it" },
    { "SECONDS",
      "decimal; how long a command that changes PACK waits while another\n"
      "program has it locked; 0 is not at all. Without --wait it waits\n"
      "till it is free. After 2 seconds it says who has it." },
};

enum { ARGUMENTS = sizeof arguments / sizeof *arguments, TEXT_COLUMN = 12 };

bool is_of_command(const command *row, const char *name)
{
    const size_t length = strcspn(row->name, " ");

    return strncmp(row->name, name, length) == 0 && name[length] == '\0';
}

/* Text of several lines, each of them from this column on; the first may stand behind a word. */
static void show_text(const char *text, int column, int behind)
{
    for (size_t length; *text; text += length + (text[length] == '\n'), behind = 0) {
        length = strcspn(text, "\n");
        printf("%*s%.*s\n", column - behind, "", (int)length, text);
    }
}

static bool is_in_word(char character)
{
    return (character >= 'A' && character <= 'Z') || character == '-';
}

/* Whether a synopsis has a word, and not only as a part of another. */
static bool has_word(const char *synopsis, const char *word, size_t length)
{
    for (const char *at = synopsis; *at; at++)
        if (strncmp(at, word, length) == 0 && !is_in_word(at[length]) && (at == synopsis || !is_in_word(at[-1])))
            return true;
    return false;
}

/* Whether a synopsis has one of the names. */
static bool has_argument(const char *synopsis, const char *names)
{
    for (size_t length; *names; names += length + strspn(names + length, ", ")) {
        length = strcspn(names, ",");
        if (has_word(synopsis, names, length))
            return true;
    }
    return false;
}

static void show_argument(size_t i)
{
    int length = printf("  %s", arguments[i].names);

    if (length >= TEXT_COLUMN) {
        putchar('\n');
        length = 0;
    }
    show_text(arguments[i].are, TEXT_COLUMN, length);
}

int show_help(const command *rows, size_t count, const char *rest)
{
    printf("usage: abz [--wait SECONDS] COMMAND ARGUMENT...\n\nCommands:\n");
    for (size_t i = 0; i < count; i++) {
        printf("  %s %s\n", rows[i].name, rows[i].synopsis);
        show_text(rows[i].does, 6, 0);
    }
    printf("\nArguments:\n");
    for (size_t i = 0; i < ARGUMENTS; i++)
        show_argument(i);
    printf("\n%s", rest);
    return show_end() ? STATUS_DONE : STATUS_FAILED;
}

/* Whether a variant of the command takes it. */
static bool takes(const command *rows, size_t count, const char *name, const char *names)
{
    for (size_t i = 0; i < count; i++)
        if (is_of_command(&rows[i], name) && has_argument(rows[i].synopsis, names))
            return true;
    return false;
}

int show_help_of(const command *rows, size_t count, const char *name)
{
    bool found = false, headed = false;

    for (size_t i = 0; i < count; i++)
        if (is_of_command(&rows[i], name)) {
            printf("usage: abz %s %s\n", rows[i].name, rows[i].synopsis);
            show_text(rows[i].does, 6, 0);
            found = true;
        }
    if (!found) {
        complain("'%s' is no command; abz --help lists them", name);
        return STATUS_USAGE;
    }
    for (size_t i = 0; i < ARGUMENTS; i++)
        if (takes(rows, count, name, arguments[i].names)) {
            printf("%s", headed ? "" : "\nArguments:\n");
            headed = true;
            show_argument(i);
        }
    printf("\nabz --help tells of all commands, of numbers, and of the exit status.\n");
    return show_end() ? STATUS_DONE : STATUS_FAILED;
}
