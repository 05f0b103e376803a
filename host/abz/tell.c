/* What abz says: a line for every cause, and what each code of a refusal means to a technician, for each command. */
#define _POSIX_C_SOURCE 200809L
#include "tell.h"

#include "abezolit.h"
#include "visible.h"

#include <errno.h>
#include <stdarg.h>
#include <stdio.h>
#include <stdlib.h>
#include <string.h>

typedef struct {
    size_t code;
    const char *command; /* NULL in the row for all other commands, which is the last of its code */
    const char *words;
} cause;

/*
 * Codes stand in the order of the build document's table. One code can have several causes, and a command usually
 * knows which of them it can be; so it has words of its own where they say more. All codes are here, also those that
 * no command of abz meets.
 */
static const cause causes[] = {
    { ABZ_INCONSISTENT, "convert", "the file is not a consistent pack of form 1 or 2; abz report tells whether it is one" },
    { ABZ_INCONSISTENT, NULL, "the file is not a consistent pack; abz report tells what is wrong with it" },
    { ABZ_NAME, NULL, "a name is 1 to 6 of A-Z and 0-9, an extension 0 to 3 of them" },
    { ABZ_ARGUMENT, "convert", "form 1 has no such pack: it has 16 to 1024 blocks, which is one less, and lists files in 8 at most" },
    { ABZ_ARGUMENT, "append", "a file cannot be appended to itself" },
    { ABZ_ARGUMENT, "load", "HOSTFILE is empty, and a contiguous file has at least a block" },
    { ABZ_ARGUMENT, NULL, "an argument is not one that the request takes" },
    { ABZ_NO_USER, NULL, "the owner is not in the pack's list of UICs" },
    { ABZ_EXISTENCE, "alloc", "there is such a file already" },
    { ABZ_EXISTENCE, "put", "there is such a file already" },
    { ABZ_EXISTENCE, "enter", "there is such a file already" },
    { ABZ_EXISTENCE, "rename", "there is no such file under this UIC, or there is one of the new name already" },
    { ABZ_EXISTENCE, "append", "there is no such file under its UIC, the first or the second" },
    { ABZ_EXISTENCE, "open", "there is no such file under this UIC, or it is open for output; for output, there is one already" },
    { ABZ_EXISTENCE, "get", "there is no such file under this UIC, or it is still open for output" },
    { ABZ_EXISTENCE, "dump", "there is no such file under this UIC, or it is still open for output" },
    { ABZ_EXISTENCE, "load", "the file is still open for output" },
    { ABZ_EXISTENCE, "type", "there is no such file under this UIC, or it is still open for output" },
    { ABZ_EXISTENCE, "enter --append", "there is no such file under this UIC, or it is still open for output" },
    { ABZ_EXISTENCE, NULL, "there is no such file under this UIC" },
    { ABZ_RIGHT, "alloc", "a file is created by its owner only" },
    { ABZ_RIGHT, "put", "a file is created by its owner only, and with 100 in PROTECT even he may not write to it" },
    { ABZ_RIGHT, "enter", "a file is created by its owner only, and with 100 in PROTECT even he may not write to it" },
    { ABZ_RIGHT, "delete", "the caller may not delete this file" },
    { ABZ_RIGHT, "rename", "the caller may not write to this file" },
    { ABZ_RIGHT, "append", "the caller may not write to the first file, or may not delete the second" },
    { ABZ_RIGHT, "keep", "only its owner may keep a file" },
    { ABZ_RIGHT, "get", "the caller may not read this file" },
    { ABZ_RIGHT, "dump", "the caller may not read this file" },
    { ABZ_RIGHT, "load", "the caller may not write to this file; a new one is created by its owner only" },
    { ABZ_RIGHT, "type", "the caller may not read this file" },
    { ABZ_RIGHT, "enter --append", "the caller may not write to this file" },
    { ABZ_RIGHT, NULL, "the caller lacks the right" },
    { ABZ_NOT_LINKED, NULL, "a contiguous file cannot be opened for extension" },
    { ABZ_KIND, "append", "only a linked file can be appended, and only to a linked one" },
    { ABZ_KIND, "get", "the file is contiguous, and only linked ones are read so" },
    { ABZ_KIND, "dump", "the file is linked, and only contiguous ones are dumped; get writes linked ones" },
    { ABZ_KIND, "load", "the file is linked, and only contiguous ones are loaded; put makes linked ones" },
    { ABZ_KIND, "type", "the file is contiguous, and only linked ones are read so" },
    { ABZ_KIND, NULL, "the file is of the other kind, contiguous or linked" },
    { ABZ_WRITER, NULL, "the file has a writer already" },
    { ABZ_OPEN, "append", "one of the files is open" },
    { ABZ_OPEN, NULL, "the file is open" },
    { ABZ_NOT_OPEN, "close", "the file is not open, or not in this way" },
    { ABZ_NOT_OPEN, NULL, "the file is not open as the request needs it" },
    { ABZ_NO_BLOCK, "load", "HOSTFILE is longer than the file, which keeps its size" },
    { ABZ_NO_BLOCK, NULL, "there is no such block" },
    { ABZ_OPENS, NULL, "the file is open 62 times already" },
    { ABZ_NO_ENTRY, NULL, "the pack's contents have no empty entry" },
    { ABZ_NO_ROOM, "alloc", "nowhere on the pack are so many blocks free in a row" },
    { ABZ_NO_ROOM, "load", "nowhere on the pack are so many blocks free in a row" },
    { ABZ_NO_ROOM, NULL, "the pack has too few free blocks" },
    { ABZ_GRAMMAR, NULL, "this is no command: the mark is where it goes wrong or stops too soon" },
    { ABZ_NO_SPECIFICATION, NULL, "the line has no such side or specification" },
    { ABZ_SHORT_BUFFER, NULL, "the buffer is too short" },
    { ABZ_LONG_LINE, NULL, "the line is longer than 512 characters, or than 128 without its blanks" },
    { ABZ_NUMBER, NULL, "a number is over its bound: a unit is at most 7, a group and a user at most 377" },
    { ABZ_CONVERSION, NULL, "what is to be converted is not of its set, or too large" },
};

static const char *words_of(const char *command, size_t code)
{
    for (size_t i = 0; i < sizeof causes / sizeof *causes; i++)
        if (causes[i].code == code && (causes[i].command == NULL || strcmp(causes[i].command, command) == 0))
            return causes[i].words;
    return "for a cause that abz has no words for";
}

void complain(const char *format, ...)
{
    va_list arguments;
    char *message = NULL;
    size_t length;
    FILE *const stream = open_memstream(&message, &length);

    /* What was printed before is to be seen before, also where both go to one terminal. */
    fflush(stdout);
    fputs("abz: ", stderr);
    va_start(arguments, format);
    if (stream && vfprintf(stream, format, arguments) >= 0 && fclose(stream) == 0)
        show_visible(message, stderr);
    else
        fputs("no memory is left to say what is wrong", stderr);
    va_end(arguments);
    fputc('\n', stderr);
    free(message);
}

bool complain_of(const char *file)
{
    complain("%s: %s", file, strerror(errno));
    return false;
}

int tell_refusal(const char *command, size_t code)
{
    complain("%s: refused %zo: %s", command, code, words_of(command, code));
    return STATUS_FAILED;
}

int tell_refusal_of(const char *command, const char *file, size_t code)
{
    complain("%s: %s: refused %zo: %s", command, file, code, words_of(command, code));
    return STATUS_FAILED;
}
