/*
 * Commands that move the text of a linked file, by lines: to standard output, and from standard input. Each is several
 * requests, one behind the other; the pack is written back only when all of them were done.
 */
#define _POSIX_C_SOURCE 200809L
#include "commands.h"

#include "abezolit.h"
#include "files.h"
#include "names.h"
#include "packfile.h"
#include "show.h"
#include "tell.h"

#include <stdio.h>
#include <string.h>
#include <unistd.h>

static pack_file pack;

/* ---- Out of the pack ---- */

/* Of a line that is longer than the buffer special mode gives one part after another, so that it comes whole too. */
static size_t show_lines(size_t caller, file_name file)
{
    uint8_t part[256];
    abz_read_answer answer = { ABZ_OK, 0, 0, 0 };

    do {
        answer = abz_line_read(pack.image, pack.length, caller, FOUR(file), ABZ_SPECIAL, answer.position,
                               part, sizeof part);
        fwrite(part, 1, answer.count, stdout);
    } while (answer.code == ABZ_OK && !(answer.status & ABZ_FILE_ENDED));
    return answer.code;
}

/* The file is opened and closed in the image in memory, of which nothing goes back: the pack stays as it is. */
static size_t type(size_t caller, file_name file)
{
    size_t code = abz_openi(pack.image, pack.length, caller, FOUR(file));

    if (code == ABZ_OK)
        code = show_lines(caller, file);
    if (code == ABZ_OK)
        code = abz_close(pack.image, pack.length, caller, FOUR(file), ABZ_INPUT);
    return code;
}

int command_type(char **arguments)
{
    size_t caller, code;
    file_name file;

    if (!read_uic(arguments[1], &caller) || !read_name(arguments[2], &file))
        return STATUS_USAGE;
    if (!pack_read(&pack, arguments[0]))
        return STATUS_FAILED;
    code = type(caller, file);
    if (code != ABZ_OK)
        return tell_refusal("type", code);
    return show_end() ? STATUS_DONE : STATUS_FAILED;
}

/* ---- Into the pack ---- */

/* Room for more than the files of any pack hold: some blocks are the system's. */
static uint8_t text[PAYLOAD_MOST * BLOCKS_MOST];
static size_t length;

/* What a byte is if no text has it, since reading would drop it or make another character of it; else NULL. */
static const char *byte_fault(uint8_t byte)
{
    if (byte == 0)
        return "a NUL";
    if (byte == 0177)
        return "a RUBOUT";
    return byte > 0177 ? "a byte above 177 octal" : NULL;
}

/* Lines are counted as the technician's editor counts them, by LINE FEED alone. */
static bool is_text(void)
{
    size_t line = 1;

    for (size_t i = 0; i < length; i++) {
        const char *fault = byte_fault(text[i]);
        if (fault) {
            complain("standard input: line %zu has %s, and a text is ASCII without NUL and RUBOUT", line, fault);
            return false;
        }
        line += text[i] == '\n';
    }
    return true;
}

/* All that standard input holds; if no pack has room for it, its beginning, which no pack has room for either. */
static bool read_text(void)
{
    if (!read_bytes(STDIN_FILENO, "standard input", text, sizeof text - 1, &length) || !is_text())
        return false;
    if (length > 0 && strchr("\n\v\f", text[length - 1]) == NULL)
        text[length++] = '\n';
    return true;
}

/* Writes the lines to a file that is open for it, and closes it. Normal mode takes them all at once. */
static size_t write_and_close(size_t caller, file_name file, size_t mode)
{
    static uint8_t gather[PAYLOAD_MOST];
    const size_t size = form_of(pack.image)->payload;
    abz_write_answer answer = abz_line_write(pack.image, pack.length, caller, FOUR(file), ABZ_NORMAL, text, length,
                                             gather, size, 0);
    size_t code = answer.code;

    if (code == ABZ_OK)
        code = abz_line_end(pack.image, pack.length, caller, FOUR(file), gather, size, answer.filled);
    if (code == ABZ_OK)
        code = abz_close(pack.image, pack.length, caller, FOUR(file), mode);
    return code;
}

static size_t enter(size_t caller, file_name file, size_t protect)
{
    size_t code = abz_openo(pack.image, pack.length, caller, FOUR(file), protect);

    return code == ABZ_OK ? write_and_close(caller, file, ABZ_OUTPUT) : code;
}

static size_t enter_at_end(size_t caller, file_name file)
{
    size_t code = abz_opene(pack.image, pack.length, caller, FOUR(file));

    return code == ABZ_OK ? write_and_close(caller, file, ABZ_EXTEND) : code;
}

int command_enter(char **arguments)
{
    size_t caller, protect = PROTECT_USUAL;
    file_name file;

    if (!read_uic(arguments[1], &caller) || !read_name(arguments[2], &file) || !read_protect(arguments[3], &protect))
        return STATUS_USAGE;
    if (!read_text() || !pack_take(&pack, arguments[0])) /* in this order: nobody waits for what is typed */
        return STATUS_FAILED;
    return pack_end(&pack, "enter", enter(caller, file, protect));
}

int command_enter_append(char **arguments)
{
    size_t caller;
    file_name file;

    if (!read_uic(arguments[1], &caller) || !read_name(arguments[2], &file))
        return STATUS_USAGE;
    if (!read_text() || !pack_take(&pack, arguments[0]))
        return STATUS_FAILED;
    return pack_end(&pack, "enter --append", enter_at_end(caller, file));
}
