/*
 * Commands that are one request each: the arguments become numbers, the pack is read, the service is called, and where
 * it did what was asked the pack is written back.
 */
#include "commands.h"

#include "abezolit.h"
#include "contents.h"
#include "modes.h"
#include "names.h"
#include "options.h"
#include "packfile.h"
#include "show.h"
#include "tell.h"
#include "use.h"

#include <stdio.h>

static pack_file pack;

/* ---- Packs ---- */

static bool is_listed(size_t uic, const uint8_t *uics, size_t length)
{
    for (size_t at = 0; at < length; at += 2)
        if (word_at(uics + at) == uic)
            return true;
    return false;
}

/* Whether a new pack can have one more UIC behind those that it has already. */
static bool may_list(const char *text, size_t uic, const pack_form *form, const uint8_t *uics, size_t length)
{
    if (uic == 0)
        complain("'%s': no user has the UIC [0,0]", text);
    else if (is_listed(uic, uics, length))
        complain("'%s': this UIC is given twice", text);
    else if (length == 2 * form->uics_most)
        complain("'%s': a pack has at most %zu UICs", text, form->uics_most);
    else
        return true;
    return false;
}

/* UICs as words, low byte first. */
static bool read_uics(char **texts, const pack_form *form, uint8_t uics[2 * UICS_MOST], size_t *length)
{
    size_t uic;

    for (*length = 0; *texts; texts++) {
        if (!read_uic(*texts, &uic) || !may_list(*texts, uic, form, uics, *length))
            return false;
        uics[(*length)++] = (uint8_t)(uic % 256);
        uics[(*length)++] = (uint8_t)(uic / 256);
    }
    return true;
}

/* The form of a new pack: that which the option names, else form 1. NULL if there is no such form. */
static const pack_form *read_form(const char *text)
{
    const pack_form *form;
    size_t number = ABZ_FORM;

    if (text && !read_decimal("FORM", text, 0, SIZE_MAX, &number))
        return NULL;
    form = form_numbered(number);
    if (form == NULL)
        complain("FORM: '%s': there is no such form", text);
    return form;
}

/* How many blocks of contents a pack of so many blocks can have: a body is left. */
static size_t most_contents(const pack_form *form, size_t blocks)
{
    const size_t left = blocks - form->system - 1;

    return left < form->contents_most ? left : form->contents_most;
}

int command_format(char **arguments)
{
    const pack_form *form = read_form(option("--form"));
    size_t blocks, contents, length;
    uint8_t uics[2 * UICS_MOST];

    if (form == NULL || !read_decimal("BLOCKS", arguments[1], form->blocks_least, form->blocks_most, &blocks)
        || !read_decimal("CONTENTS", arguments[2], form->contents_least, most_contents(form, blocks), &contents)
        || !read_uics(arguments + 3, form, uics, &length))
        return STATUS_USAGE;
    if (!pack_begin(&pack, arguments[0], form, blocks, option("--force")))
        return STATUS_FAILED;
    return pack_end(&pack, "format", abz_format(pack.image, pack.length, form->number, blocks, contents, uics, length));
}

/* ---- Files ---- */

static void show_look(const abz_look_answer *answer)
{
    static const char *const kinds[] = { "", "contiguous", "linked" };

    printf("kind     %s\nfirst    ", kinds[answer->kind]);
    show_count(answer->first);
    printf("\nlength   ");
    show_count(answer->length);
    printf("\nprotect  ");
    show_octal(answer->protect);
    printf("\nwriter   %s\nreaders  ", mode_word(answer->writer));
    show_count(answer->readers);
}

int command_look(char **arguments)
{
    size_t caller;
    file_name file;
    abz_look_answer answer;

    if (!read_uic(arguments[1], &caller) || !read_name(arguments[2], &file))
        return STATUS_USAGE;
    if (!pack_read(&pack, arguments[0]))
        return STATUS_FAILED;
    answer = abz_look(pack.image, pack.length, caller, FOUR(file));
    if (answer.code != ABZ_OK)
        return tell_refusal("look", answer.code);
    show_look(&answer);
    printf("\nused     ");
    if (file.uic == 0)
        file.uic = caller;
    show_use(&pack, file, answer.kind);
    putchar('\n');
    return show_end() ? STATUS_DONE : STATUS_FAILED;
}

int command_alloc(char **arguments)
{
    size_t caller, segments, protect = PROTECT_USUAL;
    file_name file;
    abz_answer answer;

    if (!read_uic(arguments[1], &caller) || !read_name(arguments[2], &file)
        || !read_decimal("SEGMENTS", arguments[3], 1, SIZE_MAX, &segments) || !read_protect(arguments[4], &protect))
        return STATUS_USAGE;
    if (!pack_take(&pack, arguments[0]))
        return STATUS_FAILED;
    answer = abz_alloc(pack.image, pack.length, caller, FOUR(file), protect, segments);
    if (answer.code == ABZ_OK) {
        printf("first block ");
        show_count(answer.number);
        putchar('\n');
        if (!show_end()) /* before the pack is written: where abz fails, the pack is to be as it was */
            return STATUS_FAILED;
    }
    return pack_end(&pack, "alloc", answer.code);
}

/* Requests that take a file and nothing else. */
typedef size_t file_request(uint8_t *image, size_t image_len, size_t caller,
                            size_t name1, size_t name2, size_t extension, size_t uic);

static int request_on_file(const char *command, file_request *request, char **arguments)
{
    size_t caller;
    file_name file;

    if (!read_uic(arguments[1], &caller) || !read_name(arguments[2], &file))
        return STATUS_USAGE;
    if (!pack_take(&pack, arguments[0]))
        return STATUS_FAILED;
    return pack_end(&pack, command, request(pack.image, pack.length, caller, FOUR(file)));
}

int command_delete(char **arguments)
{
    return request_on_file("delete", abz_delet, arguments);
}

/* The protect code that a file has. Where there is none, RENAM refuses too, and with the code that comes first. */
static size_t present_protect(size_t caller, file_name file)
{
    return abz_look(pack.image, pack.length, caller, FOUR(file)).protect;
}

int command_rename(char **arguments)
{
    size_t caller, protect;
    file_name old, new;

    if (!read_uic(arguments[1], &caller) || !read_name(arguments[2], &old) || !read_new_name(arguments[3], &new)
        || !read_protect(arguments[4], &protect))
        return STATUS_USAGE;
    if (!pack_take(&pack, arguments[0]))
        return STATUS_FAILED;
    if (arguments[4] == NULL)
        protect = present_protect(caller, old);
    return pack_end(&pack, "rename", abz_renam(pack.image, pack.length, caller, FOUR(old), new.name1, new.name2,
                                           new.extension, protect));
}

/* Whether two names are of one file, however they are written; it need not be there. */
static bool is_one_file(size_t caller, file_name a, file_name b)
{
    return is_same_name(a, b) && (a.uic ? a.uic : caller) == (b.uic ? b.uic : caller);
}

int command_append(char **arguments)
{
    size_t caller;
    file_name first, second;

    if (!read_uic(arguments[1], &caller) || !read_name(arguments[2], &first) || !read_name(arguments[3], &second))
        return STATUS_USAGE;
    if (is_one_file(caller, first, second)) {
        complain("'%s': a file cannot be appended to itself", arguments[3]);
        return STATUS_USAGE;
    }
    if (!pack_take(&pack, arguments[0]))
        return STATUS_FAILED;
    return pack_end(&pack, "append", abz_appnd(pack.image, pack.length, caller, FOUR(first), FOUR(second)));
}

int command_keep(char **arguments)
{
    return request_on_file("keep", abz_keep, arguments);
}
