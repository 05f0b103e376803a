/* The command that draws a map of a pack: with signs in the terminal, or as a picture in a file. */
#define _POSIX_C_SOURCE 200809L
#include "commands.h"

#include "hostfile.h"
#include "map.h"
#include "names.h"
#include "options.h"
#include "show.h"
#include "tell.h"

#include <stdio.h>
#include <stdlib.h>
#include <string.h>
#include <unistd.h>

static pack_map map;
static bool colours;

/* ---- Signs and their colours ---- */

/* What stands for a block: a character, and the terminal's number for its look. */
typedef struct {
    char character;
    int look;
} sign;

enum { PLAIN = 0, FAINT = 2, REVERSE = 7, RED = 31, COLOURS = 6 };

static const sign of_system = { '#', REVERSE }, of_free = { '.', FAINT }, of_other = { '+', FAINT };

static sign of_file(size_t number)
{
    const sign it = { sign_of(number), RED + (int)(number % COLOURS) };

    return it;
}

/* A picture has the files of one turn of signs; all others look alike in it. */
static sign of_block(size_t block, size_t turn)
{
    const abz_owner_answer *owner = &map.blocks.owners[block];

    if (owner->kind != ABZ_HELD)
        return owner->kind == ABZ_SYSTEM ? of_system : of_free;
    return turn_of(map.number_of[owner->entry]) == turn ? of_file(map.number_of[owner->entry]) : of_other;
}

/* Colours are for a terminal that has them, unless someone wants none (no-color.org). */
static bool has_colours(void)
{
    const char *terminal = getenv("TERM"), *none = getenv("NO_COLOR");

    return isatty(STDOUT_FILENO) && terminal && *terminal && strcmp(terminal, "dumb") != 0 && !(none && *none);
}

/* Changes the look where it is another than before. */
static void change_look(int look)
{
    static int before = PLAIN;

    if (colours && look != before)
        printf("\033[%d;%dm", PLAIN, look); /* PLAIN first, for looks add up */
    before = look;
}

static void show_sign(sign it)
{
    change_look(it.look);
    putchar(it.character);
}

/* ---- The picture ---- */

static void show_heading(void)
{
    printf("     ");
    for (size_t column = 0; column < ROW_BLOCKS; column += GROUP_BLOCKS)
        printf(column + GROUP_BLOCKS < ROW_BLOCKS ? "  %-7zu" : "  %zu\n", column);
}

static void show_row(size_t first, size_t turn)
{
    show_count(first);
    putchar(' ');
    for (size_t block = first; block < first + ROW_BLOCKS && block < map.blocks.count; block++) {
        if (block % GROUP_BLOCKS == 0) {
            change_look(PLAIN);
            putchar(' ');
        }
        show_sign(of_block(block, turn));
    }
    change_look(PLAIN);
    putchar('\n');
}

/* ---- The list of signs ---- */

static void show_kind(sign it, const char *what, size_t count)
{
    show_sign(it);
    change_look(PLAIN);
    printf(" %-20s blocks ", what); /* as wide as a file and its owner */
    show_count(count);
}

static void show_numbered(size_t number)
{
    contents_entry file;

    contents_read(map.pack.image, map.entry_of[number], &file);
    show_sign(of_file(number));
    change_look(PLAIN);
    putchar(' ');
    show_name(file.name1, file.name2, file.extension);
    putchar(' ');
    show_uic(file.uic);
    printf(" blocks ");
    show_count(file.length);
}

/* The items of the list: the system's blocks, those that are free, then the files of a turn. */
static size_t items(size_t turn)
{
    const size_t left = map.files - SIGNS * turn;

    return 2 + (left < SIGNS ? left : SIGNS);
}

static void show_item(size_t item, size_t turn)
{
    if (item == 0)
        show_kind(of_system, "system", blocks_count(&map.blocks, ABZ_SYSTEM));
    else if (item == 1)
        show_kind(of_free, "free", blocks_count(&map.blocks, ABZ_FREE));
    else
        show_numbered(SIGNS * turn + item - 2);
}

/* In two columns, so that both fit into 80 characters; the first is read to its end first. */
static void show_list(size_t turn)
{
    const size_t rows = (items(turn) + 1) / 2;

    for (size_t row = 0; row < rows; row++) {
        show_item(row, turn);
        if (row + rows < items(turn)) {
            printf("    ");
            show_item(row + rows, turn);
        }
        putchar('\n');
    }
}

static void show_map(void)
{
    show_totals(map.blocks.count, blocks_count(&map.blocks, ABZ_FREE));
    for (size_t turn = 0; turn < map_turns(&map); turn++) {
        putchar('\n');
        if (map_turns(&map) > 1)
            printf("picture %zu of %zu; + is a file's of another\n", turn + 1, map_turns(&map));
        show_heading();
        for (size_t first = 0; first < map.blocks.count; first += ROW_BLOCKS)
            show_row(first, turn);
        putchar('\n');
        show_list(turn);
    }
}

static bool write_picture(const char *host)
{
    size_t length;
    char *text = map_svg(&map, &length);
    bool right;

    if (text == NULL)
        return complain_of(host);
    right = host_write(host, &map.pack, option("--force"), (const uint8_t *)text, length);
    free(text);
    return right;
}

int command_map(char **arguments)
{
    const char *host = option("--svg");
    size_t code;

    if (host && !read_path("HOSTFILE", host))
        return STATUS_USAGE;
    if (!pack_read(&map.pack, arguments[0]))
        return STATUS_FAILED;
    code = map_make(&map);
    if (code != ABZ_OK)
        return tell_refusal("map", code);
    if (host)
        return write_picture(host) ? STATUS_DONE : STATUS_FAILED;
    colours = has_colours();
    show_map();
    return show_end() ? STATUS_DONE : STATUS_FAILED;
}
