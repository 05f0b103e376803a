/*
 * The map of a pack as a picture, in SVG: a bar for each run of blocks of one owner, then a list of the owners. Signs
 * and outlines tell owners apart in black and white too. It is drawn in layers, and each says its look once.
 */
#define _POSIX_C_SOURCE 200809L
#include "map.h"

#include "show.h"

#include <stdio.h>
#include <string.h>

/* Measures, in pixels. */
enum {
    CELL = 14,  /* a block, wide and high */
    ROW = 20,   /* from one row of blocks to the next */
    TICK = 4,   /* above the first block of a group */
    LEFT = 64,  /* before the blocks: numbers of rows */
    RIGHT = 24,
    TOP = 88,   /* above the blocks: heading, numbers of columns */
    GAP = 24,   /* between the blocks and the list */
    LINE = 22,  /* from one line of the list to the next */
    COLUMNS = 4 /* of the list */
};

/* ---- Owners ---- */

typedef struct {
    const char *fill, *ink;
    char sign[3];
    char name[40];
    size_t blocks;
} owner;

/* Light, so that a black sign is seen on them; the grey levels of those that follow each other differ too. */
static const char *const fills[] = {
    "#8dd3c7", "#e6d690", "#bebada", "#fb8072", "#80b1d3", "#fdb462",
    "#b3de69", "#fccde5", "#bc80bd", "#ccebc5", "#ffed6f",
};

static owner system_owner(const pack_map *map)
{
    const owner it = { "#4d4d4d", "#ffffff", "#", "system", blocks_count(&map->blocks, ABZ_SYSTEM) };

    return it;
}

static owner free_owner(const pack_map *map)
{
    const owner it = { "#ffffff", "#000000", "", "free", blocks_count(&map->blocks, ABZ_FREE) };

    return it;
}

/* Where signs begin again, the turn stands behind them: A, then A2, then A3. */
static owner file_owner(const pack_map *map, size_t number)
{
    const char turn = turn_of(number) > 0 ? (char)('1' + turn_of(number)) : '\0';
    owner it = { fills[number % (sizeof fills / sizeof *fills)], "#000000", { sign_of(number), turn }, "", 0 };
    char name[NAME_TEXT];
    contents_entry file;

    contents_read(map->pack.image, map->entry_of[number], &file);
    name_text(contents_name(&file), name);
    snprintf(it.name, sizeof it.name, "%s [%03zo,%03zo]", name, file.uic / 256, file.uic % 256);
    it.blocks = file.length;
    return it;
}

static owner owner_of(const pack_map *map, size_t block)
{
    const abz_owner_answer *it = &map->blocks.owners[block];

    if (it->kind == ABZ_HELD)
        return file_owner(map, map->number_of[it->entry]);
    return it->kind == ABZ_SYSTEM ? system_owner(map) : free_owner(map);
}

/* The list: the system, what is free, the files. */
static size_t items(const pack_map *map)
{
    return 2 + map->files;
}

static owner item_owner(const pack_map *map, size_t item)
{
    if (item < 2)
        return item == 0 ? system_owner(map) : free_owner(map);
    return file_owner(map, item - 2);
}

/* ---- Places ---- */

static size_t lines(const pack_map *map)
{
    return (items(map) + COLUMNS - 1) / COLUMNS;
}

static size_t block_x(size_t block)
{
    return LEFT + block % ROW_BLOCKS * CELL;
}

static size_t block_y(size_t block)
{
    return TOP + block / ROW_BLOCKS * ROW;
}

static size_t item_x(const pack_map *map, size_t item)
{
    return LEFT + item / lines(map) * (ROW_BLOCKS * CELL / COLUMNS);
}

static size_t item_y(const pack_map *map, size_t item)
{
    return block_y(map->blocks.count - 1) + ROW + GAP + item % lines(map) * LINE;
}

/* ---- Layers ---- */

/* A bar at a place, of some blocks from a first on; those of the list are of one block and have no number. */
typedef void bar_printer(FILE *out, const owner *it, size_t x, size_t y, size_t blocks, const char *which);

static void print_bar(FILE *out, const owner *it, size_t x, size_t y, size_t blocks, const char *which)
{
    fprintf(out, "<rect x=\"%zu\" y=\"%zu\" width=\"%zu\" height=\"%d\" fill=\"%s\"><title>%s%s</title></rect>\n", x, y,
            blocks * CELL, CELL, it->fill, it->name, which);
}

static void print_sign(FILE *out, const owner *it, size_t x, size_t y, size_t blocks, const char *which)
{
    (void)blocks, (void)which;
    if (it->sign[0])
        fprintf(out, "<text x=\"%zu\" y=\"%zu\" fill=\"%s\">%s</text>\n", x + CELL / 2, y + CELL - 4, it->ink,
                it->sign);
}

/* The block behind those of one owner that begin here, in one row. */
static size_t end_of_run(const pack_blocks *blocks, size_t first)
{
    size_t end = first + 1;

    while (end < blocks->count && end % ROW_BLOCKS != 0 && blocks_alike(blocks, first, end))
        end++;
    return end;
}

static void print_bars(FILE *out, const pack_map *map, bar_printer *print)
{
    char which[64];
    owner it;

    for (size_t first = 0, end; first < map->blocks.count; first = end) {
        end = end_of_run(&map->blocks, first);
        it = owner_of(map, first);
        snprintf(which, sizeof which, ", blocks %zu-%zu", first, end - 1);
        print(out, &it, block_x(first), block_y(first), end - first, which);
    }
    for (size_t item = 0; item < items(map); item++) {
        it = item_owner(map, item);
        print(out, &it, item_x(map, item), item_y(map, item), 1, "");
    }
}

/* Thin lines between the blocks of a bar; where a group begins, it stands out above. */
static void print_grid(FILE *out, const pack_map *map)
{
    fprintf(out, "<path stroke-width=\"0.4\" d=\"");
    for (size_t block = 0; block < map->blocks.count; block++) {
        const size_t above = block % GROUP_BLOCKS == 0 ? TICK : 0;
        fprintf(out, "M%zu %zuv%zu", block_x(block), block_y(block) - above, CELL + above);
    }
    fprintf(out, "\"/>\n");
}

/* ---- Texts ---- */

/* What the technician called the pack, as text of XML. */
static void print_text(FILE *out, const char *text)
{
    for (; *text; text++)
        if (strchr("&<>\"", *text))
            fprintf(out, "&#%d;", *text);
        else
            fputc(*text >= ' ' && *text <= '~' ? *text : '?', out);
}

static void print_numbers(FILE *out, const pack_map *map)
{
    fprintf(out, "<g font-size=\"11\" fill=\"#555555\" text-anchor=\"end\">\n");
    for (size_t block = 0; block < map->blocks.count; block += ROW_BLOCKS)
        fprintf(out, "<text x=\"%d\" y=\"%zu\">%05zu</text>\n", LEFT - 8, block_y(block) + CELL - 3, block);
    fprintf(out, "</g>\n<g font-size=\"11\" fill=\"#555555\">\n");
    for (size_t column = 0; column < ROW_BLOCKS && column < map->blocks.count; column += GROUP_BLOCKS)
        fprintf(out, "<text x=\"%zu\" y=\"%d\">%zu</text>\n", block_x(column), TOP - TICK - 4, column);
    fprintf(out, "</g>\n");
}

static void print_list(FILE *out, const pack_map *map)
{
    fprintf(out, "<g font-size=\"12\">\n");
    for (size_t item = 0; item < items(map); item++) {
        const owner it = item_owner(map, item);
        fprintf(out, "<text x=\"%zu\" y=\"%zu\">%s, %zu block%s</text>\n", item_x(map, item) + CELL + 8,
                item_y(map, item) + CELL - 3, it.name, it.blocks, it.blocks == 1 ? "" : "s");
    }
    fprintf(out, "</g>\n");
}

static void print_heading(FILE *out, const pack_map *map)
{
    const char *slash = strrchr(map->pack.path, '/');

    fprintf(out, "<text x=\"%d\" y=\"34\" font-size=\"20\" font-weight=\"bold\">", LEFT);
    print_text(out, slash ? slash + 1 : map->pack.path);
    fprintf(out, "</text>\n<text x=\"%d\" y=\"54\" font-size=\"13\">", LEFT);
    fprintf(out, "%zu blocks, %zu free; %zu file%s with blocks</text>\n", map->blocks.count,
            blocks_count(&map->blocks, ABZ_FREE), map->files, map->files == 1 ? "" : "s");
}

/* ---- The picture ---- */

static void print_picture(FILE *out, const pack_map *map)
{
    const size_t width = LEFT + ROW_BLOCKS * CELL + RIGHT, height = item_y(map, lines(map) - 1) + LINE + RIGHT;

    fprintf(out, "<svg xmlns=\"http://www.w3.org/2000/svg\" width=\"%zu\" height=\"%zu\" viewBox=\"0 0 %zu %zu\" "
                 "font-family=\"DejaVu Sans, Verdana, Arial, sans-serif\">\n<title>Map of a pack</title>\n",
            width, height, width, height);
    fprintf(out, "<rect width=\"%zu\" height=\"%zu\" fill=\"#ffffff\"/>\n", width, height);
    print_heading(out, map);
    print_numbers(out, map);
    fprintf(out, "<g stroke=\"#000000\">\n");
    print_bars(out, map, print_bar);
    print_grid(out, map);
    fprintf(out, "</g>\n<g font-family=\"DejaVu Sans Mono, Menlo, Courier New, monospace\" font-size=\"10\" "
                 "font-weight=\"bold\" text-anchor=\"middle\">\n");
    print_bars(out, map, print_sign);
    fprintf(out, "</g>\n");
    print_list(out, map);
    fprintf(out, "</svg>\n");
}

char *map_svg(const pack_map *map, size_t *length)
{
    char *text = NULL;
    FILE *out = open_memstream(&text, length);

    if (out == NULL)
        return NULL;
    print_picture(out, map);
    return fclose(out) == 0 ? text : NULL;
}
