/* A map of a pack: whose each block is, and the signs by which files are told apart. */
#ifndef MAP_H
#define MAP_H

#include "blocks.h"
#include "contents.h"

enum { ROW_BLOCKS = 64, GROUP_BLOCKS = 8 };

/* The files that have blocks are numbered from 0 on, in the order of the contents. */
typedef struct {
    pack_file pack;
    pack_blocks blocks;
    size_t files;
    size_t entry_of[ENTRIES_MOST];  /* by number */
    size_t number_of[ENTRIES_MOST]; /* by entry */
} pack_map;

/* Fills the map of its pack, which has been read; the code of the service. */
size_t map_make(pack_map *map);

/*
 * Signs of files are capitals, small letters and digits. Behind 62 files they begin again: a file is told by its sign
 * and by which time it is that this is used, from 0 on.
 */
enum { SIGNS = 62 };
char sign_of(size_t number);
size_t turn_of(size_t number);
size_t map_turns(const pack_map *map); /* at least 1 */

/* The map as an SVG picture: a text, to be freed, and its length. NULL if there is no memory for it. */
char *map_svg(const pack_map *map, size_t *length);

#endif
