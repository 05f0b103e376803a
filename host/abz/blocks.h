/* Whose each block of a pack is, as the service says block by block. */
#ifndef BLOCKS_H
#define BLOCKS_H

#include "packfile.h"

typedef struct {
    size_t count;
    abz_owner_answer owners[BLOCKS_MOST];
} pack_blocks;

/*
 * Asks of every block, from 0 on until there is none. The first answer also says whether the image is consistent; so
 * after ABZ_OK its contents may be read.
 */
size_t blocks_ask(pack_blocks *blocks, const pack_file *pack);

/* How many are of this kind: the system's, free, or held. */
size_t blocks_count(const pack_blocks *blocks, size_t kind);

/* Whether two blocks are of one owner: both the system's, both free, or both of one file. */
bool blocks_alike(const pack_blocks *blocks, size_t a, size_t b);

#endif
