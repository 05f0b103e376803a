/* The owners of all blocks of a pack. */
#include "blocks.h"

size_t blocks_ask(pack_blocks *blocks, const pack_file *pack)
{
    for (blocks->count = 0; blocks->count < BLOCKS_MOST; blocks->count++) {
        const abz_owner_answer answer = abz_owner(pack->image, pack->length, blocks->count);
        if (answer.code == ABZ_NO_BLOCK)
            break;
        if (answer.code != ABZ_OK)
            return answer.code;
        blocks->owners[blocks->count] = answer;
    }
    return ABZ_OK;
}

size_t blocks_count(const pack_blocks *blocks, size_t kind)
{
    size_t count = 0;

    for (size_t block = 0; block < blocks->count; block++)
        if (blocks->owners[block].kind == kind)
            count++;
    return count;
}

bool blocks_alike(const pack_blocks *blocks, size_t a, size_t b)
{
    return blocks->owners[a].kind == blocks->owners[b].kind && blocks->owners[a].entry == blocks->owners[b].entry;
}
