/* A pack of 16 blocks, a file of 9 segments on it, and whose its last block is. */
#include <stdio.h>
#include "abezolit.h"

static uint8_t pack[16 * ABZ_BLOCK_BYTES];

int main(void)
{
    const uint8_t uics[] = { 010, 023 }; /* [23,10]: a word, low byte first */
    const size_t caller = 023 * 256 + 010;
    const size_t name1 = abz_radpk((const uint8_t *)"FRE", 3).number;
    const size_t name2 = abz_radpk((const uint8_t *)"Q  ", 3).number;
    const size_t extension = abz_radpk((const uint8_t *)"DAT", 3).number;

    const size_t formatted = abz_format(pack, sizeof pack, 1, 16, 1, uics, sizeof uics);
    const abz_answer made = abz_alloc(pack, sizeof pack, caller, name1, name2, extension, 0, 3, 9);
    const abz_owner_answer owner = abz_owner(pack, sizeof pack, 15);
    if (formatted != ABZ_OK || made.code != ABZ_OK || owner.code != ABZ_OK)
        return 1;
    printf("first block %zu; block 15 is place %zu of entry %zu\n", made.number, owner.place, owner.entry);
    return 0;
}
