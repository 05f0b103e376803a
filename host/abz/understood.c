/* The specifications of a line, asked for one by one, and the line that the service writes of them. */
#include "understood.h"

#include "abezolit.h"

#include <stdio.h>

/* As abezolit.h says: a line of 128 has up to 129 specifications, whose switches take 384 bytes at most. */
enum { LINE_MOST = 128, RECORD = 18, RECORDS_MOST = 129 * RECORD + 384 };

typedef struct {
    uint8_t bytes[RECORDS_MOST + RECORD + 384]; /* each is lent all the room that its switches could need */
    size_t length, counts[2];
} records;

static void add_word(records *all, size_t word)
{
    all->bytes[all->length++] = (uint8_t)(word % 256);
    all->bytes[all->length++] = (uint8_t)(word / 256);
}

/* How many bytes switches take: three words for each, and two for each of its values. */
static size_t switch_bytes(const uint8_t *switches, size_t count)
{
    size_t length = 0;

    while (count-- > 0)
        length += 6 + 4 * (switches[length] + (size_t)256 * switches[length + 1]);
    return length;
}

/* Keeps the specifications of a side as they come, from 0 on until there are no more. */
static size_t keep_side(records *all, const uint8_t *condensed, size_t length, size_t side)
{
    for (;;) {
        uint8_t *switches = all->bytes + all->length + RECORD;
        const abz_specification it = abz_csi2(condensed, length, side, all->counts[side], switches, 384);
        if (it.code != ABZ_OK)
            return it.code == ABZ_NO_SPECIFICATION ? ABZ_OK : it.code;
        const size_t words[] = { it.present,   it.device, it.unit, it.name1,   it.name2,
                                 it.extension, it.group,  it.user, it.switches };
        for (size_t i = 0; i < RECORD / 2; i++)
            add_word(all, words[i]);
        all->length += switch_bytes(switches, it.switches);
        all->counts[side]++;
    }
}

size_t show_understood(const uint8_t *condensed, size_t length)
{
    static records all;
    uint8_t line[LINE_MOST];
    size_t code;

    all = (records){ .length = 0 };
    code = keep_side(&all, condensed, length, ABZ_OUTPUT_SIDE);
    if (code == ABZ_OK)
        code = keep_side(&all, condensed, length, ABZ_INPUT_SIDE);
    if (code != ABZ_OK)
        return code;

    const size_t *counts = all.counts;
    const abz_answer answer = abz_csi_write(counts[ABZ_OUTPUT_SIDE], counts[ABZ_INPUT_SIDE], all.bytes, all.length,
                                            line, sizeof line);
    if (answer.code == ABZ_OK)
        printf("%.*s\n", (int)answer.number, (const char *)line);
    return answer.code;
}
