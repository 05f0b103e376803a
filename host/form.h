/*
 * The forms of packs and the measures of each, for abz and for the tests. Word 0 of an image is the number of its form
 * and decides; that of a new pack is an argument of abz_format. A further form is a row more here, and perhaps a higher
 * number among the most of all.
 */
#ifndef FORM_H
#define FORM_H

#include "abezolit.h"

#include <stdbool.h>
#include <stddef.h>
#include <stdint.h>

typedef struct {
    size_t number;                        /* word 0 of the image */
    size_t block, payload;                /* bytes of a block, and of those behind the link of a linked file's block */
    size_t segments, entries;             /* of a block, and of one of contents */
    size_t blocks_least, blocks_most;     /* of a pack */
    size_t contents_least, contents_most; /* blocks of contents */
    size_t uics_most;
    size_t system; /* blocks that are neither contents nor bodies: the header, and a free map */
} pack_form;

static const pack_form forms[] = {
    { ABZ_FORM, ABZ_BLOCK_BYTES, ABZ_PAYLOAD_BYTES, ABZ_BLOCK_SEGMENTS, ABZ_BLOCK_ENTRIES, ABZ_BLOCKS_LEAST,
      ABZ_BLOCKS_MOST, ABZ_CONTENTS_LEAST, ABZ_CONTENTS_MOST, ABZ_UICS_MOST, 1 },
    { ABZ_FORM_2, ABZ_BLOCK_BYTES, ABZ_PAYLOAD_BYTES, ABZ_BLOCK_SEGMENTS, ABZ_BLOCK_ENTRIES, ABZ_BLOCKS_LEAST,
      ABZ_BLOCKS_MOST_2, ABZ_CONTENTS_LEAST, ABZ_CONTENTS_MOST_2, ABZ_UICS_MOST, 2 },
    { ABZ_FORM_3, ABZ_BLOCK_BYTES_3, ABZ_PAYLOAD_BYTES_3, ABZ_BLOCK_SEGMENTS_3, ABZ_BLOCK_ENTRIES_3, ABZ_BLOCKS_LEAST,
      ABZ_BLOCKS_MOST, ABZ_CONTENTS_LEAST, ABZ_CONTENTS_MOST_3, ABZ_UICS_MOST_3, 1 },
};

enum { FORMS = sizeof forms / sizeof *forms };

/* The most of all forms, for the room of what is read or lent. */
enum {
    BLOCK_MOST   = ABZ_BLOCK_BYTES,
    PAYLOAD_MOST = ABZ_PAYLOAD_BYTES,
    BLOCKS_MOST  = ABZ_BLOCKS_MOST_2,
    IMAGE_MOST   = ABZ_BLOCK_BYTES * ABZ_BLOCKS_MOST_2,     /* bytes of a pack */
    ENTRIES_MOST = ABZ_BLOCK_ENTRIES * ABZ_CONTENTS_MOST_2, /* of a pack */
    UICS_MOST    = ABZ_UICS_MOST
};

/* The form of a number; NULL if there is none. */
static inline const pack_form *form_numbered(size_t number)
{
    for (size_t i = 0; i < FORMS; i++)
        if (forms[i].number == number)
            return &forms[i];
    return NULL;
}

/* The form of an image, of which word 0 is there. If that is no form's number, the image is measured as form 1 is. */
static inline const pack_form *form_of(const uint8_t *image)
{
    const pack_form *form = form_numbered(image[0] + (size_t)256 * image[1]);

    return form ? form : forms;
}

/* The block at which the bodies begin, behind so many blocks of contents. */
static inline size_t first_body(const pack_form *form, size_t contents)
{
    return form->system + contents;
}

/* Whether a pack has a free map, and the block that it is, behind so many blocks of contents. */
static inline bool has_map(const pack_form *form)
{
    return form->system == 2;
}

static inline size_t map_block(size_t contents)
{
    return contents + 1;
}

#endif
