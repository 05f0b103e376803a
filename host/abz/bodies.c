/* The bytes of a file as a whole: put, loaded and read, block after block. */
#include "bodies.h"

#include <string.h>

/* ---- Into the pack ---- */

/* Takes a block of bytes from the front of those that are left; where they end, NUL fills it up. */
static void take_block(uint8_t *block, size_t size, const uint8_t **bytes, size_t *left)
{
    const size_t count = *left < size ? *left : size;

    memcpy(block, *bytes, count);
    memset(block + count, 0, size - count);
    *bytes += count;
    *left -= count;
}

static size_t add_blocks(pack_file *pack, size_t caller, file_name file, const uint8_t *bytes, size_t left)
{
    const size_t size = form_of(pack->image)->payload;
    uint8_t payload[PAYLOAD_MOST];
    size_t code = ABZ_OK;

    while (left > 0 && code == ABZ_OK) {
        take_block(payload, size, &bytes, &left);
        code = abz_linked_add(pack->image, pack->length, caller, FOUR(file), payload, size).code;
    }
    return code;
}

size_t body_put(pack_file *pack, size_t caller, file_name file, size_t protect, const uint8_t *bytes, size_t length)
{
    size_t code = abz_openo(pack->image, pack->length, caller, FOUR(file), protect);

    if (code == ABZ_OK)
        code = add_blocks(pack, caller, file, bytes, length);
    if (code == ABZ_OK)
        code = abz_close(pack->image, pack->length, caller, FOUR(file), ABZ_OUTPUT);
    return code;
}

/* The places from 0 on, until the service says that the file has no more; there must be one for every byte. */
static size_t write_blocks(pack_file *pack, size_t caller, file_name file, const uint8_t *bytes, size_t left)
{
    const size_t size = form_of(pack->image)->block;
    uint8_t block[BLOCK_MOST];
    size_t code = ABZ_OK;
    bool needed = true;

    for (size_t place = 0; code == ABZ_OK; place++) {
        needed = left > 0;
        take_block(block, size, &bytes, &left);
        code = abz_block_out(pack->image, pack->length, caller, FOUR(file), place, block, size);
    }
    return code == ABZ_NO_BLOCK && !needed ? ABZ_OK : code;
}

/* The segments that so many bytes need. */
static size_t segments_for(const pack_file *pack, size_t length)
{
    const pack_form *form = form_of(pack->image);
    const size_t segment = form->block / form->segments;

    return (length + segment - 1) / segment;
}

size_t body_load(pack_file *pack, size_t caller, file_name file, const uint8_t *bytes, size_t length)
{
    size_t code = abz_look(pack->image, pack->length, caller, FOUR(file)).code;

    if (code == ABZ_EXISTENCE)
        code = abz_alloc(pack->image, pack->length, caller, FOUR(file), PROTECT_USUAL, segments_for(pack, length)).code;
    if (code == ABZ_OK)
        code = abz_openu(pack->image, pack->length, caller, FOUR(file));
    if (code == ABZ_OK)
        code = write_blocks(pack, caller, file, bytes, length);
    if (code == ABZ_OK)
        code = abz_close(pack->image, pack->length, caller, FOUR(file), ABZ_UPDATE);
    return code;
}

/* ---- Out of the pack ---- */

/* How a block of each kind of file is read. The requests take and give the same, but for how many bytes it has. */
typedef size_t block_read(const uint8_t *image, size_t image_len, size_t caller,
                          size_t name1, size_t name2, size_t extension, size_t uic,
                          size_t place, uint8_t *buffer, size_t buffer_len);

/* The places from 0 on, until the service says that the file has no more. */
static size_t read_blocks(pack_file *pack, size_t caller, file_name file, size_t kind, uint8_t *bytes, size_t *length)
{
    const pack_form *form = form_of(pack->image);
    block_read *const read = kind == ABZ_LINKED ? abz_linked_read : abz_block_in;
    const size_t size = kind == ABZ_LINKED ? form->payload : form->block;
    size_t code = ABZ_OK;

    *length = 0;
    for (size_t place = 0; code == ABZ_OK; place++) {
        code = read(pack->image, pack->length, caller, FOUR(file), place, bytes + *length, size);
        if (code == ABZ_OK)
            *length += size;
    }
    return code == ABZ_NO_BLOCK ? ABZ_OK : code;
}

size_t body_read(pack_file *pack, size_t caller, file_name file, size_t kind, uint8_t *bytes, size_t *length)
{
    size_t code = abz_openi(pack->image, pack->length, caller, FOUR(file));

    if (code == ABZ_OK)
        code = read_blocks(pack, caller, file, kind, bytes, length);
    if (code == ABZ_OK)
        code = abz_close(pack->image, pack->length, caller, FOUR(file), ABZ_INPUT);
    return code;
}

size_t trimmed(const uint8_t *bytes, size_t length)
{
    while (length > 0 && bytes[length - 1] == 0)
        length--;
    return length;
}
