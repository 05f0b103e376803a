/* The data of formatted binary lines, put and read line after line. */
#include "binary.h"

#include "abezolit.h"
#include "bodies.h"

/* ---- Into the pack ---- */

/* Writes the lines to a file that is open for output, and ends them. */
static size_t write_lines(pack_file *pack, size_t caller, file_name file, const uint8_t *data, size_t left)
{
    static uint8_t gather[PAYLOAD_MOST];
    const size_t size = form_of(pack->image)->payload;
    abz_write_answer answer = { ABZ_OK, 0, 0, 0 };

    for (; left > 0 && answer.code == ABZ_OK; data += answer.count, left -= answer.count)
        answer = abz_binary_write(pack->image, pack->length, caller, FOUR(file), data,
                                  left < ABZ_DATA_MOST ? left : ABZ_DATA_MOST, gather, size, answer.filled);
    if (answer.code != ABZ_OK)
        return answer.code;
    return abz_line_end(pack->image, pack->length, caller, FOUR(file), gather, size, answer.filled);
}

size_t binary_put(pack_file *pack, size_t caller, file_name file, size_t protect, const uint8_t *data, size_t length)
{
    size_t code = abz_openo(pack->image, pack->length, caller, FOUR(file), protect);

    if (code == ABZ_OK)
        code = write_lines(pack, caller, file, data, length);
    if (code == ABZ_OK)
        code = abz_close(pack->image, pack->length, caller, FOUR(file), ABZ_OUTPUT);
    return code;
}

/* ---- Out of the pack ---- */

/* The lines from the first on, up to one whose status is not 0: then that, its number, and where it was read from. */
static size_t read_lines(pack_file *pack, size_t caller, file_name file, uint8_t *data, size_t *length,
                         binary_fault *end)
{
    abz_binary_answer answer = { ABZ_OK, 0, 0, 0, 0, 0 };

    *length = 0;
    for (end->line = 1; ; end->line++) {
        end->place = answer.position;
        answer = abz_binary_read(pack->image, pack->length, caller, FOUR(file), ABZ_NORMAL, end->place, 0, 0,
                                 data + *length, ABZ_DATA_MOST);
        end->status = answer.status;
        if (answer.code != ABZ_OK || answer.status != 0)
            return answer.code;
        *length += answer.count;
    }
}

/* The NULs before a line are skipped; and where there is nothing behind them, no line is cut, and there is no fault. */
static void judge_end(const uint8_t *bytes, size_t size, binary_fault *end)
{
    while (end->place < size && bytes[end->place] == 0)
        end->place++;
    if (end->place == size)
        end->status = 0;
}

size_t binary_read(pack_file *pack, size_t caller, file_name file, uint8_t *data, size_t *length, binary_fault *fault)
{
    static uint8_t bytes[BODY_ROOM];
    size_t size, code = body_read(pack, caller, file, ABZ_LINKED, bytes, &size);

    if (code == ABZ_OK)
        code = abz_openi(pack->image, pack->length, caller, FOUR(file));
    if (code == ABZ_OK)
        code = read_lines(pack, caller, file, data, length, fault);
    if (code == ABZ_OK)
        code = abz_close(pack->image, pack->length, caller, FOUR(file), ABZ_INPUT);
    if (code == ABZ_OK)
        judge_end(bytes, size, fault);
    return code;
}
