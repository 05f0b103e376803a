/* Moving a pack to the other form, with a free map or without one, into another file: the pack itself is only read. */
#include "commands.h"

#include "abezolit.h"
#include "hostfile.h"
#include "names.h"
#include "options.h"
#include "packfile.h"
#include "tell.h"

static pack_file pack;

/* The pack in the other form, which has a block more or less. */
static uint8_t moved[sizeof pack.image + ABZ_BLOCK_BYTES];
static size_t length;

/* Which way it goes is by the form of the pack; what has neither form is refused by either. */
static size_t move(void)
{
    if (form_of(pack.image)->number != ABZ_FORM_2) {
        length = pack.length + ABZ_BLOCK_BYTES;
        return abz_to_form2(pack.image, pack.length, moved, length);
    }
    length = pack.length < ABZ_BLOCK_BYTES ? 0 : pack.length - ABZ_BLOCK_BYTES;
    return abz_to_form1(pack.image, pack.length, moved, length);
}

int command_convert(char **arguments)
{
    size_t code;

    if (!read_path("NEWPACK", arguments[1]))
        return STATUS_USAGE;
    if (!pack_read(&pack, arguments[0]))
        return STATUS_FAILED;
    code = move();
    if (code != ABZ_OK)
        return tell_refusal("convert", code);
    return host_write(arguments[1], &pack, option("--force"), moved, length) ? STATUS_DONE : STATUS_FAILED;
}
