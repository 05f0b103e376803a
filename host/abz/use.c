/* How many bytes of a file are in use. */
#include "use.h"

#include "bodies.h"
#include "show.h"

#include <stdio.h>

void show_use(pack_file *pack, file_name file, size_t kind)
{
    static uint8_t bytes[BODY_ROOM];
    size_t length;

    if (body_read(pack, file.uic, file, kind, bytes, &length) != ABZ_OK) {
        printf("not known");
        return;
    }
    length = trimmed(bytes, length);
    printf("%zu byte%s", length, length == 1 ? "" : "s");
}

void show_file_and_use(pack_file *pack, const contents_entry *file)
{
    show_file(file);
    printf(" used ");
    show_use(pack, contents_name(file), file->kind);
}
