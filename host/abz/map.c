/* What a map of a pack shows, however it is drawn. */
#include "map.h"

size_t map_make(pack_map *map)
{
    contents_entry file;
    size_t code = blocks_ask(&map->blocks, &map->pack);

    map->files = 0;
    if (code != ABZ_OK)
        return code;
    for (size_t entry = 0; entry < contents_entries(map->pack.image); entry++)
        if (contents_read(map->pack.image, entry, &file) && file.length > 0) {
            map->number_of[entry] = map->files;
            map->entry_of[map->files++] = entry;
        }
    return ABZ_OK;
}

char sign_of(size_t number)
{
    static const char signs[] = "ABCDEFGHIJKLMNOPQRSTUVWXYZabcdefghijklmnopqrstuvwxyz0123456789";

    return signs[number % SIGNS];
}

size_t turn_of(size_t number)
{
    return number / SIGNS;
}

size_t map_turns(const pack_map *map)
{
    return map->files > 0 ? turn_of(map->files - 1) + 1 : 1;
}
