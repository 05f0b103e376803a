/* What an image says of itself, read from its words. */
#include "contents.h"

/* The words of block 0, and those of an entry. */
enum { FORM, BLOCKS, CONTENTS, UICS, FIRST_UIC };
enum { NAME1, NAME2, EXTENSION, UIC, PROTECT, KIND, FIRST, LENGTH, LAST, WRITER, READERS };

size_t word_at(const uint8_t *bytes)
{
    return bytes[0] + (size_t)256 * bytes[1];
}

size_t contents_form(const uint8_t *image)
{
    return word_at(image + 2 * FORM);
}

size_t contents_blocks(const uint8_t *image)
{
    return word_at(image + 2 * CONTENTS);
}

size_t contents_uics(const uint8_t *image)
{
    return word_at(image + 2 * UICS);
}

size_t contents_uic(const uint8_t *image, size_t number)
{
    return word_at(image + 2 * (FIRST_UIC + number));
}

size_t contents_entries(const uint8_t *image)
{
    return form_of(image)->entries * contents_blocks(image);
}

bool contents_read(const uint8_t *image, size_t number, contents_entry *entry)
{
    const uint8_t *start = image + form_of(image)->block + ABZ_ENTRY_BYTES * number;

    entry->name1 = word_at(start + 2 * NAME1);
    entry->name2 = word_at(start + 2 * NAME2);
    entry->extension = word_at(start + 2 * EXTENSION);
    entry->uic = word_at(start + 2 * UIC);
    entry->protect = word_at(start + 2 * PROTECT);
    entry->kind = word_at(start + 2 * KIND);
    entry->length = word_at(start + 2 * LENGTH);
    entry->writer = word_at(start + 2 * WRITER);
    entry->readers = word_at(start + 2 * READERS);
    return entry->name1 != 0; /* in a consistent pack every file's is: it has a legal name */
}

bool contents_find(const uint8_t *image, file_name file, contents_entry *entry)
{
    for (size_t number = 0; number < contents_entries(image); number++)
        if (contents_read(image, number, entry) && entry->uic == file.uic && is_same_name(contents_name(entry), file))
            return true;
    return false;
}

file_name contents_name(const contents_entry *entry)
{
    const file_name file = { FOUR(*entry) };

    return file;
}
