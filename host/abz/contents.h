/*
 * What an image says of itself, read from its words; the layout is told in abezolit.h. To be asked only of an image
 * that the service has found consistent: nothing is tested here.
 */
#ifndef CONTENTS_H
#define CONTENTS_H

#include "../form.h"
#include "names.h"

#include <stdbool.h>
#include <stddef.h>
#include <stdint.h>

typedef struct {
    size_t name1, name2, extension, uic, protect, kind, length, writer, readers;
} contents_entry;

/* The word of two bytes, low byte first. */
size_t word_at(const uint8_t *bytes);

size_t contents_form(const uint8_t *image);

/* How many blocks the contents have. */
size_t contents_blocks(const uint8_t *image);

/* How many UICs are in the list, and one of them, from 0 on. */
size_t contents_uics(const uint8_t *image);
size_t contents_uic(const uint8_t *image, size_t number);

/* How many entries the contents have, empty ones too. */
size_t contents_entries(const uint8_t *image);

/* Reads an entry; false if it is empty. */
bool contents_read(const uint8_t *image, size_t number, contents_entry *entry);

/* Reads the entry of a file, whose UIC is its owner's and not 0; false if there is none. */
bool contents_find(const uint8_t *image, file_name file, contents_entry *entry);

/* The file of an entry, as requests name it. */
file_name contents_name(const contents_entry *entry);

#endif
