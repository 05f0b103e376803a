/*
 * How many bytes of a file are in use: those up to the last that is not NUL. For this a file is read as by its owner,
 * who may always do so. It is not known of a file that is open for output, or as often as can be.
 */
#ifndef USE_H
#define USE_H

#include "contents.h"
#include "packfile.h"

/* Each of these shows it on standard output; the line goes on. */

/* 1013 bytes, or not known. The UIC of the file is its owner's, and not 0. */
void show_use(pack_file *pack, file_name file, size_t kind);

/* FREQ  .DAT L 00003 [023,010] 003 used 1013 bytes */
void show_file_and_use(pack_file *pack, const contents_entry *file);

#endif
