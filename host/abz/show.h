/* Numbers, names and files on standard output, in the forms of listings. The service makes the characters. */
#ifndef SHOW_H
#define SHOW_H

#include "contents.h"

#include <stdbool.h>
#include <stddef.h>

void show_count(size_t number);                               /* 00016 */
void show_octal(size_t number);                               /* 003; for numbers up to 377 */
void show_uic(size_t uic);                                    /* [023,010] */
void show_name(size_t name1, size_t name2, size_t extension); /* FREQ  .DAT */
void show_word(size_t name1, size_t name2);                   /* FREQ: without the blanks behind */

/* The name of a file as a technician writes it: FREQ.DAT, or FREQ where it has no extension. */
enum { NAME_TEXT = 11 };
void name_text(file_name file, char text[NAME_TEXT]);

/* BLOCKS 00016 FREE 00011, and the end of the line */
void show_totals(size_t blocks, size_t free);

/* FREQ  .DAT C 00003 [023,010] 003; the line goes on */
void show_file(const contents_entry *file);

/* files 00002, and the end of the line: how many were listed */
void show_files(size_t number);

/* Whether all that was shown has been written. If not, it says so on standard error. */
bool show_end(void);

#endif
