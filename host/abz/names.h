/* Numbers, UICs and file names as a technician writes them, turned into what the service takes. */
#ifndef NAMES_H
#define NAMES_H

#include <stdbool.h>
#include <stddef.h>

typedef struct {
    size_t name1, name2, extension, uic; /* uic 0: the caller's */
} file_name;

/* The four arguments of a file, as every request has them. */
#define FOUR(file) (file).name1, (file).name2, (file).extension, (file).uic

/* What a new file gets where no protect code is given: its owner may do all with it, everyone else may read it. */
enum { PROTECT_USUAL = 033 };

/*
 * Each of these says on standard error what is wrong with the text, and returns false, unless the text is as it should
 * be. What the service would refuse whatever is in the pack, with 15 or 41, is told here: no pack is opened for it.
 */
bool read_decimal(const char *what, const char *text, size_t least, size_t most, size_t *number);
bool read_protect(const char *text, size_t *protect); /* octal; NULL leaves the number as it is */
bool read_uic(const char *text, size_t *uic);         /* [23,10] or 23,10 */
bool read_name(const char *text, file_name *file);    /* FREQ.DAT or FREQ.DAT[23,10] */
bool read_new_name(const char *text, file_name *file); /* FREQ.DAT, of a file that keeps its owner */
bool read_path(const char *what, const char *text);   /* of a file of this computer: only that it is not empty */

/* Whether two files have one name and extension, whoever owns them. */
bool is_same_name(file_name a, file_name b);

#endif
