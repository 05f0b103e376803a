/* What abz says when it does not do what it was asked, and its exit statuses. */
#ifndef TELL_H
#define TELL_H

#include <stdbool.h>
#include <stddef.h>

enum {
    STATUS_DONE = 0,
    STATUS_FAILED = 1, /* the service refused, or a file could not be read or written */
    STATUS_USAGE = 2   /* the arguments are wrong, whatever is in the pack; no file was opened */
};

/*
 * Says one line on standard error, in printf's way. Whatever an argument or a file's name has in it, the line is one of
 * visible characters.
 */
void complain(const char *format, ...);

/* Says, by errno, why the system did not do what was asked of it with a file. Returns false. */
bool complain_of(const char *file);

/* Says why the service refused what a command of abz asked of it. Returns STATUS_FAILED. */
int tell_refusal(const char *command, size_t code);

/* The same of a command on several files, which it was refused for. */
int tell_refusal_of(const char *command, const char *file, size_t code);

#endif
