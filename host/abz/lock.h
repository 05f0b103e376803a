/* The lock on a pack's file: waiting for it, with a word for whom, and no longer than the technician wants. */
#ifndef LOCK_H
#define LOCK_H

#include <stdbool.h>
#include <stddef.h>

/* How long a command waits, in seconds; 0 is not at all. If this is not called it waits without end. */
void wait_at_most(size_t seconds);

/* Since when a command waits, and whether it has said so. It begins with all 0, and serves for all its locks. */
typedef struct {
    size_t since;
    bool told;
} waiting;

/*
 * Waits until nobody else has the file, and then has it locked until it is closed or abz ends, however it ends. If it
 * returns false, it has said on standard error, under this name, who has the file or what went wrong.
 */
bool lock_file(int descriptor, const char *name, waiting *state);

#endif
