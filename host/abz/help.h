/* What abz says of itself where it is asked. */
#ifndef HELP_H
#define HELP_H

#include "commands.h"

#include <stdbool.h>
#include <stddef.h>

/* Whether a row of the table is of the command that this word names: itself, or a variant of it. */
bool is_of_command(const command *row, const char *name);

/* Each of these returns the exit status. */

/* All commands, all arguments, and the rest. */
int show_help(const command *rows, size_t count, const char *rest);

/* A command with all its variants, and the arguments that they take. */
int show_help_of(const command *rows, size_t count, const char *name);

#endif
