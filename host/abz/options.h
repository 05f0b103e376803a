/* The options of a command: words that begin with -- and stand before its arguments. */
#ifndef OPTIONS_H
#define OPTIONS_H

#include <stdbool.h>

/*
 * Takes the options off the front of the words, up to the first word that is none; behind -- none is. The synopsis of
 * the command names those that it has: [--trim], or [--svg HOSTFILE] where a word goes with it. Every command has
 * --help, also written -h. False where a word is no option of the command, or lacks the word that goes with it; then it
 * is said on standard error.
 */
bool options_take(const char *command, const char *synopsis, char ***words);

/* What went with an option, "" where nothing does; NULL if it was not given. */
const char *option(const char *name);

#endif
