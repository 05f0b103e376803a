/* What somebody else wrote, an argument or the name of a file or of a program, shown so that it stays on its line. */
#ifndef VISIBLE_H
#define VISIBLE_H

#include <stdio.h>

/*
 * Writes a text in characters that are seen: a newline as \n, a backslash as \\, any other byte that is no visible
 * character, or of none, by its number in octal, as \033. Characters beyond ASCII are taken for UTF-8.
 */
void show_visible(const char *text, FILE *stream);

#endif
