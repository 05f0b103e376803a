/* A command line as it was understood. */
#ifndef UNDERSTOOD_H
#define UNDERSTOOD_H

#include <stddef.h>
#include <stdint.h>

/* Shows the line that says what a condensed line says, as the service writes it; the code of the service. */
size_t show_understood(const uint8_t *condensed, size_t length);

#endif
