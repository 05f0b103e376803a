/*
 * The data of the formatted binary lines of a file, as a whole. As with bodies.h each is several requests on the image
 * in memory, and gives the code of the first that the service refused.
 */
#ifndef BINARY_H
#define BINARY_H

#include "names.h"
#include "packfile.h"

/* A line that is not right: what its status has, its number from 1 on, and the byte of the file at which it begins. */
typedef struct {
    size_t status, line, place;
} binary_fault;

/* Makes a linked file of lines with these data: as many in each as there can be, and the rest in the last. */
size_t binary_put(pack_file *pack, size_t caller, file_name file, size_t protect, const uint8_t *data, size_t length);

/*
 * Reads the data of all lines of a linked file, joined; there must be BODY_ROOM for them (bodies.h). The status of the
 * fault is 0 if all lines are right; else the data are those before the first that is not.
 */
size_t binary_read(pack_file *pack, size_t caller, file_name file, uint8_t *data, size_t *length, binary_fault *fault);

#endif
