/*
 * The bytes of a file of a pack as a whole. Each is several requests on the image in memory, opens and closes among
 * them, and gives the code of the first that the service refused; the pack's file stays as it is until pack_write.
 */
#ifndef BODIES_H
#define BODIES_H

#include "names.h"
#include "packfile.h"

/* Room for the bytes of all files of any pack, with some to spare: a part of its blocks is the system's. */
enum { BODY_ROOM = IMAGE_MOST };

/* Makes a linked file of these bytes; its last block is filled up with NUL. */
size_t body_put(pack_file *pack, size_t caller, file_name file, size_t protect, const uint8_t *bytes, size_t length);

/* Makes these the bytes of a contiguous file, with NUL behind them up to its end. If there is none, it is made. */
size_t body_load(pack_file *pack, size_t caller, file_name file, const uint8_t *bytes, size_t length);

/*
 * Reads the bytes of a file of this kind. There must be room for a block more than it has; BODY_ROOM is enough also for
 * all files of a pack, one behind the other.
 */
size_t body_read(pack_file *pack, size_t caller, file_name file, size_t kind, uint8_t *bytes, size_t *length);

/* How many bytes there are without the NULs at their end. */
size_t trimmed(const uint8_t *bytes, size_t length);

#endif
