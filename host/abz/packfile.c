/* Packs in files: read, locked, and replaced as a whole. */
#define _POSIX_C_SOURCE 200809L
#include "packfile.h"

#include "files.h"
#include "lock.h"
#include "replace.h"
#include "tell.h"

#include <fcntl.h>
#include <stdio.h>
#include <string.h>
#include <sys/stat.h>
#include <unistd.h>

/* ---- Opening ---- */

static bool leads_to(int descriptor, const struct stat *pack)
{
    struct stat file;

    return fstat(descriptor, &file) == 0 && is_same_file(&file, pack);
}

/* What is shown or said must not go into the pack. Where messages would, nobody can be told, and the status is all. */
static bool is_written_to(const struct stat *pack)
{
    const bool shown = leads_to(STDOUT_FILENO, pack), said = leads_to(STDERR_FILENO, pack);

    if (said && freopen("/dev/null", "w", stderr) == NULL)
        _exit(STATUS_FAILED);
    if (shown || said)
        complain("%s: is the pack itself", shown ? "standard output" : "standard error");
    return shown || said;
}

/* A pack is a regular file. Others are not even opened: a device may do something then, and a pipe makes abz wait. */
static int open_pack(const char *path, int mode, struct stat *opened)
{
    int descriptor;

    if (stat(path, opened) != 0) {
        complain_of(path);
        return -1;
    }
    if (!is_regular(path, opened->st_mode))
        return -1;
    descriptor = open(path, mode);
    if (descriptor < 0 || fstat(descriptor, opened) != 0)
        complain_of(path);
    else if (is_regular(path, opened->st_mode) && !is_written_to(opened))
        return descriptor;
    if (descriptor >= 0)
        close(descriptor);
    return -1;
}

/*
 * Opens a file and locks it. Without the lock, of two commands that read the same pack and write it one after the
 * other the second would undo the first. Whoever had the lock before may have replaced the file, and what was opened
 * is then no longer what stands under the name: so it is opened again.
 */
static int open_locked(const char *path)
{
    struct stat opened, named;
    waiting state = { 0 };
    int descriptor;

    for (;;) {
        descriptor = open_pack(path, O_RDWR, &opened);
        if (descriptor < 0)
            return -1;
        if (!lock_file(descriptor, path, &state)) {
            close(descriptor);
            return -1;
        }
        if (stat(path, &named) == 0 && is_same_file(&opened, &named))
            return descriptor;
        close(descriptor);
    }
}

static bool read_image(pack_file *pack, int descriptor)
{
    return read_bytes(descriptor, pack->path, pack->image, sizeof pack->image, &pack->length);
}

bool pack_read(pack_file *pack, const char *path)
{
    struct stat opened;
    const int descriptor = open_pack(path, O_RDONLY, &opened);
    bool right;

    pack->path = path;
    if (descriptor < 0)
        return false;
    right = read_image(pack, descriptor);
    close(descriptor);
    return right;
}

bool pack_take(pack_file *pack, const char *path)
{
    const int descriptor = open_locked(path);

    pack->path = path;
    pack->force = true;
    return descriptor >= 0 && read_image(pack, descriptor); /* not closed: that would end the lock */
}

bool pack_is(const pack_file *pack, const char *path)
{
    struct stat ours, other;

    return stat(pack->path, &ours) == 0 && stat(path, &other) == 0 && is_same_file(&ours, &other);
}

/* Whether what was read is a pack. */
static bool may_format(const pack_file *pack)
{
    if (abz_report(pack->image, pack->length).rule == ABZ_CONSISTENT)
        return true;
    complain("%s: is there already and is no pack; with --force it is overwritten", pack->path);
    return false;
}

bool pack_begin(pack_file *pack, const char *path, const pack_form *form, size_t blocks, bool force)
{
    struct stat there;

    pack->path = path;
    pack->force = force;
    if (stat(path, &there) == 0 && !(pack_take(pack, path) && (force || may_format(pack))))
        return false;
    pack->length = form->block * blocks;
    memset(pack->image, 0, pack->length);
    return true;
}

bool pack_write(const pack_file *pack)
{
    return replace_file(pack->path, pack->force, pack->image, pack->length);
}

int pack_end(const pack_file *pack, const char *command, size_t code)
{
    if (code != ABZ_OK)
        return tell_refusal(command, code);
    return pack_write(pack) ? STATUS_DONE : STATUS_FAILED;
}
