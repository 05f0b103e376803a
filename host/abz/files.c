/* Files of the host: standard files, and bytes read and written. */
#define _XOPEN_SOURCE 700 /* POSIX 2008, with SIGXFSZ */
#include "files.h"

#include "tell.h"

#include <errno.h>
#include <fcntl.h>
#include <signal.h>
#include <stdio.h>
#include <stdlib.h>
#include <string.h>
#include <unistd.h>

/* What is opened instead cannot be used as that standard file either, so that whoever tries is told. */
void guard_standard_files(void)
{
    static const int modes[] = { O_WRONLY, O_RDONLY, O_RDONLY };

    for (int descriptor = 0; descriptor < 3; descriptor++)
        if (fcntl(descriptor, F_GETFD) < 0 && open("/dev/null", modes[descriptor]) < 0)
            _exit(STATUS_FAILED);
    signal(SIGXFSZ, SIG_IGN);
    setvbuf(stderr, NULL, _IOLBF, BUFSIZ); /* a message goes out in one piece, also where several write to one file */
}

/* The number that is all there is behind this beginning; -1 if there is no such. */
static int number_behind(const char *beginning, const char *text)
{
    const size_t length = strlen(beginning);
    const char *const digits = text + length;

    if (strncmp(text, beginning, length) != 0 || *digits == '\0' || digits[strspn(digits, "0123456789")] != '\0')
        return -1;
    return strlen(digits) < 7 ? atoi(digits) : -1;
}

int descriptor_of(const char *host, int standard)
{
    static const char *const names[] = { "/dev/stdin", "/dev/stdout", "/dev/stderr" };
    int descriptor;

    if (strcmp(host, "-") == 0)
        return standard;
    for (descriptor = 0; descriptor < 3; descriptor++)
        if (strcmp(host, names[descriptor]) == 0)
            return descriptor;
    descriptor = number_behind("/dev/fd/", host);
    return descriptor >= 0 ? descriptor : number_behind("/proc/self/fd/", host);
}

bool is_same_file(const struct stat *a, const struct stat *b)
{
    return a->st_dev == b->st_dev && a->st_ino == b->st_ino;
}

bool read_bytes(int descriptor, const char *name, uint8_t *bytes, size_t room, size_t *length)
{
    ssize_t count = 1;

    for (*length = 0; *length < room && count > 0; *length += (size_t)count) {
        count = read(descriptor, bytes + *length, room - *length);
        if (count < 0)
            return complain_of(name);
    }
    return true;
}

bool write_all(int descriptor, const uint8_t *bytes, size_t length)
{
    while (length > 0) {
        ssize_t count = write(descriptor, bytes, length);
        if (count < 0)
            return false;
        bytes += count;
        length -= (size_t)count;
    }
    return true;
}

bool write_bytes(int descriptor, const char *name, const uint8_t *bytes, size_t length)
{
    return write_all(descriptor, bytes, length) || complain_of(name);
}

bool is_regular(const char *name, mode_t mode)
{
    if (!S_ISREG(mode))
        complain("%s: %s", name, S_ISDIR(mode) ? strerror(EISDIR) : "is not a regular file");
    return S_ISREG(mode);
}
