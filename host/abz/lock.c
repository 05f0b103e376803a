/* The lock on a pack's file. */
#define _POSIX_C_SOURCE 200809L
#include "lock.h"

#include "tell.h"

#include <errno.h>
#include <fcntl.h>
#include <stdint.h>
#include <stdio.h>
#include <string.h>
#include <time.h>
#include <unistd.h>

enum { SECOND = 1000, TOLD_AFTER = 2 * SECOND, BETWEEN_TRIES = 5 }; /* in milliseconds */

static size_t seconds_most = SIZE_MAX;

void wait_at_most(size_t seconds)
{
    seconds_most = seconds;
}

/* By a clock that nobody sets. */
static size_t milliseconds(void)
{
    struct timespec now;

    clock_gettime(CLOCK_MONOTONIC, &now);
    return (size_t)now.tv_sec * SECOND + (size_t)now.tv_nsec / 1000000;
}

/* The name of the program that a process runs, where the system tells. */
static bool find_program(long process, char *program, int room)
{
    char path[64];
    FILE *file;
    bool found;

    snprintf(path, sizeof path, "/proc/%ld/comm", process);
    file = fopen(path, "r");
    if (file == NULL)
        return false;
    found = fgets(program, room, file) != NULL;
    fclose(file);
    if (found)
        program[strcspn(program, "\n")] = '\0';
    return found;
}

/* Who has the lock, in words; false if nobody has it now. Of another computer's process the system tells no number. */
static bool find_holder(int descriptor, char *words, size_t room)
{
    struct flock lock = { .l_type = F_WRLCK, .l_whence = SEEK_SET };
    const bool told = fcntl(descriptor, F_GETLK, &lock) == 0;
    char program[64];

    if (told && lock.l_type == F_UNLCK)
        return false;
    if (!told || lock.l_pid <= 0)
        snprintf(words, room, "another process");
    else if (find_program((long)lock.l_pid, program, sizeof program))
        snprintf(words, room, "process %ld (%s)", (long)lock.l_pid, program);
    else
        snprintf(words, room, "process %ld", (long)lock.l_pid);
    return true;
}

/* Whether to go on waiting: false, with a word why, if it was long enough. */
static bool is_patient(int descriptor, const char *name, waiting *state)
{
    const size_t waited = milliseconds() - state->since;
    const bool over = waited / SECOND >= seconds_most;
    char holder[128];

    if ((!over && (state->told || waited < TOLD_AFTER)) || !find_holder(descriptor, holder, sizeof holder))
        return true;
    if (over)
        complain("%s: is locked by %s, and --wait %zu is over", name, holder, seconds_most);
    else
        complain("%s: is locked by %s, and abz waits for it", name, holder);
    state->told = true;
    return !over;
}

/*
 * It is tried again and again, which is soon enough and is fair; a call that waits (F_SETLKW) could be ended only by a
 * timer's signal, and that would take the place of one that whoever started abz has set.
 */
bool lock_file(int descriptor, const char *name, waiting *state)
{
    struct flock whole = { .l_type = F_WRLCK, .l_whence = SEEK_SET };
    const struct timespec pause = { .tv_nsec = BETWEEN_TRIES * 1000000L };

    if (state->since == 0)
        state->since = milliseconds();
    while (fcntl(descriptor, F_SETLK, &whole) != 0) {
        if (errno != EAGAIN && errno != EACCES)
            return complain_of(name);
        if (!is_patient(descriptor, name, state))
            return false;
        nanosleep(&pause, NULL);
    }
    return true;
}
