/*
 * Replacing a file. A new one is made beside the old one, gets the bytes and what the old one has besides them, is
 * brought to the disk, and takes the old one's name in one step. replace_by_new has the steps in their order; why each
 * is there, and there, stands at it or at its function. Other names of the old file (hard links) keep leading to it and
 * to the old bytes: to change what they lead to would mean to write over these, and a reader could find half of each.
 *
 * Whoever copies this needs complain and complain_of of tell.h, and of files.h is_regular, is_same_file and write_all.
 */
#define _DEFAULT_SOURCE
#define _XOPEN_SOURCE 700 /* POSIX 2008, with realpath and getgrouplist */
#include "replace.h"

#include "files.h"
#include "tell.h"

#include <dirent.h>
#include <errno.h>
#include <fcntl.h>
#include <grp.h>
#include <pwd.h>
#include <signal.h>
#include <stdio.h>
#include <stdlib.h>
#include <string.h>
#include <unistd.h>
#ifdef __linux__ /* for the ACL and other attributes */
#include <linux/limits.h>
#include <sys/xattr.h>
#endif

typedef struct {
    const char *name;       /* what the technician calls the file, for messages */
    bool force;             /* whether it is replaced whatever it holds */
    char *path;             /* the file itself, where links lead */
    const struct stat *old; /* NULL if there is none yet */
    char *directory;        /* the one that it is in, with the slash behind it */
    char *new;              /* the path of the new file */
    int descriptor;         /* of the new file */
} replacement;

static bool complain_of_new(const replacement *it)
{
    complain("%s: the new file cannot be written: %s", it->name, strerror(errno));
    return false;
}

/* ---- Where the file is ---- */

static bool complain_of_present(const char *name)
{
    complain("%s: is there already; with --force it is overwritten", name);
    return false;
}

bool may_replace(const char *name, const struct stat *there, bool force)
{
    return is_regular(name, there->st_mode) && (force || complain_of_present(name));
}

/*
 * What is replaced is the file where links lead, so that a link stays a link; one that leads nowhere is left alone, for
 * nobody knows which of the two names was mistaken. lstat comes first: a file that appears between the two looks is
 * then taken for one that was not there, and never for a link. A rename needs no permission of the file that it does
 * away with, but who forbade writing it meant this too.
 */
static bool find_file(replacement *it, struct stat *old)
{
    struct stat itself;

    if (lstat(it->name, &itself) != 0) {
        it->path = errno == ENOENT ? strdup(it->name) : NULL;
        return it->path != NULL || complain_of(it->name);
    }
    if (stat(it->name, old) != 0) {
        if (errno != ENOENT || !S_ISLNK(itself.st_mode))
            return complain_of(it->name);
        complain("%s: is a link that leads nowhere", it->name);
        return false;
    }
    it->old = old;
    if (!may_replace(it->name, old, it->force))
        return false;
    it->path = realpath(it->name, NULL);
    return (it->path != NULL && faccessat(AT_FDCWD, it->path, W_OK, AT_EACCESS) == 0) || complain_of(it->name);
}

static bool find_directory(replacement *it)
{
    const char *const slash = strrchr(it->path, '/');

    it->directory = slash ? strndup(it->path, (size_t)(slash - it->path) + 1) : strdup("./");
    return it->directory != NULL || complain_of(it->name);
}

/* ---- The new file, and those that were left behind ---- */

/*
 * The name is hidden and says whose it is, so that nobody takes it for a file of his own. The process in it tells who
 * left it there, not whether he lives: numbers come again, and other computers have theirs. The lock tells that.
 */
#define NEW_NAME ".abz-new.%ld.%u"

enum { NEW_NAME_ROOM = 64, TRIES_MOST = 100 };

/* To the letter: what is written from its numbers again is the name. */
static bool is_new_name(const char *name)
{
    char again[NEW_NAME_ROOM];
    long process;
    unsigned number;

    return sscanf(name, ".abz-new.%18ld.%9u", &process, &number) == 2 && process > 0
           && snprintf(again, sizeof again, NEW_NAME, process, number) > 0 && strcmp(name, again) == 0;
}

/*
 * Whoever makes a new file has it locked until it gets its name, and the system takes the lock from the dead. So what
 * can be locked is nobody's; if it is still what stands under the name, for it may have got its own just before the
 * lock was free. O_NOFOLLOW and O_NONBLOCK: somebody may have put a link or a pipe there. Where take_name was killed it
 * is another name of the old file, which is not opened: to close it would end the lock that the caller may have on it.
 */
static void clear_leftover(int directory, const char *name, const struct stat *old)
{
    struct flock whole = { .l_type = F_WRLCK, .l_whence = SEEK_SET };
    struct stat opened, named;
    int descriptor;

    if (old && fstatat(directory, name, &named, AT_SYMLINK_NOFOLLOW) == 0 && is_same_file(&named, old)) {
        unlinkat(directory, name, 0);
        return;
    }
    descriptor = openat(directory, name, O_RDWR | O_NOFOLLOW | O_NONBLOCK);
    if (descriptor < 0)
        return;
    if (fstat(descriptor, &opened) == 0 && S_ISREG(opened.st_mode) && fcntl(descriptor, F_SETLK, &whole) == 0
        && fstatat(directory, name, &named, AT_SYMLINK_NOFOLLOW) == 0 && is_same_file(&opened, &named))
        unlinkat(directory, name, 0);
    close(descriptor);
}

/*
 * Before this process makes one, for its own lock would not keep it out: so one with its number is another's too, of a
 * process that had the number before it or has it on another computer. Where it cannot be done nothing is said.
 */
static void clear_leftovers(const char *directory, const struct stat *old)
{
    DIR *const stream = opendir(directory);
    const struct dirent *entry;

    if (stream == NULL)
        return;
    while ((entry = readdir(stream)) != NULL)
        if (is_new_name(entry->d_name))
            clear_leftover(dirfd(stream), entry->d_name, old);
    closedir(stream);
}

/*
 * Locks the new file, for clear_leftover. Someone may have come before the lock and cleared it away: then it is no
 * longer under its name (or, on another computer, gone at all), and another must be made. Where there are no locks,
 * nobody clears anything.
 */
static bool claim_new(const replacement *it)
{
    struct flock whole = { .l_type = F_WRLCK, .l_whence = SEEK_SET };
    struct stat made, named;

    fcntl(it->descriptor, F_SETLKW, &whole);
    if (fstat(it->descriptor, &made) != 0 || stat(it->new, &named) != 0)
        return errno != ENOENT && errno != ESTALE;
    return is_same_file(&made, &named);
}

/*
 * It is made in the same directory, since a rename is one step only within a file system; and with O_EXCL, so that it
 * is ours alone. Where it inherits permissions nobody else may open it before; else it has those of every new file, by
 * the umask or by what the directory says.
 */
static bool make_new(replacement *it)
{
    const size_t room = strlen(it->directory) + NEW_NAME_ROOM;

    it->new = malloc(room);
    if (it->new == NULL)
        return complain_of(it->name);
    for (unsigned number = 0; number < TRIES_MOST; number++) {
        snprintf(it->new, room, "%s" NEW_NAME, it->directory, (long)getpid(), number);
        it->descriptor = open(it->new, O_WRONLY | O_CREAT | O_EXCL, it->old ? 0600 : 0666);
        if (it->descriptor >= 0 && claim_new(it))
            return true;
        if (it->descriptor >= 0)
            close(it->descriptor);
        else if (errno != EEXIST)
            break;
    }
    complain("%s: no new file can be made beside it: %s", it->name, strerror(errno));
    return false;
}

/* ---- What the new file inherits ---- */

static bool complain_of_loss(const char *name, const char *what)
{
    complain("%s: its %s cannot be kept: %s", name, what, strerror(errno));
    return false;
}

/* ACL and other attributes: Linux has both, POSIX neither. */

#ifdef __linux__
static const char acl[] = "system.posix_acl_access";

/* By its path, not opened: to close a file ends the locks that this process has on it. */
static bool has_acl(const char *path)
{
    return getxattr(path, acl, NULL, 0) > 0;
}

/* These belong to the bytes: the system takes them away where a file is written, or makes them anew. */
static bool is_of_bytes(const char *attribute)
{
    return strcmp(attribute, "security.capability") == 0 || strcmp(attribute, "security.ima") == 0
           || strcmp(attribute, "security.evm") == 0;
}

/* The new file may have it already: some systems label every file, and let nobody else do it. */
static bool inherit_attribute(const char *path, const char *attribute, int descriptor)
{
    static uint8_t value[XATTR_SIZE_MAX], present[XATTR_SIZE_MAX];
    const ssize_t length = getxattr(path, attribute, value, sizeof value);

    if (length < 0)
        return false;
    if (fgetxattr(descriptor, attribute, present, sizeof present) == length
        && memcmp(value, present, (size_t)length) == 0)
        return true;
    return fsetxattr(descriptor, attribute, value, (size_t)length, 0) == 0;
}

/*
 * All that are listed; those of the superuser (trusted) only he sees. Where the old file has no ACL, one that the
 * directory gave to the new file goes: the permissions that come next would give rights to whom it names.
 */
static bool inherit_attributes(const char *name, const char *path, int descriptor)
{
    static char attributes[XATTR_LIST_MAX];
    const ssize_t length = listxattr(path, attributes, sizeof attributes);

    if (length < 0 && errno != ENOTSUP && errno != ENOSYS)
        return complain_of_loss(name, "list of attributes");
    for (const char *attribute = attributes; attribute < attributes + length; attribute += strlen(attribute) + 1)
        if (!is_of_bytes(attribute) && !inherit_attribute(path, attribute, descriptor)) {
            complain("%s: its attribute %s cannot be kept: %s", name, attribute, strerror(errno));
            return false;
        }
    if (!has_acl(path) && fgetxattr(descriptor, acl, NULL, 0) > 0 && fremovexattr(descriptor, acl) != 0)
        return complain_of_loss(name, "permissions");
    return true;
}
#else
static bool has_acl(const char *path)
{
    (void)path;
    return false;
}

static bool inherit_attributes(const char *name, const char *path, int descriptor)
{
    (void)name, (void)path, (void)descriptor;
    return true;
}
#endif

/* Whether the system knows the user, and knows that he is not of the group. */
static bool is_outside(uid_t user, gid_t group)
{
    enum { GROUPS_MOST = 1024 };
    gid_t groups[GROUPS_MOST];
    int count = GROUPS_MOST;
    const struct passwd *const known = getpwuid(user);

    if (known == NULL || getgrouplist(known->pw_name, known->pw_gid, groups, &count) < 0)
        return false;
    while (count-- > 0)
        if (groups[count] == group)
            return false;
    return true;
}

/* Whether the owner can do by the rights of the group what he can do by his own. With an ACL the mode does not tell. */
static bool is_served_by_group(const char *path, const struct stat *old)
{
    return (old->st_mode >> 6 & 7) == (old->st_mode >> 3 & 7) && !has_acl(path)
           && !is_outside(old->st_uid, old->st_gid);
}

/*
 * Only the superuser can give a file away. Where someone else writes the file, as one of its group, the new one is his
 * own; that is right if it stays in the group and the old owner needs nothing else. Where it would lock him out, or the
 * group, it is not done. On some file systems every file has one owner: then there is nothing to give.
 */
static bool inherit_owner(const char *name, const char *path, const struct stat *old, int descriptor)
{
    struct stat made;

    if ((fstat(descriptor, &made) == 0 && made.st_uid == old->st_uid && made.st_gid == old->st_gid)
        || fchown(descriptor, old->st_uid, old->st_gid) == 0)
        return true;
    if (fchown(descriptor, (uid_t)-1, old->st_gid) != 0)
        return complain_of_loss(name, "owner and group");
    if (is_served_by_group(path, old))
        return true;
    complain("%s: its owner cannot be kept, and without that he would be locked out", name);
    return false;
}

/* Not set-user-ID and the like, which the system takes away from a file that is written. */
static bool inherit_permissions(const char *name, const struct stat *old, int descriptor)
{
    struct stat made;

    return (fstat(descriptor, &made) == 0 && ((made.st_mode ^ old->st_mode) & 0777) == 0)
           || fchmod(descriptor, old->st_mode & 0777) == 0 || complain_of_loss(name, "permissions");
}

/*
 * In this order: rights for a group are given when it is the right group; and behind the ACL, since the mode of a file
 * that has one says no longer what the group may do, but what anyone in the ACL may at most.
 */
static bool inherit(const char *name, const char *path, const struct stat *old, int descriptor)
{
    return inherit_owner(name, path, old, descriptor) && inherit_attributes(name, path, descriptor)
           && inherit_permissions(name, old, descriptor);
}

/* ---- Signals ---- */

/* Those by which people, limits and closed pipes end a program. */
static const int ending[] = { SIGHUP, SIGINT, SIGQUIT, SIGTERM, SIGPIPE, SIGALRM, SIGXCPU, SIGUSR1, SIGUSR2 };

enum { ENDING = sizeof ending / sizeof *ending };

/*
 * What ended the program now would leave the new file behind; or, once that has the name, would say by its status that
 * nothing was done. A signal that is ignored, as under nohup, is left so: held, it would wait like the others.
 */
static void hold_signals(sigset_t *held, sigset_t *before)
{
    struct sigaction action;

    sigemptyset(held);
    for (size_t i = 0; i < ENDING; i++)
        if (sigaction(ending[i], NULL, &action) == 0 && action.sa_handler != SIG_IGN)
            sigaddset(held, ending[i]);
    sigprocmask(SIG_BLOCK, held, before);
}

/* Who wanted to end the program is heard as long as nothing has changed. */
static bool is_undisturbed(const replacement *it, const sigset_t *held)
{
    sigset_t waiting;

    sigemptyset(&waiting);
    sigpending(&waiting);
    for (size_t i = 0; i < ENDING; i++)
        if (sigismember(held, ending[i]) && sigismember(&waiting, ending[i])) {
            complain("%s: is left as it was: %s", it->name, strsignal(ending[i]));
            return false;
        }
    return true;
}

/* ---- The steps ---- */

/* One more look, as late as can be. */
static bool is_still_free(const replacement *it)
{
    struct stat there;

    return lstat(it->path, &there) != 0 || complain_of_present(it->name);
}

/*
 * A rename does away with whatever has the name. So without force the new file gets it by a link, which fails if a file
 * has appeared meanwhile; then its first name goes, and a kill in between leaves that behind. Where there are no links
 * the look has to do.
 */
static bool take_name(const replacement *it)
{
    if (!it->force && link(it->new, it->path) == 0) {
        unlink(it->new);
        return true;
    }
    return (it->force || is_still_free(it)) && (rename(it->new, it->path) == 0 || complain_of_new(it));
}

/* So that the rename outlives a loss of power. The file is right by now, so it is no fault where this cannot be had. */
static void sync_directory(const char *directory)
{
    const int descriptor = open(directory, O_RDONLY);

    if (descriptor < 0)
        return;
    fsync(descriptor);
    close(descriptor);
}

static bool replace_by_new(replacement *it, const uint8_t *bytes, size_t length, const sigset_t *held)
{
    bool right;

    clear_leftovers(it->directory, it->old); /* before: they may be what fills the disk */
    if (!make_new(it))
        return false;
    right = (write_all(it->descriptor, bytes, length) || complain_of_new(it))
            && (it->old == NULL || inherit(it->name, it->path, it->old, it->descriptor)) /* now that it is whole */
            && (fsync(it->descriptor) == 0 || complain_of_new(it)) /* or the name could lead to bytes not on the disk */
            && is_undisturbed(it, held)                            /* the last moment to give up */
            && take_name(it);
    if (right)
        sync_directory(it->directory);
    else
        unlink(it->new);
    close(it->descriptor); /* behind the rename, since it ends the lock; what it could tell fsync has told */
    return right;
}

bool replace_file(const char *name, bool force, const uint8_t *bytes, size_t length)
{
    replacement it = { .name = name, .force = force };
    struct stat old;
    sigset_t held, before;
    bool right = find_file(&it, &old) && find_directory(&it);

    if (right) {
        hold_signals(&held, &before);
        right = replace_by_new(&it, bytes, length, &held);
        if (!right)
            sigprocmask(SIG_SETMASK, &before, NULL);
    }
    free(it.path);
    free(it.directory);
    free(it.new);
    return right;
}
