/* The bytes go into a new file beside the old one, which then takes its name: at every moment there
 * is the old file or the new one, and never a part. Signals wait meanwhile, so that none leaves the
 * new file behind under its own name. */
#define _POSIX_C_SOURCE 200809L
#include "replace.h"

#include <errno.h>
#include <fcntl.h>
#include <signal.h>
#include <stdio.h>
#include <stdlib.h>
#include <string.h>
#include <sys/stat.h>
#include <sys/xattr.h>
#include <unistd.h>

#define ACCESS_LIST "system.posix_acl_access"

static int write_all(int descriptor, const char *bytes, size_t length)
{
    while (length > 0) {
        ssize_t wrote = write(descriptor, bytes, length);
        if (wrote < 0 && errno != EINTR)
            return 0;
        if (wrote > 0) {
            bytes += wrote;
            length -= (size_t)wrote;
        }
    }
    return 1;
}

/* An access control list is a permission, too; where the old file has none, one that the folder
 * gave the new file goes. */
static int keep_access(int descriptor, const char *name, const struct stat *old)
{
    static char list[65536]; /* as long as the system lets one be */
    ssize_t size = getxattr(name, ACCESS_LIST, list, sizeof list);
    if (size < 0 && errno != ENODATA && errno != ENOTSUP)
        return 0;
    if (size < 0)
        fremovexattr(descriptor, ACCESS_LIST);
    else if (fsetxattr(descriptor, ACCESS_LIST, list, (size_t)size, 0) != 0)
        return 0;
    return fchown(descriptor, old->st_uid, old->st_gid) == 0 && fchmod(descriptor, old->st_mode & 07777) == 0;
}

/* A new file beside one of that name, and its own name, which is to be freed; -1 where none can be
 * made. */
static int open_beside(const char *name, mode_t access, char **beside)
{
    size_t folder = strrchr(name, '/') == NULL ? 0 : (size_t)(strrchr(name, '/') - name) + 1, room = folder + 64;
    int descriptor = -1, k;
    *beside = malloc(room);
    if (*beside == NULL)
        return -1;
    for (k = 0; k < 100 && descriptor < 0; k++) {
        snprintf(*beside, room, "%.*s.lernazhup-%ld-%d", (int)folder, name, (long)getpid(), k);
        descriptor = open(*beside, O_WRONLY | O_CREAT | O_EXCL | O_CLOEXEC, access);
        if (descriptor < 0 && errno != EEXIST)
            break;
    }
    return descriptor;
}

/* 0, or what errno said. */
static int put_in_place(const char *name, const void *bytes, size_t length, const struct stat *old)
{
    char *beside;
    int descriptor = open_beside(name, old == NULL ? 0666 : 0600, &beside), failed = 0;
    if (descriptor < 0) {
        failed = errno;
        free(beside);
        return failed;
    }
    if (!write_all(descriptor, bytes, length) || (old != NULL && !keep_access(descriptor, name, old)) || fsync(descriptor) != 0)
        failed = errno;
    if (close(descriptor) != 0 && failed == 0)
        failed = errno;
    if (failed == 0 && rename(beside, name) != 0)
        failed = errno;
    if (failed != 0)
        unlink(beside);
    free(beside);
    return failed;
}

const char *replace_file(const char *name, const void *bytes, size_t length)
{
    struct stat old;
    sigset_t all, before;
    int failed, there = lstat(name, &old) == 0;
    if (!there && errno != ENOENT)
        return strerror(errno);
    if (there && !S_ISREG(old.st_mode))
        return "stands there and is no regular file: nothing is put in its place";
    if (there && faccessat(AT_FDCWD, name, W_OK, AT_EACCESS) != 0)
        return strerror(errno);
    sigfillset(&all);
    sigprocmask(SIG_BLOCK, &all, &before);
    failed = put_in_place(name, bytes, length, there ? &old : NULL);
    sigprocmask(SIG_SETMASK, &before, NULL);
    return failed == 0 ? NULL : strerror(failed);
}
