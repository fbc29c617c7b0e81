/* A wrapper that is loaded before the C library (LD_PRELOAD) and makes calls of the system fail, as a disk, a mount or a limit would:
 *
 *     FAULT="CALL ERROR FROM TO SUFFIX [SIGNAL]"
 *
 * Of the calls of CALL on paths that end in SUFFIX, those from FROM to TO, counted from 1, fail with the error of this number; the process
 * gets SIGNAL with each. A write that is to fail first writes half, as on a full disk. */
#define _GNU_SOURCE
#include <dirent.h>
#include <dlfcn.h>
#include <errno.h>
#include <fcntl.h>
#include <signal.h>
#include <stdarg.h>
#include <stdio.h>
#include <stdlib.h>
#include <string.h>
#include <sys/stat.h>
#include <unistd.h>

/* The function of the C library that ours stands before. */
#define REAL(type, name, ...) ((type(*)(__VA_ARGS__))dlsym(RTLD_NEXT, name))

/* Whether this call is one that fails; errno says why. */
static int fails(const char *call, const char *path)
{
    static int count;
    char name[16] = "", suffix[400] = "";
    int error = 0, from = 0, to = 0, number = 0;
    const char *fault = getenv("FAULT");
    if (fault == NULL || sscanf(fault, "%15s %d %d %d %399s %d", name, &error, &from, &to, suffix, &number) < 5) {
        return 0;
    }
    size_t len = strlen(path), end = strlen(suffix);
    if (strcmp(call, name) != 0 || len < end || strcmp(path + len - end, suffix) != 0) {
        return 0;
    }
    count++;
    if (count < from || to < count) {
        return 0;
    }
    if (number != 0) {
        raise(number);
    }
    errno = error;
    return 1;
}

static int fails_open(const char *call, int fd)
{
    char link[64], path[500] = "";
    snprintf(link, sizeof link, "/proc/self/fd/%d", fd);
    ssize_t len = readlink(link, path, sizeof path - 1);
    path[len < 0 ? 0 : len] = 0;
    return fails(call, path);
}

int open(const char *path, int flags, ...)
{
    va_list rest;
    va_start(rest, flags);
    int mode = (flags & O_CREAT) != 0 ? va_arg(rest, int) : 0;
    va_end(rest);
    return fails("open", path) ? -1 : REAL(int, "open", const char *, int, ...)(path, flags, mode);
}

ssize_t read(int fd, void *bytes, size_t len)
{
    return fails_open("read", fd) ? -1 : REAL(ssize_t, "read", int, void *, size_t)(fd, bytes, len);
}

ssize_t write(int fd, const void *bytes, size_t len)
{
    if (!fails_open("write", fd)) {
        return REAL(ssize_t, "write", int, const void *, size_t)(fd, bytes, len);
    }
    int error = errno;
    if (REAL(ssize_t, "write", int, const void *, size_t)(fd, bytes, len / 2) < 0) {
        return -1;
    }
    errno = error;
    return -1;
}

int fsync(int fd)
{
    return fails_open("fsync", fd) ? -1 : REAL(int, "fsync", int)(fd);
}

int rename(const char *from, const char *to)
{
    return fails("rename", to) ? -1 : REAL(int, "rename", const char *, const char *)(from, to);
}

DIR *opendir(const char *path)
{
    return fails("opendir", path) ? NULL : REAL(DIR *, "opendir", const char *)(path);
}

struct dirent *readdir(DIR *folder)
{
    return fails_open("readdir", dirfd(folder)) ? NULL : REAL(struct dirent *, "readdir", DIR *)(folder);
}
