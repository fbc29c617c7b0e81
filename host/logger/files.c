#define _POSIX_C_SOURCE 200809L
#include "files.h"

#include <dirent.h>
#include <errno.h>
#include <fcntl.h>
#include <libgen.h>
#include <stdio.h>
#include <stdlib.h>
#include <string.h>
#include <sys/stat.h>
#include <unistd.h>

enum { NAME_DIGITS = 20, PATH_BYTES = FILES_FOLDER_BYTES + 64 };

static const char SNAPSHOT[] = ".snapshot", REFUSED[] = ".snapshot.refused";

static int failed(struct files *f, const char *step)
{
    f->step = step;
    return -1;
}

/* Removes what a failed step leaves; errno stays that of the step. */
static int failed_with(struct files *f, const char *step, const char *leftover)
{
    int error = errno;
    unlink(leftover);
    errno = error;
    return failed(f, step);
}

static void path_of(const struct files *f, uint64_t number, const char *suffix, char *path)
{
    snprintf(path, PATH_BYTES, "%s/%0*llu%s", f->folder, NAME_DIGITS, (unsigned long long)number, suffix);
}

static void path_to(const struct files *f, const char *name, char *path)
{
    snprintf(path, PATH_BYTES, "%s/%s", f->folder, name);
}

/* 1 where something has this path, 0 where nothing has. */
static int is_there(struct files *f, const char *path)
{
    struct stat status;
    if (lstat(path, &status) == 0) {
        return 1;
    }
    return errno == ENOENT ? 0 : failed(f, "lstat");
}

/* What was renamed or made in a folder is on the disk once the folder is. */
static int sync_folder(struct files *f, const char *folder)
{
    int fd = open(folder, O_RDONLY | O_CLOEXEC);
    if (fd < 0) {
        return failed(f, "open folder");
    }
    int synced = fsync(fd), error = errno;
    close(fd);
    errno = error;
    return synced == 0 ? 0 : failed(f, "fsync folder");
}

static int make_folder(struct files *f)
{
    char path[FILES_FOLDER_BYTES];
    if (mkdir(f->folder, 0755) != 0) {
        return errno == EEXIST ? 0 : failed(f, "mkdir");
    }
    strcpy(path, f->folder);
    if (sync_folder(f, dirname(path)) != 0) {
        int error = errno;
        rmdir(f->folder);
        errno = error;
        return -1;
    }
    return 0;
}

static int open_lock(struct files *f, int *lock)
{
    char path[PATH_BYTES];
    struct flock whole = {.l_type = F_WRLCK, .l_whence = SEEK_SET};
    path_to(f, "lock", path);
    int fd = open(path, O_RDWR | O_CREAT | O_CLOEXEC, 0644);
    if (fd < 0) {
        return failed(f, "open lock");
    }
    if (fcntl(fd, F_SETLK, &whole) == 0) {
        *lock = fd;
        return 0;
    }
    int error = errno;
    close(fd);
    errno = error;
    failed(f, "lock");
    return error == EACCES || error == EAGAIN ? FILES_BUSY : -1;
}

/* A folder that was put in the place of ours has another lock file, or none. Its files are not those that were loaded. */
static int keep_lock(struct files *f)
{
    char path[PATH_BYTES];
    struct stat ours, there;
    path_to(f, "lock", path);
    if (fstat(f->lock, &ours) == 0 && stat(path, &there) == 0 && ours.st_dev == there.st_dev && ours.st_ino == there.st_ino) {
        return 0;
    }
    int lock, answer = open_lock(f, &lock);
    if (answer == 0) {
        files_close(f);
        f->lock = lock;
        f->held_count = 0;
    }
    return answer;
}

int files_open(struct files *f, const char *folder)
{
    char temporary[PATH_BYTES];
    f->lock = -1;
    f->newest = 0;
    f->held_count = 0;
    if (sizeof f->folder <= strlen(folder)) {
        errno = ENAMETOOLONG;
        return failed(f, "folder");
    }
    strcpy(f->folder, folder);
    int answer = make_folder(f);
    if (answer == 0) {
        answer = open_lock(f, &f->lock);
    }
    if (answer != 0) {
        return answer;
    }
    path_to(f, "saving", temporary);
    if (unlink(temporary) != 0 && errno != ENOENT) {
        int error = errno;
        files_close(f);
        errno = error;
        return failed(f, "unlink");
    }
    return 0;
}

void files_close(struct files *f)
{
    if (0 <= f->lock) {
        close(f->lock);
    }
    f->lock = -1;
}

/* The number in the name of a snapshot, 0 for any other name; one set aside has the suffix REFUSED. */
static uint64_t number_of(const char *name, const char *suffix)
{
    if (strspn(name, "0123456789") != NAME_DIGITS || strcmp(name + NAME_DIGITS, suffix) != 0) {
        return 0;
    }
    errno = 0;
    unsigned long long number = strtoull(name, NULL, 10);
    return errno == 0 ? number : 0;
}

/* Puts a number among rising ones, of which the greatest stay. */
static void insert(uint64_t *numbers, size_t *count, uint64_t number)
{
    if (*count == FILES_MOST_HELD) {
        if (number < numbers[0]) {
            return;
        }
        --*count;
        memmove(numbers, numbers + 1, *count * sizeof *numbers);
    }
    size_t at = (*count)++;
    for (; 0 < at && number < numbers[at - 1]; at--) {
        numbers[at] = numbers[at - 1];
    }
    numbers[at] = number;
}

static void list_name(struct files *f, const char *name, uint64_t *numbers, size_t *count)
{
    uint64_t number = number_of(name, SNAPSHOT), aside = number_of(name, REFUSED);
    if (number != 0) {
        insert(numbers, count, number);
    }
    if (f->newest < number + aside) { /* one of them is 0 */
        f->newest = number + aside;
    }
}

int files_list(struct files *f, uint64_t *numbers, size_t *count)
{
    struct dirent *entry;
    DIR *folder = opendir(f->folder);
    *count = 0;
    if (folder == NULL) {
        return failed(f, "opendir");
    }
    while (errno = 0, (entry = readdir(folder)) != NULL) {
        list_name(f, entry->d_name, numbers, count);
    }
    int error = errno;
    closedir(folder);
    errno = error;
    return error == 0 ? 0 : failed(f, "readdir");
}

/* Up to `room` bytes, fewer at the end of the file alone; -1 where the system refuses. */
static ssize_t read_whole(int fd, uint8_t *bytes, size_t room)
{
    size_t got = 0;
    while (got < room) {
        ssize_t n = read(fd, bytes + got, room - got);
        if (n == 0) {
            break;
        }
        if (n < 0 && errno != EINTR) {
            return -1;
        }
        got += n < 0 ? 0 : (size_t)n;
    }
    return (ssize_t)got;
}

int files_read(struct files *f, uint64_t number, uint8_t *bytes, size_t room, size_t *len)
{
    char path[PATH_BYTES];
    path_of(f, number, SNAPSHOT, path);
    int fd = open(path, O_RDONLY | O_CLOEXEC);
    if (fd < 0) {
        return failed(f, "open");
    }
    ssize_t got = read_whole(fd, bytes, room);
    int error = errno;
    close(fd);
    if (got < 0) {
        errno = error;
        return failed(f, "read");
    }
    *len = (size_t)got;
    return 0;
}

void files_hold(struct files *f, uint64_t number)
{
    insert(f->held, &f->held_count, number);
}

int files_set_aside(struct files *f, uint64_t number)
{
    char path[PATH_BYTES], aside[PATH_BYTES];
    path_of(f, number, SNAPSHOT, path);
    path_of(f, number, REFUSED, aside);
    int there = is_there(f, aside);
    if (there != 0) {
        errno = there == 1 ? EEXIST : errno;
        return failed(f, "rename");
    }
    return rename(path, aside) == 0 ? sync_folder(f, f->folder) : failed(f, "rename");
}

static int write_whole(int fd, const uint8_t *bytes, size_t len)
{
    while (0 < len) {
        ssize_t n = write(fd, bytes, len);
        if (n < 0 && errno != EINTR) {
            return -1;
        }
        bytes += n < 0 ? 0 : n;
        len -= n < 0 ? 0 : (size_t)n;
    }
    return 0;
}

/* A file with these bytes, on the disk when this returns 0; none when it fails. */
static int write_synced(struct files *f, const char *path, const uint8_t *bytes, size_t len)
{
    int fd = open(path, O_WRONLY | O_CREAT | O_TRUNC | O_CLOEXEC, 0644);
    if (fd < 0) {
        return failed(f, "open");
    }
    const char *step = write_whole(fd, bytes, len) != 0 ? "write" : fsync(fd) != 0 ? "fsync" : NULL;
    int error = errno;
    if (close(fd) != 0 && step == NULL) {
        step = "close";
        error = errno;
    }
    errno = error;
    return step == NULL ? 0 : failed_with(f, step, path);
}

/* The first number above the newest under which there is no file. */
static int next_free(struct files *f, uint64_t *number, char *path)
{
    int there = 1;
    for (*number = f->newest; there == 1;) {
        if (*number == UINT64_MAX) {
            errno = EOVERFLOW;
            return failed(f, "next number");
        }
        path_of(f, ++*number, SNAPSHOT, path);
        there = is_there(f, path);
    }
    return there;
}

static void remove_old(struct files *f)
{
    char path[PATH_BYTES];
    while (FILES_KEPT < f->held_count) {
        path_of(f, f->held[0], SNAPSHOT, path);
        unlink(path);
        f->held_count--;
        memmove(f->held, f->held + 1, f->held_count * sizeof *f->held);
    }
}

int files_write(struct files *f, const uint8_t *bytes, size_t len)
{
    char temporary[PATH_BYTES], path[PATH_BYTES];
    uint64_t number;
    int locked = keep_lock(f);
    if (locked != 0) {
        return locked;
    }
    path_to(f, "saving", temporary);
    if (next_free(f, &number, path) != 0 || write_synced(f, temporary, bytes, len) != 0) {
        return -1;
    }
    if (rename(temporary, path) != 0) {
        return failed_with(f, "rename", temporary);
    }
    if (sync_folder(f, f->folder) != 0) {
        return failed_with(f, f->step, path);
    }
    f->newest = number;
    files_hold(f, number);
    remove_old(f);
    return 0;
}
