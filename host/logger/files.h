/* The folder of a logger: snapshots under rising numbers, written so that a file under its final name is whole. It knows bytes alone.
 *
 *     FOLDER/00000000000000000005.snapshot            20 digits
 *     FOLDER/00000000000000000004.snapshot.refused    set aside: never read, never removed
 *     FOLDER/saving                                   a snapshot that is being written; one that was left behind is removed at the start
 *     FOLDER/lock                                     locked (fcntl) while the process lives: it keeps other processes out
 *
 * What fails answers -1: `step` is then the call of the system that failed, and errno why. FILES_BUSY is another process with the lock.
 */
#ifndef WALLATHI_FILES_H
#define WALLATHI_FILES_H

#include <stddef.h>
#include <stdint.h>

enum { FILES_KEPT = 3, FILES_MOST_HELD = 32, FILES_FOLDER_BYTES = 400, FILES_BUSY = 1 };

struct files {
    char folder[FILES_FOLDER_BYTES];
    int lock;                       /* the open lock file, -1 for none */
    uint64_t newest;                /* the greatest number in the folder, set aside or not; 0 for none */
    uint64_t held[FILES_MOST_HELD]; /* what this process loaded or saved, by rising number: nothing else is ever removed */
    size_t held_count;
    const char *step;
};

/* Makes the folder if it is not there, takes the lock, and removes what an unfinished save left. */
int files_open(struct files *f, const char *folder);

/* Gives the lock up. */
void files_close(struct files *f);

/* The numbers of the newest snapshots, FILES_MOST_HELD at most, rising. */
int files_list(struct files *f, uint64_t *numbers, size_t *count);

/* The first `room` bytes of a snapshot, or all of it where it is shorter. */
int files_read(struct files *f, uint64_t number, uint8_t *bytes, size_t room, size_t *len);

/* A file that was loaded: a save may remove it when it is old. */
void files_hold(struct files *f, uint64_t number);

/* Renames a snapshot so that it is not listed again. */
int files_set_aside(struct files *f, uint64_t number);

/* Writes the next snapshot: to a temporary file, synced, renamed, the folder synced. Then the oldest held go, but for the last FILES_KEPT.
 * What fails leaves the folder as it was. */
int files_write(struct files *f, const uint8_t *bytes, size_t len);

#endif
