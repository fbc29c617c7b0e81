/* A logger over the store: it keeps store and state in memory, adds a message a second, and saves to a folder so that a crash at any
 * moment loses nothing that was saved. What a field programmer would copy: logger.c, files.c, and hut.c as the program around them.
 *
 * At the start the newest FILES_MOST_HELD snapshots in the folder are loaded, oldest first, and the newest that the store accepts stays;
 * without one the store is set up. A file that the store refuses is set aside under another name. A file that the system does not let us
 * read ends the start, unless a newer one is loaded. One process has the folder: a second one is turned away.
 *
 * A save that fails leaves what was saved before, and the next one tries again. A folder that goes away is not made anew, since it may be a
 * disk that comes back. The last FILES_KEPT saves stay; a file that this process neither loaded nor saved is never removed. files.h has the
 * names in the folder.
 */
#ifndef WALLATHI_LOGGER_H
#define WALLATHI_LOGGER_H

#include <stddef.h>
#include <stdint.h>

#include "files.h"
#include "wallathi.h"

enum { LOGGER_STORE_BYTES = WALLATHI_MOST_SLOTS * WALLATHI_SLOT_BYTES, LOGGER_SAID_BYTES = 1024 };

/* Beside the codes of wallathi.h: the system refused; another process has the folder; the value is no sample. */
#define LOGGER_SYSTEM 1000u
#define LOGGER_BUSY 1001u
#define LOGGER_NO_SAMPLE 1002u

/* A name and its sample in microvolts per kilometre. A channel that gave no sample is not in the list. */
struct sample {
    const char *channel;
    int64_t value;
};

/* The ID that a message got, and how many of the oldest went for it. */
struct added {
    uint64_t ms, seq, trimmed;
};

/* Some 650 KB: keep it in static memory, not on the stack. */
struct logger {
    uint8_t store[LOGGER_STORE_BYTES];
    uint8_t state[WALLATHI_STATE_BYTES];
    uint8_t file[WALLATHI_LONGEST_SNAPSHOT + 1]; /* a file that fills it is longer than any snapshot */
    struct files files;
    char said[LOGGER_SAID_BYTES]; /* what start or save has to say: files set aside, what the system refused; "" for nothing */
};

/* Makes the folder if it is not there, and loads or sets up. `*loaded` is the number of the snapshot loaded, or 0 for a store set up. */
uint32_t logger_start(struct logger *l, const char *folder, uint64_t *loaded);

/* One message by the clock, of 1 to WALLATHI_MOST_PAIRS samples. Its ms is the clock's unless the clock is not above the last ID: then the ID
 * is the next one after that. Where the store is full the oldest go, down to `keep` messages, and on until the oldest node is free.
 * `added->trimmed` is written in any case, the ID with WALLATHI_OK. */
uint32_t logger_add(struct logger *l, uint64_t time_ms, const struct sample *samples, size_t count, uint64_t keep, struct added *added);

/* Saves under the next number. A snapshot packs the live messages anew; where that would need over WALLATHI_MOST_SLOTS nodes (a store all but
 * full, after a trim), the oldest go until it does not. `*trimmed` is how many went. */
uint32_t logger_save(struct logger *l, uint64_t *trimmed);

/* The sample of a channel: WALLATHI_OK with the sample, WALLATHI_ABSENT where the message lacks the channel, LOGGER_NO_SAMPLE where its
 * value is anything but 0, or an optional minus and a digit 1 to 9 followed by digits, in 64 bits; else a code of wallathi_field. */
uint32_t logger_sample(const struct logger *l, uint64_t ms, uint64_t seq, const char *channel, int64_t *value);

/* A code in words. Those of start and save stand until the next start or save. */
const char *logger_text(const struct logger *l, uint32_t code);

#endif
