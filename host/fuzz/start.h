/*
 * The start of an input, before its commands:
 *
 *     | length of the store 1 | how it starts 1 |                                      set up
 *                                               | length 2 | file |                    a file is loaded
 *                                               | gap 2 | length 1 | bytes | .. |      bytes of store and state, zeros between them
 *                                               | number 1 |                           one of the stores of stores.c
 *
 * Numbers are big-endian. Store and state count as one run of bytes; a gap of NO_GAP ends the runs.
 */
#ifndef START_H
#define START_H

#include "wallathi.h"

enum {
    STORE_SLOTS = 3,
    STORE_BYTES = STORE_SLOTS * WALLATHI_SLOT_BYTES + 100,
    LENT_BYTES = STORE_BYTES + WALLATHI_STATE_BYTES,
    STARTS_FRESH = 0,
    STARTS_WITH_FILE = 1,
    STARTS_WITH_BYTES = 2,
    STARTS_WITH_STORE = 3,
    STARTS = 4,
    NO_GAP = 65535,
    STORES = 9
};

extern const char *const store_names[STORES];

/* Makes lent bytes one of the stores: empty, nearly so, full in each way. */
void make_store(unsigned number, uint8_t *store, size_t store_length, uint8_t *state);

#endif
