/*
 * wallathi_index: a radix index of up to 64 keys of 1 to 16 bytes, each with a 32-bit value, in bytes that you lend.
 *
 * The index lives in a record of WALLATHI_INDEX_RECORD_BYTES bytes, of any alignment. It has no pointers in it: copy it, move it, write
 * it to a file and read it back. The library allocates nothing and keeps nothing between calls. The archive is for x86-64 Linux (System V
 * calls) and takes memcpy, memset and memmove from the C library, nothing else.
 *
 * Order is bytewise, bytes counting as 0 to 255, and a key comes before the longer keys that it starts.
 *
 * Every operation first validates the whole record. A record that is not exactly the shape of some set of keys is refused as damaged,
 * never followed. A changed byte that makes the record of other keys or values is no damage.
 *
 * Records that hold the same keys and values may differ in their bytes, as the nodes of the tree may stand at any places: compare what
 * two records hold, not their bytes.
 *
 * What a call costs: every call validates the whole record, and a put or a remove that changes something builds it anew. With 63 names
 * of 15 bytes a find takes some 14,400 instructions, a put 77,000. A put and a remove need 36 KB of stack (28 KB were measured), every
 * other call 4 KB (2.3 KB).
 *
 * Each function answers one of the numbers below. If several refusals apply, the lowest is answered. Unless the answer is
 * WALLATHI_INDEX_OK, no byte is changed: not of the record, not of the output, not of an out-parameter.
 *
 * No pointer may be NULL but a key's whose length is 0. A record, an output and an out-parameter that a call changes must not overlap
 * anything else that is handed to the same call. Calls on different records may run at the same time, and so may reading calls on one.
 *
 *     static uint8_t record[WALLATHI_INDEX_RECORD_BYTES];
 *     uint64_t value;
 *     wallathi_index_set_up(record);
 *     if (wallathi_index_put(record, (const uint8_t *)"Hobart", 6, 11) == WALLATHI_INDEX_OK
 *         && wallathi_index_find(record, (const uint8_t *)"Hobart", 6, &value) == WALLATHI_INDEX_OK)
 *         printf("%u\n", (unsigned)value);
 *
 * Link libwallathi_index.a.
 */
#ifndef WALLATHI_INDEX_H
#define WALLATHI_INDEX_H

#include <stddef.h>
#include <stdint.h>

#ifdef __cplusplus
extern "C" {
#endif

/* The size of a record; wallathi_index_record_bytes answers the same. */
#define WALLATHI_INDEX_RECORD_BYTES 6658
/* A key has 1 to this many bytes; an output has exactly this many. */
#define WALLATHI_INDEX_LONGEST_KEY 16
#define WALLATHI_INDEX_MOST_KEYS 64

/* answered: the record, the output and the out-parameters are written as the function says */
#define WALLATHI_INDEX_OK 0
/* refused: the record is not the shape of any set of keys */
#define WALLATHI_INDEX_DAMAGED 2
/* refused: the key has no byte, or more than 16 */
#define WALLATHI_INDEX_BAD_KEY 3
/* refused: the key is new and 64 are held */
#define WALLATHI_INDEX_FULL 18
/* no such key is held */
#define WALLATHI_INDEX_NONE 32

/* How many bytes a record has. */
uint64_t wallathi_index_record_bytes(void);

/* Makes the record that of an index without keys, whatever its bytes were. Answers WALLATHI_INDEX_OK. */
uint32_t wallathi_index_set_up(uint8_t *record);

/*
 * Sets the value of a key, new or held. No other key's value changes.
 * WALLATHI_INDEX_OK, or the refusals 2, 3 and 18.
 */
uint32_t wallathi_index_put(uint8_t *record, const uint8_t *key, size_t key_length, uint32_t value);

/*
 * Removes a key. The count is how many went: 1, or 0 where the key is not held (no byte of the record changes then).
 * WALLATHI_INDEX_OK, or the refusals 2 and 3.
 */
uint32_t wallathi_index_remove(uint8_t *record, const uint8_t *key, size_t key_length, uint64_t *count);

/*
 * The value of a key. It is below 2^32; every number that a function gives is 64 bits wide, so that one kind of out-parameter serves all.
 * WALLATHI_INDEX_OK, WALLATHI_INDEX_NONE, or the refusals 2 and 3.
 */
uint32_t wallathi_index_find(const uint8_t *record, const uint8_t *key, size_t key_length, uint64_t *value);

/*
 * The first key that is the given one or comes after it, and its value. The output has WALLATHI_INDEX_LONGEST_KEY bytes: the key found is
 * written to its start and the bytes after the key stay; found_length is the key's length.
 * WALLATHI_INDEX_OK, WALLATHI_INDEX_NONE, or the refusals 2 and 3.
 */
uint32_t wallathi_index_first_at_or_above(const uint8_t *record, const uint8_t *key, size_t key_length, uint8_t *output,
                                          uint64_t *found_length, uint64_t *value);

/* The same for the last key that is the given one or comes before it. */
uint32_t wallathi_index_last_at_or_below(const uint8_t *record, const uint8_t *key, size_t key_length, uint8_t *output,
                                         uint64_t *found_length, uint64_t *value);

#ifdef __cplusplus
}
#endif

#endif
