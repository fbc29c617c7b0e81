/* NULL with length 0 as the key of each operation of the index: refused like an empty key that stands elsewhere, and every byte stays. */
#include <stdio.h>
#include <string.h>

#include "wallathi_index.h"

enum { OPERATIONS = 5 };

/* All that a call may change. */
struct lent {
    uint8_t record[WALLATHI_INDEX_RECORD_BYTES], output[WALLATHI_INDEX_LONGEST_KEY];
    uint64_t length, value;
};

static struct lent start, lent;

static uint32_t call(int operation, const uint8_t *key)
{
    switch (operation) {
    case 0: return wallathi_index_put(lent.record, key, 0, 7);
    case 1: return wallathi_index_remove(lent.record, key, 0, &lent.value);
    case 2: return wallathi_index_find(lent.record, key, 0, &lent.value);
    case 3: return wallathi_index_first_at_or_above(lent.record, key, 0, lent.output, &lent.length, &lent.value);
    default: return wallathi_index_last_at_or_below(lent.record, key, 0, lent.output, &lent.length, &lent.value);
    }
}

int main(void)
{
    int operation, ok = wallathi_index_set_up(start.record) == WALLATHI_INDEX_OK;

    ok &= wallathi_index_put(start.record, (const uint8_t *)"Hobart", 6, 11) == WALLATHI_INDEX_OK;
    for (operation = 0; operation < OPERATIONS; operation++) {
        const uint8_t *keys[] = {NULL, start.output};
        int place;
        for (place = 0; place < 2; place++) {
            memcpy(&lent, &start, sizeof lent);
            ok &= call(operation, keys[place]) == WALLATHI_INDEX_BAD_KEY;
            ok &= memcmp(&lent, &start, sizeof lent) == 0;
        }
    }
    return !ok;
}
