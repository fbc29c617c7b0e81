/* Stores to begin with, each made by the commands of the library. */
#include <string.h>

#include "start.h"
#include "wallathi.h"

const char *const store_names[STORES] = {"empty", "one", "mixed", "crowded", "full", "deleted", "groups", "greatest", "long"};

struct lent {
    uint8_t *store;
    size_t length;
    uint8_t *state;
    uint64_t last;
};

/* Adds messages of one value of this length. */
static void add(struct lent *lent, size_t count, char field, size_t length)
{
    uint8_t slip[6 + WALLATHI_LONGEST_STRING] = {1, 1, 0};
    uint64_t ms, seq;
    slip[3] = (uint8_t)field;
    slip[4] = (uint8_t)(length % 256);
    slip[5] = (uint8_t)(length / 256);
    memset(slip + 6, length == 1 ? '7' : 'x', length);
    for (; count != 0; count--) {
        lent->last++;
        wallathi_add(lent->store, lent->length, lent->state, lent->last, 0, slip, 6 + length, &ms, &seq);
    }
}

/* A group that has been given messages. */
static void group(struct lent *lent, char name, size_t consumers, size_t entries)
{
    const uint8_t group = (uint8_t)name;
    uint64_t ms, seq;
    size_t entry;
    wallathi_create_group(lent->store, lent->length, lent->state, &group, 1, 0, 0);
    for (entry = 0; entry < entries; entry++) {
        const uint8_t consumer = (uint8_t)('a' + entry % consumers);
        wallathi_group_read(lent->store, lent->length, lent->state, &group, 1, &consumer, 1, entry, &ms, &seq);
    }
}

static void trim(struct lent *lent, uint64_t most)
{
    uint64_t count;
    wallathi_trim(lent->store, lent->length, lent->state, most, &count);
}

/* Messages with other fields, one of them deleted, and a group that has it. */
static void mixed(struct lent *lent)
{
    uint64_t count;
    add(lent, 1, 'a', 1);
    add(lent, 1, 'b', 20);
    add(lent, 1, 'a', 1000);
    group(lent, 'a', 2, 2);
    wallathi_delete(lent->store, lent->length, lent->state, 2, 0, &count);
}

/* A node whose deleted count has three bytes. */
static void deleted(struct lent *lent)
{
    add(lent, 100, 'a', 1);
    trim(lent, 10);
    add(lent, 60, 'a', 1);
    trim(lent, 5);
}

static void groups(struct lent *lent)
{
    char name;
    add(lent, 3, 'a', 1);
    for (name = 'a'; name < 'a' + 8; name++) {
        group(lent, name, 1, 2);
    }
}

static void greatest(struct lent *lent)
{
    static const uint8_t slip[] = {1, 0, 0, 0, 0};
    uint64_t ms, seq;
    wallathi_add(lent->store, lent->length, lent->state, UINT64_MAX, UINT64_MAX, slip, sizeof slip, &ms, &seq);
}

void make_store(unsigned number, uint8_t *store, size_t store_length, uint8_t *state)
{
    struct lent lent = {store, store_length, state, 0};
    wallathi_set_up(store, store_length, state);
    switch (number) {
    case 1: add(&lent, 1, 'a', 1); break;
    case 2: mixed(&lent); break;
    case 3: add(&lent, 300, 'a', 1), group(&lent, 'a', 16, 256); break;
    case 4: add(&lent, 12, 'a', 1000); break;
    case 5: deleted(&lent); break;
    case 6: groups(&lent); break;
    case 7: greatest(&lent); break;
    case 8: add(&lent, 13, 'a', 1000); break;
    default: break;
    }
}
