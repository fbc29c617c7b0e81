/*
 * Keeps the numbers of stations by name, in an index that lives in bytes of this program. From the repository:
 *
 *     cc -std=c99 -Ihost/include host/stations.c target/staticlib/libwallathi_index.a -o stations
 */
#include <stdio.h>
#include <string.h>

#include "wallathi_index.h"

#define LONGEST WALLATHI_INDEX_LONGEST_KEY

static uint8_t record[WALLATHI_INDEX_RECORD_BYTES];

/* What an answer without a value says. */
static const char *word(uint32_t answer)
{
    switch (answer) {
    case WALLATHI_INDEX_OK: return "done";
    case WALLATHI_INDEX_DAMAGED: return "damaged";
    case WALLATHI_INDEX_BAD_KEY: return "not a key";
    case WALLATHI_INDEX_FULL: return "full";
    case WALLATHI_INDEX_NONE: return "none";
    default: return "unknown answer";
    }
}

static void put(const char *name, uint32_t number)
{
    printf("put %s: %s\n", name, word(wallathi_index_put(record, (const uint8_t *)name, strlen(name), number)));
}

static void take_out(const char *name)
{
    uint64_t count;
    uint32_t answer = wallathi_index_remove(record, (const uint8_t *)name, strlen(name), &count);
    if (answer == WALLATHI_INDEX_OK)
        printf("remove %s: %u\n", name, (unsigned)count);
    else
        printf("remove %s: %s\n", name, word(answer));
}

static void find(const char *name)
{
    uint64_t number;
    uint32_t answer = wallathi_index_find(record, (const uint8_t *)name, strlen(name), &number);
    if (answer == WALLATHI_INDEX_OK)
        printf("find %s: %u\n", name, (unsigned)number);
    else
        printf("find %s: %s\n", name, word(answer));
}

/* The station at a name or, where no station has it, the last one before. */
static void last_up_to(const char *name)
{
    uint8_t found[LONGEST];
    uint64_t length, number;
    uint32_t answer = wallathi_index_last_at_or_below(record, (const uint8_t *)name, strlen(name), found, &length, &number);
    if (answer == WALLATHI_INDEX_OK)
        printf("last up to %s: \"%.*s\" %u\n", name, (int)length, (const char *)found, (unsigned)number);
    else
        printf("last up to %s: %s\n", name, word(answer));
}

/* Makes a key the next possible one: a zero byte more or, at full length, the last byte below 255 counted up. The answer is its
   length; 0, which no key has, where none is left. */
static size_t next_key(uint8_t *key, size_t length)
{
    if (length < LONGEST) {
        key[length] = 0;
        return length + 1;
    }
    while (length > 0 && key[length - 1] == 255)
        length--;
    if (length > 0)
        key[length - 1]++;
    return length;
}

/* All stations in order, from the least possible key on. */
static void list(void)
{
    uint8_t key[LONGEST] = {0}, found[LONGEST];
    size_t key_length = 1;
    uint64_t length, number;
    uint32_t answer = WALLATHI_INDEX_NONE;

    while (key_length > 0) {
        answer = wallathi_index_first_at_or_above(record, key, key_length, found, &length, &number);
        if (answer != WALLATHI_INDEX_OK)
            break;
        printf("    %-16.*s %4u\n", (int)length, (const char *)found, (unsigned)number);
        memcpy(key, found, (size_t)length);
        key_length = next_key(key, (size_t)length);
    }
    if (answer != WALLATHI_INDEX_OK && answer != WALLATHI_INDEX_NONE)
        printf("    %s\n", word(answer));
}

int main(void)
{
    if (wallathi_index_record_bytes() != sizeof record || wallathi_index_set_up(record) != WALLATHI_INDEX_OK)
        return 1;
    put("Suva", 3);
    put("Honiara", 12);
    put("Suva North", 4);
    put("Port Moresby (2)", 15);
    put("Port Moresby (south)", 16);
    put("Hobart", 11);
    list();
    find("Hobart");
    find("Auckland");
    last_up_to("Rabaul");
    last_up_to("Apia");
    take_out("Honiara");
    take_out("Honiara");
    put("Hobart", 21);
    list();
    record[0] ^= 1;
    find("Hobart");
    put("Apia", 7);
    take_out("Suva");
    last_up_to("Suva");
    list();
    return 0;
}
