/* What the logger answers, tried from C: samples, trimming, IDs, names, files of others. `logger_test FOLDER FOLDER` makes both folders. It stops at the first answer that is not as it has to be. */
#define _POSIX_C_SOURCE 200809L
#include <inttypes.h>
#include <stdio.h>
#include <stdlib.h>
#include <string.h>
#include <sys/stat.h>

#include "logger.h"

static struct logger l;

static void check(int holds, const char *what, uint64_t seen)
{
    if (!holds) {
        printf("logger_test: %s: %" PRIu64 "\n", what, seen);
        exit(1);
    }
}

static void set_up(void)
{
    check(wallathi_set_up(l.store, sizeof l.store, l.state) == WALLATHI_OK, "set up", 0);
}

/* A message with one pair, east and any bytes, at this ms. */
static void put(uint64_t ms, const char *value, size_t len)
{
    uint8_t slip[WALLATHI_LONGEST_SLIP] = {1, 4, 0, 'e', 'a', 's', 't', (uint8_t)(len % 256), (uint8_t)(len / 256)};
    uint64_t id_ms, seq;
    memcpy(slip + 9, value, len);
    check(wallathi_add(l.store, sizeof l.store, l.state, ms, 0, slip, 9 + len, &id_ms, &seq) == WALLATHI_OK, value, ms);
}

/* A value that is no integer is no sample: neither absent nor a number. */
static void no_samples(void)
{
    static const struct {
        const char *value;
        size_t len;
    } bad[] = {
        {"\0abc", 4}, {"\0", 1}, {"7\0x", 3}, {"7\0", 2}, {"+5", 2}, {" 5", 2}, {"5 ", 2}, {"007", 3}, {"-0", 2}, {"-", 1}, {"", 0}, {"00", 2},
        {"-01", 3}, {"--1", 3}, {"1e3", 3}, {"0x1", 3}, {"1.0", 3}, {"\xd9\xa1", 2}, {"9223372036854775808", 19},
        {"-9223372036854775809", 20}, {"18446744073709551616", 20}, {"99999999999999999999", 20}, {"100000000000000000000", 21},
    };
    set_up();
    for (uint64_t i = 0; i < sizeof bad / sizeof bad[0]; i++) {
        int64_t value = 77;
        put(i + 1, bad[i].value, bad[i].len);
        check(logger_sample(&l, i + 1, 0, "east", &value) == LOGGER_NO_SAMPLE && value == 77, "no sample", i);
        check(logger_sample(&l, i + 1, 0, "west", &value) == WALLATHI_ABSENT && value == 77, "absent", i);
    }
    check(logger_sample(&l, 1000, 0, "east", &(int64_t){0}) == WALLATHI_NOT_LIVE, "not live", 0);
}

static void samples(void)
{
    static const int64_t good[] = {0, 7, -7, 10, -100, INT32_MAX, INT32_MIN, INT64_MAX, INT64_MIN};
    set_up();
    for (uint64_t i = 0; i < sizeof good / sizeof good[0]; i++) {
        struct sample sample = {"east", good[i]};
        struct added added;
        int64_t value = 77;
        check(logger_add(&l, i + 1, &sample, 1, 0, &added) == WALLATHI_OK, "add", i);
        check(logger_sample(&l, i + 1, 0, "east", &value) == WALLATHI_OK && value == good[i], "sample", i);
    }
}

/* Every add is accepted although trimming to `keep` frees no node; the messages that went are counted. */
static void trimming(uint64_t keep, size_t channels)
{
    char names[WALLATHI_MOST_PAIRS][8];
    struct sample list[WALLATHI_MOST_PAIRS];
    struct added added;
    uint64_t trims = 0, live = 0, counted = 0;
    set_up();
    for (size_t i = 0; i < channels; i++) {
        snprintf(names[i], sizeof names[i], "c%zu", i);
        list[i].channel = names[i];
    }
    for (uint64_t second = 1; trims < 3; second++) {
        for (size_t i = 0; i < channels; i++) {
            list[i].value = (int64_t)(second * (i + 1) % 5000);
        }
        check(logger_add(&l, second, list, channels, keep, &added) == WALLATHI_OK, "an add when the store is full", second);
        check(added.trimmed <= live && (added.trimmed == 0 || added.trimmed <= 100), "trimmed", added.trimmed);
        live += 1 - added.trimmed;
        trims += added.trimmed != 0;
    }
    check(wallathi_trim(l.store, sizeof l.store, l.state, 0, &counted) == WALLATHI_OK && counted == live, "what is left", counted);
}

/* A save whose snapshot would need a 65th node trims until it does not. */
static void packing(const char *folder)
{
    static const char *const names[] = {"a", "b", "c", "d", "e", "f", "g", "h"};
    uint64_t loaded, len, trimmed = 0, random = 1;
    uint32_t code = WALLATHI_OK;
    check(logger_start(&l, folder, &loaded) == WALLATHI_OK && loaded == 0, l.said, 0);
    for (uint64_t second = 1; code != WALLATHI_MOST_NODES; second++) {
        struct sample list[8];
        struct added added;
        size_t n = 0;
        for (size_t i = 0; i < 8; i++) {
            random = random * 6364136223846793005u + 1442695040888963407u;
            list[n].channel = names[i];
            list[n].value = (int64_t)(random >> 40);
            n += random >> 58 != 0; /* one in 64 gives no sample */
        }
        check(second < 100000 && logger_add(&l, 1000 * second, list, n, 1750, &added) == WALLATHI_OK, "an add before the 65th node", second);
        if (second % 20 == 0) {
            code = wallathi_save(l.store, sizeof l.store, l.state, l.file, sizeof l.file, &len);
        }
    }
    check(logger_save(&l, &trimmed) == WALLATHI_OK && trimmed != 0, "a save with 65 nodes", trimmed);
}

/* The ID says whether the clock went back, and that one step forward holds all later IDs. */
static void ids(void)
{
    static const struct {
        uint64_t clock, ms, seq;
    } steps[] = {{5000, 5000, 0}, {6000, 6000, 0}, {4000, 6000, 1}, {6000, 6000, 2}, {7000, 7000, 0}, {UINT64_MAX, UINT64_MAX, 0}, {8000, UINT64_MAX, 1}};
    set_up();
    for (size_t i = 0; i < sizeof steps / sizeof steps[0]; i++) {
        struct sample sample = {"east", 1};
        struct added added;
        check(logger_add(&l, steps[i].clock, &sample, 1, 10, &added) == WALLATHI_OK, "add", i);
        check(added.ms == steps[i].ms && added.seq == steps[i].seq && added.trimmed == 0, "ID", i);
    }
}

/* Adds one message of so many channels with names of so many bytes. */
static uint32_t add_named(size_t channels, size_t bytes)
{
    static char names[WALLATHI_MOST_PAIRS + 1][6001];
    struct sample list[WALLATHI_MOST_PAIRS + 1];
    struct added added;
    for (size_t i = 0; i < channels; i++) {
        memset(names[i], 'a' + (int)i, bytes);
        names[i][bytes] = 0;
        list[i].channel = names[i];
        list[i].value = INT64_MIN + (int64_t)i;
    }
    set_up();
    uint32_t code = logger_add(&l, 1, list, channels, 10, &added);
    for (size_t i = 0; code == WALLATHI_OK && i < channels; i++) {
        int64_t value = 0;
        check(logger_sample(&l, 1, 0, names[i], &value) == WALLATHI_OK && value == INT64_MIN + (int64_t)i, "named", i);
    }
    return code;
}

static void names(void)
{
    check(add_named(WALLATHI_MOST_PAIRS, 64) == WALLATHI_OK, "32 names of 64 bytes", 0);
    check(add_named(1, WALLATHI_LONGEST_STRING) == WALLATHI_OK, "a name of 1,000 bytes", 0);
    check(add_named(4, WALLATHI_LONGEST_STRING) == WALLATHI_OK, "4 names of 1,000 bytes", 0);
    check(add_named(1, WALLATHI_LONGEST_STRING + 1) == WALLATHI_BAD_ARGUMENT, "a name of 1,001 bytes", 0);
    check(add_named(1, 6000) == WALLATHI_BAD_ARGUMENT, "a name of 6,000 bytes", 0);
    check(add_named(WALLATHI_MOST_PAIRS, WALLATHI_LONGEST_STRING) == WALLATHI_LONG_MESSAGE, "32 names of 1,000 bytes", 0);
    check(add_named(5, WALLATHI_LONGEST_STRING) == WALLATHI_LONG_MESSAGE, "5 names of 1,000 bytes", 0);
    check(add_named(WALLATHI_MOST_PAIRS + 1, 1) == WALLATHI_BAD_ARGUMENT, "33 channels", 0);
    check(add_named(0, 1) == WALLATHI_BAD_ARGUMENT, "no channel", 0);
}

/* A file as someone else puts it into the folder. */
static void put_file(const char *folder, int number)
{
    char path[500];
    snprintf(path, sizeof path, "%s/%020d.snapshot", folder, number);
    FILE *out = fopen(path, "w");
    check(out != NULL && fprintf(out, "%d", number) == 1 && fclose(out) == 0, "put a file", (uint64_t)number);
}

static void has_file(const char *folder, int number)
{
    char path[500];
    snprintf(path, sizeof path, "%s/%020d.snapshot", folder, number);
    FILE *in = fopen(path, "r");
    check(in != NULL && fgetc(in) == '0' + number && fgetc(in) == EOF, "the file is there", (uint64_t)number);
    fclose(in);
}

/* Files that the logger neither loaded nor saved stay, also where another folder comes in the place of its own. */
static void files_of_others(const char *folder)
{
    char away[500];
    uint64_t loaded, trimmed = 0;
    check(logger_start(&l, folder, &loaded) == WALLATHI_OK && loaded == 0, l.said, 0);
    put_file(folder, 1);
    put_file(folder, 4);
    for (int i = 0; i < 6; i++) {
        check(logger_save(&l, &trimmed) == WALLATHI_OK, l.said, 0);
    }
    check(l.files.newest == 8, "saved beside 1 and 4", l.files.newest);
    has_file(folder, 1);
    has_file(folder, 4);
    snprintf(away, sizeof away, "%s.away", folder);
    check(rename(folder, away) == 0, "rename", 0);
    check(logger_save(&l, &trimmed) == LOGGER_SYSTEM && strcmp(l.said, "open lock: No such file or directory") == 0, l.said, 0);
    check(mkdir(folder, 0755) == 0, "mkdir", 0);
    for (int number = 6; number <= 9; number++) {
        put_file(folder, number);
    }
    for (int i = 0; i < 6; i++) {
        check(logger_save(&l, &trimmed) == WALLATHI_OK, l.said, 0);
    }
    check(l.files.newest == 15, "saved above 9", l.files.newest);
    for (int number = 6; number <= 9; number++) {
        has_file(folder, number);
    }
}

int main(int argc, char **argv)
{
    check(argc == 3, "usage: logger_test FOLDER FOLDER", 0);
    no_samples();
    samples();
    trimming(6350, 1);
    trimming(5400, 20);
    ids();
    names();
    packing(argv[1]);
    files_of_others(argv[2]);
    return 0;
}
