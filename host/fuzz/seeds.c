/* Inputs for the fuzzer to begin with: `seeds FOLDER` writes each store of stores.c by its number, as bytes and as a snapshot. */
#include <stdio.h>
#include <string.h>

#include "start.h"
#include "wallathi.h"

/* A slot more, so that a snapshot can be too large for the fuzzer's store. */
enum { MOST_RUN = 255, LEAST_GAP = 4, TAIL = 96 };

static uint8_t store[(STORE_SLOTS + 1) * WALLATHI_SLOT_BYTES], state[WALLATHI_STATE_BYTES], file[WALLATHI_LONGEST_SNAPSHOT];
static const char *folder;
static int failed;

static FILE *open_seed(const char *kind, const char *name, int start)
{
    char path[4096];
    FILE *out;
    snprintf(path, sizeof path, "%s/%s-%s", folder, kind, name);
    out = fopen(path, "wb");
    if (out == NULL) {
        fprintf(stderr, "seeds: cannot write %s\n", path);
        failed = 1;
        return NULL;
    }
    fputc(0, out);
    fputc(start, out);
    return out;
}

/* Some commands after the start, the same after each. */
static void close_seed(FILE *out)
{
    unsigned number = 1, i;
    for (i = 0; i < TAIL; i++) {
        number = number * 1103515245u + 12345u;
        fputc((int)(number / 65536 % 256), out);
    }
    failed |= fclose(out) != 0;
}

static void put_2(FILE *out, size_t number)
{
    fputc((int)(number / 256), out);
    fputc((int)(number % 256), out);
}

static uint8_t lent_byte(size_t place)
{
    return place < STORE_BYTES ? store[place] : state[place - STORE_BYTES];
}

/* The end of a run of bytes: before zeros that are worth a gap, or where it is as long as a run can be. */
static size_t run_end(size_t start)
{
    size_t end = start, zeros = 0;
    while (end < LENT_BYTES && end - start < MOST_RUN && zeros < LEAST_GAP) {
        zeros = lent_byte(end) == 0 ? zeros + 1 : 0;
        end++;
    }
    return end - zeros;
}

/* The runs of store and state. */
static void put_runs(FILE *out)
{
    size_t place = 0, from = 0, end;
    for (;; from = end) {
        while (place < LENT_BYTES && lent_byte(place) == 0) {
            place++;
        }
        if (place == LENT_BYTES) {
            return;
        }
        for (; place - from >= NO_GAP; from += NO_GAP - 1) {
            put_2(out, NO_GAP - 1);
            fputc(0, out);
        }
        end = run_end(place);
        put_2(out, place - from);
        fputc((int)(end - place), out);
        for (; place < end; place++) {
            fputc(lent_byte(place), out);
        }
    }
}

static void write_bytes(const char *name)
{
    FILE *out = open_seed("bytes", name, STARTS_WITH_BYTES);
    if (out != NULL) {
        put_runs(out);
        put_2(out, NO_GAP);
        fputc(0, out);
        close_seed(out);
    }
}

static void write_file(const char *name, size_t length)
{
    uint64_t written = 0;
    FILE *out = open_seed("file", name, STARTS_WITH_FILE);
    if (out != NULL) {
        failed |= wallathi_save(store, length, state, file, sizeof file, &written) != WALLATHI_OK;
        put_2(out, (size_t)written);
        fwrite(file, 1, (size_t)written, out);
        close_seed(out);
    }
}

static void write_number(const char *name, unsigned number)
{
    FILE *out = open_seed("store", name, STARTS_WITH_STORE);
    if (out != NULL) {
        fputc((int)number, out);
        close_seed(out);
    }
}

int main(int argc, char **argv)
{
    unsigned number;
    if (argc != 2) {
        fprintf(stderr, "seeds FOLDER\n");
        return 1;
    }
    folder = argv[1];
    for (number = 0; number < STORES; number++) {
        const char *name = store_names[number];
        memset(store, 0, sizeof store);
        make_store(number, store, sizeof store, state);
        write_file(name, sizeof store);
        memset(store, 0, sizeof store);
        make_store(number, store, STORE_SLOTS * WALLATHI_SLOT_BYTES, state);
        write_bytes(name);
        write_number(name, number);
    }
    return failed;
}
