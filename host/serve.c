/*
 * Serves a saved file to programs that speak the Redis protocol, version 2: `serve FILE FIRST LAST` writes to standard output what Redis
 * would answer to XRANGE with these ends. An end is an ID, as 1763000000000-0, or - for the least and + for the greatest. Where the library
 * refuses, the error reply with its number is written, and the exit status is 1. From the repository:
 *
 *     cc -std=c99 -Ihost/include host/serve.c target/staticlib/libwallathi.a -o serve
 *     ./serve hut.snapshot - + | plot
 */
#define _POSIX_C_SOURCE 200809L
#include <errno.h>
#include <signal.h>
#include <stdio.h>
#include <stdlib.h>
#include <string.h>

#include "wallathi.h"

enum { FIRST_ROOM = 1 << 16 };

static uint8_t store[WALLATHI_MOST_SLOTS * WALLATHI_SLOT_BYTES], state[WALLATHI_STATE_BYTES];
static uint8_t file[WALLATHI_LONGEST_SNAPSHOT + 1]; /* one byte more: a longer file is no snapshot */

struct id {
    uint64_t ms, seq;
};

/* A decimal number below 2^64; the text moves behind it. */
static int parse_number(const char **text, uint64_t *number)
{
    char *end;
    if (**text < '0' || '9' < **text) { /* strtoull would take a sign or a space */
        return 0;
    }
    errno = 0;
    *number = strtoull(*text, &end, 10);
    *text = end;
    return errno == 0;
}

static int parse_id(const char *text, struct id *id)
{
    if (strcmp(text, "-") == 0 || strcmp(text, "+") == 0) {
        id->ms = id->seq = *text == '-' ? 0 : UINT64_MAX;
        return 1;
    }
    return parse_number(&text, &id->ms) && *text++ == '-' && parse_number(&text, &id->seq) && *text == 0;
}

/* Makes the store hold what the file does. A file that cannot be read is answered like one that is no snapshot. */
static uint32_t load(const char *path)
{
    FILE *in = fopen(path, "rb");
    if (in == NULL) {
        return WALLATHI_NO_SNAPSHOT;
    }
    size_t length = fread(file, 1, sizeof file, in);
    int unread = ferror(in);
    fclose(in);
    return unread ? WALLATHI_NO_SNAPSHOT : wallathi_load(store, sizeof store, state, file, length);
}

/* The range reply, in memory that grows until it suffices: a reply repeats names that a file has once, so it can be far longer. */
static uint32_t make_reply(struct id first, struct id last, uint8_t **reply, uint64_t *length)
{
    uint32_t code = WALLATHI_SHORT_OUTPUT;
    *reply = NULL;
    for (size_t room = FIRST_ROOM; code == WALLATHI_SHORT_OUTPUT; room *= 2) {
        free(*reply);
        *reply = malloc(room);
        if (*reply == NULL) {
            return code;
        }
        code = wallathi_range_reply(store, sizeof store, state, first.ms, first.seq, last.ms, last.seq, *reply, room, length);
    }
    return code;
}

/* All bytes are written, or the reader has gone: the exit status says which. */
static int put(const uint8_t *bytes, uint64_t length)
{
    if (fwrite(bytes, 1, (size_t)length, stdout) == length && fflush(stdout) == 0) {
        return 0;
    }
    perror("serve: standard output");
    return 1;
}

static int refuse(uint32_t code)
{
    uint8_t reply[WALLATHI_LONGEST_NUMBER_REPLY];
    uint64_t length;
    if (wallathi_error_reply(code, reply, sizeof reply, &length) == WALLATHI_OK) {
        put(reply, length);
    }
    return 1;
}

int main(int argc, char **argv)
{
    struct id first, last;
    uint8_t *reply;
    uint64_t length;
    if (argc != 4) {
        fprintf(stderr, "usage: serve FILE FIRST LAST\n");
        return 2;
    }
    signal(SIGPIPE, SIG_IGN); /* a reader that closes early is an error of fwrite then, not the end of this program */
    if (!parse_id(argv[2], &first) || !parse_id(argv[3], &last)) {
        return refuse(WALLATHI_BAD_ARGUMENT);
    }
    uint32_t code = load(argv[1]);
    if (code == WALLATHI_OK) {
        code = make_reply(first, last, &reply, &length);
    }
    return code == WALLATHI_OK ? put(reply, length) : refuse(code);
}
