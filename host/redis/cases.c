#include "cases.h"

#include <inttypes.h>
#include <stdio.h>
#include <stdlib.h>
#include <string.h>

const char *const case_names[CASES] = {"empty", "pairs", "lengths", "binary", "ids", "numbers", "deleted", "full", "wide"};

const char *trying = "start";

void must(int holds, const char *what)
{
    if (!holds) {
        printf("redis: %s: %s\n", trying, what);
        exit(1);
    }
}

/* A slip under way. */
struct slip {
    uint8_t bytes[1 + 2 * WALLATHI_MOST_PAIRS * (2 + WALLATHI_LONGEST_STRING)];
    size_t length;
};

static void start(struct slip *slip)
{
    slip->bytes[0] = 0;
    slip->length = 1;
}

static void put_string(struct slip *slip, const void *string, size_t length)
{
    slip->bytes[slip->length] = (uint8_t)(length % 256);
    slip->bytes[slip->length + 1] = (uint8_t)(length / 256);
    memcpy(slip->bytes + slip->length + 2, string, length);
    slip->length += 2 + length;
}

static void put_pair(struct slip *slip, const void *field, size_t field_length, const void *value, size_t value_length)
{
    slip->bytes[0]++;
    put_string(slip, field, field_length);
    put_string(slip, value, value_length);
}

static uint32_t add(struct held *held, uint64_t ms, uint64_t seq, const struct slip *slip)
{
    return wallathi_add(held->store, held->length, held->state, ms, seq, slip->bytes, slip->length, &ms, &seq);
}

/* A message of one pair. */
static void add_pair(struct held *held, uint64_t ms, uint64_t seq, const void *field, size_t field_length, const void *value, size_t value_length)
{
    struct slip slip;
    start(&slip);
    put_pair(&slip, field, field_length, value, value_length);
    must(add(held, ms, seq, &slip) == WALLATHI_OK, "add");
}

/* One message of 32 pairs, with names that repeat. */
static void most_pairs(struct held *held)
{
    struct slip slip;
    start(&slip);
    for (unsigned i = 0; i < WALLATHI_MOST_PAIRS; i++) {
        char field[16], value[64];
        int field_length = snprintf(field, sizeof field, "channel%u", i / 2), value_length = snprintf(value, sizeof value, "%*u", (int)i + 1, i);
        put_pair(&slip, field, (size_t)field_length, value, (size_t)value_length);
    }
    must(add(held, 1763000000000u, 0, &slip) == WALLATHI_OK, "add");
}

/* Fields and values of lengths where a length gets one digit more. */
static void lengths(struct held *held)
{
    static const size_t list[] = {0, 1, 9, 10, 99, 100, 999, WALLATHI_LONGEST_STRING};
    static const size_t count = sizeof list / sizeof list[0];
    uint8_t field[WALLATHI_LONGEST_STRING], value[WALLATHI_LONGEST_STRING];
    memset(field, 'f', sizeof field);
    memset(value, 'v', sizeof value);
    for (size_t i = 0; i < count * count; i++) {
        add_pair(held, 1000, i, field, list[i / count], value, list[i % count]);
    }
}

/* Bytes that mean something in the protocol, and every byte there is. */
static void binary(struct held *held)
{
    static const struct {
        const char *bytes;
        size_t length;
    } list[] = {
        {"\r\n", 2}, {"\0", 1}, {"\r", 1}, {"\n", 1}, {"\r\n\r\n", 4}, {"a\0b\r\nc", 6},
        {"$3\r\nabc\r\n", 9}, {"*2\r\n", 4}, {":1\r\n", 4}, {"-ERR 2\r\n", 8}, {"+OK\r\n", 5},
    };
    static const size_t count = sizeof list / sizeof list[0];
    uint8_t every[256];
    for (size_t i = 0; i < sizeof every; i++) {
        every[i] = (uint8_t)i;
        add_pair(held, 1, i + 1, every + i, 1, every, i + 1);
    }
    for (size_t i = 0; i < count * count; i++) {
        add_pair(held, 2, i, list[i / count].bytes, list[i / count].length, list[i % count].bytes, list[i % count].length);
    }
}

/* IDs with 0, 2^64 - 1 and every number of digits in each half. */
static void ids(struct held *held)
{
    uint64_t list[64] = {0, 1}, power = 1;
    size_t count = 2;
    while (power <= UINT64_MAX / 10) {
        power *= 10;
        list[count++] = power - 1;
        list[count++] = power;
    }
    list[count++] = UINT64_MAX;
    for (size_t i = 0; i < count; i++) {
        if (list[i] != 0) {
            add_pair(held, list[i], 0, "half", 4, "0", 1);
        }
        add_pair(held, list[i], 1, "half", 4, "1", 1);
        if (1 < list[i] && list[i] != UINT64_MAX) {
            add_pair(held, list[i], list[i], "half", 4, "equal", 5);
        }
        add_pair(held, list[i], UINT64_MAX, "half", 4, "greatest", 8);
    }
}

/* Values that the store keeps as integers, and others that look like them. */
static void numbers(struct held *held)
{
    static const char *const list[] = {"0", "-1", "127", "128", "4095", "4096", "-4096", "-4097", "32768", "8388608", "2147483648", "-2147483649",
        "9223372036854775807", "-9223372036854775808", "9223372036854775808", "007", "-0", "+1", "-", "", " 1", "1e3"};
    for (size_t i = 0; i < sizeof list / sizeof list[0]; i++) {
        add_pair(held, 7, i, list[i], strlen(list[i]), list[i], strlen(list[i]));
    }
}

/* Messages between which others were deleted, and the oldest trimmed. */
static void deleted(struct held *held)
{
    uint64_t count;
    for (uint64_t i = 1; i <= 500; i++) {
        add_pair(held, i, i % 3, "n", 1, "7", 1);
    }
    for (uint64_t i = 1; i <= 500; i += 3) {
        must(wallathi_delete(held->store, held->length, held->state, i, i % 3, &count) == WALLATHI_OK && count == 1, "delete");
    }
    must(wallathi_trim(held->store, held->length, held->state, 200, &count) == WALLATHI_OK && count == 133, "trim");
}

/* As many messages as the store holds, with three fields whose names have so many bytes. */
static void fill(struct held *held, size_t bytes, uint64_t most)
{
    char name[WALLATHI_LONGEST_STRING];
    uint64_t ms = 0;
    uint32_t code;
    do {
        struct slip slip;
        start(&slip);
        for (char c = 'a'; c <= 'c'; c++) {
            memset(name, c, bytes);
            put_pair(&slip, name, bytes, "", 0);
        }
        code = add(held, ++ms, 0, &slip);
    } while (code == WALLATHI_OK);
    must(code == WALLATHI_FULL && ms == most + 1, "the store is full with 100 messages a slot");
}

static void full(struct held *held)
{
    fill(held, 1, MOST_MESSAGES);
}

/* The names stand once in a node and in every message of a reply. */
static void wide(struct held *held)
{
    fill(held, 880, WIDE_MESSAGES);
}

static void empty(struct held *held)
{
    (void)held;
}

void make_case(unsigned number, struct held *held)
{
    static void (*const makers[CASES])(struct held *) = {empty, most_pairs, lengths, binary, ids, numbers, deleted, full, wide};
    trying = case_names[number];
    held->length = makers[number] == wide ? WIDE_SLOTS * WALLATHI_SLOT_BYTES : sizeof held->store;
    must(wallathi_set_up(held->store, held->length, held->state) == WALLATHI_OK, "set up");
    makers[number](held);
    read_all(held);
}

void read_all(struct held *held)
{
    uint64_t ms = 0, seq = 0;
    uint32_t code;
    held->count = 0;
    while ((code = wallathi_next(held->store, held->length, held->state, ms, seq, &ms, &seq)) == WALLATHI_OK) {
        must(held->count < MOST_MESSAGES, "next gives more than a store holds");
        struct message *m = &held->messages[held->count++];
        m->ms = ms;
        m->seq = seq;
        must(wallathi_read(held->store, held->length, held->state, ms, seq, m->slip, sizeof m->slip, &m->length) == WALLATHI_OK, "read");
        if (++seq == 0 && ++ms == 0) {
            return; /* the greatest ID has none above it */
        }
    }
    must(code == WALLATHI_NONE, "next");
}

void make_ranges(const struct held *held, struct range ranges[RANGES])
{
    static const struct message none;
    const struct message *all = held->messages;
    const struct message *first = held->count == 0 ? &none : all, *last = held->count == 0 ? &none : all + held->count - 1;
    const struct message *middle = held->count == 0 ? &none : all + held->count / 2;
    const struct range list[RANGES] = {
        {0, 0, UINT64_MAX, UINT64_MAX},
        {first->ms, first->seq, middle->ms, middle->seq},
        {middle->ms, middle->seq, last->ms, last->seq},
        {middle->ms, middle->seq, middle->ms, middle->seq},
        {last->ms, last->seq, UINT64_MAX, UINT64_MAX},
        {UINT64_MAX, UINT64_MAX, 0, 0},
        {middle->ms, 0, middle->ms, UINT64_MAX},
    };
    memcpy(ranges, list, sizeof list);
}

static int at_most(uint64_t ms, uint64_t seq, uint64_t other_ms, uint64_t other_seq)
{
    return ms < other_ms || (ms == other_ms && seq <= other_seq);
}

int in_range(const struct message *message, const struct range *range)
{
    return at_most(range->first_ms, range->first_seq, message->ms, message->seq) && at_most(message->ms, message->seq, range->last_ms, range->last_seq);
}

size_t count_in(const struct held *held, const struct range *range)
{
    size_t count = 0;
    for (size_t i = 0; i < held->count; i++) {
        count += in_range(&held->messages[i], range) ? 1 : 0;
    }
    return count;
}

size_t range_reply(const struct held *held, const struct range *range, uint8_t *reply, size_t room)
{
    uint64_t written;
    uint32_t code = wallathi_range_reply(held->store, held->length, held->state, range->first_ms, range->first_seq, range->last_ms,
                                         range->last_seq, reply, room, &written);
    must(code == WALLATHI_OK, "range reply");
    return (size_t)written;
}

static void must_read_message(const struct message *message, const uint8_t *reply, size_t length, uint64_t place)
{
    struct message read;
    uint32_t code = wallathi_reply_message(reply, length, place, read.slip, sizeof read.slip, &read.ms, &read.seq, &read.length);
    must(code == WALLATHI_OK && read.ms == message->ms && read.seq == message->seq, "a message of the reply, its ID");
    must(read.length == message->length && memcmp(read.slip, message->slip, (size_t)read.length) == 0, "a message of the reply");
}

void must_read_back(const struct held *held, const struct range *range, const uint8_t *reply, size_t length)
{
    uint64_t kind, number, place = 0;
    must(wallathi_read_reply(reply, length, &kind, &number) == WALLATHI_OK && kind == WALLATHI_RANGE_REPLY && number == count_in(held, range), "read reply");
    uint64_t step = 1 + length / READ_WHOLE;
    for (size_t i = 0; i < held->count; i++) {
        if (in_range(&held->messages[i], range) && (place++ % step == 0 || place == number)) {
            must_read_message(&held->messages[i], reply, length, place - 1);
        }
    }
    struct message past;
    must(wallathi_reply_message(reply, length, number, past.slip, sizeof past.slip, &past.ms, &past.seq, &past.length) == WALLATHI_NONE, "past the end");
}

void id_text(uint64_t ms, uint64_t seq, char text[ID_TEXT_BYTES])
{
    snprintf(text, ID_TEXT_BYTES, "%" PRIu64 "-%" PRIu64, ms, seq);
}

const uint8_t *take_string(const uint8_t **at, size_t *length)
{
    const uint8_t *string = *at + 2;
    *length = (size_t)((*at)[0] + 256 * (*at)[1]);
    *at = string + *length;
    return string;
}
