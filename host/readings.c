/*
 * A logger at a station: readings go into a store that lives in bytes of this program, a report counts them, a reply hands some to a client
 * of the Redis protocol, two workers take them from a group, and a snapshot moves all of it to another store. From the repository:
 *
 *     cc -std=c99 -Ihost/include host/readings.c target/staticlib/libwallathi.a -o readings
 */
#include <stdio.h>
#include <string.h>

#include "wallathi.h"

#define SLOTS 4
#define LONGEST 1000

static uint8_t store[SLOTS * WALLATHI_SLOT_BYTES], state[WALLATHI_STATE_BYTES];
static uint8_t other_store[SLOTS * WALLATHI_SLOT_BYTES], other_state[WALLATHI_STATE_BYTES];
static uint8_t snapshot[WALLATHI_LONGEST_SNAPSHOT], reply[4096];

/* What an answer without a value says. */
static const char *word(uint32_t answer)
{
    switch (answer) {
    case WALLATHI_OK: return "done";
    case WALLATHI_DAMAGED: return "damaged";
    case WALLATHI_LOW_ID: return "the ID is not above the last";
    case WALLATHI_NO_GROUP: return "no such group";
    case WALLATHI_NOT_LIVE: return "not live";
    case WALLATHI_NO_SNAPSHOT: return "no snapshot";
    case WALLATHI_NONE: return "none";
    case WALLATHI_ABSENT: return "absent";
    case WALLATHI_NOT_MOVED: return "not moved";
    default: return "refused";
    }
}

/* A slip under way: how much of it is written. */
struct slip {
    uint8_t bytes[WALLATHI_LONGEST_SLIP];
    size_t length;
};

static void put_string(struct slip *slip, const char *string)
{
    size_t length = strlen(string);
    slip->bytes[slip->length] = (uint8_t)(length & 255);
    slip->bytes[slip->length + 1] = (uint8_t)(length >> 8);
    memcpy(slip->bytes + slip->length + 2, string, length);
    slip->length += 2 + length;
}

/* Logs a reading, with a note where there is one. */
static void reading(uint64_t time, const char *amplitude, const char *note)
{
    struct slip slip;
    uint64_t ms, seq;
    uint32_t answer;

    slip.bytes[0] = note ? 2 : 1;
    slip.length = 1;
    put_string(&slip, "amplitude");
    put_string(&slip, amplitude);
    if (note) {
        put_string(&slip, "note");
        put_string(&slip, note);
    }
    answer = wallathi_add_by_clock(store, sizeof store, state, time, slip.bytes, slip.length, &ms, &seq);
    if (answer == WALLATHI_OK)
        printf("logged %u-%u\n", (unsigned)ms, (unsigned)seq);
    else
        printf("not logged: %s\n", word(answer));
}

static void show_field(uint64_t ms, uint64_t seq, const char *field)
{
    uint8_t value[LONGEST];
    uint64_t length;
    uint32_t answer =
        wallathi_field(store, sizeof store, state, ms, seq, (const uint8_t *)field, strlen(field), value, sizeof value, &length);

    printf("    %-10s", field);
    if (answer == WALLATHI_OK)
        printf("\"%.*s\"\n", (int)length, (const char *)value);
    else
        printf("%s\n", word(answer));
}

/* All messages in order. */
static void list(void)
{
    uint64_t ms = 0, seq = 0;

    while (wallathi_next(store, sizeof store, state, ms, seq, &ms, &seq) == WALLATHI_OK) {
        printf("%u-%u\n", (unsigned)ms, (unsigned)seq);
        show_field(ms, seq, "amplitude");
        show_field(ms, seq, "note");
        seq++;
    }
}

/* A channel in exact numbers, over all messages. */
static void report(const char *field)
{
    uint64_t lacking, other, integers;
    int64_t sum, smallest, largest;
    uint32_t answer = wallathi_report(store, sizeof store, state, (const uint8_t *)field, strlen(field), 0, 0, UINT64_MAX, UINT64_MAX,
                                      &lacking, &other, &integers, &sum, &smallest, &largest);

    if (answer != WALLATHI_OK && answer != WALLATHI_NO_INTEGERS) {
        printf("no report: %s\n", word(answer));
        return;
    }
    printf("%s: lacking %u, other %u, integers %u", field, (unsigned)lacking, (unsigned)other, (unsigned)integers);
    if (answer == WALLATHI_OK)
        printf(": sum %d, smallest %d, largest %d", (int)sum, (int)smallest, (int)largest);
    printf("\n");
}

/* The lines of a reply, a space between them. */
static void show_reply(uint64_t length)
{
    uint64_t i;

    printf("reply:");
    for (i = 0; i + 1 < length; i++) {
        if (i == 0 || (reply[i - 1] == '\r' && reply[i] == '\n'))
            printf(" ");
        if (reply[i] != '\r' && reply[i] != '\n')
            printf("%c", reply[i]);
    }
    printf("\n");
}

/* What a client is handed of the readings from a time on, and what it finds there. */
static void hand_on(uint64_t from)
{
    uint8_t slip[WALLATHI_LONGEST_SLIP];
    uint64_t length, kind, messages, place, ms, seq, slip_length;
    uint32_t answer =
        wallathi_range_reply(store, sizeof store, state, from, 0, UINT64_MAX, UINT64_MAX, reply, sizeof reply, &length);

    if (answer != WALLATHI_OK && wallathi_error_reply(answer, reply, sizeof reply, &length) != WALLATHI_OK)
        return;
    show_reply(length);
    if (wallathi_read_reply(reply, (size_t)length, &kind, &messages) != WALLATHI_OK || kind != WALLATHI_RANGE_REPLY)
        return;
    for (place = 0; place < messages; place++)
        if (wallathi_reply_message(reply, (size_t)length, place, slip, sizeof slip, &ms, &seq, &slip_length) == WALLATHI_OK)
            printf("    %u-%u, pairs: %u\n", (unsigned)ms, (unsigned)seq, slip[0]);
}

/* A worker of the group takes the next reading. */
static void take(const char *worker, uint64_t now)
{
    uint64_t ms, seq;
    uint32_t answer = wallathi_group_read(store, sizeof store, state, (const uint8_t *)"picks", 5, (const uint8_t *)worker,
                                          strlen(worker), now, &ms, &seq);
    if (answer == WALLATHI_OK)
        printf("%s takes %u-%u\n", worker, (unsigned)ms, (unsigned)seq);
    else
        printf("%s takes nothing: %s\n", worker, word(answer));
}

static void show_pending(const char *worker)
{
    uint64_t ms = 0, seq = 0, time, count, lives;

    printf("%s has\n", worker);
    while (wallathi_next_pending(store, sizeof store, state, (const uint8_t *)"picks", 5, (const uint8_t *)worker, strlen(worker), ms,
                                 seq, &ms, &seq, &time, &count, &lives)
           == WALLATHI_OK)
        printf("    %u-%u since %u, deliveries: %u%s\n", (unsigned)ms, (unsigned)seq, (unsigned)time, (unsigned)count,
               lives ? "" : ", deleted");
}

/* A worker takes over what another has had for at least 100 ms. */
static void take_over(const char *worker, uint64_t ms, uint64_t seq, uint64_t now)
{
    uint32_t answer = wallathi_claim(store, sizeof store, state, (const uint8_t *)"picks", 5, (const uint8_t *)worker, strlen(worker),
                                     100, ms, seq, now);
    printf("%s claims %u-%u: %s\n", worker, (unsigned)ms, (unsigned)seq, answer == WALLATHI_OK ? "moved" : word(answer));
}

/* Moves all to the other store by a snapshot. */
static void move_by_snapshot(void)
{
    uint64_t length, ms, seq;
    uint32_t answer = wallathi_save(store, sizeof store, state, snapshot, sizeof snapshot, &length);

    if (answer != WALLATHI_OK) {
        printf("not saved: %s\n", word(answer));
        return;
    }
    printf("saved %u bytes\n", (unsigned)length);
    printf("load: %s\n", word(wallathi_load(other_store, sizeof other_store, other_state, snapshot, (size_t)length)));
    answer = wallathi_next(other_store, sizeof other_store, other_state, 0, 0, &ms, &seq);
    printf("the first there is %u-%u\n", (unsigned)ms, (unsigned)seq);
    snapshot[0] ^= 1;
    printf("load: %s\n", word(wallathi_load(other_store, sizeof other_store, other_state, snapshot, (size_t)length)));
}

int main(void)
{
    uint64_t count;

    if (wallathi_state_bytes() != sizeof state || wallathi_set_up(store, sizeof store, state) != WALLATHI_OK)
        return 1;
    reading(1000, "12", NULL);
    reading(1000, "-7", NULL);
    reading(1250, "431", "clipped");
    reading(900, "15", "the clock went back");
    list();
    report("amplitude");
    report("note");
    hand_on(1250);
    hand_on(1251);
    printf("group: %s\n", word(wallathi_create_group(store, sizeof store, state, (const uint8_t *)"picks", 5, 0, 0)));
    take("Mere", 2000);
    take("Tane", 2010);
    take("Mere", 2020);
    show_pending("Mere");
    take_over("Tane", 1000, 0, 2050);
    take_over("Tane", 1000, 0, 2100);
    if (wallathi_acknowledge(store, sizeof store, state, (const uint8_t *)"picks", 5, 1000, 1, &count) == WALLATHI_OK)
        printf("acknowledged %u\n", (unsigned)count);
    if (wallathi_trim(store, sizeof store, state, 2, &count) == WALLATHI_OK)
        printf("trimmed %u\n", (unsigned)count);
    show_pending("Tane");
    take("Mere", 2200);
    take("Mere", 2300);
    move_by_snapshot();
    store[0] ^= 1;
    reading(3000, "16", NULL);
    hand_on(0);
    return 0;
}
