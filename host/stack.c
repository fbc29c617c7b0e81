/*
 * How much stack the commands need: each is run on a stack of its own that was filled with a pattern. On two stores of 63 nodes: in the one
 * the nodes are full, and their keys differ in the last byte of ms; in the other each has one message, and their keys are those that nest an
 * index of 64 keys deepest. And on states whose index is one long chain of all its places, which is refused. Prints the most bytes that
 * lost the pattern; fails where that is more than the header says.
 */
#define _XOPEN_SOURCE 700
#include <stdio.h>
#include <string.h>
#include <ucontext.h>

#include "wallathi.h"

#define PATTERN 0xB7
#define STACK (1 << 20)
/* From this one on they need no store. */
#define REPLIES 19
#define COMMANDS 24
#define KEY_BYTES 16

/* Of the index in the state (docs/FORMAT.md). */
#define PLACES 256
#define LABEL_LENGTHS_AT 18
#define KEY_FLAGS_AT 274
#define CHILDREN_AT 530
#define SIBLINGS_AT 1042

struct id {
    uint64_t ms, seq;
};

static uint8_t store[64 * WALLATHI_SLOT_BYTES], state[WALLATHI_STATE_BYTES];
static uint8_t copy[64 * WALLATHI_SLOT_BYTES], copied_state[WALLATHI_STATE_BYTES];
static uint8_t output[WALLATHI_LONGEST_SNAPSHOT], file[WALLATHI_LONGEST_SNAPSHOT], reply[WALLATHI_LONGEST_SNAPSHOT];
static uint8_t stack[STACK];
static uint8_t slip[1 + 3 * (4 + 1 + 700) + 4 + 1 + 1];
static size_t slip_length;
static struct id new_id, old_id;
static uint64_t file_length, reply_length, a, b, c, d, e;
static int64_t sum, smallest, largest;
static int command;
static uint32_t answer;
static ucontext_t here, there;

static const uint8_t *const group = (const uint8_t *)"group", *const consumer = (const uint8_t *)"consumer";
static const uint8_t *const new_group = (const uint8_t *)"grouf";

static void run(void)
{
    const size_t n = sizeof copy;
    const struct id old = old_id;
    switch (command) {
    case 0: answer = wallathi_set_up(copy, n, copied_state); break;
    case 1: answer = wallathi_add(copy, n, copied_state, new_id.ms, new_id.seq, slip, slip_length, &a, &b); break;
    case 2: answer = wallathi_add_by_clock(copy, n, copied_state, UINT64_MAX, slip, slip_length, &a, &b); break;
    case 3: answer = wallathi_delete(copy, n, copied_state, old.ms, old.seq, &a); break;
    case 4: answer = wallathi_trim(copy, n, copied_state, 62, &a); break;
    case 5: answer = wallathi_next(copy, n, copied_state, old.ms, old.seq, &a, &b); break;
    case 6: answer = wallathi_read(copy, n, copied_state, old.ms, old.seq, output, sizeof output, &a); break;
    case 7: answer = wallathi_field(copy, n, copied_state, old.ms, old.seq, (const uint8_t *)"c", 1, output, sizeof output, &a); break;
    case 8: answer = wallathi_destroy_group(copy, n, copied_state, group, 5); break;
    case 9: answer = wallathi_create_group(copy, n, copied_state, consumer, 8, 0, 0); break;
    case 10: answer = wallathi_acknowledge(copy, n, copied_state, group, 5, old.ms, old.seq, &a); break;
    case 11: answer = wallathi_group_read(copy, n, copied_state, group, 5, consumer, 8, 7, &a, &b); break;
    case 12: answer = wallathi_claim(copy, n, copied_state, group, 5, consumer, 8, 0, old.ms, old.seq, 9); break;
    case 13: answer = wallathi_next_pending(copy, n, copied_state, group, 5, consumer, 8, 0, 0, &a, &b, &c, &d, &e); break;
    case 14: answer = wallathi_drop_consumer(copy, n, copied_state, group, 5, consumer, 8, &a); break;
    case 15: answer = wallathi_save(copy, n, copied_state, output, sizeof output, &a); break;
    case 16: answer = wallathi_group_read_many(copy, n, copied_state, new_group, 5, consumer, 8, 7, 256, output, sizeof output, &a); break;
    case 17:
        answer = wallathi_report(copy, n, copied_state, (const uint8_t *)"d", 1, 0, 0, UINT64_MAX, UINT64_MAX, &a, &b, &c, &sum,
                                 &smallest, &largest);
        break;
    case 18:
        answer = wallathi_range_reply(copy, n, copied_state, 0, 0, UINT64_MAX, UINT64_MAX, output, sizeof output, &a);
        break;
    case REPLIES: answer = wallathi_integer_reply(6400, output, sizeof output, &a); break;
    case 20: answer = wallathi_error_reply(18, output, sizeof output, &a); break;
    case 21: answer = wallathi_read_reply(reply, (size_t)reply_length, &a, &b); break;
    case 22: answer = wallathi_reply_message(reply, (size_t)reply_length, 62, output, sizeof output, &a, &b, &c); break;
    default: answer = wallathi_load(copy, n, copied_state, file, (size_t)file_length); break;
    }
}

/* Adds a pair to the slip: a field of one letter, and a value of one byte so many times. */
static void put_pair(char field, char byte, size_t length)
{
    uint8_t *at = slip + slip_length;
    at[0] = 1;
    at[1] = 0;
    at[2] = (uint8_t)field;
    at[3] = (uint8_t)(length % 256);
    at[4] = (uint8_t)(length / 256);
    memset(at + 5, byte, length);
    slip_length += 5 + length;
    slip[0]++;
}

/* A message of three texts of this length and an integer. */
static void make_slip(size_t length)
{
    slip[0] = 0;
    slip_length = 1;
    put_pair('a', 'x', length);
    put_pair('b', 'x', length);
    put_pair('c', 'x', length);
    put_pair('d', '7', 1);
}

static void add(struct id id)
{
    wallathi_add(store, sizeof store, state, id.ms, id.seq, slip, slip_length, &a, &b);
}

/* Six groups that have been given so many messages, and one that has been given none. */
static void fill_groups(uint64_t messages)
{
    uint64_t number, read;
    for (number = 0; number < 7; number++) {
        uint8_t name[5] = "group", other[8] = "consumer";
        name[4] = (uint8_t)("pabcdef"[number]);
        wallathi_create_group(store, sizeof store, state, name, 5, 0, 0);
        for (read = 0; number < 6 && read < messages; read++) {
            other[7] = (uint8_t)('g' + read % 15);
            wallathi_group_read(store, sizeof store, state, name, 5, other, 8, 1, &a, &b);
        }
    }
}

/* Keeps the store's snapshot, and the reply of all its messages. */
static void keep(void)
{
    wallathi_save(store, sizeof store, state, file, sizeof file, &file_length);
    wallathi_range_reply(store, sizeof store, state, 0, 0, UINT64_MAX, UINT64_MAX, reply, sizeof reply, &reply_length);
}

/* Messages of which four make a node, so that the next one needs the last free slot. */
static void fill_wide(void)
{
    struct id id = {1, 0};
    make_slip(300);
    wallathi_set_up(store, sizeof store, state);
    for (; id.ms <= 63 * 4; id.ms++)
        add(id);
    fill_groups(63 * 4 - 1);
    keep();
    new_id.ms = 1 << 20;
    new_id.seq = 0;
    old_id.ms = 100;
    old_id.seq = 0;
}

/* The keys that nest deepest, by their number: up to 15 one leaves the others at each byte, and the rest differ in the last. */
static struct id deep_key(unsigned number)
{
    struct id id = {0, 0};
    unsigned byte, common = number < KEY_BYTES - 1 ? number : KEY_BYTES - 1;
    for (byte = 0; byte < KEY_BYTES; byte++) {
        uint64_t value = byte < common ? 1 : 0;
        if (byte == KEY_BYTES - 1)
            value = 1 + number - common;
        if (byte < KEY_BYTES / 2)
            id.ms = id.ms * 256 + value;
        else
            id.seq = id.seq * 256 + value;
    }
    return id;
}

/* Messages that make a node each. The snapshot has 64 of them, the store 63. */
static void fill_deep(void)
{
    unsigned number;
    make_slip(700);
    wallathi_set_up(store, sizeof store, state);
    for (number = 0; number < 64; number++)
        add(deep_key(number));
    fill_groups(62);
    keep();
    old_id = deep_key(63);
    wallathi_delete(store, sizeof store, state, old_id.ms, old_id.seq, &a);
    new_id = deep_key(64);
    old_id = deep_key(1);
}

/* An index in which each place leads to the next one: as its child, as its sibling, or as both in turn. */
static void make_chain(int children, int siblings)
{
    unsigned place;
    for (place = 0; place < PLACES; place++) {
        unsigned link = place + 1 < PLACES ? place + 2 : 0, at = place % 2 ? SIBLINGS_AT : CHILDREN_AT;
        if (!(children && siblings))
            at = children ? CHILDREN_AT : SIBLINGS_AT;
        state[LABEL_LENGTHS_AT + place] = place != 0;
        state[KEY_FLAGS_AT + place] = place != 0;
        state[at + 2 * place] = (uint8_t)(link % 256);
        state[at + 2 * place + 1] = (uint8_t)(link / 256);
    }
}

/* The bytes of stack that a command needed. */
static size_t needed(void)
{
    size_t untouched = 0;

    memcpy(copy, store, sizeof copy);
    memcpy(copied_state, state, sizeof copied_state);
    memset(stack, PATTERN, sizeof stack);
    getcontext(&there);
    there.uc_stack.ss_sp = stack;
    there.uc_stack.ss_size = sizeof stack;
    there.uc_link = &here;
    makecontext(&there, run, 0);
    swapcontext(&here, &there);
    while (untouched < sizeof stack && stack[untouched] == PATTERN)
        untouched++;
    return sizeof stack - untouched;
}

/* The most that a command needed on the store. All that judge it give this answer. */
static size_t most_needed(uint32_t expected, int each)
{
    size_t most = 0;
    for (command = 0; command < COMMANDS; command++) {
        size_t bytes = needed();
        if (each)
            printf("command %d answered %u, %u bytes\n", command, (unsigned)answer, (unsigned)bytes);
        if (answer != (command == 0 || command >= REPLIES ? WALLATHI_OK : expected)) {
            printf("command %d answered %u\n", command, (unsigned)answer);
            return STACK;
        }
        if (bytes > most)
            most = bytes;
    }
    return most;
}

static size_t larger(size_t one, size_t other)
{
    return one > other ? one : other;
}

int main(int words, char **word)
{
    int each = words > 1 && strcmp(word[1], "each") == 0, chain;
    size_t most;

    fill_wide();
    most = most_needed(WALLATHI_OK, each);
    fill_deep();
    most = larger(most, most_needed(WALLATHI_OK, each));
    for (chain = 1; chain < 4; chain++) {
        wallathi_set_up(store, sizeof store, state);
        make_chain(chain & 1, chain & 2);
        most = larger(most, most_needed(WALLATHI_DAMAGED, each));
    }
    printf("%u bytes of stack\n", (unsigned)most);
    return most > WALLATHI_STACK_BYTES;
}
