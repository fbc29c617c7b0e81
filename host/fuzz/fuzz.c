/* Any bytes as commands, arguments, store, state, file and reply: no call may crash, and a call that does not answer 0 may change nothing, but
 * for four numbers of a report over no integer. What is written as a reply reads back.
 *
 * With clang: clang -fsanitize=fuzzer -Iinclude fuzz/fuzz.c fuzz/stores.c libwallathi.a. The library has no counters of its own, so what it answers and
 * what the store is like afterwards is counted here, where libFuzzer looks (`struct trace`): an input that brings something new is kept.
 * With another compiler -DFUZZ_RANDOM adds a main that feeds random bytes and changed seeds: `fuzz ROUNDS SEED..`. At the end both write
 * which answers came to standard error. start.h has the start of an input; seeds.c makes inputs to begin with. */
#include <stdint.h>
#include <stdio.h>
#include <stdlib.h>
#include <string.h>

#include "start.h"
#include "wallathi.h"

enum { OUT_BYTES = 40000, VALUES = 5, READ_REPLY = 21, LOAD = 24, COMMANDS, ANSWERS = 64, SIZES = 65 };

/* Of a group's region in the state (docs/FORMAT.md). */
enum { REGIONS_AT = 6674, REGION_BYTES = 7220, CONSUMERS_AT = 33, PENDING_AT = 306, GROUPS = 8 };

/* All that a call may change. */
struct lent {
    uint8_t store[STORE_BYTES], state[WALLATHI_STATE_BYTES], out[OUT_BYTES];
    uint64_t values[VALUES];
    int64_t sum, smallest, largest;
};

static struct lent now, before;
static size_t store_length;

/* What came up. */
struct trace {
    uint8_t answered[COMMANDS][ANSWERS], after[ANSWERS][ANSWERS]; /* by command, and by the answer before */
    uint8_t number[COMMANDS][SIZES];                              /* how many bits the first number has */
    uint8_t node_size[SIZES], elements[SIZES];                    /* of each slot: bytes in 256, elements in bits */
    uint8_t groups[GROUPS + 1], consumers[SIZES], pending[SIZES]; /* pending in 16 */
};

static struct trace trace __attribute__((section("__libfuzzer_extra_counters"), used));

/* What was ever answered, by command. */
static uint8_t ever[COMMANDS][ANSWERS];

static unsigned bits(uint64_t n)
{
    unsigned bits = 0;
    for (; n != 0; n /= 2) {
        bits++;
    }
    return bits;
}

/* What is left of the input; zeros after its end. */
struct input {
    const uint8_t *at;
    size_t left;
};

static uint64_t number(struct input *in, size_t bytes)
{
    uint64_t n = 0;
    while (bytes-- != 0) {
        n = n * 256 + (in->left != 0 ? *in->at : 0);
        in->at += in->left != 0;
        in->left -= in->left != 0;
    }
    return n;
}

/* A half of an ID: small, near those in use, or any. */
static uint64_t half(struct input *in)
{
    uint64_t kind = number(in, 1);
    return kind % 8 > 3 ? kind / 8 % 4 : number(in, kind % 8 == 0 ? 8 : 1);
}

/* Up to so many bytes of the input, where they lie. */
static const uint8_t *slice(struct input *in, size_t most, size_t *length)
{
    const uint8_t *start;
    *length = (size_t)number(in, 2) % (most + 1);
    *length = *length < in->left ? *length : in->left;
    start = in->at;
    in->at += *length;
    in->left -= *length;
    return start;
}

/* A slip of one short value, so that adds are accepted often, of up to five longer ones, or bytes of the input as they are. */
static const uint8_t *slip(struct input *in, size_t *length)
{
    static uint8_t made[1 + 5 * (5 + WALLATHI_LONGEST_STRING)];
    uint64_t kind = number(in, 1);
    size_t pair, value = 1;
    if (kind % 8 == 0) {
        return slice(in, 300, length);
    }
    made[0] = 1;
    *length = 1;
    if (kind % 8 == 1) {
        made[0] = (uint8_t)(1 + number(in, 1) % 5);
        value = (size_t)number(in, 2) % (WALLATHI_LONGEST_STRING + 1);
    }
    for (pair = 0; pair < made[0]; pair++) {
        uint8_t *at = made + *length;
        at[0] = 1;
        at[1] = 0;
        at[2] = (uint8_t)('a' + kind / 8 % 3 + pair);
        at[3] = (uint8_t)(value % 256);
        at[4] = (uint8_t)(value / 256);
        memset(at + 5, (int)(kind / 32 + '0'), value);
        *length += 5 + value;
    }
    return made;
}

/* Names of one letter, the first three most often, or any bytes. */
static const uint8_t *name(struct input *in, size_t *length)
{
    static const uint8_t letters[] = "abcdefghijklmnopqrst";
    uint64_t kind = number(in, 1);
    if (kind % 16 == 0) {
        return slice(in, WALLATHI_LONGEST_NAME + 4, length);
    }
    *length = 1;
    return letters + (kind % 2 == 0 ? kind / 16 % 3 : number(in, 1) % 20);
}

static uint8_t last_reply[OUT_BYTES];
static size_t last_length;

/* Keeps what a call has written as the last reply. */
static uint32_t replied(uint32_t code)
{
    if (code == 0) {
        last_length = (size_t)now.values[0];
        memcpy(last_reply, now.out, last_length);
    }
    return code;
}

/* The last reply, mostly changed by the input, or bytes of the input; read, or one of its messages. */
static uint32_t read_reply(struct input *in, unsigned command, size_t room)
{
    static uint8_t reply[OUT_BYTES];
    const uint8_t *at = reply;
    size_t length = last_length, changes = (size_t)number(in, 1) % 5;
    uint64_t *v = now.values;
    uint32_t code;
    int whole = changes == 0 && length != 0;
    memcpy(reply, last_reply, length);
    if (changes == 4) {
        at = slice(in, 3000, &length);
    } else {
        for (; changes != 0 && length != 0; changes--) {
            reply[number(in, 2) % length] = (uint8_t)number(in, 1);
        }
    }
    if (command != READ_REPLY) {
        return wallathi_reply_message(at, length, half(in), now.out, room, v, v + 1, v + 2);
    }
    code = wallathi_read_reply(at, length, v, v + 1);
    if (whole && code != 0) {
        fprintf(stderr, "fuzz: a reply does not read back\n");
        abort();
    }
    return code;
}

static uint32_t call(struct input *in, unsigned command)
{
    size_t m, n, room = (size_t)number(in, 2) % (OUT_BYTES + 1), size = store_length;
    const uint8_t *a, *b;
    uint64_t *v = now.values, x, y, last_x, last_y;
    switch (command) {
    case 0:
        return number(in, 1) % 8 == 0 ? wallathi_set_up(now.store, size, now.state) : 0;
    case 1:
    case 2:
        a = slip(in, &m);
        return wallathi_add_by_clock(now.store, size, now.state, half(in), a, m, v, v + 1);
    case 3:
        a = slip(in, &m), x = half(in), y = half(in);
        return wallathi_add(now.store, size, now.state, x, y, a, m, v, v + 1);
    case 4:
        x = half(in), y = half(in);
        return wallathi_delete(now.store, size, now.state, x, y, v);
    case 5:
        return wallathi_trim(now.store, size, now.state, half(in), v);
    case 6:
        x = half(in), y = half(in);
        return wallathi_next(now.store, size, now.state, x, y, v, v + 1);
    case 7:
        x = half(in), y = half(in);
        return wallathi_read(now.store, size, now.state, x, y, now.out, room, v);
    case 8:
        a = name(in, &m), x = half(in), y = half(in);
        return wallathi_field(now.store, size, now.state, x, y, a, m, now.out, room, v);
    case 9:
        a = name(in, &m), x = half(in), y = half(in);
        return wallathi_create_group(now.store, size, now.state, a, m, x, y);
    case 10:
        a = name(in, &m);
        return number(in, 1) % 4 == 0 ? wallathi_destroy_group(now.store, size, now.state, a, m) : 0;
    case 11:
        a = name(in, &m), b = name(in, &n);
        return wallathi_group_read(now.store, size, now.state, a, m, b, n, half(in), v, v + 1);
    case 12:
        a = name(in, &m), x = half(in), y = half(in);
        return wallathi_acknowledge(now.store, size, now.state, a, m, x, y, v);
    case 13:
        a = name(in, &m), b = name(in, &n), x = half(in), y = half(in);
        return wallathi_claim(now.store, size, now.state, a, m, b, n, number(in, 1), x, y, half(in));
    case 14:
        a = name(in, &m), b = name(in, &n), x = half(in), y = half(in);
        return wallathi_next_pending(now.store, size, now.state, a, m, b, n, x, y, v, v + 1, v + 2, v + 3, v + 4);
    case 15:
        a = name(in, &m), b = name(in, &n);
        return wallathi_drop_consumer(now.store, size, now.state, a, m, b, n, v);
    case 16:
        a = name(in, &m), b = name(in, &n), x = half(in), y = half(in) + number(in, 1) % 2;
        return wallathi_group_read_many(now.store, size, now.state, a, m, b, n, x, y, now.out, room, v);
    case 17:
        a = name(in, &m), x = half(in), y = half(in), last_x = half(in), last_y = half(in);
        return wallathi_report(now.store, size, now.state, a, m, x, y, number(in, 1) % 2 == 0 ? UINT64_MAX : last_x, last_y, v, v + 1,
                               v + 2, &now.sum, &now.smallest, &now.largest);
    case 18:
        x = half(in), y = half(in), last_x = half(in), last_y = half(in);
        return replied(wallathi_range_reply(now.store, size, now.state, x, y, number(in, 1) % 2 == 0 ? UINT64_MAX : last_x, last_y, now.out,
                                            room, v));
    case 19:
        return replied(wallathi_integer_reply(half(in), now.out, room, v));
    case 20:
        return replied(wallathi_error_reply(half(in), now.out, room, v));
    case READ_REPLY:
    case 22:
        return read_reply(in, command, room);
    default:
        return wallathi_save(now.store, size, now.state, now.out, room, v);
    }
}

/* The last save, changed by the input, or bytes of the input; loaded. */
static uint32_t load(struct input *in)
{
    static uint8_t file[OUT_BYTES];
    size_t length = (size_t)(now.values[0] % (OUT_BYTES + 1)), changes;
    if (number(in, 1) % 8 == 0) {
        const uint8_t *any = slice(in, 3000, &length);
        return wallathi_load(now.store, store_length, now.state, any, length);
    }
    memcpy(file, now.out, length);
    for (changes = (size_t)number(in, 1) % 3; changes != 0 && length != 0; changes--) {
        file[number(in, 2) % length] ^= (uint8_t)number(in, 1);
    }
    return wallathi_load(now.store, store_length, now.state, file, length);
}

/* The byte at a place of store and state. */
static uint8_t *lent_byte(size_t place)
{
    return place < STORE_BYTES ? now.store + place : now.state + (place - STORE_BYTES);
}

/* One byte of store or state, which may make them no image any more. */
static void damage(struct input *in)
{
    uint8_t *at = number(in, 1) % 2 == 0 ? now.store + number(in, 2) % STORE_BYTES : now.state + number(in, 2) % sizeof now.state;
    *at ^= (uint8_t)number(in, 1);
}

/* Bytes of the input as store and state, with zeros between them. */
static void take_bytes(struct input *in)
{
    size_t place = 0;
    memset(&now, 0, sizeof now);
    while (in->left != 0) {
        size_t gap = (size_t)number(in, 2), length = (size_t)number(in, 1);
        if (gap == NO_GAP) {
            return;
        }
        for (place += gap; length != 0 && place < LENT_BYTES; length--, place++) {
            *lent_byte(place) = (uint8_t)number(in, 1);
        }
    }
}

/* One of the stores, which are made once. */
static void take_store(unsigned number)
{
    static uint8_t stores[STORES][STORE_BYTES], states[STORES][WALLATHI_STATE_BYTES];
    static uint8_t made[STORES];
    if (!made[number]) {
        make_store(number, stores[number], STORE_BYTES, states[number]);
        made[number] = 1;
    }
    memcpy(now.store, stores[number], sizeof now.store);
    memcpy(now.state, states[number], sizeof now.state);
}

static void start(struct input *in)
{
    static const size_t lengths[] = {STORE_BYTES,         STORE_BYTES,
                                     STORE_BYTES,         STORE_BYTES,
                                     WALLATHI_SLOT_BYTES, 2 * WALLATHI_SLOT_BYTES + 1,
                                     0,                   WALLATHI_SLOT_BYTES - 1};
    size_t length;
    const uint8_t *file;
    memset(&now, 0, sizeof now);
    last_length = 0;
    store_length = lengths[number(in, 1) % 8];
    /* The whole store is set up, so that a good state stands beside a store without a slot too. */
    wallathi_set_up(now.store, sizeof now.store, now.state);
    switch (number(in, 1) % STARTS) {
    case STARTS_WITH_FILE:
        file = slice(in, in->left, &length);
        ever[LOAD][wallathi_load(now.store, store_length, now.state, file, length) % ANSWERS] = 1;
        break;
    case STARTS_WITH_BYTES:
        take_bytes(in);
        break;
    case STARTS_WITH_STORE:
        take_store((unsigned)number(in, 1) % STORES);
        break;
    default:
        break;
    }
}

/* What the store is like. */
static void trace_store(void)
{
    unsigned groups = 0, place;
    for (place = 0; place < STORE_SLOTS; place++) {
        const uint8_t *node = now.store + place * WALLATHI_SLOT_BYTES;
        trace.node_size[(node[0] + 256u * node[1]) / 256 % SIZES] = 1;
        trace.elements[bits(node[4] + 256u * node[5])] = 1;
    }
    for (place = 0; place < GROUPS; place++) {
        const uint8_t *region = now.state + REGIONS_AT + place * REGION_BYTES;
        groups += region[0] != 0;
        trace.consumers[region[CONSUMERS_AT] % SIZES] = 1;
        trace.pending[(region[PENDING_AT] + 256u * region[PENDING_AT + 1]) / 16 % SIZES] = 1;
    }
    trace.groups[groups] = 1;
}

/* Whether a call that gave this answer has changed what it may not change. */
static int changed(uint32_t code)
{
    if (code == WALLATHI_NO_INTEGERS) {
        memcpy(before.values, now.values, 2 * sizeof now.values[0]);
        before.values[2] = 0;
        before.sum = 0;
    }
    return code != 0 && memcmp(&now, &before, sizeof now) != 0;
}

int LLVMFuzzerTestOneInput(const uint8_t *data, size_t size)
{
    struct input in = {data, size};
    uint32_t last = 0;
    start(&in);
    while (in.left != 0) {
        uint64_t kind = number(&in, 1);
        unsigned command;
        uint32_t code;
        if (kind % 64 == 0) {
            damage(&in);
            continue;
        }
        memcpy(&before, &now, sizeof before);
        command = kind % 16 == 1 ? LOAD : (unsigned)number(&in, 1) % LOAD;
        code = command == LOAD ? load(&in) : call(&in, command);
        if (changed(code)) {
            fprintf(stderr, "fuzz: a call answered %lu and changed something\n", (unsigned long)code);
            abort();
        }
        ever[command][code % ANSWERS] = 1;
        trace.answered[command][code % ANSWERS] = 1;
        trace.after[last % ANSWERS][code % ANSWERS] = 1;
        trace.number[command][bits(code == 0 ? now.values[0] : 0)] = 1;
        last = code;
    }
    trace_store();
    return 0;
}

/* Which answers came, of any command, and how many of which command. */
static void report(void)
{
    unsigned answer, command, pairs = 0;
    fprintf(stderr, "fuzz: answers");
    for (answer = 0; answer < ANSWERS; answer++) {
        unsigned commands = 0;
        for (command = 0; command < COMMANDS; command++) {
            commands += ever[command][answer];
        }
        pairs += commands;
        if (commands != 0) {
            fprintf(stderr, " %u", answer);
        }
    }
    fprintf(stderr, ", %u by command\n", pairs);
}

int LLVMFuzzerInitialize(int *argc, char ***argv)
{
    (void)argc;
    (void)argv;
    return atexit(report);
}

#ifdef FUZZ_RANDOM
enum { MOST_INPUT = 32768, MOST_SEEDS = 64 };

static uint8_t seeds[MOST_SEEDS][MOST_INPUT];
static size_t seed_length[MOST_SEEDS], seed_count;

static uint64_t next_random(void)
{
    static uint64_t state = 88172645463325252u;
    state ^= state << 13;
    state ^= state >> 7;
    state ^= state << 17;
    return state;
}

static int read_seed(const char *path)
{
    FILE *file = fopen(path, "rb");
    if (file == NULL || seed_count == MOST_SEEDS) {
        fprintf(stderr, "fuzz: cannot take the seed %s\n", path);
        return 0;
    }
    seed_length[seed_count] = fread(seeds[seed_count], 1, MOST_INPUT, file);
    seed_count++;
    return fclose(file) == 0;
}

/* A seed with a few bytes changed and random ones after it; every fourth time random bytes alone. */
static size_t make_input(uint8_t *data)
{
    size_t size = 0, changes, end, i;
    if (seed_count != 0 && next_random() % 4 != 0) {
        size_t seed = (size_t)(next_random() % seed_count);
        size = seed_length[seed];
        memcpy(data, seeds[seed], size);
        for (changes = (size_t)(next_random() % 4); changes != 0; changes--) {
            data[next_random() % size] = (uint8_t)next_random();
        }
    }
    end = size + (size_t)(next_random() % 1500);
    end = end < MOST_INPUT ? end : MOST_INPUT;
    for (i = size; i < end; i++) {
        data[i] = (uint8_t)next_random();
    }
    return end;
}

int main(int argc, char **argv)
{
    static uint8_t data[MOST_INPUT];
    long rounds = argc > 1 ? strtol(argv[1], NULL, 10) : 1000, round;
    int i;
    LLVMFuzzerInitialize(&argc, &argv);
    for (i = 2; i < argc; i++) {
        if (!read_seed(argv[i])) {
            return 1;
        }
        LLVMFuzzerTestOneInput(seeds[i - 2], seed_length[i - 2]);
    }
    for (round = 0; round < rounds; round++) {
        size_t size = make_input(data);
        LLVMFuzzerTestOneInput(data, size);
    }
    printf("%ld inputs: no crash, and nothing changed that an answer says is kept\n", rounds);
    return 0;
}
#endif
