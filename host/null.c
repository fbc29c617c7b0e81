/*
 * NULL with length 0, in place of each slice of each command and of any several of them: the answer, the numbers and every byte are those
 * of an empty slice that stands elsewhere.
 */
#include <stdio.h>
#include <string.h>

#include "wallathi.h"

enum { STORE = 1, FIRST = 2, SECOND = 4, OUTPUT = 8, ALL = 15, READ_REPLY = 22, LOAD = 25, COMMANDS };

struct slice {
    uint8_t *at;
    size_t length;
};

/* All that a call may change. */
struct lent {
    uint8_t store[2 * WALLATHI_SLOT_BYTES], state[WALLATHI_STATE_BYTES], output[8192];
    uint64_t values[5];
    int64_t numbers[3];
};

static struct lent fresh, used, with_null, with_empty;
static uint8_t slip[] = {2, 1, 0, 'a', 2, 0, '2', '1', 0, 0, 0, 0};
static uint8_t name[] = "group", file[8192], reply[256], elsewhere[1];
static uint64_t file_length, reply_length;

/* Which slices a command takes. */
static const unsigned taken[COMMANDS] = {
    STORE,                    /* set up */
    STORE | FIRST,            /* add */
    STORE | FIRST,            /* add by clock */
    STORE,                    /* delete */
    STORE,                    /* trim */
    STORE,                    /* next */
    STORE | OUTPUT,           /* read */
    STORE | FIRST | OUTPUT,   /* field */
    STORE | FIRST,            /* create group */
    STORE | FIRST,            /* destroy group */
    STORE | FIRST | SECOND,   /* group read */
    STORE | FIRST,            /* acknowledge */
    STORE | FIRST | SECOND,   /* claim */
    STORE | FIRST | SECOND,   /* next pending */
    STORE | FIRST | SECOND,   /* drop consumer */
    STORE | OUTPUT,           /* save */
    ALL,                      /* group read of a batch that the output holds */
    ALL,                      /* the same of one message */
    STORE | FIRST,            /* report */
    STORE | OUTPUT,           /* range reply */
    OUTPUT,                   /* integer reply */
    OUTPUT,                   /* error reply */
    FIRST,                    /* read a reply */
    FIRST | OUTPUT,           /* message of a reply */
    FIRST | OUTPUT,           /* the same past its end */
    STORE | FIRST,            /* load */
};

/*
 * The command with these slices: the store, a slip, name, group, reply or file, a consumer, the output. Its numbers go to v and, with a
 * sign, w.
 */
static uint32_t call(int command, uint8_t *state, struct slice s, struct slice f, struct slice c, struct slice o, uint64_t *v,
                     int64_t *w)
{
    switch (command) {
    case 0: return wallathi_set_up(s.at, s.length, state);
    case 1: return wallathi_add(s.at, s.length, state, 9, 0, f.at, f.length, v, v + 1);
    case 2: return wallathi_add_by_clock(s.at, s.length, state, 9, f.at, f.length, v, v + 1);
    case 3: return wallathi_delete(s.at, s.length, state, 5, 0, v);
    case 4: return wallathi_trim(s.at, s.length, state, 0, v);
    case 5: return wallathi_next(s.at, s.length, state, 0, 0, v, v + 1);
    case 6: return wallathi_read(s.at, s.length, state, 5, 0, o.at, o.length, v);
    case 7: return wallathi_field(s.at, s.length, state, 5, 0, f.at, f.length, o.at, o.length, v);
    case 8: return wallathi_create_group(s.at, s.length, state, f.at, f.length, 0, 0);
    case 9: return wallathi_destroy_group(s.at, s.length, state, f.at, f.length);
    case 10: return wallathi_group_read(s.at, s.length, state, f.at, f.length, c.at, c.length, 1, v, v + 1);
    case 11: return wallathi_acknowledge(s.at, s.length, state, f.at, f.length, 5, 0, v);
    case 12: return wallathi_claim(s.at, s.length, state, f.at, f.length, c.at, c.length, 0, 5, 0, 1);
    case 13:
        return wallathi_next_pending(s.at, s.length, state, f.at, f.length, c.at, c.length, 0, 0, v, v + 1, v + 2, v + 3, v + 4);
    case 14: return wallathi_drop_consumer(s.at, s.length, state, f.at, f.length, c.at, c.length, v);
    case 15: return wallathi_save(s.at, s.length, state, o.at, o.length, v);
    case 16:
    case 17:
        return wallathi_group_read_many(s.at, s.length, state, f.at, f.length, c.at, c.length, 1, command == 16 ? o.length / 32 : 1, o.at,
                                        o.length, v);
    case 18:
        return wallathi_report(s.at, s.length, state, f.at, f.length, 0, 0, 9, 9, v, v + 1, v + 2, w, w + 1, w + 2);
    case 19: return wallathi_range_reply(s.at, s.length, state, 0, 0, 9, 9, o.at, o.length, v);
    case 20: return wallathi_integer_reply(12, o.at, o.length, v);
    case 21: return wallathi_error_reply(12, o.at, o.length, v);
    case READ_REPLY: return wallathi_read_reply(f.at, f.length, v, v + 1);
    case 23:
    case 24: return wallathi_reply_message(f.at, f.length, command == 23 ? 0 : 1, o.at, o.length, v, v + 1, v + 2);
    default: return wallathi_load(s.at, s.length, state, f.at, f.length);
    }
}

/* The slice, or an empty one at this place where the command is tried without it. */
static struct slice either(unsigned kind, unsigned without, uint8_t *empty, uint8_t *at, size_t length)
{
    struct slice slice = {at, length};
    if (without & kind) {
        slice.at = empty;
        slice.length = 0;
    }
    return slice;
}

/* The command on these bytes, some of its slices empty and at this place. */
static uint32_t call_without(int command, unsigned without, uint8_t *empty, struct lent *lent)
{
    struct slice first = {name, sizeof name - 1};
    if (command == 1 || command == 2) {
        first.at = slip;
        first.length = sizeof slip;
    } else if (command == 7) {
        first.length = 0;
    } else if (command == LOAD) {
        first.at = file;
        first.length = (size_t)file_length;
    } else if (command >= READ_REPLY) {
        first.at = reply;
        first.length = (size_t)reply_length;
    }
    return call(command, lent->state, either(STORE, without, empty, lent->store, sizeof lent->store),
                either(FIRST, without, empty, first.at, first.length), either(SECOND, without, empty, name, sizeof name - 1),
                either(OUTPUT, without, empty, lent->output, sizeof lent->output), lent->values, lent->numbers);
}

/* Whether NULL is as good as another place; counts the calls that are answered all the same. */
static int same(int command, unsigned without, const struct lent *start, unsigned *answered)
{
    uint32_t null, empty;

    memcpy(&with_null, start, sizeof with_null);
    memcpy(&with_empty, start, sizeof with_empty);
    null = call_without(command, without, NULL, &with_null);
    empty = call_without(command, without, elsewhere, &with_empty);
    *answered += null == WALLATHI_OK || null > WALLATHI_LAST_REFUSAL;
    if (null == empty && memcmp(&with_null, &with_empty, sizeof with_null) == 0)
        return 1;
    printf("command %d without %u: NULL gives %u, an empty slice %u\n", command, without, (unsigned)null, (unsigned)empty);
    return 0;
}

int main(void)
{
    unsigned calls = 0, answered = 0;
    uint64_t ms, seq;
    int command, ok;

    ok = wallathi_set_up(fresh.store, sizeof fresh.store, fresh.state) == WALLATHI_OK;
    memcpy(&used, &fresh, sizeof used);
    ok &= wallathi_add(used.store, sizeof used.store, used.state, 5, 0, slip, sizeof slip, &ms, &seq) == WALLATHI_OK;
    ok &= wallathi_create_group(used.store, sizeof used.store, used.state, name, sizeof name - 1, 0, 0) == WALLATHI_OK;
    ok &= wallathi_save(used.store, sizeof used.store, used.state, file, sizeof file, &file_length) == WALLATHI_OK;
    ok &= wallathi_range_reply(used.store, sizeof used.store, used.state, 0, 0, 9, 9, reply, sizeof reply, &reply_length) == WALLATHI_OK;
    for (command = 0; command < COMMANDS; command++) {
        unsigned without;
        for (without = 1; without <= ALL; without++) {
            if ((without & taken[command]) != without)
                continue;
            ok &= same(command, without, &fresh, &answered) & same(command, without, &used, &answered);
            calls += 2;
        }
    }
    printf("%u calls with NULL, %u of them answered\n", calls, answered);
    return !(ok && answered > 0);
}
