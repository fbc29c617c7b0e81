/* Stores whose replies are tried with Redis and with its client, and what they hold as wallathi_next and wallathi_read give it. */
#ifndef CASES_H
#define CASES_H

#include "wallathi.h"

enum {
    CASES = 9,
    MOST_MESSAGES = 6400,
    RANGES = 7,
    ID_TEXT_BYTES = 42,      /* 20 digits, a hyphen, 20 digits, the end */
    WIDE_SLOTS = 8,
    WIDE_MESSAGES = 100 * WIDE_SLOTS,
    REPLY_BYTES = 4 << 20, /* the store "wide" needs 2.2 MB */
    LONG_REPLY = 1 << 20,  /* replies of this length and above are not taken byte by byte */
    READ_WHOLE = 40000     /* of replies below this every message is read back, of longer ones so many fewer */
};

struct message {
    uint64_t ms, seq;
    uint8_t slip[WALLATHI_LONGEST_SLIP];
    uint64_t length;
};

struct held {
    uint8_t store[WALLATHI_MOST_SLOTS * WALLATHI_SLOT_BYTES], state[WALLATHI_STATE_BYTES];
    size_t length; /* of the store: all of its bytes, or those of fewer slots */
    struct message messages[MOST_MESSAGES];
    size_t count;
};

struct range {
    uint64_t first_ms, first_seq, last_ms, last_seq;
};

extern const char *const case_names[CASES];

/* What is being tried: the name of a case, or another word. */
extern const char *trying;

/* Ends the program where a fact does not hold, with a line that says what was tried. */
void must(int holds, const char *what);

/* Makes a store by commands and reads all that it holds. */
void make_case(unsigned number, struct held *held);

/* Reads again what the store holds, after commands. */
void read_all(struct held *held);

/* The whole, parts, single messages and nothing. */
void make_ranges(const struct held *held, struct range ranges[RANGES]);

int in_range(const struct message *message, const struct range *range);

/* How many messages are in the range. */
size_t count_in(const struct held *held, const struct range *range);

/* The reply to a range; how many bytes it has. */
size_t range_reply(const struct held *held, const struct range *range, uint8_t *reply, size_t room);

/* Ends the program unless the bytes are read as the range's messages: their number, and each of them, or some of a long reply. */
void must_read_back(const struct held *held, const struct range *range, const uint8_t *reply, size_t length);

/* "ms-seq" */
void id_text(uint64_t ms, uint64_t seq, char text[ID_TEXT_BYTES]);

/* The string at a place in a slip; the place moves behind it. */
const uint8_t *take_string(const uint8_t **at, size_t *length);

#endif
