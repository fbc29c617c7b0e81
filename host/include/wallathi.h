/*
 * wallathi: a store of messages with fields, in rising order of their IDs, with consumer groups, in bytes that you lend.
 *
 * A store is an area of up to 64 slots of 4,096 bytes; bytes past the last slot are neither read nor written. Beside it stands a state
 * of WALLATHI_STATE_BYTES bytes. Neither has pointers in it: copy both, write both to a file and read them back, at any address. The
 * library allocates nothing, keeps nothing between calls and needs no C library beyond memcpy, memset and memmove. It is compiled for
 * x86-64 Linux (System V calls).
 *
 * An ID is two 64-bit numbers, ms and seq, ordered by ms, then seq. A message has 1 to 32 pairs of a field and a value, each of 0 to
 * 1,000 bytes. It travels as a slip: one byte for the number of pairs, then field, value, field, value, .., each a length of 2 bytes,
 * little-endian, and its bytes. Names of groups and consumers have 1 to 16 bytes.
 *
 * For clients of the Redis protocol there are replies in RESP2, its version 2: the messages of a range, counts and refusals, and a strict
 * reader of them. Beside each function stands what it writes; CR LF is the bytes 13 and 10, and every number is decimal, without sign and
 * leading zero.
 *
 * Every command on a store but set up and load first judges the whole store and state. Bytes that are not the image of any messages and
 * groups that keep the rules are refused as damaged, never followed. Bytes changed into those of other such messages are no damage.
 *
 * Each function answers one of the numbers below. If several refusals apply, the lowest is answered. Out-parameters and output are
 * written only with WALLATHI_OK, and four numbers of a report with WALLATHI_NO_INTEGERS too; what is written to the output starts it, and
 * the bytes after that stay. But for these four numbers, no byte is changed unless the answer is WALLATHI_OK: not of store and state, not
 * of the output, not of an out-parameter.
 *
 * A slice is a pointer and a length; a length of 0 goes with any pointer, NULL too, for every slice of every function. No other pointer
 * may be NULL, and each must point to all of its bytes, of any alignment. Store, state, output and out-parameters that a call may change
 * must not overlap anything else that is handed to the same call. Calls on different stores may run at the same time, and so may reading
 * calls on one.
 *
 * What a call costs: the judgement reads every byte of the slots and of the state, the reader of replies every byte of the reply.
 * docs/PERFORMANCE.md has figures.
 *
 *     static uint8_t store[4 * WALLATHI_SLOT_BYTES], state[WALLATHI_STATE_BYTES];
 *     static const uint8_t slip[] = {1, 4, 0, 't', 'e', 'm', 'p', 2, 0, '2', '1'};
 *     uint8_t value[WALLATHI_LONGEST_STRING];
 *     uint64_t ms, seq, length;
 *     wallathi_set_up(store, sizeof store, state);
 *     if (wallathi_add_by_clock(store, sizeof store, state, 1763000000000, slip, sizeof slip, &ms, &seq) == WALLATHI_OK
 *         && wallathi_field(store, sizeof store, state, ms, seq, (const uint8_t *)"temp", 4, value, sizeof value, &length) == WALLATHI_OK)
 *         printf("%.*s\n", (int)length, (const char *)value);
 *
 * Link libwallathi.a.
 */
#ifndef WALLATHI_H
#define WALLATHI_H

#include <stddef.h>
#include <stdint.h>

#ifdef __cplusplus
extern "C" {
#endif

/* The size of a state; wallathi_state_bytes answers the same. */
#define WALLATHI_STATE_BYTES 64434
/* A call needs at most this much stack; host/stack.c measures it. */
#define WALLATHI_STACK_BYTES 40960
/* A store has as many slots as fit its length, 64 at most. */
#define WALLATHI_SLOT_BYTES 4096
#define WALLATHI_MOST_SLOTS 64
/* A message has 1 to this many pairs; a field and a value have 0 to this many bytes each. */
#define WALLATHI_MOST_PAIRS 32
#define WALLATHI_LONGEST_STRING 1000
/* An output of this length suffices for every read, for every value that field writes, and for every message of a reply. */
#define WALLATHI_LONGEST_SLIP 5353
/* An output of this length suffices for every save. */
#define WALLATHI_LONGEST_SNAPSHOT 321604
/* A name of a group or of a consumer has 1 to this many bytes. */
#define WALLATHI_LONGEST_NAME 16
/* A batch has 0 to this many messages. */
#define WALLATHI_LARGEST_BATCH 256
/* An ID has this many bytes in the output of a batch. */
#define WALLATHI_ID_BYTES 16
/* The number of an integer reply is 0 to this one. */
#define WALLATHI_LARGEST_INTEGER_REPLY 6400
/* The number of an error reply is 1 to this one. */
#define WALLATHI_LAST_ERROR_REPLY 18
/* An output of this length suffices for every integer reply and every error reply. */
#define WALLATHI_LONGEST_NUMBER_REPLY 9
/* The kinds of replies: a range of messages, an integer, an error. */
#define WALLATHI_RANGE_REPLY 1
#define WALLATHI_INTEGER_REPLY 2
#define WALLATHI_ERROR_REPLY 3
/* Answers from 1 to this one are refusals; later versions may use those that are not named below. */
#define WALLATHI_LAST_REFUSAL 31

/* answered, done, moved: out-parameters and output are written as the function says */
#define WALLATHI_OK 0
/* refused: the store has less than 4,096 bytes (set up, load) */
#define WALLATHI_NO_SLOT 1
/* refused: store and state are not the image of any messages and groups */
#define WALLATHI_DAMAGED 2
/*
 * refused: the slip or the reply is none, a name does not have its length, a batch is to have over 256 messages, or there is no reply of
 * the number
 */
#define WALLATHI_BAD_ARGUMENT 3
/* refused: the ID is not above the last ID that was given */
#define WALLATHI_LOW_ID 4
/* refused: no ID is left above the last one */
#define WALLATHI_NO_ID_LEFT 5
/* refused: the message is too long for a slot */
#define WALLATHI_LONG_MESSAGE 6
/* refused: the message needs a slot of its own and none is free */
#define WALLATHI_FULL 7
/* refused: the output is shorter than the answer (read, field, replies, save), or than as many IDs as are asked for (batch) */
#define WALLATHI_SHORT_OUTPUT 8
/* refused: there is no such group */
#define WALLATHI_NO_GROUP 9
/* refused: the group exists */
#define WALLATHI_GROUP_EXISTS 10
/* refused: there are 8 groups */
#define WALLATHI_MOST_GROUPS 11
/* refused: the consumer is new and there are 16 */
#define WALLATHI_MOST_CONSUMERS 12
/* refused: 256 entries are pending */
#define WALLATHI_MOST_PENDING 13
/* refused: no live message has this ID */
#define WALLATHI_NOT_LIVE 14
/* refused: the snapshot would need over 64 nodes */
#define WALLATHI_MOST_NODES 15
/* refused: the file is not a snapshot */
#define WALLATHI_NO_SNAPSHOT 16
/* refused: the snapshot has more nodes than the store has slots */
#define WALLATHI_SMALL_STORE 17
/* there is none, or nothing new */
#define WALLATHI_NONE 32
/* the message does not have the field */
#define WALLATHI_ABSENT 33
/* the claim moved nothing */
#define WALLATHI_NOT_MOVED 34
/* the report is over no integer: lacking, other, integers and sum are written, smallest and largest are not */
#define WALLATHI_NO_INTEGERS 35

/* How many bytes a state has. */
uint64_t wallathi_state_bytes(void);

/*
 * Makes the store one without messages and groups whose last ID is 0-0, whatever the bytes were.
 * WALLATHI_OK, or the refusal 1.
 */
uint32_t wallathi_set_up(uint8_t *store, size_t store_length, uint8_t *state);

/*
 * Adds a message with an ID above the last one, and answers the ID, which is the last one then.
 * WALLATHI_OK, or the refusals 2, 3, 4, 6 and 7.
 */
uint32_t wallathi_add(uint8_t *store, size_t store_length, uint8_t *state, uint64_t ms, uint64_t seq, const uint8_t *slip,
                      size_t slip_length, uint64_t *id_ms, uint64_t *id_seq);

/*
 * Adds a message at a time in ms. Its ID is (time, 0) where the time is above the last ms, otherwise the one that follows the last ID.
 * WALLATHI_OK, or the refusals 2, 3, 5, 6 and 7.
 */
uint32_t wallathi_add_by_clock(uint8_t *store, size_t store_length, uint8_t *state, uint64_t time, const uint8_t *slip,
                               size_t slip_length, uint64_t *id_ms, uint64_t *id_seq);

/*
 * Deletes a message. The count is how many went: 1, or 0 where the ID is not live (no byte of store and state changes then). Pending
 * entries stay.
 * WALLATHI_OK, or the refusal 2.
 */
uint32_t wallathi_delete(uint8_t *store, size_t store_length, uint8_t *state, uint64_t ms, uint64_t seq, uint64_t *count);

/*
 * Deletes the oldest messages until at most so many remain. The count is how many went.
 * WALLATHI_OK, or the refusal 2.
 */
uint32_t wallathi_trim(uint8_t *store, size_t store_length, uint8_t *state, uint64_t most, uint64_t *count);

/*
 * The first live ID that is the given one or comes after it.
 * WALLATHI_OK, WALLATHI_NONE, or the refusal 2.
 */
uint32_t wallathi_next(const uint8_t *store, size_t store_length, const uint8_t *state, uint64_t ms, uint64_t seq, uint64_t *id_ms,
                       uint64_t *id_seq);

/*
 * Writes a live message as a slip.
 * WALLATHI_OK, or the refusals 2, 8 and 14.
 */
uint32_t wallathi_read(const uint8_t *store, size_t store_length, const uint8_t *state, uint64_t ms, uint64_t seq, uint8_t *output,
                       size_t output_length, uint64_t *written);

/*
 * Writes the value of a live message's first pair with this field name, which has 0 to 1,000 bytes.
 * WALLATHI_OK, WALLATHI_ABSENT, or the refusals 2, 3, 8 and 14.
 */
uint32_t wallathi_field(const uint8_t *store, size_t store_length, const uint8_t *state, uint64_t ms, uint64_t seq, const uint8_t *name,
                        size_t name_length, uint8_t *output, size_t output_length, uint64_t *written);

/*
 * Reports on one channel in exact numbers: what the live messages from the first ID to the last, both included, hold in their first pair
 * with this field name, which has 0 to 1,000 bytes. Each message is in one of three counts: lacking, where it does not have the field;
 * integers, where the value is an integer from -1,000,000,000 to 1,000,000,000 (0, or an optional minus and a digit 1 to 9 followed by
 * digits); other, where it is anything else: a text, nothing, 007, -0, +1, an integer beyond. Of the integers it gives the sum, the
 * smallest and the largest. A first above the last is an empty range.
 * WALLATHI_OK (there is an integer), WALLATHI_NO_INTEGERS (integers and sum are 0 then, smallest and largest keep what they held), or the
 * refusals 2 and 3.
 */
uint32_t wallathi_report(const uint8_t *store, size_t store_length, const uint8_t *state, const uint8_t *name, size_t name_length,
                         uint64_t first_ms, uint64_t first_seq, uint64_t last_ms, uint64_t last_seq, uint64_t *lacking, uint64_t *other,
                         uint64_t *integers, int64_t *sum, int64_t *smallest, int64_t *largest);

/*
 * Writes the live messages from the first ID to the last, both included, as a reply: * and their number, then for each of them *2, its ID
 * as the string ms-seq, * and twice the number of its pairs, and field and value of each pair in turn as strings. CR LF follows every
 * number. A string is $ and its length, CR LF, its bytes, CR LF. A first above the last is an empty range; the reply is *0 and CR LF then.
 * A reply may be many times as long as the store, which keeps names once that messages share: every message has its own here.
 * WALLATHI_OK, or the refusals 2 and 8.
 */
uint32_t wallathi_range_reply(const uint8_t *store, size_t store_length, const uint8_t *state, uint64_t first_ms, uint64_t first_seq,
                              uint64_t last_ms, uint64_t last_seq, uint8_t *output, size_t output_length, uint64_t *written);

/*
 * Writes the reply to a delete, a trim or an acknowledgement from its count, 0 to 6,400: a colon, the number, CR LF.
 * WALLATHI_OK, or the refusals 3 (another number) and 8.
 */
uint32_t wallathi_integer_reply(uint64_t number, uint8_t *output, size_t output_length, uint64_t *written);

/*
 * Writes the reply to a command that was refused from the number of the refusal, 1 to 18 (18 is one of wallathi_index.h): -ERR, a space,
 * the number, CR LF.
 * WALLATHI_OK, or the refusals 3 (another number) and 8.
 */
uint32_t wallathi_error_reply(uint64_t number, uint8_t *output, size_t output_length, uint64_t *written);

/*
 * Reads a reply, strictly: the whole slice has to be what one of the three functions above writes, for a number, or for some list of
 * messages that a store may hold, in rising order of their IDs, which are above 0-0; the list may be longer than those of any store. Gives
 * the kind (WALLATHI_RANGE_REPLY, WALLATHI_INTEGER_REPLY or WALLATHI_ERROR_REPLY), and how many messages there are or the number.
 * WALLATHI_OK, or the refusal 3.
 */
uint32_t wallathi_read_reply(const uint8_t *reply, size_t reply_length, uint64_t *kind, uint64_t *number);

/*
 * Writes the message at a place of a range reply, from 0, as a slip, and gives its ID. Each call reads the whole reply.
 * WALLATHI_OK, WALLATHI_NONE (the place is past the end), or the refusals 3 (not a range reply) and 8 (there is such a message).
 */
uint32_t wallathi_reply_message(const uint8_t *reply, size_t reply_length, uint64_t place, uint8_t *output, size_t output_length,
                                uint64_t *id_ms, uint64_t *id_seq, uint64_t *written);

/*
 * Creates a group. What comes after the start ID is delivered to it; 0-0 begins with the oldest message. The start may lie above the
 * last ID.
 * WALLATHI_OK, or the refusals 2, 3, 10 and 11.
 */
uint32_t wallathi_create_group(const uint8_t *store, size_t store_length, uint8_t *state, const uint8_t *group, size_t group_length,
                               uint64_t start_ms, uint64_t start_seq);

/*
 * Destroys a group with its consumers and pending entries.
 * WALLATHI_OK, or the refusals 2, 3 and 9.
 */
uint32_t wallathi_destroy_group(const uint8_t *store, size_t store_length, uint8_t *state, const uint8_t *group, size_t group_length);

/*
 * Delivers the first live message above the last delivered one to a consumer, which is made if new. The ID becomes the last delivered
 * one, and pending for the consumer with this time and count 1.
 * WALLATHI_OK, WALLATHI_NONE (nothing new; no consumer is made), or the refusals 2, 3, 9, 12 and 13.
 */
uint32_t wallathi_group_read(const uint8_t *store, size_t store_length, uint8_t *state, const uint8_t *group, size_t group_length,
                             const uint8_t *consumer, size_t consumer_length, uint64_t now, uint64_t *id_ms, uint64_t *id_seq);

/*
 * Delivers a batch: the first n live messages above the last delivered one, n from 0 to 256, or as many as there are and as entries are
 * free. It leaves what as many calls of wallathi_group_read in a row would leave, and judges the store once. The output gets their IDs in
 * rising order, 16 bytes each: ms, then seq, both big-endian. Where nothing is delivered, written is 0, no byte of store and state changes,
 * and no consumer is made. The output must have 16 n bytes, also where less is written. 12 and 13 are given for n above 0 alone, where
 * wallathi_group_read would give them.
 * WALLATHI_OK, or the refusals 2, 3, 8, 9, 12 and 13.
 */
uint32_t wallathi_group_read_many(const uint8_t *store, size_t store_length, uint8_t *state, const uint8_t *group, size_t group_length,
                                  const uint8_t *consumer, size_t consumer_length, uint64_t now, uint64_t n, uint8_t *output,
                                  size_t output_length, uint64_t *written);

/*
 * Removes a pending entry. The count is how many went: 1, or 0 where the ID is not pending (no byte changes then).
 * WALLATHI_OK, or the refusals 2, 3 and 9.
 */
uint32_t wallathi_acknowledge(const uint8_t *store, size_t store_length, uint8_t *state, const uint8_t *group, size_t group_length,
                              uint64_t ms, uint64_t seq, uint64_t *count);

/*
 * Moves a pending entry to a consumer, which is made if new, where its idle time (now minus the time of delivery, 0 if the clock went
 * back) is at least so much. Its time becomes now; its count grows by 1 up to 65,535. Whether the message lives plays no part.
 * WALLATHI_OK (moved), WALLATHI_NOT_MOVED, or the refusals 2, 3, 9 and 12.
 */
uint32_t wallathi_claim(const uint8_t *store, size_t store_length, uint8_t *state, const uint8_t *group, size_t group_length,
                        const uint8_t *consumer, size_t consumer_length, uint64_t least_idle, uint64_t ms, uint64_t seq, uint64_t now);

/*
 * A consumer's first pending entry above an ID: its ID, time of delivery and count, and 1 or 0 for whether the message lives.
 * WALLATHI_OK, WALLATHI_NONE (also where there is no such consumer), or the refusals 2, 3 and 9.
 */
uint32_t wallathi_next_pending(const uint8_t *store, size_t store_length, const uint8_t *state, const uint8_t *group,
                               size_t group_length, const uint8_t *consumer, size_t consumer_length, uint64_t after_ms,
                               uint64_t after_seq, uint64_t *id_ms, uint64_t *id_seq, uint64_t *time, uint64_t *count, uint64_t *lives);

/*
 * Removes a consumer and its pending entries. The count is how many entries went, 0 where there is no such consumer.
 * WALLATHI_OK, or the refusals 2, 3 and 9.
 */
uint32_t wallathi_drop_consumer(const uint8_t *store, size_t store_length, uint8_t *state, const uint8_t *group, size_t group_length,
                                const uint8_t *consumer, size_t consumer_length, uint64_t *count);

/*
 * Writes a snapshot: live messages, last ID and groups. Two stores have equal snapshots exactly when they hold the same.
 * WALLATHI_OK, or the refusals 2, 8 and 15.
 */
uint32_t wallathi_save(const uint8_t *store, size_t store_length, const uint8_t *state, uint8_t *output, size_t output_length,
                       uint64_t *written);

/*
 * Makes the store hold what a snapshot holds, whatever the bytes were. A refused file leaves every byte.
 * WALLATHI_OK, or the refusals 1, 16 and 17.
 */
uint32_t wallathi_load(uint8_t *store, size_t store_length, uint8_t *state, const uint8_t *file, size_t file_length);

#ifdef __cplusplus
}
#endif

#endif
