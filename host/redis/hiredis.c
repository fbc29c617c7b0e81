/* Replies given to hiredis, the C client of Redis, whole and byte by byte: what it makes of them is what the store holds. */
#include <hiredis/hiredis.h>
#include <stdio.h>
#include <string.h>

#include "cases.h"

static struct held held;
static uint8_t reply[REPLY_BYTES];

/* What hiredis makes of a reply that it gets in pieces of so many bytes; before the last piece it has none, and behind it nothing is left. */
static redisReply *parse(size_t length, size_t piece)
{
    void *parsed = NULL, *more = NULL;
    redisReader *reader = redisReaderCreate();
    must(reader != NULL, "redisReaderCreate");
    for (size_t at = 0; at < length; at += piece) {
        size_t n = length - at < piece ? length - at : piece;
        must(parsed == NULL, "hiredis is done before the end");
        must(redisReaderFeed(reader, (const char *)reply + at, n) == REDIS_OK, "redisReaderFeed");
        must(redisReaderGetReply(reader, &parsed) == REDIS_OK, "redisReaderGetReply");
    }
    must(parsed != NULL, "hiredis waits for more");
    must(redisReaderGetReply(reader, &more) == REDIS_OK && more == NULL && reader->pos == reader->len, "hiredis has bytes left");
    redisReaderFree(reader);
    return parsed;
}

static int is_string(const redisReply *r, const void *bytes, size_t length)
{
    return r->type == REDIS_REPLY_STRING && (size_t)r->len == length && memcmp(r->str, bytes, length) == 0;
}

/* An entry: the ID, and field and value in turn. */
static void must_be_message(const redisReply *entry, const struct message *message)
{
    char id[ID_TEXT_BYTES];
    const uint8_t *at = message->slip + 1;
    id_text(message->ms, message->seq, id);
    must(entry->type == REDIS_REPLY_ARRAY && entry->elements == 2, "an entry is an array of two");
    must(is_string(entry->element[0], id, strlen(id)), "the ID");
    const redisReply *strings = entry->element[1];
    must(strings->type == REDIS_REPLY_ARRAY && strings->elements == 2u * message->slip[0], "an array of fields and values");
    for (size_t i = 0; i < strings->elements; i++) {
        size_t length;
        const uint8_t *string = take_string(&at, &length);
        must(is_string(strings->element[i], string, length), "a field or value");
    }
}

static void try_range(const struct range *range, size_t length, size_t piece)
{
    redisReply *list = parse(length, piece);
    size_t place = 0;
    must(list->type == REDIS_REPLY_ARRAY && list->elements == count_in(&held, range), "an array of the messages");
    for (size_t i = 0; i < held.count; i++) {
        if (in_range(&held.messages[i], range)) {
            must_be_message(list->element[place++], &held.messages[i]);
        }
    }
    freeReplyObject(list);
}

static void try_case(unsigned number)
{
    struct range ranges[RANGES];
    make_case(number, &held);
    make_ranges(&held, ranges);
    for (size_t i = 0; i < RANGES; i++) {
        size_t length = range_reply(&held, &ranges[i], reply, sizeof reply);
        try_range(&ranges[i], length, length);
        try_range(&ranges[i], length, length < LONG_REPLY ? 1 : 4093);
        must_read_back(&held, &ranges[i], reply, length);
    }
}

static void try_integers(void)
{
    uint64_t length;
    trying = "integers";
    for (uint64_t n = 0; n <= WALLATHI_LARGEST_INTEGER_REPLY; n++) {
        must(wallathi_integer_reply(n, reply, sizeof reply, &length) == WALLATHI_OK, "integer reply");
        for (size_t piece = 1; piece <= length; piece += (size_t)length - 1) {
            redisReply *r = parse((size_t)length, piece);
            must(r->type == REDIS_REPLY_INTEGER && r->integer == (long long)n, "an integer");
            freeReplyObject(r);
        }
    }
    must(wallathi_integer_reply(WALLATHI_LARGEST_INTEGER_REPLY + 1, reply, sizeof reply, &length) == WALLATHI_BAD_ARGUMENT, "an integer above the largest");
}

static void try_errors(void)
{
    uint64_t length;
    trying = "errors";
    for (uint64_t n = 1; n <= WALLATHI_LAST_ERROR_REPLY; n++) {
        char text[16];
        int bytes = snprintf(text, sizeof text, "ERR %u", (unsigned)n);
        must(wallathi_error_reply(n, reply, sizeof reply, &length) == WALLATHI_OK, "error reply");
        for (size_t piece = 1; piece <= length; piece += (size_t)length - 1) {
            redisReply *r = parse((size_t)length, piece);
            must(r->type == REDIS_REPLY_ERROR && r->len == (size_t)bytes && memcmp(r->str, text, (size_t)bytes) == 0, "an error");
            freeReplyObject(r);
        }
    }
}

int main(void)
{
    for (unsigned i = 0; i < CASES; i++) {
        try_case(i);
    }
    try_integers();
    try_errors();
    return 0;
}
