#include "logger.h"

#include <errno.h>
#include <inttypes.h>
#include <stdarg.h>
#include <stdio.h>
#include <string.h>

#include "wallathi_text.h"

enum { LONGEST_INTEGER = 20 }; /* -9223372036854775808 */

/* Adds to what is said, with "; " between. */
static void say(struct logger *l, const char *format, ...)
{
    size_t at = strlen(l->said);
    if (at != 0 && at + 2 < sizeof l->said) {
        strcpy(l->said + at, "; ");
        at += 2;
    }
    va_list arguments;
    va_start(arguments, format);
    vsnprintf(l->said + at, sizeof l->said - at, format, arguments);
    va_end(arguments);
}

/* Says what the system refused; `where` goes before it. */
static uint32_t system_code(struct logger *l, const char *where, int answer)
{
    if (answer == FILES_BUSY) {
        say(l, "another logger has the folder %s", l->files.folder);
        return LOGGER_BUSY;
    }
    if (answer != 0) {
        say(l, "%s%s: %s", where, l->files.step, strerror(errno));
        return LOGGER_SYSTEM;
    }
    return WALLATHI_OK;
}

/* Loads a file over what was loaded before it, or sets it aside. */
static uint32_t load_file(struct logger *l, uint64_t number, uint64_t *loaded)
{
    char where[LONGEST_INTEGER + 4];
    size_t len = 0;
    snprintf(where, sizeof where, "%" PRIu64 ": ", number);
    if (files_read(&l->files, number, l->file, sizeof l->file, &len) != 0) {
        return system_code(l, where, -1);
    }
    uint32_t code = wallathi_load(l->store, sizeof l->store, l->state, l->file, len);
    if (code == WALLATHI_OK) {
        files_hold(&l->files, number);
        *loaded = number;
        return WALLATHI_OK;
    }
    if (files_set_aside(&l->files, number) != 0) {
        return system_code(l, where, -1);
    }
    say(l, "%" PRIu64 " %s (%" PRIu32 "), set aside", number, code == WALLATHI_NO_SNAPSHOT ? "is no snapshot" : "does not fit the store", code);
    return WALLATHI_OK;
}

/* Loads what the folder has, by rising number. A file that cannot be read is passed over only if a newer one is loaded. */
static uint32_t load_files(struct logger *l, uint64_t *loaded)
{
    uint64_t numbers[FILES_MOST_HELD];
    size_t count;
    *loaded = 0;
    do {
        uint32_t code = system_code(l, "", files_list(&l->files, numbers, &count));
        if (code != WALLATHI_OK) {
            return code;
        }
        for (size_t i = 0; i < count; i++) {
            uint32_t one = load_file(l, numbers[i], loaded);
            code = one != WALLATHI_OK || *loaded == numbers[i] ? one : code;
        }
        if (code != WALLATHI_OK) {
            return code;
        }
    } while (*loaded == 0 && count == FILES_MOST_HELD); /* all were set aside, and there may be older ones */
    return WALLATHI_OK;
}

uint32_t logger_start(struct logger *l, const char *folder, uint64_t *loaded)
{
    l->said[0] = 0;
    uint32_t code = system_code(l, "", files_open(&l->files, folder));
    if (code != WALLATHI_OK) {
        return code;
    }
    code = load_files(l, loaded);
    if (code == WALLATHI_OK && *loaded == 0) {
        code = wallathi_set_up(l->store, sizeof l->store, l->state);
    }
    if (code != WALLATHI_OK) {
        files_close(&l->files);
    }
    return code;
}

/* A slip is a count, then field, value, field, value, each with a length of 2 bytes, little-endian. */
static size_t put_string(uint8_t *out, const char *text, size_t len)
{
    out[0] = (uint8_t)(len % 256);
    out[1] = (uint8_t)(len / 256);
    memcpy(out + 2, text, len);
    return 2 + len;
}

static uint32_t put_slip(uint8_t *out, size_t room, const struct sample *samples, size_t count, size_t *len)
{
    if (WALLATHI_MOST_PAIRS < count) {
        return WALLATHI_BAD_ARGUMENT;
    }
    size_t at = 1;
    out[0] = (uint8_t)count;
    for (size_t i = 0; i < count; i++) {
        char value[LONGEST_INTEGER + 1];
        size_t name_len = strlen(samples[i].channel);
        size_t value_len = (size_t)snprintf(value, sizeof value, "%" PRId64, samples[i].value);
        if (WALLATHI_LONGEST_STRING < name_len) {
            return WALLATHI_BAD_ARGUMENT;
        }
        if (room - at < 4 + name_len + value_len) {
            return WALLATHI_LONG_MESSAGE;
        }
        at += put_string(out + at, samples[i].channel, name_len);
        at += put_string(out + at, value, value_len);
    }
    *len = at;
    return WALLATHI_OK;
}

/* WALLATHI_NONE where there is no message. */
static uint32_t delete_oldest(struct logger *l, uint64_t *trimmed)
{
    uint64_t ms, seq, gone = 0;
    uint32_t code = wallathi_next(l->store, sizeof l->store, l->state, 0, 0, &ms, &seq);
    if (code == WALLATHI_OK) {
        code = wallathi_delete(l->store, sizeof l->store, l->state, ms, seq, &gone);
    }
    *trimmed += gone;
    return code;
}

uint32_t logger_add(struct logger *l, uint64_t time_ms, const struct sample *samples, size_t count, uint64_t keep, struct added *added)
{
    uint8_t slip[WALLATHI_LONGEST_SLIP]; /* one that is longer is too long for a slot */
    size_t len;
    int trims = 0;
    added->trimmed = 0;
    uint32_t code = put_slip(slip, sizeof slip, samples, count, &len);
    while (code == WALLATHI_OK) {
        code = wallathi_add_by_clock(l->store, sizeof l->store, l->state, time_ms, slip, len, &added->ms, &added->seq);
        if (code != WALLATHI_FULL) {
            return code;
        }
        code = trims++ == 0 ? wallathi_trim(l->store, sizeof l->store, l->state, keep, &added->trimmed) : delete_oldest(l, &added->trimmed);
    }
    return code == WALLATHI_NONE ? WALLATHI_FULL : code;
}

uint32_t logger_save(struct logger *l, uint64_t *trimmed)
{
    uint64_t len = 0;
    uint32_t code = WALLATHI_OK;
    l->said[0] = 0;
    *trimmed = 0;
    while (code == WALLATHI_OK) {
        code = wallathi_save(l->store, sizeof l->store, l->state, l->file, sizeof l->file, &len);
        if (code == WALLATHI_OK) {
            return system_code(l, "", files_write(&l->files, l->file, (size_t)len));
        }
        code = code == WALLATHI_MOST_NODES ? delete_oldest(l, trimmed) : code;
    }
    return code;
}

/* Whether a string is an integer by the rules of the store, and which. */
static int integer_of(const uint8_t *text, size_t len, int64_t *value)
{
    size_t minus = len != 0 && text[0] == '-';
    uint64_t magnitude = 0, most = (uint64_t)INT64_MAX + minus;
    if (len == minus || (text[minus] == '0' && len != 1)) {
        return 0;
    }
    for (size_t i = minus; i < len; i++) {
        if (text[i] < '0' || '9' < text[i]) {
            return 0;
        }
        uint64_t digit = (uint64_t)(text[i] - '0');
        if ((most - digit) / 10 < magnitude) {
            return 0;
        }
        magnitude = 10 * magnitude + digit;
    }
    *value = minus ? -(int64_t)(magnitude - 1) - 1 : (int64_t)magnitude;
    return 1;
}

uint32_t logger_sample(const struct logger *l, uint64_t ms, uint64_t seq, const char *channel, int64_t *value)
{
    uint8_t text[LONGEST_INTEGER];
    uint64_t len = 0;
    uint32_t code = wallathi_field(l->store, sizeof l->store, l->state, ms, seq, (const uint8_t *)channel, strlen(channel), text, sizeof text, &len);
    if (code == WALLATHI_SHORT_OUTPUT) {
        return LOGGER_NO_SAMPLE;
    }
    return code != WALLATHI_OK || integer_of(text, (size_t)len, value) ? code : LOGGER_NO_SAMPLE;
}

const char *logger_text(const struct logger *l, uint32_t code)
{
    if (code == LOGGER_SYSTEM || code == LOGGER_BUSY) {
        return l->said;
    }
    return code == LOGGER_NO_SAMPLE ? "the value is no sample" : wallathi_refusal_text(code);
}
