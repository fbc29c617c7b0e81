/* The logger as it runs in the hut: starts from the newest snapshot or a store set up, then adds, and saves every fifth message, until a
 * signal ends it (SIGTERM, SIGINT, SIGHUP) or so many messages are logged; it saves before the end. It says what it did, a line each, so that a
 * test that kills it knows what was saved. The seconds are simulated, and pass as fast as they can be logged.
 *
 *     hut FOLDER [MESSAGES [CLOCK]]      the clock begins at CLOCK ms; without it, a second after the newest message
 *
 * A start that fails, and an add that is refused, end it with status 1. A save that fails does not: logging goes on in memory, the fault is
 * said once, and the next period tries again; status 1 only if the last save fails. */
#define _POSIX_C_SOURCE 200809L
#include <inttypes.h>
#include <signal.h>
#include <stdio.h>
#include <stdlib.h>
#include <string.h>

#include "logger.h"

enum { PERIOD = 5, KEEP = 300 };

static struct logger l;
static volatile sig_atomic_t ending;

static void end(int number)
{
    ending = number;
}

/* A reader of our lines that goes away must not end us. */
static void catch_signals(void)
{
    static const int ends[] = {SIGTERM, SIGINT, SIGHUP};
    struct sigaction action;
    memset(&action, 0, sizeof action);
    sigemptyset(&action.sa_mask);
    action.sa_flags = SA_RESTART;
    action.sa_handler = end;
    for (size_t i = 0; i < sizeof ends / sizeof ends[0]; i++) {
        sigaction(ends[i], &action, NULL);
    }
    action.sa_handler = SIG_IGN;
    sigaction(SIGPIPE, &action, NULL);
}

/* The greatest ms of a message, 0 for none. By halves, since each question judges the whole store. */
static uint64_t newest_message(void)
{
    uint64_t ms, seq, low = 0, high = UINT64_MAX;
    while (low < high) {
        uint64_t middle = high - (high - low) / 2;
        if (wallathi_next(l.store, sizeof l.store, l.state, middle, 0, &ms, &seq) == WALLATHI_OK) {
            low = ms;
        } else {
            high = middle - 1;
        }
    }
    return low;
}

static uint32_t start(const char *folder, uint64_t *newest)
{
    uint64_t loaded;
    uint32_t code = logger_start(&l, folder, &loaded);
    if (code != WALLATHI_OK) {
        printf("failed start: %s\n", logger_text(&l, code));
        return code;
    }
    const char *between = l.said[0] == 0 ? "" : "; ";
    *newest = newest_message();
    if (loaded == 0) {
        printf("%s%sset up\n", l.said, between);
    } else {
        printf("%s%sloaded %" PRIu64 " up to %" PRIu64 "\n", l.said, between, loaded, *newest);
    }
    return WALLATHI_OK;
}

/* Says when clock and ID begin to differ, and when they agree again. */
static void compare(uint64_t clock, const struct added *added)
{
    static int differed;
    int differs = added->ms != clock || added->seq != 0;
    if (differs && !differed) {
        printf("clock %" PRIu64 " is not above the last message: its ID is %" PRIu64 "-%" PRIu64 "\n", clock, added->ms, added->seq);
    }
    if (!differs && differed) {
        printf("clock %" PRIu64 " is above the last message again\n", clock);
    }
    differed = differs;
}

static void say_trimmed(uint64_t count)
{
    if (count != 0) {
        printf("trimmed %" PRIu64 " of the oldest messages\n", count);
    }
}

static uint32_t add(uint64_t clock, struct added *added)
{
    struct sample samples[] = {{"west", (int64_t)(clock % 4001) - 2000}, {"east", (int64_t)(clock % 7)}};
    uint32_t code = logger_add(&l, clock, samples, clock % 3000 == 0 ? 1 : 2, KEEP, added);
    say_trimmed(added->trimmed);
    if (code != WALLATHI_OK) {
        printf("failed add: %s\n", logger_text(&l, code));
        return code;
    }
    compare(clock, added);
    return code;
}

/* A fault is said when it begins, when it becomes another, and when it ends. */
static uint32_t save(uint64_t newest)
{
    static char fault[LOGGER_SAID_BYTES];
    uint64_t trimmed;
    uint32_t code = logger_save(&l, &trimmed);
    const char *why = code == WALLATHI_OK ? "" : logger_text(&l, code);
    say_trimmed(trimmed);
    if (code != WALLATHI_OK && strcmp(fault, why) != 0) {
        printf("fault: cannot save: %s; logging goes on in memory\n", why);
    }
    if (code == WALLATHI_OK) {
        printf("%ssaved %" PRIu64 " up to %" PRIu64 "\n", fault[0] == 0 ? "" : "fault ended\n", l.files.newest, newest);
    }
    snprintf(fault, sizeof fault, "%s", why);
    return code;
}

/* Logs until the end is asked for; 0, or 1 where an add was refused or the last save failed. */
static int run(uint64_t messages, uint64_t clock)
{
    struct added added;
    uint32_t added_code = WALLATHI_OK, saved_code = WALLATHI_OK;
    int unsaved = 0;
    for (uint64_t n = 1; n <= messages && !ending && added_code == WALLATHI_OK; n++, clock += 1000) {
        added_code = add(clock, &added);
        unsaved = unsaved || added_code == WALLATHI_OK;
        if (n % PERIOD == 0) {
            saved_code = save(added.ms);
            unsaved = saved_code != WALLATHI_OK;
        }
    }
    if (ending) {
        printf("ended by signal %d\n", (int)ending);
    }
    if (unsaved) {
        saved_code = save(added.ms);
    }
    return added_code == WALLATHI_OK && saved_code == WALLATHI_OK ? 0 : 1;
}

int main(int argc, char **argv)
{
    uint64_t newest;
    if (argc < 2 || 4 < argc) {
        fprintf(stderr, "usage: hut FOLDER [MESSAGES [CLOCK]]\n");
        return 2;
    }
    setvbuf(stdout, NULL, _IOLBF, BUFSIZ);
    catch_signals();
    if (start(argv[1], &newest) != WALLATHI_OK) {
        return 1;
    }
    return run(3 <= argc ? strtoull(argv[2], NULL, 10) : UINT64_MAX, argc == 4 ? strtoull(argv[3], NULL, 10) : newest + 1000);
}
