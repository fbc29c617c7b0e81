/* A simulated storm, end to end: three stations log for three hours, an analyst reads along, the file goes to a second institute, and the
 * eastern channel is drawn with its gaps and reported in exact numbers. `storm FOLDER` leaves everything in FOLDER. */
#include <inttypes.h>
#include <math.h>
#include <stdio.h>
#include <stdlib.h>
#include <string.h>

#include "logger.h"
#include "picture.h"

enum {
    SECONDS = 3 * 3600,
    PEAK = 2 * 3600,          /* the height of the storm */
    SILENT_FROM = PEAK - 120, /* the eastern station gives nothing */
    SILENT_TO = PEAK + 60,
    TRUE_ZERO = PEAK + 242,   /* where the curve crosses zero */
    KEEP = 5400,              /* the newest hour and a half */
    SAVE_EVERY = 600,
    READ_EVERY = 60,
    CONTENTS = 3              /* where a snapshot's list of contents begins (docs/FORMAT.md) */
};

static const uint64_t START_MS = 1794355200000u; /* 2026-11-11 00:00:00 UTC */
static const char *const CHANNELS[] = {"west", "middle", "east"};

static struct logger ours, theirs;
static struct point curve[SECONDS];

static void stop(const char *what, const char *why)
{
    fprintf(stderr, "storm: %s: %s\n", what, why);
    exit(1);
}

static void must(const char *what, uint32_t code)
{
    if (code != WALLATHI_OK) {
        stop(what, logger_text(&ours, code));
    }
}

/* The earth potential at a station: tides and pulsations, and the storm around its peak. */
static int32_t potential(int station, int second)
{
    double t = second, from_peak = (t - PEAK) / 900.0;
    double quiet = 120 * sin(t / 1900 + station) + 30 * sin(t / 41 + 2 * station);
    double storm = 2600 * exp(-from_peak * from_peak) * sin(t / 57 + 0.7 * station) * (1 + 0.3 * station);
    return (int32_t)lround(quiet + storm);
}

/* Whether a channel gave a sample: the eastern station fell silent at the height of the storm, and single seconds are lost now and then. */
static int gave_sample(int station, int second)
{
    int silent = station == 2 && SILENT_FROM <= second && second < SILENT_TO;
    int lost = (second * 7 + station * 131) % 1009 == 5;
    return !silent && !lost;
}

static size_t samples_at(int second, struct sample *samples)
{
    size_t n = 0;
    for (int station = 0; station < 3; station++) {
        if (gave_sample(station, second)) {
            int32_t value = potential(station, second);
            if (station == 2 && value == 0 && second != TRUE_ZERO) {
                value = 1; /* one zero alone is measured in this storm */
            }
            samples[n].channel = CHANNELS[station];
            samples[n].value = station == 2 && second == TRUE_ZERO ? 0 : value;
            n++;
        }
    }
    return n;
}

static const uint8_t *bytes_of(const char *text)
{
    return (const uint8_t *)text;
}

/* Half of an ID, as a batch has it. */
static uint64_t half_at(const uint8_t *at)
{
    uint64_t half = 0;
    for (int i = 0; i < WALLATHI_ID_BYTES / 2; i++) {
        half = 256 * half + at[i];
    }
    return half;
}

/* The analyst takes what is new, batch by batch, and acknowledges it, but for every 500th, over which the work was interrupted. */
static void read_along(uint64_t now)
{
    static uint64_t taken;
    static uint8_t ids[WALLATHI_LARGEST_BATCH * WALLATHI_ID_BYTES];
    uint64_t written, count;
    do {
        must("group read", wallathi_group_read_many(ours.store, sizeof ours.store, ours.state, bytes_of("curves"), 6, bytes_of("analyst"), 7, now, WALLATHI_LARGEST_BATCH, ids, sizeof ids, &written));
        for (const uint8_t *id = ids; id < ids + written; id += WALLATHI_ID_BYTES) {
            uint64_t ms = half_at(id), seq = half_at(id + WALLATHI_ID_BYTES / 2);
            if (++taken % 500 != 0) {
                must("acknowledge", wallathi_acknowledge(ours.store, sizeof ours.store, ours.state, bytes_of("curves"), 6, ms, seq, &count));
            }
        }
    } while (written != 0);
}

/* A colleague takes over what has been pending for ten minutes; answers how many. */
static uint64_t take_over(uint64_t now)
{
    uint64_t ms = 0, seq = 0, time, times, lives, count, moved = 0;
    while (wallathi_next_pending(ours.store, sizeof ours.store, ours.state, bytes_of("curves"), 6, bytes_of("analyst"), 7, ms, seq, &ms, &seq, &time, &times, &lives) == WALLATHI_OK) {
        uint32_t code = wallathi_claim(ours.store, sizeof ours.store, ours.state, bytes_of("curves"), 6, bytes_of("relief"), 6, 600000, ms, seq, now);
        if (code == WALLATHI_NOT_MOVED) {
            continue;
        }
        must("claim", code);
        must("acknowledge", wallathi_acknowledge(ours.store, sizeof ours.store, ours.state, bytes_of("curves"), 6, ms, seq, &count));
        moved++;
    }
    return moved;
}

static void log_storm(void)
{
    struct added added;
    uint64_t trimmed, all_trimmed = 0, saves = 0;
    for (int second = 0; second < SECONDS; second++) {
        struct sample samples[3];
        size_t n = samples_at(second, samples);
        uint64_t now = START_MS + 1000u * (uint64_t)second;
        if (n != 0) {
            must("add", logger_add(&ours, now, samples, n, KEEP, &added));
            all_trimmed += added.trimmed;
        }
        if (second % READ_EVERY == READ_EVERY - 1) {
            read_along(now);
        }
        if (second % SAVE_EVERY == SAVE_EVERY - 1) {
            must("save", logger_save(&ours, &trimmed));
            all_trimmed += trimmed;
            saves++;
        }
    }
    uint64_t moved = take_over(START_MS + 1000u * (uint64_t)SECONDS + 600000u);
    must("save", logger_save(&ours, &trimmed));
    printf("logged      %d seconds of three stations; %" PRIu64 " saves; %" PRIu64 " of the oldest messages trimmed\n", SECONDS, saves + 1,
           all_trimmed + trimmed);
    printf("analyst     all messages read; %" PRIu64 " left pending were claimed by a colleague\n", moved);
}

static void read_newest(size_t *len)
{
    if (files_read(&ours.files, ours.files.newest, ours.file, sizeof ours.file, len) != 0) {
        stop("read the file", ours.files.step);
    }
}

/* The second institute loads the file into a store of its own and saves it: the same bytes. */
static void compare(const char *folder)
{
    size_t len = 0;
    uint64_t saved = 0, loaded, trimmed;
    char other[FILES_FOLDER_BYTES];
    snprintf(other, sizeof other, "%s/other", folder);
    must("second institute", logger_start(&theirs, other, &loaded));
    read_newest(&len);
    must("load", wallathi_load(theirs.store, sizeof theirs.store, theirs.state, ours.file, len));
    must("save again", wallathi_save(theirs.store, sizeof theirs.store, theirs.state, theirs.file, sizeof theirs.file, &saved));
    if (saved != len || memcmp(ours.file, theirs.file, len) != 0) {
        stop("compare", "the two institutes' files differ");
    }
    must("second institute's file", logger_save(&theirs, &trimmed));
    printf("institutes  the second one loaded the file of %zu bytes and saved the same %zu bytes\n", len, len);
}

/* A bit changed in the file's list of contents, and one in the store, are refused. (In a sample it would make another sample: no damage.) */
static void damage(void)
{
    size_t len = 0;
    uint64_t ms, seq;
    read_newest(&len);
    ours.file[CONTENTS + 1] ^= 1;
    uint32_t file = wallathi_load(theirs.store, sizeof theirs.store, theirs.state, ours.file, len);
    theirs.store[100] ^= 1;
    uint32_t store = wallathi_next(theirs.store, sizeof theirs.store, theirs.state, 0, 0, &ms, &seq);
    theirs.store[100] ^= 1;
    printf("damage      a file with one bit changed: %s (%" PRIu32 ")\n", logger_text(&theirs, file), file);
    printf("            a store with one bit changed: %s (%" PRIu32 ")\n", logger_text(&theirs, store), store);
    if (file != WALLATHI_NO_SNAPSHOT || store != WALLATHI_DAMAGED) {
        stop("damage", "it was not refused");
    }
}

/* The eastern channel in exact numbers: beside the mean stands how many seconds are missing from it, and what it would be if a zero were
 * averaged in for each. */
static void report(void)
{
    uint64_t lacking, other, integers;
    int64_t sum, smallest, largest;
    must("report", wallathi_report(ours.store, sizeof ours.store, ours.state, bytes_of("east"), 4, 0, 0, UINT64_MAX, UINT64_MAX, &lacking, &other, &integers, &sum, &smallest, &largest));
    printf("report      east: lacking %" PRIu64 ", other %" PRIu64 ", integers %" PRIu64 ", sum %" PRId64 ", smallest %" PRId64 ", largest %" PRId64 "\n",
           lacking, other, integers, sum, smallest, largest);
    printf("            mean %.2f over %" PRIu64 " samples, with %" PRIu64 " missing; a zero for each of these would make it %.2f\n",
           (double)sum / (double)integers, integers, lacking, (double)sum / (double)(integers + lacking));
}

/* The samples of the messages that the store holds, by second, and the same as a table: an absent sample is an empty cell. */
static size_t read_back(const char *path, int *first)
{
    FILE *out = fopen(path, "w");
    if (out == NULL) {
        stop(path, "it cannot be written");
    }
    fprintf(out, "second\twest\tmiddle\teast\n");
    uint64_t ms = 0, seq = 0;
    size_t count = 0;
    *first = -1;
    while (wallathi_next(ours.store, sizeof ours.store, ours.state, ms, seq, &ms, &seq) == WALLATHI_OK) {
        int second = (int)((ms - START_MS) / 1000);
        *first = *first < 0 ? second : *first;
        count = (size_t)(second - *first) + 1;
        fprintf(out, "%d", second);
        for (int station = 0; station < 3; station++) {
            int64_t value = 0;
            uint32_t code = logger_sample(&ours, ms, seq, CHANNELS[station], &value);
            if (code == WALLATHI_ABSENT) {
                fprintf(out, "\t");
                continue;
            }
            must("field", code);
            fprintf(out, "\t%" PRId64, value);
            if (station == 2) {
                curve[count - 1].there = 1;
                curve[count - 1].value = value;
            }
        }
        fprintf(out, "\n");
        seq++;
    }
    if (fclose(out) != 0) {
        stop(path, "it cannot be written");
    }
    return count;
}

static void draw(const char *folder)
{
    char table[FILES_FOLDER_BYTES + 20], picture[FILES_FOLDER_BYTES + 20];
    int first;
    size_t missing = 0, zeros = 0;
    snprintf(table, sizeof table, "%s/channels.tsv", folder);
    snprintf(picture, sizeof picture, "%s/east.svg", folder);
    size_t count = read_back(table, &first);
    for (size_t i = 0; i < count; i++) {
        missing += !curve[i].there;
        zeros += curve[i].there && curve[i].value == 0;
    }
    const struct picture words = {"The eastern station in the storm", "time, UTC, 11 November 2026", "microvolts per kilometre", first};
    if (picture_write(picture, &words, curve, count) != 0) {
        stop(picture, "it cannot be written");
    }
    printf("east        %zu seconds: %zu missing, left open; %zu measured as zero\n", count, missing, zeros);
    printf("            %s, %s\n", table, picture);
}

int main(int argc, char **argv)
{
    char folder[FILES_FOLDER_BYTES];
    uint64_t loaded;
    if (argc != 2 || sizeof folder <= strlen(argv[1]) + 10) {
        fprintf(stderr, "usage: storm FOLDER\n");
        return 2;
    }
    snprintf(folder, sizeof folder, "%s/ours", argv[1]);
    must("start", logger_start(&ours, folder, &loaded));
    must("set up", wallathi_set_up(ours.store, sizeof ours.store, ours.state));
    must("create group", wallathi_create_group(ours.store, sizeof ours.store, ours.state, bytes_of("curves"), 6, 0, 0));
    log_storm();
    compare(argv[1]);
    damage();
    draw(argv[1]);
    report();
    return 0;
}
