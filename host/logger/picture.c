#include "picture.h"

#include <math.h>
#include <stdio.h>

enum { WIDTH = 1000, HEIGHT = 400, LEFT = 80, RIGHT = 20, TOP = 70, BOTTOM = 55, MOST_MARKS = 10 };

static const double TOLERANCE = 1.0 / 3; /* pixels */

static const char LINE[] = "#15508a", GAP[] = "#f3d9d9", ZERO[] = "#c02020", GRID[] = "#ddd";

struct frame {
    FILE *out;
    const struct picture *picture;
    const struct point *points;
    size_t count;
    double seconds, least, most; /* what the axes span */
};

static double x_of(const struct frame *f, size_t second)
{
    return LEFT + (WIDTH - LEFT - RIGHT) * (double)second / f->seconds;
}

static double y_of(const struct frame *f, double value)
{
    return HEIGHT - BOTTOM - (HEIGHT - TOP - BOTTOM) * (value - f->least) / (f->most - f->least);
}

/* The step between marks: the first of 1, 2, 5, 10, 20, 50 .. that needs no more than MOST_MARKS. */
static double step_of(double span)
{
    for (double step = 1;; step *= 10) {
        for (int i = 0; i < 3; i++) {
            static const double first[] = {1, 2, 5};
            if (span <= MOST_MARKS * step * first[i]) {
                return step * first[i];
            }
        }
    }
}

/* The same for seconds, in minutes and hours. */
static int seconds_between(double span)
{
    static const int steps[] = {60, 120, 300, 600, 900, 1800, 3600, 7200, 10800, 21600, 43200};
    size_t i = 0;
    while (i + 1 < sizeof steps / sizeof steps[0] && MOST_MARKS * (double)steps[i] < span) {
        i++;
    }
    return steps[i];
}

/* All samples with zero, out to the next marks. */
static void span(struct frame *f)
{
    f->seconds = 1 < f->count ? (double)(f->count - 1) : 1;
    f->least = -1;
    f->most = 1;
    for (size_t i = 0; i < f->count; i++) {
        if (f->points[i].there) {
            f->least = fmin(f->least, (double)f->points[i].value);
            f->most = fmax(f->most, (double)f->points[i].value);
        }
    }
    double step = step_of(f->most - f->least);
    f->least = step * floor(f->least / step);
    f->most = step * ceil(f->most / step);
}

static void write_up(const struct frame *f)
{
    double step = step_of(f->most - f->least);
    for (double value = f->least; value <= f->most; value += step) {
        double y = y_of(f, value);
        fprintf(f->out, "<path d=\"M%d %.1fH%d\" stroke=\"%s\"/>\n", LEFT, y, WIDTH - RIGHT, value == 0 ? "#888" : GRID);
        fprintf(f->out, "<text x=\"%d\" y=\"%.1f\" text-anchor=\"end\">%.0f</text>\n", LEFT - 8, y + 4, value == 0 ? 0 : value);
    }
    int middle = (TOP + HEIGHT - BOTTOM) / 2;
    fprintf(f->out, "<text transform=\"rotate(-90 18 %d)\" x=\"18\" y=\"%d\" text-anchor=\"middle\">%s</text>\n", middle, middle, f->picture->upwards);
}

static void write_across(const struct frame *f)
{
    int step = seconds_between(f->seconds), bottom = HEIGHT - BOTTOM;
    for (int time = (f->picture->first + step - 1) / step * step; time <= f->picture->first + f->seconds; time += step) {
        double x = x_of(f, (size_t)(time - f->picture->first));
        fprintf(f->out, "<path d=\"M%.1f %dV%d\" stroke=\"#888\"/>\n", x, bottom, bottom + 5);
        fprintf(f->out, "<text x=\"%.1f\" y=\"%d\" text-anchor=\"middle\">%02d:%02d</text>\n", x, bottom + 19, time / 3600 % 24, time / 60 % 60);
    }
    fprintf(f->out, "<text x=\"%d\" y=\"%d\" text-anchor=\"middle\">%s</text>\n", (LEFT + WIDTH - RIGHT) / 2, HEIGHT - 12, f->picture->across);
    fprintf(f->out, "<path d=\"M%d %dV%dH%d\" fill=\"none\" stroke=\"#888\"/>\n", LEFT, TOP, bottom, WIDTH - RIGHT);
}

static void write_zero(const struct frame *f, double x, double y)
{
    fprintf(f->out, "<circle cx=\"%.1f\" cy=\"%.1f\" r=\"5\" fill=\"none\" stroke=\"%s\" stroke-width=\"2\"/>\n", x, y, ZERO);
}

static void write_legend(const struct frame *f)
{
    int y = TOP - 18;
    fprintf(f->out, "<text x=\"%d\" y=\"24\" font-size=\"18\">%s</text>\n", LEFT, f->picture->title);
    fprintf(f->out, "<path d=\"M%d %dh24\" stroke=\"%s\" stroke-width=\"1.5\"/><text x=\"%d\" y=\"%d\">samples</text>\n", LEFT, y - 4, LINE, LEFT + 32, y);
    fprintf(f->out, "<rect x=\"%d\" y=\"%d\" width=\"24\" height=\"14\" fill=\"%s\"/><text x=\"%d\" y=\"%d\">no sample</text>\n", LEFT + 120, y - 11, GAP, LEFT + 152, y);
    write_zero(f, LEFT + 262, y - 4);
    fprintf(f->out, "<text x=\"%d\" y=\"%d\">measured zero</text>\n", LEFT + 274, y);
}

/* The end of the run that begins at a second: as long as samples are there, or are not. */
static size_t run_end(const struct frame *f, size_t from)
{
    size_t end = from;
    while (end < f->count && f->points[end].there == f->points[from].there) {
        end++;
    }
    return end;
}

static void write_gap(const struct frame *f, size_t from, size_t end)
{
    double x = x_of(f, from), width = fmax(1, x_of(f, end) - x);
    fprintf(f->out, "<rect x=\"%.1f\" y=\"%d\" width=\"%.1f\" height=\"%d\" fill=\"%s\"/>\n", x, TOP, width, HEIGHT - TOP - BOTTOM, GAP);
}

/* How far a sample is above or below the line from one second to another. */
static double off_line(const struct frame *f, size_t from, size_t to, size_t at)
{
    double y = y_of(f, (double)f->points[from].value), end = y_of(f, (double)f->points[to].value);
    return fabs(y_of(f, (double)f->points[at].value) - (y + (end - y) * (double)(at - from) / (double)(to - from)));
}

/* The points after one drawn up to another, this one with them: the line is split where a sample is farthest from it. */
static void write_line(const struct frame *f, size_t from, size_t to)
{
    size_t farthest = to;
    double off = TOLERANCE;
    for (size_t i = from + 1; i < to; i++) {
        if (off < off_line(f, from, to, i)) {
            off = off_line(f, from, to, i);
            farthest = i;
        }
    }
    if (farthest == to) {
        fprintf(f->out, " %.1f,%.1f", x_of(f, to), y_of(f, (double)f->points[to].value));
        return;
    }
    write_line(f, from, farthest);
    write_line(f, farthest, to);
}

static void write_run(const struct frame *f, size_t from, size_t end)
{
    fprintf(f->out, "<polyline points=\"%.1f,%.1f", x_of(f, from), y_of(f, (double)f->points[from].value));
    write_line(f, from, end - 1);
    fprintf(f->out, "\"/>\n");
    for (size_t i = from; i < end; i++) {
        if (f->points[i].value == 0) {
            write_zero(f, x_of(f, i), y_of(f, 0));
        }
    }
}

int picture_write(const char *path, const struct picture *picture, const struct point *points, size_t count)
{
    struct frame f = {fopen(path, "w"), picture, points, count, 1, -1, 1};
    if (f.out == NULL) {
        return -1;
    }
    span(&f);
    fprintf(f.out, "<svg xmlns=\"http://www.w3.org/2000/svg\" viewBox=\"0 0 %d %d\" font-family=\"sans-serif\" font-size=\"13\">\n", WIDTH, HEIGHT);
    fprintf(f.out, "<rect width=\"%d\" height=\"%d\" fill=\"white\"/>\n", WIDTH, HEIGHT);
    for (size_t i = 0; i < count; i = run_end(&f, i)) {
        if (!points[i].there) {
            write_gap(&f, i, run_end(&f, i));
        }
    }
    write_up(&f);
    write_across(&f);
    write_legend(&f);
    fprintf(f.out, "<g fill=\"none\" stroke=\"%s\" stroke-linecap=\"round\" stroke-linejoin=\"round\">\n", LINE);
    for (size_t i = 0; i < count; i = run_end(&f, i)) {
        if (points[i].there) {
            write_run(&f, i, run_end(&f, i));
        }
    }
    fprintf(f.out, "</g>\n</svg>\n");
    int failed = ferror(f.out);
    return fclose(f.out) != 0 || failed ? -1 : 0;
}
