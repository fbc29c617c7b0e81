/* A curve as a picture (SVG): one sample a second, gaps left open. */
#ifndef WALLATHI_PICTURE_H
#define WALLATHI_PICTURE_H

#include <stddef.h>
#include <stdint.h>

/* A second of the curve. Where there was no sample, `there` is 0 and `value` has no meaning. */
struct point {
    int there;
    int64_t value;
};

struct picture {
    const char *title;
    const char *across, *upwards; /* the axes' names, with their units */
    int first;                    /* the time of day of the first point, in seconds: the axis has hours and minutes */
};

/* Writes the picture. Seconds without a sample are never joined and never drawn at zero; a run of them is shaded. A sample of exactly 0 is
 * marked, since it was measured. Points that lie on the line without being drawn are left out: no sample is off it by more than a third of a
 * pixel. Returns 0, or -1 where the file cannot be written. */
int picture_write(const char *path, const struct picture *picture, const struct point *points, size_t count);

#endif
