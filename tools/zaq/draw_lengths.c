/* The lengths: each on its line, as free of other lengths, of other lines and of discs as can be. */
#include "draw_parts.h"
#include <math.h>

/* In a dense house only the lengths on routes are written. */
static int has_length(const struct picture *picture, size_t arc)
{
    return picture->dense ? draw_on_route(picture, arc) : picture->curve[arc].drawn;
}

/* How free a place for an arc's length is, of other lines and of discs: below 0 if it covers a length that was placed before, else up to
 * 1. */
static double freedom(const struct picture *picture, const struct point *place, size_t arc, struct point p)
{
    enum { TEXT_WIDTH = 19, TEXT_HEIGHT = 14, FREE = 15 };
    double free = FREE;
    for (size_t k = 0; k < picture->house->arcs_len; k++) {
        if (k == arc || !has_length(picture, k))
            continue;
        if (k < arc && fabs(place[k].x - p.x) < TEXT_WIDTH && fabs(place[k].y - p.y) < TEXT_HEIGHT)
            return -1;
        free = fmin(free, draw_far_from_curve(p, &picture->curve[k]));
    }
    for (unsigned node = 1; node <= picture->house->n; node++)
        free = fmin(free, draw_far(p, picture->place[node]) - RIM);
    return free / FREE;
}

static struct point freest(const struct picture *picture, const struct point *place, size_t arc)
{
    enum { TRIES = 49, HEAD_ROOM = 28 };
    const struct curve *curve = &picture->curve[arc];
    struct point found = draw_along(curve, 0.5);
    double best = -9, margin = fmin(0.4, HEAD_ROOM / draw_far(curve->from, curve->to));
    for (unsigned t = 0; t < TRIES; t++) {
        double share = margin + (1 - 2 * margin) * t / (TRIES - 1);
        struct point p = draw_along(curve, share);
        /* of places as free, the one nearest to the middle */
        double worth = freedom(picture, place, arc, p) - 0.3 * fabs(share - 0.5);
        if (worth > best) {
            best = worth;
            found = p;
        }
    }
    return found;
}

void draw_lengths(const struct picture *picture)
{
    struct point place[MOST_ARCS];
    for (size_t k = 0; k < picture->house->arcs_len; k++)
        if (has_length(picture, k)) {
            place[k] = freest(picture, place, k);
            fprintf(picture->out, "<text class=\"length\" x=\"%.1f\" y=\"%.1f\">%u</text>\n", place[k].x, place[k].y + 4,
                picture->house->arcs[k].length);
        }
}
