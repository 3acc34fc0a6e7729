/* The lines of the house: routes in colour, above all other arcs in grey. Each arc has one head. */
#include "draw_parts.h"
#include <math.h>

enum { AHEAD = 14, BACK = 11 }; /* the heads of a route, and of an arc back under it */

/* A line's title: its arc, or both, with the length, which a dense house does not show otherwise. */
static void draw_line_title(const struct picture *picture, size_t arc)
{
    zaq_arc a = picture->house->arcs[arc];
    fprintf(picture->out, "<title>");
    draw_node_words(picture, a.tail);
    fprintf(picture->out, " to ");
    draw_node_words(picture, a.head);
    fprintf(picture->out, "%s: length %u</title></path>\n", picture->curve[arc].two_way ? " and back" : "", a.length);
}

/* Whether a route has the arc's line: two arcs of one length share theirs. */
static int is_covered(const struct picture *picture, size_t arc)
{
    zaq_arc a = picture->house->arcs[arc];
    int back = picture->curve[arc].two_way ? draw_find_arc(picture->house, a.head, a.tail) : -1;
    return draw_on_route(picture, arc) || (back >= 0 && draw_on_route(picture, (size_t)back));
}

void draw_arcs(const struct picture *picture)
{
    double size = picture->dense ? 6 : 9;
    /* many arcs must not drown the routes */
    fprintf(picture->out, "<g class=\"arcs%s%s\">\n", picture->dense ? " dense" : "", picture->dense && picture->table ? " faint" : "");
    for (size_t k = 0; k < picture->house->arcs_len; k++) {
        const struct curve *curve = &picture->curve[k];
        if (!curve->drawn || is_covered(picture, k))
            continue;
        draw_path(picture->out, "arc", NULL, curve);
        draw_line_title(picture, k);
        draw_head_to(picture->out, "tip", NULL, curve, size);
        if (curve->two_way)
            draw_head_from(picture->out, "tip", NULL, curve, size);
    }
    fprintf(picture->out, "</g>\n");
}

/* A step of length 1 along the arc, out of one of its nodes. */
static struct point way_out(const struct picture *picture, size_t arc, unsigned node)
{
    struct point from = picture->place[node], to = picture->curve[arc].control;
    double far = draw_far(from, to);
    return (struct point){(to.x - from.x) / far, (to.y - from.y) / far};
}

/* How far from the tail's disc the head of the arc back stands: where routes are close together, further out, so that it can be seen. */
static double back_off(const struct picture *picture, size_t arc)
{
    enum { ASIDE = 12 };
    const zaq_arc *arcs = picture->house->arcs;
    unsigned tail = arcs[arc].tail;
    struct point own = way_out(picture, arc, tail);
    double off = 0;
    for (size_t k = 0; k < picture->house->arcs_len; k++)
        if (k != arc && draw_on_route(picture, k) && (arcs[k].tail == tail || arcs[k].head == tail))
            off = fmax(off, ASIDE / fmax(0.01, draw_far(own, way_out(picture, k, tail))) - RIM);
    /* a short line has its length in the middle; and what would hardly move stays at the disc */
    off = fmin(off, draw_far(picture->curve[arc].from, picture->curve[arc].to) / 2 - 28);
    return off < BACK ? 0 : off;
}

static const char *colour_of(const struct picture *picture, size_t arc)
{
    return draw_colour(picture->route[arc]);
}

static void draw_shaft(const struct picture *picture, size_t arc)
{
    const struct curve *curve = &picture->curve[arc];
    double far = draw_far(curve->from, curve->to);
    /* a thick line must not stick out of its heads */
    int short_of_disc = curve->two_way && back_off(picture, arc) == 0;
    struct curve shaft = draw_piece(curve, short_of_disc ? (BACK - 1) / far : 0, 1 - (AHEAD - 3) / far);
    draw_path(picture->out, "way", colour_of(picture, arc), &shaft);
    draw_line_title(picture, arc);
}

static void draw_heads(const struct picture *picture, size_t arc)
{
    const struct curve *curve = &picture->curve[arc];
    draw_head_to(picture->out, "ahead", colour_of(picture, arc), curve, AHEAD);
    if (curve->two_way) {
        struct curve back = draw_piece(curve, back_off(picture, arc) / draw_far(curve->from, curve->to), 1);
        draw_head_from(picture->out, "back", colour_of(picture, arc), &back, BACK);
    }
}

/* Heads lie above all shafts. */
void draw_routes(const struct picture *picture)
{
    for (size_t k = 0; k < picture->house->arcs_len; k++)
        if (draw_on_route(picture, k))
            draw_shaft(picture, k);
    for (size_t k = 0; k < picture->house->arcs_len; k++)
        if (draw_on_route(picture, k))
            draw_heads(picture, k);
}
