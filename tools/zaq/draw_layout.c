/* Where things stand: nodes on a circle, node 1 at the top and the others clockwise, and arcs between them, clear of all other nodes. */
#include "draw_parts.h"
#include <math.h>

enum { LABEL_WIDTH = NAME_WIDTH + 12 + RIM, LABEL_HEIGHT = 44 + RIM, PANEL_WIDTH = 315 };
/* How far two arcs between the same nodes bend apart, how much room a line leaves around a disc, and by how much it bends further. */
enum { BEND = 26, CLEAR = 8, FURTHER = 4, FURTHEST = 400, PIECES = 16 };

double draw_far(struct point a, struct point b)
{
    return sqrt((a.x - b.x) * (a.x - b.x) + (a.y - b.y) * (a.y - b.y));
}

static struct point towards(struct point from, struct point to, double by)
{
    double far = draw_far(from, to);
    if (far == 0)
        return from;
    return (struct point){from.x + (to.x - from.x) * by / far, from.y + (to.y - from.y) * by / far};
}

/* The point of the curve at a share of its way if both shares are alike; if not, the control point of the piece between them. */
static struct point between(const struct curve *curve, double first, double last)
{
    double a = (1 - first) * (1 - last), b = first * (1 - last) + last * (1 - first), c = first * last;
    return (struct point){
        a * curve->from.x + b * curve->control.x + c * curve->to.x, a * curve->from.y + b * curve->control.y + c * curve->to.y};
}

struct point draw_along(const struct curve *curve, double share)
{
    return between(curve, share, share);
}

struct curve draw_piece(const struct curve *curve, double first, double last)
{
    return (struct curve){draw_along(curve, first), between(curve, first, last), draw_along(curve, last), curve->two_way, curve->drawn};
}

/* From the point to the straight piece between two others. */
static double far_from_piece(struct point p, struct point from, struct point to)
{
    double dx = to.x - from.x, dy = to.y - from.y, square = dx * dx + dy * dy;
    double share = square > 0 ? ((p.x - from.x) * dx + (p.y - from.y) * dy) / square : 0;
    share = share < 0 ? 0 : share > 1 ? 1 : share;
    return draw_far(p, (struct point){from.x + share * dx, from.y + share * dy});
}

double draw_far_from_curve(struct point p, const struct curve *curve)
{
    double least = draw_far(p, curve->from);
    struct point from = curve->from;
    for (int k = 1; k <= PIECES; k++) {
        struct point to = draw_along(curve, (double)k / PIECES);
        double far = far_from_piece(p, from, to);
        least = far < least ? far : least;
        from = to;
    }
    return least;
}

/* Two arcs of different lengths between the same nodes bend apart, each to its own right, and both `further` towards the centre. */
static struct curve curve_of(const struct picture *picture, size_t arc, double further)
{
    const struct house *house = picture->house;
    zaq_arc a = house->arcs[arc];
    struct point from = picture->place[a.tail], to = picture->place[a.head];
    struct point middle = {(from.x + to.x) / 2, (from.y + to.y) / 2};
    struct point control = towards(middle, picture->centre, further);
    int back = draw_find_arc(house, a.head, a.tail);
    int two_way = back >= 0 && house->arcs[back].length == a.length;
    if (back >= 0 && !two_way) {
        double far = draw_far(from, to);
        control.x -= BEND * (to.y - from.y) / far;
        control.y += BEND * (to.x - from.x) / far;
    }
    return (struct curve){towards(from, control, RIM), control, towards(to, control, RIM + 1), two_way, !two_way || a.tail < a.head};
}

static int is_clear(const struct picture *picture, zaq_arc arc, const struct curve *curve)
{
    for (unsigned node = 1; node <= picture->house->n; node++)
        if (node != arc.tail && node != arc.head && draw_far_from_curve(picture->place[node], curve) < RIM + CLEAR)
            return 0;
    return 1;
}

/* Bends the arc, and its like in the other direction, until both are clear. There are no nodes towards the centre, so this ends. */
static void lay_curve(struct picture *picture, size_t arc)
{
    zaq_arc there = picture->house->arcs[arc], back = {there.head, there.tail, 0};
    int other = draw_find_arc(picture->house, there.head, there.tail);
    for (double further = 0; further <= FURTHEST; further += FURTHER) {
        picture->curve[arc] = curve_of(picture, arc, further);
        struct curve beside = other < 0 ? picture->curve[arc] : curve_of(picture, (size_t)other, further);
        if (is_clear(picture, there, &picture->curve[arc]) && is_clear(picture, back, &beside))
            break;
    }
}

/* Rounded as it is written, so that the picture does not depend on the last bit of a sine. */
static double rounded(double x)
{
    return floor(10 * x + 0.5) / 10;
}

/* Places around (0, 0): two nodes stand side by side, and few nodes stand closer together than many would. */
static void place_nodes(struct picture *picture)
{
    unsigned n = picture->house->n;
    double radius = n == 1 ? 0 : n < 6 ? 240 - 23.0 * (6 - n) : 240 + 9.0 * (n - 6);
    double turn = 2 * 3.14159265358979 / n, first = n == 2 ? -turn / 2 : 0;
    for (unsigned k = 1; k <= n; k++) {
        double angle = first + turn * (k - 1);
        picture->place[k] = (struct point){rounded(radius * sin(angle)), rounded(-radius * cos(angle))};
    }
}

static void lay_curves(struct picture *picture)
{
    unsigned drawn = 0;
    for (size_t k = 0; k < picture->house->arcs_len; k++) {
        lay_curve(picture, k);
        drawn += picture->curve[k].drawn != 0;
    }
    picture->dense = drawn > MOST_LENGTHS;
}

void draw_lay_out(struct picture *picture)
{
    struct point least = {0, 0}, most = {0, 0};
    place_nodes(picture);
    for (unsigned k = 1; k <= picture->house->n; k++) {
        struct point p = picture->place[k];
        least = (struct point){fmin(least.x, p.x), fmin(least.y, p.y)};
        most = (struct point){fmax(most.x, p.x), fmax(most.y, p.y)};
    }
    /* the house is as wide as its nodes with their labels; a panel that is taller has the house at its middle */
    double own = HEADING + most.y - least.y + 2 * LABEL_HEIGHT + MARGIN, other = draw_panel_height(picture);
    picture->panel = MARGIN + most.x - least.x + 2 * LABEL_WIDTH + MARGIN;
    picture->width = ceil(picture->panel + PANEL_WIDTH + MARGIN);
    picture->height = ceil(fmax(own, other));
    double down = fmax(0, other - own) / 2;
    picture->centre = (struct point){MARGIN + LABEL_WIDTH - least.x, rounded(HEADING + LABEL_HEIGHT - least.y + down)};
    for (unsigned k = 1; k <= picture->house->n; k++) {
        picture->place[k].x += picture->centre.x;
        picture->place[k].y += picture->centre.y;
    }
    lay_curves(picture);
}
