/* What the parts of draw_house share. draw_routes.c says what the table knows; draw_layout.c finds places; draw_text.c writes
 * names; draw_marks.c has the shapes; draw_lines.c, draw_lengths.c and draw_nodes.c draw the house, draw_panel.c the panel beside it, and
 * draw_house.c the whole. */
#ifndef ZAQ_DRAW_PARTS_H
#define ZAQ_DRAW_PARTS_H
#include "draw.h"

struct point {
    double x, y;
};

/* An arc's line in the picture: a curve with one control point, from rim to rim of its nodes. */
struct curve {
    struct point from, control, to;
    int two_way; /* two arcs of one length between the same nodes are one line */
    int drawn;   /* that line is drawn for the arc from the lower number */
};

/* A house in which more lines are drawn has lengths on routes only. */
enum { MOST_LENGTHS = 40 };
enum { RIM = 22, MARGIN = 30, NAME_WIDTH = 186, HEADING = 84, ROW = 26, SIGN = 44, TEXT_SIZE = 13, TITLE_SIZE = 22 };

struct picture {
    FILE *out;
    const struct house *house;
    const struct table *table;       /* NULL for the house alone */
    const struct outcome *finished;  /* NULL for the house alone */
    uint8_t route[MOST_ARCS];        /* the first hop of the routes along an arc, 0 where there are none */
    struct point place[MOST_NODES + 1], centre;
    struct curve curve[MOST_ARCS];
    int dense;
    double panel, width, height;     /* where the panel begins, and the whole */
};

/* The arc from tail to head, or -1. */
int draw_find_arc(const struct house *house, unsigned tail, unsigned head);
/* What the table says of a node: "own", "known", "unknown" or "unreachable", or "plain" without a table. */
const char *draw_state(const struct picture *picture, unsigned node);
int draw_is_known(const struct picture *picture, unsigned node);
unsigned draw_distance(const struct picture *picture, unsigned node);
unsigned draw_hop(const struct picture *picture, unsigned node);
void draw_find_routes(struct picture *picture);
int draw_on_route(const struct picture *picture, size_t arc);

void draw_lay_out(struct picture *picture);
double draw_far(struct point a, struct point b);
/* From the point to the nearest point of the curve. */
double draw_far_from_curve(struct point p, const struct curve *curve);
/* The point at a share of the curve's way, from 0 to 1, and the piece between two such points. */
struct point draw_along(const struct curve *curve, double share);
struct curve draw_piece(const struct curve *curve, double first, double last);
double draw_panel_height(const struct picture *picture);

/* A name in full, and one cut with an ellipsis where it would be wider than the room, in pixels, at a text size. */
void draw_name(FILE *out, const char *name);
void draw_cut_name(FILE *out, const char *name, double room, double size);
/* A node in words, by number and name. */
void draw_node_words(const struct picture *picture, unsigned node);

/* The colour of a first hop. */
const char *draw_colour(unsigned hop);
void draw_disc(FILE *out, struct point p, double rim, const char *stroke);
/* Four arms, so that a number can stand between them. */
void draw_cross(FILE *out, struct point p, double from, double to);
/* A curve of this class, left open for its title. */
void draw_path(FILE *out, const char *class, const char *stroke, const struct curve *curve);
/* An arrow's head at the end of a curve, or at its beginning. */
void draw_head_to(FILE *out, const char *class, const char *colour, const struct curve *curve, double size);
void draw_head_from(FILE *out, const char *class, const char *colour, const struct curve *curve, double size);

/* These lie above each other in this order. */
void draw_arcs(const struct picture *picture);
void draw_routes(const struct picture *picture);
void draw_lengths(const struct picture *picture);
void draw_nodes(const struct picture *picture);
/* The legend, and the table as a table. */
void draw_panel(const struct picture *picture);
#endif
