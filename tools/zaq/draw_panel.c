/* The panel beside the house: what the signs mean, and the same table in numbers. */
#include "draw_parts.h"

enum { NAME_LEFT = 40, DISTANCE_RIGHT = 252, HOP_RIGHT = 315, LEGEND_TOP = HEADING + 36, TABLE_HEAD = 30, SIGN_RIM = 10, SIGN_WIDTH = 34 };

static unsigned signs(const struct picture *picture)
{
    return picture->table ? 5 : 2;
}

static double table_top(const struct picture *picture)
{
    return LEGEND_TOP + SIGN * signs(picture) + TABLE_HEAD;
}

double draw_panel_height(const struct picture *picture)
{
    return table_top(picture) + ROW * picture->house->n + MARGIN;
}

static void sign_text(const struct picture *picture, double y, const char *first, const char *second)
{
    double x = picture->panel + NAME_LEFT + 4;
    fprintf(picture->out, "<text x=\"%.1f\" y=\"%.1f\">%s</text>", x, y - 3, first);
    fprintf(picture->out, "<text class=\"quiet\" x=\"%.1f\" y=\"%.1f\">%s</text>\n", x, y + 13, second);
}

/* Samples of arcs and routes are lines as in the house, but under a class of their own: they belong to no arc. */
static struct curve sample(const struct picture *picture, double y)
{
    double x = picture->panel;
    return (struct curve){{x, y}, {x + SIGN_WIDTH / 2, y}, {x + SIGN_WIDTH, y}, 0, 0};
}

static void draw_arc_signs(const struct picture *picture, double y)
{
    FILE *out = picture->out;
    for (int both = 0; both < 2; both++, y += SIGN) {
        struct curve curve = sample(picture, y);
        fprintf(out, "<path class=\"arc sample\" d=\"M%.1f %.1f h%d\"/>", curve.from.x, y, SIGN_WIDTH);
        draw_head_to(out, "tip sample", NULL, &curve, 9);
        if (both)
            draw_head_from(out, "tip sample", NULL, &curve, 9);
        sign_text(picture, y, both ? "two arcs, one each way" : "arc, from its tail to its head",
            both ? "of the same length" : picture->dense ? "its length is left out" : "with its length");
    }
}

static void draw_table_signs(const struct picture *picture, double y)
{
    FILE *out = picture->out;
    struct curve curve = sample(picture, y);
    struct point p = {picture->panel + SIGN_WIDTH / 2, y + SIGN}, q = {p.x, p.y + SIGN};
    fprintf(out, "<path class=\"way sample\" stroke=\"%s\" d=\"M%.1f %.1f h%d\"/>", draw_colour(1), curve.from.x + 10, y, SIGN_WIDTH - 20);
    draw_head_to(out, "ahead sample", draw_colour(1), &curve, 14);
    draw_head_from(out, "back sample", draw_colour(1), &curve, 11);
    sign_text(picture, y, "route, a colour for each first hop", "hollow head: there is an arc back as well");
    fprintf(out, "<g class=\"unknown\">");
    draw_disc(out, p, SIGN_RIM, NULL);
    fprintf(out, "</g>");
    sign_text(picture, p.y, "unknown", "the table does not say, or not yet");
    fprintf(out, "<g class=\"unreachable\">");
    draw_disc(out, q, SIGN_RIM, NULL);
    draw_cross(out, q, 0, 9);
    fprintf(out, "</g>");
    sign_text(picture, q.y, "unreachable", "no chain of arcs leads there");
}

static void right_text(const struct picture *picture, const char *class, double right, double y, const char *text)
{
    fprintf(picture->out, "<text class=\"%s end\" x=\"%.1f\" y=\"%.1f\">%s</text>", class, picture->panel + right, y, text);
}

static void draw_row(const struct picture *picture, unsigned node, double y)
{
    FILE *out = picture->out;
    int own = picture->table && node == picture->table->own;
    double x = picture->panel, right = x + HOP_RIGHT;
    fprintf(out, "<g><title>");
    draw_node_words(picture, node);
    fprintf(out, "</title><path class=\"rule\" d=\"M%.1f %.1f h%d\"/>", x, y - 18, HOP_RIGHT);
    fprintf(out, "<text class=\"end\" x=\"%.1f\" y=\"%.1f\">%u</text>", x + 22, y, node);
    fprintf(out, "<text class=\"quiet\" x=\"%.1f\" y=\"%.1f\">", x + NAME_LEFT, y);
    draw_cut_name(out, picture->house->names[node], picture->table ? NAME_WIDTH : HOP_RIGHT - NAME_LEFT, TEXT_SIZE);
    fprintf(out, "</text>");
    if (own)
        right_text(picture, "strong", HOP_RIGHT, y, "this node");
    else if (draw_is_known(picture, node)) {
        unsigned hop = draw_hop(picture, node);
        fprintf(out, "<text class=\"end\" x=\"%.1f\" y=\"%.1f\">%u</text>", x + DISTANCE_RIGHT, y, draw_distance(picture, node));
        fprintf(out, "<text class=\"strong end\" x=\"%.1f\" y=\"%.1f\" style=\"fill: %s\">%u</text>", right, y, draw_colour(hop), hop);
    } else if (picture->table)
        right_text(picture, "quiet", HOP_RIGHT, y, draw_state(picture, node));
    fprintf(out, "</g>\n");
}

void draw_panel(const struct picture *picture)
{
    double top = table_top(picture);
    fprintf(picture->out, "<text class=\"head\" x=\"%.1f\" y=\"%d\">Signs</text>\n", picture->panel, LEGEND_TOP - 26);
    draw_arc_signs(picture, LEGEND_TOP);
    if (picture->table)
        draw_table_signs(picture, LEGEND_TOP + 2 * SIGN);
    fprintf(picture->out, "<text class=\"head\" x=\"%.1f\" y=\"%.1f\">%s</text>", picture->panel, top - 4, picture->table ? "To" : "Nodes");
    if (picture->table) {
        right_text(picture, "head", DISTANCE_RIGHT, top - 4, "distance");
        right_text(picture, "head", HOP_RIGHT, top - 4, "by");
    }
    fputc('\n', picture->out);
    for (unsigned node = 1; node <= picture->house->n; node++)
        draw_row(picture, node, top + ROW * node - 4);
}
