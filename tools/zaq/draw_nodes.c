/* The nodes of the house, each with its label. */
#include "draw_parts.h"

/* What the table says of a node, in words. */
static void draw_entry_words(const struct picture *picture, unsigned node)
{
    if (node == picture->table->own)
        fprintf(picture->out, "this node");
    else if (draw_is_known(picture, node))
        fprintf(picture->out, "distance %u by %u", draw_distance(picture, node), draw_hop(picture, node));
    else
        fprintf(picture->out, "%s", draw_state(picture, node));
}

/* The lines beside a node, outside the circle: its name, and what the table says of it. */
static void draw_label(const struct picture *picture, unsigned node)
{
    enum { AWAY = RIM + 12 };
    FILE *out = picture->out;
    struct point p = picture->place[node];
    double far = draw_far(p, picture->centre);
    /* a node alone has its label below it */
    double right = far > 0 ? (p.x - picture->centre.x) / far : 0, down = far > 0 ? (p.y - picture->centre.y) / far : 1;
    const char *side = right > 0.1 ? "start" : right < -0.1 ? "end" : "middle";
    int named = picture->house->names[node][0] != 0, lines = named + (picture->table != NULL);
    double x = p.x + right * AWAY;
    /* the block of lines hangs from its point at the bottom of the picture, and stands on it at the top */
    double y = p.y + down * AWAY + 4 + (8 + down * 6) * (lines - 1) + down * 6;
    if (named) {
        fprintf(out, "<text class=\"quiet\" text-anchor=\"%s\" x=\"%.1f\" y=\"%.1f\">", side, x, y - 16 * (lines - 1));
        draw_cut_name(out, picture->house->names[node], NAME_WIDTH, TEXT_SIZE);
        fprintf(out, "</text>");
    }
    if (picture->table) {
        fprintf(out, "<text class=\"strong\" text-anchor=\"%s\" x=\"%.1f\" y=\"%.1f\">", side, x, y);
        draw_entry_words(picture, node);
        fprintf(out, "</text>");
    }
}

void draw_nodes(const struct picture *picture)
{
    FILE *out = picture->out;
    for (unsigned node = 1; node <= picture->house->n; node++) {
        struct point p = picture->place[node];
        int lost = picture->table && draw_distance(picture, node) == ZAQ_UNREACHABLE;
        int routed = draw_is_known(picture, node) && node != picture->table->own;
        fprintf(out, "<g class=\"node %s\"><title>", draw_state(picture, node));
        draw_node_words(picture, node);
        if (picture->table) {
            fprintf(out, ": ");
            draw_entry_words(picture, node);
        }
        fprintf(out, "</title>");
        draw_disc(out, p, RIM, routed ? draw_colour(draw_hop(picture, node)) : NULL);
        if (lost)
            draw_cross(out, p, 7, 19);
        fprintf(out, "<text class=\"number\" x=\"%.1f\" y=\"%.1f\">%u</text>", p.x, p.y + 6, node);
        draw_label(picture, node);
        fprintf(out, "</g>\n");
    }
}
