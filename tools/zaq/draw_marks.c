/* The shapes that the house and the panel are made of. */
#include "draw_parts.h"

const char *draw_colour(unsigned hop)
{
    static const char *const colour[MOST_NODES + 1] = {
        "#334155", "#2563eb", "#7c3aed", "#047857", "#b45309", "#0e7490", "#be185d", "#4d7c0f", "#78350f", "#a21caf", "#115e59", "#c2410c",
        "#3730a3", "#854d0e", "#14532d", "#831843", "#0c4a6e",
    };
    return colour[hop <= MOST_NODES ? hop : 0];
}

void draw_disc(FILE *out, struct point p, double rim, const char *stroke)
{
    fprintf(out, "<circle class=\"rim\"");
    if (stroke)
        fprintf(out, " stroke=\"%s\"", stroke);
    fprintf(out, " cx=\"%.1f\" cy=\"%.1f\" r=\"%.0f\"/>", p.x, p.y, rim);
}

void draw_cross(FILE *out, struct point p, double from, double to)
{
    fprintf(out, "<path class=\"cross\" d=\"");
    for (int down = -1; down <= 1; down += 2)
        for (int right = -1; right <= 1; right += 2)
            fprintf(out, "M%.1f %.1f L%.1f %.1f", p.x + right * from, p.y + down * from, p.x + right * to, p.y + down * to);
    fprintf(out, "\"/>");
}

void draw_path(FILE *out, const char *class, const char *stroke, const struct curve *curve)
{
    fprintf(out, "<path class=\"%s\"", class);
    if (stroke)
        fprintf(out, " stroke=\"%s\"", stroke);
    fprintf(out, " d=\"M%.1f %.1f Q%.1f %.1f %.1f %.1f\">", curve->from.x, curve->from.y, curve->control.x, curve->control.y, curve->to.x,
        curve->to.y);
}

void draw_head_to(FILE *out, const char *class, const char *colour, const struct curve *curve, double size)
{
    double far = draw_far(curve->to, curve->control);
    double dx = (curve->to.x - curve->control.x) * size / far, dy = (curve->to.y - curve->control.y) * size / far;
    struct point base = {curve->to.x - dx, curve->to.y - dy};
    fprintf(out, "<path class=\"%s\"", class);
    if (colour)
        fprintf(out, " fill=\"%s\" stroke=\"%s\"", colour, colour);
    fprintf(out, " d=\"M%.1f %.1f L%.1f %.1f L%.1f %.1f Z\"/>\n", curve->to.x, curve->to.y, base.x - 0.45 * dy, base.y + 0.45 * dx,
        base.x + 0.45 * dy, base.y - 0.45 * dx);
}

void draw_head_from(FILE *out, const char *class, const char *colour, const struct curve *curve, double size)
{
    struct curve back = {curve->to, curve->control, curve->from, 0, 0};
    draw_head_to(out, class, colour, &back, size);
}
