/* Writes the picture: what is written later lies above what was written before. */
#include "draw_parts.h"

/* The background is the picture's own, and so is every colour: a page in dark mode changes neither. */
static const char style[] =
    "<style>\n"
    "svg { color-scheme: light; }\n"
    "text { font-family: 'DejaVu Sans', Verdana, Helvetica, Arial, sans-serif; font-size: 13px; fill: #1e293b; }\n"
    ".sheet { fill: #fff; stroke: #cbd5e1; }\n"
    ".heading { font-size: 22px; font-weight: bold; }\n"
    ".head { font-weight: bold; fill: #475569; }\n"
    ".name { unicode-bidi: isolate; }\n"
    ".quiet { fill: #56657a; }\n"
    ".number { font-size: 16px; font-weight: bold; text-anchor: middle; }\n"
    ".end { text-anchor: end; }\n"
    ".strong { font-weight: bold; }\n"
    ".rule { stroke: #e2e8f0; }\n"
    ".arc { fill: none; stroke: #94a3b8; stroke-width: 1.2; }\n"
    ".tip { fill: #7f8ea3; }\n"
    ".dense .arc { stroke-width: 0.8; }\n"
    ".faint .arc { stroke: #cbd5e1; }\n"
    ".faint .tip { fill: #b6c0cc; }\n"
    ".way { fill: none; stroke-width: 3.5; }\n"
    ".ahead { stroke: none; }\n"
    ".back { fill: #fff; stroke-width: 1.6; stroke-linejoin: round; }\n"
    ".length { font-size: 12px; text-anchor: middle; fill: #1e293b; "
    "stroke: #fff; stroke-width: 5; stroke-linejoin: round; paint-order: stroke; }\n"
    ".rim { fill: #fff; stroke-width: 2.5; }\n"
    ".plain .rim { stroke: #334155; }\n"
    ".own .rim { fill: #334155; stroke: #334155; }\n"
    ".own .number { fill: #fff; }\n"
    ".unknown .rim { stroke: #64748b; stroke-width: 2; stroke-dasharray: 5 4; }\n"
    ".unknown .number, .unreachable .number { fill: #64748b; }\n"
    ".unreachable .number { stroke: #f1f5f9; stroke-width: 4; stroke-linejoin: round; paint-order: stroke; }\n"
    ".unreachable .rim { stroke: #94a3b8; fill: #f1f5f9; stroke-width: 2; }\n"
    ".cross { stroke: #b91c1c; stroke-width: 2.5; stroke-linecap: round; fill: none; }\n"
    "</style>\n";

static void draw_count(FILE *out, const char *before, unsigned count, const char *word)
{
    fprintf(out, "%s%u %s%s", before, count, word, count == 1 ? "" : "s");
}

/* Whose table it is, for the picture's title. */
static void draw_title_words(const struct picture *picture)
{
    if (picture->table) {
        fprintf(picture->out, "Table of ");
        draw_node_words(picture, picture->table->own);
    } else
        draw_count(picture->out, "House of ", picture->house->n, "node");
}

static void draw_heading(const struct picture *picture)
{
    FILE *out = picture->out;
    unsigned known = 0, unknown = 0, n = picture->house->n, own = picture->table ? picture->table->own : 0;
    fprintf(out, "<text class=\"heading\" x=\"%d\" y=\"46\">", MARGIN);
    if (own && picture->house->names[own][0]) {
        /* a bold letter is wider, and the words around the name take some room */
        fprintf(out, "Table of %u (<tspan class=\"name\">", own);
        draw_cut_name(out, picture->house->names[own], picture->width - 2 * MARGIN - 220, 1.15 * TITLE_SIZE);
        fprintf(out, "</tspan>)");
    } else
        draw_title_words(picture);
    fprintf(out, "</text>\n<text class=\"quiet\" x=\"%d\" y=\"70\">", MARGIN);
    draw_count(out, "", n, "node");
    draw_count(out, ", ", (unsigned)picture->house->arcs_len, "arc");
    fprintf(out, ", LMAX %u", picture->house->lmax);
    for (unsigned node = 1; picture->table && node <= n; node++) {
        known += node != own && draw_is_known(picture, node);
        unknown += draw_distance(picture, node) == ZAQ_UNKNOWN;
    }
    if (picture->table)
        fprintf(out, "; %u known, %u unknown, %u unreachable", known, unknown, n - 1 - known - unknown);
    if (picture->dense)
        fprintf(out, "; too many arcs to write each length");
    fprintf(out, "</text>\n");
}

/* The house is one that the library accepts, and the table is that of one of its nodes, whole or cut: callers see to that. The same house
 * and table give the same bytes. */
int draw_house(FILE *out, const struct house *house, const struct table *table, const struct outcome *finished)
{
    struct picture picture = {.out = out, .house = house, .table = table, .finished = finished};
    draw_find_routes(&picture);
    draw_lay_out(&picture);
    fprintf(out, "<svg xmlns=\"http://www.w3.org/2000/svg\" viewBox=\"0 0 %.0f %.0f\" width=\"%.0f\" height=\"%.0f\"", picture.width,
        picture.height, picture.width, picture.height);
    fprintf(out, " role=\"img\" aria-label=\"");
    draw_title_words(&picture);
    fprintf(out, "\">\n<title>");
    draw_title_words(&picture);
    fprintf(out, "</title>\n%s<rect class=\"sheet\" x=\"0.5\" y=\"0.5\" width=\"%.0f\" height=\"%.0f\" rx=\"10\"/>\n", style,
        picture.width - 1, picture.height - 1);
    draw_heading(&picture);
    draw_arcs(&picture);
    draw_routes(&picture);
    draw_lengths(&picture);
    draw_nodes(&picture);
    draw_panel(&picture);
    fprintf(out, "</svg>\n");
    return fflush(out) != 0 || ferror(out) != 0;
}
