/* What the table knows, and by which arcs. */
#include "draw_parts.h"

int draw_find_arc(const struct house *house, unsigned tail, unsigned head)
{
    for (size_t k = 0; k < house->arcs_len; k++)
        if (house->arcs[k].tail == tail && house->arcs[k].head == head)
            return (int)k;
    return -1;
}

unsigned draw_distance(const struct picture *picture, unsigned node)
{
    return picture->table->entries[2 * node - 2];
}

unsigned draw_hop(const struct picture *picture, unsigned node)
{
    return picture->table->entries[2 * node - 1];
}

int draw_is_known(const struct picture *picture, unsigned node)
{
    return picture->table && draw_distance(picture, node) != ZAQ_UNKNOWN && draw_distance(picture, node) != ZAQ_UNREACHABLE;
}

const char *draw_state(const struct picture *picture, unsigned node)
{
    if (!picture->table)
        return "plain";
    if (node == picture->table->own)
        return "own";
    if (draw_is_known(picture, node))
        return "known";
    return draw_distance(picture, node) == ZAQ_UNKNOWN ? "unknown" : "unreachable";
}

/* Marks the arcs of the way to a target: each node on it hands sound to its own first hop, as zaq_route tells it. */
static void mark_route(struct picture *picture, unsigned target)
{
    const struct house *house = picture->house;
    unsigned at = picture->table->own;
    for (unsigned passed = 0; at != target && passed < house->n; passed++) {
        unsigned hop = entry_of(table_of(house, picture->finished, at), target).hop;
        int arc = draw_find_arc(house, at, hop);
        if (arc < 0) /* never: a finished table has neighbours only */
            return;
        picture->route[arc] = (uint8_t)draw_hop(picture, target);
        at = hop;
    }
}

/* All ways to what the table knows. An arc has one colour: a node's ways to all targets beyond an arc have the same first hop, since each
 * node takes the lowest one that is on a shortest way. */
void draw_find_routes(struct picture *picture)
{
    for (unsigned node = 1; picture->table && node <= picture->house->n; node++)
        if (draw_is_known(picture, node))
            mark_route(picture, node);
}

int draw_on_route(const struct picture *picture, size_t arc)
{
    return picture->route[arc] != 0;
}
