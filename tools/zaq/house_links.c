/* Links: `link A -> B length L`, `link A <-> B length L`. */
#include "reading.h"
#include <string.h>

/* A link's numbers, and where they stand. */
struct link {
    zaq_arc arc;
    int both_ways;
    const uint8_t *tail_place, *head_place, *length_place;
};

static int take_device(struct reading *reading, struct line *line, const uint8_t **place, uint8_t *node)
{
    skip_blanks(line);
    *place = line->at;
    return take_number(reading, line, "a device's number", node);
}

static int take_arrow(struct reading *reading, struct line *line, int *both_ways)
{
    skip_blanks(line);
    size_t left = (size_t)(line->end - line->at);
    *both_ways = left >= 3 && memcmp(line->at, "<->", 3) == 0;
    if (!*both_ways && (left < 2 || memcmp(line->at, "->", 2) != 0)) {
        not_expected(reading, line, line->at, "-> (one way) or <-> (both ways)");
        return 0;
    }
    line->at += *both_ways ? 3 : 2;
    return 1;
}

static int take_length(struct reading *reading, struct line *line, struct link *link)
{
    if (!take_word(line, "length")) {
        not_expected(reading, line, line->at, "the word length and a number");
        return 0;
    }
    skip_blanks(line);
    link->length_place = line->at;
    return take_number(reading, line, "a length, a number from 1 to LMAX", &link->arc.length);
}

/* Whether the library knows a node of this number. */
static int is_node(const struct house *house, uint8_t node)
{
    return zaq_refusal(zaq_entry_arcs(house->n, house->lmax, NULL, 0, NULL, 0, node, node)) != ZAQ_NO_SUCH_NODE;
}

static void tell_refused(struct reading *reading, const struct line *line, const struct link *link, zaq_arc arc, uint32_t refusal)
{
    const uint8_t *place = link->tail_place;
    char expected[64] = "each arc once", number[24] = "";
    if (refusal == ZAQ_WRONG_ARC_NODE) {
        snprintf(expected, sizeof expected, "the number of a device, 1 to %u", (unsigned)reading->house->n);
        if (is_node(reading->house, link->arc.tail))
            place = link->head_place;
    } else if (refusal == ZAQ_ARC_TO_ITSELF) {
        strcpy(expected, "two devices");
        place = link->head_place;
    } else if (refusal == ZAQ_WRONG_ARC_LENGTH) {
        snprintf(expected, sizeof expected, "a length from 1 to %u", (unsigned)reading->house->lmax);
        place = link->length_place;
    }
    if (!reading->link_wrong)
        snprintf(number, sizeof number, "arc %u, ", (unsigned)reading->arcs_len + 1);
    mistake_at(reading, line, place, "refused %u: %s (%sfrom %u to %u, length %u), expected %s", (unsigned)refusal, zaq_words(refusal),
        number, (unsigned)arc.tail, (unsigned)arc.head, (unsigned)arc.length, expected);
}

/* Adds an arc if the library takes it after those that are there. */
static int add_arc(struct reading *reading, const struct line *line, const struct link *link, zaq_arc arc)
{
    reading->arcs[reading->arcs_len] = arc;
    uint32_t refusal = zaq_refusal(zaq_check_arcs(reading->house->n, reading->house->lmax, reading->arcs, reading->arcs_len + 1));
    if (refusal) {
        tell_refused(reading, line, link, arc, refusal);
        return 0;
    }
    reading->arcs_len++;
    return 1;
}

void read_link(struct reading *reading, struct line *line)
{
    struct link link;
    int good = take_device(reading, line, &link.tail_place, &link.arc.tail) && take_arrow(reading, line, &link.both_ways)
               && take_device(reading, line, &link.head_place, &link.arc.head) && take_length(reading, line, &link)
               && take_end(reading, line) && add_arc(reading, line, &link, link.arc);
    if (good && link.both_ways)
        good = add_arc(reading, line, &link, (zaq_arc){link.arc.head, link.arc.tail, link.arc.length});
    if (!good)
        reading->link_wrong = 1;
}
