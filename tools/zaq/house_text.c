/* A house text, as docs/HOUSE.md says it. */
#include "reading.h"
#include <string.h>

/* A name is the rest of the line, without the blanks around it. */
static void read_name(struct reading *reading, const struct line *line, char name[NAME_ROOM])
{
    const uint8_t *from = line->at, *to = line->end, *at = from;
    uint32_t value = 0;
    size_t taken = 0;
    while (to > from && (to[-1] == ' ' || to[-1] == '\t'))
        to--;
    for (; at < to; at += taken) {
        taken = character(at, to, &value);
        if (value == NOT_UTF8 || is_control(value) || at + taken - from >= NAME_ROOM)
            break;
    }
    if (at == to) {
        memcpy(name, from, (size_t)(to - from));
        name[to - from] = '\0';
    } else if (value == NOT_UTF8)
        mistake_at(reading, line, at, "found the byte 0x%02x, which is not UTF-8, expected a name in UTF-8", (unsigned)*at);
    else if (is_control(value))
        mistake_at(reading, line, at, "found the control character U+%04X, expected a name without any", (unsigned)value);
    else
        mistake_at(reading, line, at, "found a name of %lu bytes, expected at most %d", (unsigned long)(to - from), NAME_ROOM - 1);
}

/* The line's device, or 0 after a mistake. */
static uint8_t take_new_device(struct reading *reading, struct line *line)
{
    static const char expected[] = "a device's number, from 1 to 16, and its name after a blank";
    uint8_t node;
    skip_blanks(line);
    const struct line place = *line;
    if (!take_number(reading, line, expected, &node))
        return 0;
    const uint8_t *after = line->at;
    skip_blanks(line);
    if (node < 1 || node > MOST_NODES || (after == line->at && line->at < line->end)) {
        not_expected(reading, line, place.at, expected);
        return 0;
    }
    if (reading->device[node].number) {
        mistake_at(reading, line, place.at, "found device %u again, after line %lu, expected each number once", (unsigned)node,
            (unsigned long)reading->device[node].number);
        return 0;
    }
    reading->device[node] = place;
    return node;
}

static void read_device(struct reading *reading, struct line *line)
{
    uint8_t node = take_new_device(reading, line);
    if (node)
        read_name(reading, line, reading->house->names[node]);
    else
        reading->device_wrong = 1;
}

static void read_lmax(struct reading *reading, struct line *line)
{
    static const char expected[] = "LMAX, a number from 1 to 15";
    uint8_t lmax;
    skip_blanks(line);
    const uint8_t *place = line->at;
    if (reading->lmax.number) {
        mistake_at(reading, line, place, "found a second LMAX, after line %lu, expected one", (unsigned long)reading->lmax.number);
        return;
    }
    reading->lmax = *line;
    if (!take_number(reading, line, expected, &lmax) || !take_end(reading, line))
        return;
    uint32_t refusal = zaq_refusal(zaq_check_arcs(1, lmax, NULL, 0));
    if (refusal)
        mistake_at(reading, line, place, "refused %u: %s (LMAX %u), expected %s", (unsigned)refusal, zaq_words(refusal), (unsigned)lmax,
            expected);
    else
        reading->house->lmax = lmax;
}

/* Every line but the links. */
static void read_line(struct reading *reading, struct line *line)
{
    skip_blanks(line);
    const uint8_t *place = line->at;
    if (line->at == line->end || take_word(line, "link"))
        return;
    if (*line->at == '#')
        take_end(reading, line);
    else if (take_word(line, "lmax"))
        read_lmax(reading, line);
    else if (take_word(line, "device"))
        read_device(reading, line);
    else if (take_word(line, "battery"))
        mistake_at(reading, line, place, "found 'battery', which is reserved for battery devices, expected lmax, device or link");
    else
        not_expected(reading, line, place, "lmax, device or link, or a comment after #");
}

static void read_link_line(struct reading *reading, struct line *line)
{
    if (take_word(line, "link"))
        read_link(reading, line);
}

/* Hands every line to `read`; gives the last one. */
static struct line each_line(
    struct reading *reading, const uint8_t *text, const uint8_t *end, void (*read)(struct reading *, struct line *))
{
    struct line line = {1, text, text, text};
    size_t number = 0;
    for (const uint8_t *next = text; next < end;) {
        next = cut_line(next, end, ++number, &line);
        read(reading, &line);
    }
    return line;
}

/* What no single line shows. Where the number of devices or LMAX is not known, the links are read with the greatest there can be: they must
 * not be blamed for it. */
static void read_whole(struct reading *reading, const struct line *last)
{
    struct house *house = reading->house;
    for (uint8_t node = 1; node <= MOST_NODES; node++)
        if (reading->device[node].number) {
            const struct line *line = &reading->device[node];
            if (node != house->n + 1 && !reading->device_wrong)
                mistake_at(reading, line, line->at, "found device %u, but no device %u, expected numbers without a gap", (unsigned)node,
                    node - 1u);
            house->n = node;
        }
    if (house->n == 0 && !reading->device_wrong)
        mistake_at(reading, last, last->end, "found no device line, expected device 1 and its name");
    if (!reading->lmax.number)
        mistake_at(reading, last, last->end, "found no lmax line, expected lmax and a number from 1 to 15");
    if (house->n == 0 || reading->device_wrong)
        house->n = MOST_NODES;
    if (house->lmax == 0)
        house->lmax = 15;
}

int house_of_text(const uint8_t *text, size_t text_len, struct house *house, struct mistakes *mistakes)
{
    struct reading reading = {.house = house, .mistakes = mistakes};
    const uint8_t *end = text + text_len;
    text = skip_mark(text, end);
    memset(house, 0, sizeof *house);
    mistakes->count = 0;
    struct line last = each_line(&reading, text, end, read_line);
    read_whole(&reading, &last);
    each_line(&reading, text, end, read_link_line);
    if (mistakes->count)
        return REFUSED;
    house->arcs_len = reading.arcs_len;
    memcpy(house->arcs, reading.arcs, reading.arcs_len * sizeof *house->arcs);
    uint32_t answer = zaq_pack_network(house->n, house->lmax, house->arcs, house->arcs_len, house->net, sizeof house->net);
    house->net_len = zaq_written(answer);
    if (zaq_refusal(answer)) /* the same list was accepted arc by arc */
        add_mistake(mistakes, 1, 1, zaq_words(zaq_refusal(answer)));
    return zaq_refusal(answer) ? REFUSED : DONE;
}
