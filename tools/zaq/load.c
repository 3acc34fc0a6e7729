/* A house from a file, whichever of the two forms it has. */
#include "load.h"
#include <stdlib.h>
#include <string.h>

enum { MOST_HOUSE = 1 << 20 }; /* bytes of a house text: a thousand times what sixteen devices need */

/* Every field of a network is four bits wide, but for the arc count. */
static uint8_t half(const uint8_t *net, size_t place)
{
    return place % 2 ? net[place / 2] & 15 : net[place / 2] >> 4;
}

/* The fields of a network whose length is right, whether it is accepted or not. */
static void unpack(const uint8_t *net, struct house *house)
{
    house->n = (uint8_t)(half(net, 1) + 1);
    house->lmax = half(net, 2);
    house->arcs_len = net[2];
    for (size_t k = 0; k < house->arcs_len; k++) {
        size_t place = 6 + 3 * k;
        house->arcs[k] = (zaq_arc){(uint8_t)(half(net, place) + 1), (uint8_t)(half(net, place + 1) + 1), half(net, place + 2)};
    }
}

/* The arc that a refusal is about: the last one of the shortest beginning of the list that the library refuses. */
static void find_arc(const struct house *house, struct fault *fault)
{
    for (size_t len = 1; len <= house->arcs_len && !fault->arc_number; len++)
        if (zaq_refusal(zaq_check_arcs(house->n, house->lmax, house->arcs, len)) == fault->refusal) {
            fault->arc_number = len;
            fault->arc = house->arcs[len - 1];
        }
}

int house_of_network(const uint8_t *net, size_t net_len, struct house *house, struct fault *fault)
{
    memset(house, 0, sizeof *house);
    fault->refusal = zaq_refusal(zaq_check_network(net, net_len));
    switch (fault->refusal) {
    case ZAQ_WRONG_ARC_NODE:
    case ZAQ_ARC_TO_ITSELF:
    case ZAQ_WRONG_ARC_LENGTH:
    case ZAQ_REPEATED_ARC: /* these come after the length was found right */
        unpack(net, house);
        find_arc(house, fault);
        return REFUSED;
    case ZAQ_ACCEPTED:
        unpack(net, house);
        memcpy(house->net, net, net_len);
        house->net_len = net_len;
        return DONE;
    default:
        return REFUSED;
    }
}

/* Somebody's text with one control byte in it must not be told that its network version is wrong, and nothing else. */
static void place_control(const uint8_t *text, const uint8_t *control, struct mistakes *mistakes)
{
    char words[120];
    size_t line = 1, column = 1;
    uint32_t value;
    for (const uint8_t *at = skip_mark(text, control); at < control;) {
        column = *at == '\n' ? 1 : column + 1;
        line += *at == '\n';
        at += character(at, control, &value);
    }
    snprintf(words, sizeof words, "found the control byte 0x%02x, so the file is read as network bytes, expected none in a house text",
        (unsigned)*control);
    add_mistake(mistakes, line, column, words);
}

int read_house(const char *path, enum form form, struct house *house, struct fault *fault)
{
    struct bytes bytes;
    memset(fault, 0, sizeof *fault);
    int status = read_bytes(path, MOST_HOUSE, &bytes);
    if (status)
        return status;
    const uint8_t *end = bytes.at + bytes.len, *control = find_control(bytes.at, end);
    fault->empty = bytes.len == 0;
    if (fault->empty)
        status = REFUSED;
    else if (form == TEXT || (form == EITHER && control == end))
        status = house_of_text(bytes.at, bytes.len, house, &fault->mistakes);
    else {
        status = house_of_network(bytes.at, bytes.len, house, fault);
        if (status && form == EITHER && control > bytes.at)
            place_control(bytes.at, control, &fault->mistakes);
    }
    free(bytes.at);
    return status;
}

static void tell_mistakes(const char *path, const struct mistakes *mistakes)
{
    for (size_t k = 0; k < mistakes->count && k < MOST_TOLD; k++) {
        const struct mistake *mistake = &mistakes->first[k];
        say_at(REFUSED, path, mistake->line, mistake->column, mistake->words);
    }
    if (mistakes->count > MOST_TOLD)
        say_of(REFUSED, path, "%lu mistakes; these are the first %d", (unsigned long)mistakes->count, MOST_TOLD);
}

int tell_fault(const char *path, const struct fault *fault)
{
    const char *name = input_name(path);
    if (fault->empty)
        return say_of(REFUSED, name, "the file is empty, expected a house text or network bytes");
    if (fault->arc_number)
        say_of(REFUSED, name, "refused %u: %s: arc %u, from %u to %u, length %u", (unsigned)fault->refusal, zaq_words(fault->refusal),
            (unsigned)fault->arc_number, (unsigned)fault->arc.tail, (unsigned)fault->arc.head, (unsigned)fault->arc.length);
    else if (fault->refusal)
        say_refused(name, fault->refusal);
    tell_mistakes(name, &fault->mistakes);
    return REFUSED;
}

int load_house(const char *path, enum form form, struct house *house)
{
    struct fault fault;
    int status = read_house(path, form, house, &fault);
    return status == REFUSED ? tell_fault(path, &fault) : status;
}
