/* Random numbers from a seed, and random houses, step lists and faults made of them. */
#include "test.h"

static uint32_t state = 1;

void random_seed(uint32_t seed)
{
    state = seed ? seed : 1;
}

uint32_t random_number(void)
{
    state ^= state << 13;
    state ^= state >> 17;
    state ^= state << 5;
    return state;
}

unsigned random_below(unsigned bound)
{
    return random_number() % bound;
}

void random_byte(uint8_t *bytes, size_t len)
{
    size_t place = random_below((unsigned)len);
    bytes[place] = (uint8_t)random_number();
}

/* ---- networks */

static unsigned random_arc_length(unsigned lmax, unsigned kind)
{
    switch (kind) {
    case 0: /* many ties */
        return 1;
    case 1: /* as long as can be */
        return lmax;
    default:
        return 1 + random_below(lmax);
    }
}

static void add_arc(struct ref_net *net, unsigned tail, unsigned head, unsigned lengths)
{
    if (tail == head || net->arcs == MOST_ARCS)
        return;
    for (unsigned k = 0; k < net->arcs; k++)
        if (net->arc[k].tail == tail && net->arc[k].head == head)
            return;
    net->arc[net->arcs++] = (struct ref_arc){tail, head, random_arc_length(net->lmax, lengths)};
}

/* The arcs of node i in a house of this kind. */
static void add_arcs(struct ref_net *net, unsigned i, unsigned kind, unsigned share, unsigned lengths)
{
    unsigned n = net->n;
    switch (kind) {
    case 0: /* a ring, one way */
        add_arc(net, i, i % n + 1, lengths);
        break;
    case 1: /* a line, both ways */
        if (i < n) {
            add_arc(net, i, i + 1, lengths);
            add_arc(net, i + 1, i, lengths);
        }
        break;
    case 2: /* a star */
        add_arc(net, 1, i, lengths);
        add_arc(net, i, 1, lengths);
        break;
    case 3: /* two islands */
        for (unsigned j = 1; j <= n; j++)
            if (i % 2 == j % 2 && random_below(100) < share)
                add_arc(net, i, j, lengths);
        break;
    default: /* a share of all arcs */
        for (unsigned j = 1; j <= n; j++)
            if (random_below(100) < share)
                add_arc(net, i, j, lengths);
    }
}

void random_network(struct ref_net *net)
{
    net->n = 1 + random_below(MOST_NODES);
    net->lmax = random_below(3) ? 1 + random_below(15) : 1 + random_below(2);
    net->arcs = 0;
    unsigned kind = random_below(8), lengths = random_below(8), share = kind == 7 ? 100 : 1 + random_below(100);
    if (random_below(40) == 0) { /* a ring or a line with a node as far as can be, 225 */
        net->n = 16;
        net->lmax = 15;
        kind = random_below(2);
        lengths = 1;
    }
    for (unsigned i = 1; i <= net->n; i++)
        add_arcs(net, i, kind, share, lengths);
    for (unsigned k = net->arcs; k > 1; k--) { /* in any order */
        unsigned other = random_below(k);
        struct ref_arc a = net->arc[k - 1];
        net->arc[k - 1] = net->arc[other];
        net->arc[other] = a;
    }
}

/* ---- step lists */

static uint8_t next_step(const struct ref_net *net, unsigned kind, size_t k, unsigned one)
{
    unsigned arcs = net->arcs ? net->arcs : 1, n = net->n;
    size_t turn = k < n ? 0 : k - n;
    switch (kind) {
    case 0: /* all start, then round after round */
        return (uint8_t)(k < n ? k : 16 + turn % arcs);
    case 1: { /* all start, then one arc is starved */
        unsigned arc = random_below(arcs);
        return (uint8_t)(k < n ? k : 16 + (arc == one % arcs ? (arc + 1) % arcs : arc));
    }
    case 2: /* newest arc first */
        return (uint8_t)(k < n ? k : 16 + (arcs - 1 - turn % arcs));
    case 3: /* late starts: deliveries come before them */
        return (uint8_t)(random_below(40) ? 16 + random_below(arcs) : random_below(n));
    case 4: /* anything, unknown bytes too */
        return (uint8_t)random_number();
    case 5: /* each arc many times in a row */
        return (uint8_t)(k < n ? k : 16 + turn / 9 % arcs);
    case 6: /* all but one start, which hears everything before it does */
        return (uint8_t)(k < n ? (k == one % n ? (k + 1) % n : k) : k == n + 1000 ? one % n : 16 + random_below(arcs));
    default:
        return (uint8_t)(random_below(8) ? 16 + random_below(arcs) : random_below(16));
    }
}

void random_steps(const struct ref_net *net, unsigned kind, uint8_t *steps, size_t count)
{
    unsigned one = random_below(240);
    for (size_t k = 0; k < count; k++)
        steps[k] = next_step(net, kind, k, one);
}

size_t random_room(size_t enough, size_t most)
{
    switch (random_below(6)) {
    case 0:
        return enough > 0 ? enough - 1 : 0;
    case 1:
        return enough + 1;
    case 2:
        return random_below(3);
    case 3:
        return random_below((unsigned)most + 1);
    default:
        return enough;
    }
}

size_t random_length(void)
{
    return random_below(6) ? random_below(600) : 1500 + random_below(6000);
}

/* ---- faults: every field of a network is a half byte or a byte */

static void put_half(uint8_t *bytes, size_t place, unsigned value)
{
    unsigned shift = place % 2 ? 0 : 4;
    bytes[place / 2] = (uint8_t)((bytes[place / 2] & ~(15u << shift)) | (value & 15) << shift);
}

static unsigned half(const uint8_t *bytes, size_t place)
{
    return bytes[place / 2] >> (place % 2 ? 0 : 4) & 15;
}

static void spoil_arc(uint8_t *bytes, unsigned arcs, unsigned number)
{
    unsigned n = half(bytes, 1) + 1, lmax = half(bytes, 2);
    size_t one = 6 + 3 * (size_t)random_below(arcs), other = 6 + 3 * (size_t)random_below(arcs);
    if (number == 5 && n < 16) {
        one += random_below(2);
        put_half(bytes, one, n + random_below(16 - n));
    }
    if (number == 6)
        put_half(bytes, one + 1, half(bytes, one));
    if (number == 7)
        put_half(bytes, one + 2, lmax < 15 && random_below(2) ? lmax + 1 : 0);
    if (number == 8) {
        put_half(bytes, one, half(bytes, other));
        put_half(bytes, one + 1, half(bytes, other + 1));
    }
}

size_t spoil_network(uint8_t *bytes, size_t len, unsigned number)
{
    unsigned arcs = len < 3 ? 0 : bytes[2];
    if (number == 1)
        return random_below(4) ? len + 1 - 2 * (size_t)random_below(2) : random_below(3);
    if (number == 2) {
        size_t place = 3 * (size_t)random_below(2);
        put_half(bytes, place, 2 + random_below(14));
    }
    if (number == 3)
        put_half(bytes, 2, 0);
    if (number == 4)
        bytes[2] = (uint8_t)(241 + random_below(15));
    if (number >= 5 && number <= 8 && arcs > 0 && arcs <= MOST_ARCS)
        spoil_arc(bytes, arcs, number);
    if (number == 9 && arcs % 2 == 1 && arcs <= MOST_ARCS)
        put_half(bytes, 6 + 3 * (size_t)arcs, 1 + random_below(15));
    return len;
}

size_t spoil_somehow(uint8_t *bytes, size_t len)
{
    if (random_below(8) == 0) {
        random_byte(bytes, len);
        return len;
    }
    if (random_below(3) == 0)
        len = spoil_network(bytes, len, 2 + random_below(8));
    return spoil_network(bytes, len, 1 + random_below(9));
}

unsigned asked_nodes(unsigned n, uint32_t asked[MOST_ASKED])
{
    static const uint32_t high[] = {255, 256 + 1, 65536 + 1, 0x80000001, 0xFFFFFFFF};
    unsigned count = 0;
    while (count <= n + 1) {
        asked[count] = count;
        count++;
    }
    for (unsigned k = 0; k < sizeof high / sizeof *high; k++)
        asked[count++] = high[k];
    return count;
}
