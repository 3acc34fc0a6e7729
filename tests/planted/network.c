/* The stand-in's networks: as bytes and as a list, their refusals in order. */
#include "standin.h"

static unsigned half(const uint8_t *bytes, uint64_t place)
{
    return bytes[place / 2] >> (place % 2 ? 0 : 4) & 15;
}

static int is_repeated(const struct net *net, unsigned k)
{
    for (unsigned e = WRONG(repeated_next_only) && k > 0 ? k - 1 : 0; e < k; e++)
        if (net->arc[e].tail == net->arc[k].tail && (net->arc[e].head == net->arc[k].head || WRONG(repeated_by_tails)))
            return 1;
    return 0;
}

/* Whether an arc is refused with this number, 5 to 8. */
static int arc_is(const struct net *net, unsigned k, uint32_t number)
{
    unsigned tail = net->arc[k].tail, head = net->arc[k].head, length = net->arc[k].length;
    switch (number) {
    case 5:
        return head < 1 || head > net->n || (!WRONG(any_tail) && (tail < 1 || tail > net->n));
    case 6:
        return tail == head;
    case 7:
        return (length == 0 && !WRONG(arc_of_length_0)) || length > (WRONG(lengths_up_to_15) ? 15 : net->lmax);
    default:
        return is_repeated(net, k);
    }
}

static uint32_t check_arcs(const struct net *net)
{
    static const uint32_t order[] = {5, 6, 7, 8}, other[] = {5, 7, 6, 8};
    unsigned outer = WRONG(rule_by_rule) ? 4 : net->arcs, inner = WRONG(rule_by_rule) ? net->arcs : 4;
    for (unsigned a = 0; a < outer; a++)
        for (unsigned b = 0; b < inner; b++) {
            unsigned k = WRONG(rule_by_rule) ? b : a, rule = WRONG(rule_by_rule) ? a : b;
            uint32_t number = (WRONG(loop_after_length) ? other : order)[rule];
            if (arc_is(net, k, number))
                return number;
        }
    return 0;
}

static int padding_is_wrong(const uint8_t *bytes, const struct net *net)
{
    return net->arcs % 2 == 1 && half(bytes, 6 + 3 * (uint64_t)net->arcs) != 0 && !WRONG(padding_not_read);
}

static uint32_t check_header(const uint8_t *bytes, uint64_t len, const struct net *net)
{
    int too_many = net->arcs > (WRONG(arcs_up_to_255) ? 255 : 240);
    int long_enough = WRONG(further_network_byte) ? len >= network_size(net) : len == network_size(net);
    if (WRONG(length_before_version) && !long_enough)
        return 1;
    if ((half(bytes, 0) != 1 && !WRONG(version_not_read)) || (half(bytes, 3) != 0 && !WRONG(fourth_field_not_read)))
        return 2;
    if (WRONG(arc_count_before_lmax) && too_many)
        return 4;
    if (net->lmax == 0)
        return 3;
    if (too_many)
        return 4;
    return long_enough ? 0 : 1;
}

uint32_t take_network(const uint8_t *bytes, uint64_t len, struct net *net)
{
    if (len < 3 || WRONG(refuses_everything))
        return 1;
    net->n = half(bytes, 1) + 1;
    net->lmax = half(bytes, 2);
    net->arcs = bytes[2];
    uint32_t refusal = check_header(bytes, len, net);
    if (refusal)
        return refusal;
    if (WRONG(padding_before_arcs) && padding_is_wrong(bytes, net))
        return 9;
    for (unsigned k = 0; k < net->arcs; k++) {
        uint64_t place = 6 + 3 * (uint64_t)k;
        net->arc[k].tail = half(bytes, place) + 1;
        net->arc[k].head = half(bytes, place + 1) + 1;
        net->arc[k].length = half(bytes, place + 2);
    }
    refusal = check_arcs(net);
    return refusal ? refusal : padding_is_wrong(bytes, net) ? 9 : 0;
}

uint32_t take_list(uint8_t n, uint8_t lmax, const zaq_arc *arcs, uint64_t count, struct net *net)
{
    int bad_n = n < 1 || n > (WRONG(seventeen_nodes) ? 17 : 16);
    if (WRONG(lmax_low_bits))
        lmax &= 15;
    if (WRONG(list_length_low_bits))
        count &= 65535;
    if (bad_n && !WRONG(lmax_before_n))
        return 19;
    if (lmax < 1 || lmax > 15)
        return 3;
    if (bad_n)
        return 19;
    if (count > 240 || (WRONG(null_arcs_refused) && arcs == NULL))
        return 4;
    net->n = n;
    net->lmax = lmax;
    net->arcs = (unsigned)count;
    for (unsigned k = 0; k < net->arcs; k++) {
        net->arc[k].tail = WRONG(list_ends_swapped) ? arcs[k].head : arcs[k].tail;
        net->arc[k].head = WRONG(list_ends_swapped) ? arcs[k].tail : arcs[k].head;
        net->arc[k].length = arcs[k].length;
    }
    return check_arcs(net);
}

uint64_t network_size(const struct net *net)
{
    return 3 + (12 * (uint64_t)net->arcs + 7) / 8;
}

static void put_half(uint8_t *bytes, uint64_t place, unsigned value)
{
    unsigned shift = place % 2 ? 0 : 4;
    bytes[place / 2] = (uint8_t)((bytes[place / 2] & ~(15u << shift)) | (value & 15) << shift);
}

void put_network(const struct net *net, uint8_t *room)
{
    const unsigned header[] = {1, net->n - 1, net->lmax, 0};
    for (uint64_t k = 0; k < 4; k++)
        put_half(room, k, header[k]);
    room[2] = (uint8_t)net->arcs;
    uint64_t place = 6;
    for (unsigned k = 0; k < net->arcs; k++) {
        unsigned tail = net->arc[k].tail - 1, head = net->arc[k].head - 1;
        put_half(room, place++, WRONG(pack_ends_swapped) ? head : tail);
        put_half(room, place++, WRONG(pack_ends_swapped) ? tail : head);
        put_half(room, place++, net->arc[k].length);
    }
    if (place % 2 && !WRONG(pack_half_byte))
        put_half(room, place, 0);
}
