/* Document 01's bytes: networks and table files. */
#include "reference.h"
#include <string.h>

/* ---- bits, most significant first */

static unsigned bit(const uint8_t *bytes, size_t place)
{
    return bytes[place / 8] >> (7 - place % 8) & 1;
}

static unsigned bits(const uint8_t *bytes, size_t place, unsigned width)
{
    unsigned value = 0;
    for (unsigned k = 0; k < width; k++)
        value = 2 * value + bit(bytes, place + k);
    return value;
}

static void put_bits(uint8_t *bytes, size_t place, unsigned width, unsigned value)
{
    for (unsigned k = 0; k < width; k++) {
        unsigned mask = 128u >> (place + k) % 8;
        if (value >> (width - 1 - k) & 1)
            bytes[(place + k) / 8] |= mask;
        else
            bytes[(place + k) / 8] &= ~mask;
    }
}

/* ---- networks */

static unsigned read_arcs(struct ref_net *net, const struct ref_arc *arcs, size_t count)
{
    for (size_t k = 0; k < count; k++) {
        struct ref_arc a = arcs[k];
        if (a.tail < 1 || a.tail > net->n || a.head < 1 || a.head > net->n)
            return 5;
        if (a.tail == a.head)
            return 6;
        if (a.len == 0 || a.len > net->lmax)
            return 7;
        for (size_t e = 0; e < k; e++)
            if (arcs[e].tail == a.tail && arcs[e].head == a.head)
                return 8;
        net->arc[k] = a;
    }
    net->arcs = (unsigned)count;
    return 0;
}

unsigned ref_read_network(const uint8_t *bytes, size_t len, struct ref_net *net)
{
    struct ref_arc arcs[MOST_ARCS];
    if (len < 3)
        return 1;
    if (bits(bytes, 0, 4) != 1 || bits(bytes, 12, 4) != 0)
        return 2;
    net->n = bits(bytes, 4, 4) + 1;
    net->lmax = bits(bytes, 8, 4);
    if (net->lmax < 1 || net->lmax > 15)
        return 3;
    unsigned count = bits(bytes, 16, 8);
    if (count > MOST_ARCS)
        return 4;
    if (len != 3 + (12 * (size_t)count + 7) / 8)
        return 1;
    for (unsigned k = 0; k < count; k++) {
        arcs[k].tail = bits(bytes, 24 + 12 * k, 4) + 1;
        arcs[k].head = bits(bytes, 28 + 12 * k, 4) + 1;
        arcs[k].len = bits(bytes, 32 + 12 * k, 4);
    }
    unsigned refusal = read_arcs(net, arcs, count);
    if (refusal)
        return refusal;
    for (size_t p = 24 + 12 * (size_t)count; p < 8 * len; p++)
        if (bit(bytes, p))
            return 9;
    return 0;
}

unsigned ref_read_arc_list(unsigned n, unsigned lmax, const struct ref_arc *arcs, size_t count, struct ref_net *net)
{
    if (n < 1 || n > MOST_NODES)
        return 19;
    if (lmax < 1 || lmax > 15)
        return 3;
    if (count > MOST_ARCS)
        return 4;
    net->n = n;
    net->lmax = lmax;
    return read_arcs(net, arcs, count);
}

size_t ref_network_bytes(const struct ref_net *net, uint8_t *bytes)
{
    size_t len = 3 + (12 * (size_t)net->arcs + 7) / 8;
    memset(bytes, 0, len);
    put_bits(bytes, 0, 4, 1);
    put_bits(bytes, 4, 4, net->n - 1);
    put_bits(bytes, 8, 4, net->lmax);
    put_bits(bytes, 16, 8, net->arcs);
    for (unsigned k = 0; k < net->arcs; k++) {
        put_bits(bytes, 24 + 12 * k, 4, net->arc[k].tail - 1);
        put_bits(bytes, 28 + 12 * k, 4, net->arc[k].head - 1);
        put_bits(bytes, 32 + 12 * k, 4, net->arc[k].len);
    }
    return len;
}

unsigned ref_most_taken(const struct ref_net *net)
{
    return net->n + net->arcs * (net->n * net->lmax + net->n + 1);
}

/* ---- table files */

size_t ref_write_file(const struct ref_run *run, unsigned node, uint8_t *bytes)
{
    const struct ref_node *nd = &run->node[node];
    size_t place = 16;
    unsigned before = 0;
    memset(bytes, nd->stopped ? 0 : 255, 32);
    put_bits(bytes, 0, 4, 1);
    put_bits(bytes, 4, 4, node - 1);
    put_bits(bytes, 8, 4, run->net->n - 1);
    put_bits(bytes, 12, 4, run->net->lmax);
    for (unsigned k = 1; k < nd->filled_count; k++) {
        put_bits(bytes, place, 1, 1);
        put_bits(bytes, place + 1, 4, nd->filled[k].target - 1);
        put_bits(bytes, place + 5, 4, nd->filled[k].hop - 1);
        put_bits(bytes, place + 9, 4, nd->filled[k].distance - before);
        before = nd->filled[k].distance;
        place += 13;
    }
    if (nd->stopped)
        place++;
    return (place + 7) / 8;
}

/* Its records and how they end: 0, 17 or 18. */
static unsigned read_records(const uint8_t *bytes, size_t len, struct ref_file *file)
{
    unsigned distance = 0;
    size_t place = 16;
    for (; place < 8 * len && bit(bytes, place); place += 13) {
        if (place + 13 > 8 * len)
            return 0; /* fewer than 13 bits are not looked at */
        unsigned y = bits(bytes, place + 1, 4) + 1, h = bits(bytes, place + 5, 4) + 1, by = bits(bytes, place + 9, 4);
        if (y > file->n || y == file->own || h > file->n || h == file->own || by > file->lmax || (file->count == 0 && by == 0))
            return 17;
        for (unsigned k = 0; k < file->count; k++)
            if (file->record[k].target == y)
                return 17;
        distance += by;
        file->record[file->count++] = (struct ref_record){y, distance, h};
    }
    file->ended = place < 8 * len;
    for (size_t p = place; p < 8 * len; p++)
        if (bit(bytes, p) || p / 8 != place / 8)
            return 18;
    return 0;
}

unsigned ref_read_file(const uint8_t *bytes, size_t len, struct ref_file *file)
{
    if (len < 2)
        return 14;
    if (bits(bytes, 0, 4) != 1)
        return 15;
    *file = (struct ref_file){.own = bits(bytes, 4, 4) + 1, .n = bits(bytes, 8, 4) + 1, .lmax = bits(bytes, 12, 4)};
    if (file->own > file->n || file->lmax == 0)
        return 16;
    return read_records(bytes, len, file);
}

struct ref_entry ref_file_entry(const struct ref_file *file, unsigned target)
{
    if (target == file->own)
        return (struct ref_entry){0, 0};
    for (unsigned k = 0; k < file->count; k++)
        if (file->record[k].target == target)
            return (struct ref_entry){(int)file->record[k].distance, file->record[k].hop};
    return (struct ref_entry){file->ended ? UNREACHABLE : UNKNOWN, 0};
}
