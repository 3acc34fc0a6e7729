/* The stand-in's table files: writing one, and reading whatever stands in one. */
#include "standin.h"
#include <string.h>

/* ---- writing */

static uint64_t file_bits(const struct node *node)
{
    uint64_t records = WRONG(own_entry_as_record) ? node->filled : node->filled - 1;
    int mark = node->stopped || WRONG(mark_for_a_waiting_node);
    uint64_t bits = 16 + 13 * records;
    return WRONG(mark_left_out) && bits % 8 == 0 ? bits : bits + (mark ? 1 : 0);
}

uint64_t file_size(const struct node *node)
{
    return (file_bits(node) + 7) / 8;
}

static uint64_t put_bits(uint8_t *room, uint64_t place, unsigned width, unsigned value)
{
    for (unsigned k = width; k-- > 0; place++) {
        unsigned mask = 128u >> place % 8;
        room[place / 8] = (uint8_t)(value >> k & 1 ? room[place / 8] | mask : room[place / 8] & ~mask);
    }
    return place;
}

static uint64_t put_record(const struct node *node, uint8_t *room, uint64_t place, unsigned target, unsigned before)
{
    unsigned by = WRONG(distance_not_difference) ? node->distance[target] : node->distance[target] - before;
    place = put_bits(room, place, 1, 1);
    place = put_bits(room, place, 4, target - 1);
    place = put_bits(room, place, 4, node->hop[target] - 1);
    return put_bits(room, place, 4, by);
}

/* The targets in the order of their records. */
static void in_order(const struct node *node, unsigned *target)
{
    memcpy(target, node->target, sizeof node->target);
    for (unsigned a = 1; a < node->filled && WRONG(records_by_target); a++)
        for (unsigned b = a; b > 1 && target[b] < target[b - 1]; b--) {
            unsigned other = target[b];
            target[b] = target[b - 1];
            target[b - 1] = other;
        }
}

void put_file(const struct run *run, unsigned node, uint8_t *room)
{
    const struct node *at = &run->node[node];
    unsigned target[NODES], before = 0, first = WRONG(own_entry_as_record) ? 0 : 1;
    int mark = at->stopped || WRONG(mark_for_a_waiting_node);
    int ones = (!mark && !WRONG(zeros_for_padding)) || (mark && WRONG(ones_after_mark));
    uint64_t place = 16, size = file_size(at);
    memset(room, ones ? 255 : 0, size);
    put_bits(room, 0, 4, 1);
    put_bits(room, 4, 4, node - 1);
    put_bits(room, 8, 4, run->net.n - 1);
    put_bits(room, 12, 4, run->net.lmax);
    in_order(at, target);
    for (unsigned k = first; k < at->filled; k++) {
        place = put_record(at, room, place, target[k], before);
        before = at->distance[target[k]];
    }
    if (mark && place < 8 * size)
        put_bits(room, place, 1, 0);
}

/* ---- reading */

static unsigned bits(const uint8_t *file, uint64_t place, unsigned width)
{
    unsigned value = 0;
    for (unsigned k = 0; k < width; k++, place++)
        value = 2 * value + (file[place / 8] >> (7 - place % 8) & 1);
    return value;
}

struct reading {
    struct table *table;
    unsigned lmax, records, distance;
    unsigned seen[NODES];
};

static int record_is_wrong(const struct reading *r, unsigned target, unsigned hop, unsigned by)
{
    unsigned n = r->table->n, own = r->table->own;
    if (target > n || (target == own && !WRONG(target_itself)) || (r->seen[target] && !WRONG(repeated_target)))
        return 1;
    if ((hop > n && !WRONG(hop_over_n)) || (hop == own && !WRONG(hop_itself)))
        return 1;
    if (WRONG(hop_must_be_listed) && hop != target && !r->seen[hop])
        return 1;
    if (by > r->lmax && !WRONG(difference_over_lmax))
        return 1;
    return by == 0 && ((r->records == 0 && !WRONG(first_difference_0)) || (r->records > 0 && WRONG(no_difference_0)));
}

/* Takes the records; where they end, or 0 where one is wrong. */
static uint64_t take_records(struct reading *r, const uint8_t *file, uint64_t len)
{
    unsigned width = WRONG(twelve_bits) ? 12 : 13;
    uint64_t place = 16;
    for (; place + width <= 8 * len && bits(file, place, 1); place += 13) {
        unsigned target = bits(file, place + 1, 4) + 1, hop = bits(file, place + 5, 4) + 1, by = bits(file, place + 9, width - 9);
        if (WRONG(twelve_bits))
            by = place + 13 <= 8 * len ? bits(file, place + 9, 4) : 2 * by;
        if (record_is_wrong(r, target, hop, by))
            return 0;
        r->seen[target] = 1;
        r->records++;
        r->distance += by;
        r->table->entry[target] = r->distance << 16 | hop << 8;
    }
    return place;
}

/* How a file ends after its records: 0, 17 or 18; and whether the end mark stands. */
static uint32_t take_end(const uint8_t *file, uint64_t len, uint64_t place, int *ended)
{
    *ended = 0;
    if (place >= 8 * len)
        return 0;
    if (bits(file, place, 1)) {
        for (uint64_t p = place; p < 8 * len && WRONG(rest_looked_at); p++)
            if (!bits(file, p, 1))
                return 17;
        return 0;
    }
    *ended = 1;
    for (uint64_t p = place; p < 8 * len; p++)
        if ((p / 8 != place / 8 && !WRONG(further_byte)) || (p / 8 == place / 8 && bits(file, p, 1) && !WRONG(bits_after_mark)))
            return 18;
    return 0;
}

static uint32_t take_header(const uint8_t *file, uint64_t len, struct reading *r)
{
    if (len < 2)
        return 14;
    r->table->own = bits(file, 4, 4) + 1;
    r->table->n = bits(file, 8, 4) + 1;
    r->lmax = bits(file, 12, 4);
    int bad_version = bits(file, 0, 4) != 1;
    int bad_header = (r->table->own > r->table->n && !WRONG(own_over_n)) || (r->lmax == 0 && !WRONG(file_lmax_0));
    if (WRONG(file_version_last) && bad_header)
        return 16;
    return bad_version ? 15 : bad_header ? 16 : 0;
}

uint32_t take_file(const uint8_t *file, uint64_t len, struct table *table)
{
    struct reading r = {.table = table};
    int ended = 0;
    volatile uint8_t beyond = WRONG(reads_past_file) ? file[len] : 0;
    (void)beyond;
    memset(table, 0, sizeof *table);
    uint32_t refusal = take_header(file, len, &r);
    if (refusal)
        return refusal;
    uint64_t place = take_records(&r, file, len);
    if (place == 0)
        return 17;
    refusal = take_end(file, len, place, &ended);
    uint32_t mark = ended || WRONG(cut_is_unreachable) ? ZAQ_UNREACHABLE : ZAQ_UNKNOWN;
    for (unsigned y = 1; y <= table->n; y++)
        if (!r.seen[y] && (y != table->own || WRONG(own_unknown)))
            table->entry[y] = WRONG(absent_is_0) ? ZAQ_NO_HOP << 8 : mark << 16 | ZAQ_NO_HOP << 8;
    return refusal;
}
