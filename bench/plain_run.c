/* The competitor's check, run and writer. Nodes are 0 to 15 in here, and an arc is the byte that has its tail and its head, as in the
 * network's bytes: every table of arcs is an array of 256 with that byte as the index. */
#include "plain.h"
#include <string.h>

enum { NO_SUM = 0x7FF, NOBODY = 16, LABELS = 16, END = 0xFFFF, SENT_ROOM = 243 /* no node sends more */ };

struct network {
    unsigned n, lmax, arcs;
    uint8_t arc[240];
    uint8_t length[256]; /* 0: no arc */
};

struct state {
    uint16_t sent[16], delivered[256], taken[256];
    uint16_t lp[16], last[16], filled[16], marks[16];
    uint8_t waits[16]; /* the head that a node waits for; NOBODY before its start and after its stop */
    uint8_t phase[16]; /* 0, then 1 from the start, 2 from the stop on */
    int16_t keys[16][16]; /* an arc's sum above its head: the least key is rule 1's choice */
    uint8_t order[16][16]; /* the targets in the order of filling */
    uint16_t message[16][SENT_ROOM]; /* labels below LABELS, lengths above, END */
};

static unsigned half(const uint8_t *s, unsigned k)
{
    return s[k / 2] >> (4 - 4 * (k % 2)) & 15;
}

static uint32_t read_head(const uint8_t *s, uint64_t len, struct network *net)
{
    if (len < 3)
        return 1;
    if (s[0] >> 4 != 1 || (s[1] & 15) != 0)
        return 2;
    net->n = (s[0] & 15) + 1;
    net->lmax = s[1] >> 4;
    net->arcs = s[2];
    if (net->lmax == 0)
        return 3;
    if (net->arcs > 240)
        return 4;
    return len == 3 + (12 * net->arcs + 7) / 8 ? 0 : 1;
}

static uint32_t read_network(const uint8_t *s, uint64_t len, struct network *net)
{
    uint32_t early = read_head(s, len, net);
    if (early)
        return early;
    memset(net->length, 0, sizeof net->length);
    unsigned n = net->n, lmax = net->lmax, arcs = net->arcs;
    for (unsigned k = 0; k < arcs; k++) {
        unsigned tail = half(s, 6 + 3 * k), head = half(s, 7 + 3 * k), length = half(s, 8 + 3 * k);
        if (tail >= n || head >= n)
            return 5;
        if (tail == head)
            return 6;
        if (length == 0 || length > lmax)
            return 7;
        uint8_t site = (uint8_t)(tail << 4 | head);
        if (net->length[site])
            return 8;
        net->length[site] = (uint8_t)length;
        net->arc[k] = site;
    }
    return arcs % 2 && s[len - 1] & 15 ? 9 : 0;
}

uint32_t PLAIN(check)(const uint8_t *net, uint64_t net_len)
{
    struct network laid;
    return read_network(net, net_len, &laid);
}

static void clear(struct state *s, const struct network *net, uint16_t *entries)
{
    memset(s, 0, offsetof(struct state, waits));
    memset(s->waits, NOBODY, sizeof s->waits);
    memset(s->phase, 0, sizeof s->phase);
    for (unsigned i = 0; i < net->n; i++)
        for (unsigned h = 0; h < 16; h++) {
            unsigned length = net->length[i << 4 | h];
            s->keys[i][h] = (int16_t)((length ? length : NO_SUM) << 4 | h);
        }
    for (unsigned i = 0; i < net->n; i++)
        for (unsigned y = 0; y < net->n; y++) {
            *entries++ = ZAQ_UNKNOWN;
            *entries++ = ZAQ_NO_HOP;
        }
}

static void send(struct state *s, unsigned i, unsigned message)
{
    s->message[i][s->sent[i]++] = (uint16_t)message;
}

static void send_length(struct state *s, unsigned i, unsigned x)
{
    if (s->last[i] == x)
        return;
    s->last[i] = (uint16_t)x;
    send(s, i, LABELS + x);
}

/* `row` is node i's part of the caller's room. */
static void fill(struct state *s, unsigned i, unsigned y, unsigned x, unsigned hop, uint16_t *row)
{
    row[2 * y] = (uint16_t)x;
    row[2 * y + 1] = (uint16_t)hop;
    s->order[i][s->filled[i]++] = (uint8_t)y;
    s->marks[i] = (uint16_t)(s->marks[i] | 1u << y);
    s->lp[i] = (uint16_t)x;
}

static void stop(struct state *s, unsigned i, unsigned n, uint16_t *row)
{
    send(s, i, END);
    s->phase[i] = 2;
    s->waits[i] = NOBODY;
    for (unsigned y = 0; y < n; y++)
        if (row[2 * y] == ZAQ_UNKNOWN)
            row[2 * y] = ZAQ_UNREACHABLE;
}

/* Rule 1: sums are compared first, heads after them. */
static unsigned least_key(const int16_t *keys)
{
    int16_t least = INT16_MAX;
    for (unsigned h = 0; h < 16; h++)
        least = keys[h] < least ? keys[h] : least;
    return (unsigned)least;
}

/* Rules 3 and 4 on the arc to h: true if its current item changed, and false if the node is to wait for it. */
static int take(struct state *s, unsigned i, unsigned h, unsigned x, const uint8_t *length, uint16_t *row)
{
    unsigned site = i << 4 | h, taken = s->taken[site], delivered = s->delivered[site], changed = 0;
    while (taken < delivered && !changed) {
        unsigned m = s->message[h][taken++];
        if (m >= LABELS) {
            unsigned sum = m == END ? NO_SUM : length[site] + m - LABELS;
            s->keys[i][h] = (int16_t)(sum << 4 | h);
            changed = 1;
        } else if (!(s->marks[i] >> m & 1)) {
            send_length(s, i, x);
            send(s, i, m);
            fill(s, i, m, x, h + 1, row);
        }
    }
    s->taken[site] = (uint16_t)taken;
    return (int)changed;
}

/* A node's work from the arc of this key on, which rule 1 has chosen. */
static void work(struct state *s, const struct network *net, unsigned i, unsigned key, uint16_t *row)
{
    for (;; key = least_key(s->keys[i])) {
        unsigned x = key >> 4, h = key & 15;
        if (x > s->lp[i] + net->lmax) {
            stop(s, i, net->n, row);
            return;
        }
        if (!take(s, i, h, x, net->length, row)) {
            send_length(s, i, x);
            s->waits[i] = (uint8_t)h;
            return;
        }
    }
}

/* Runs the steps; counts as the header says. */
static void run(struct state *s, const struct network *net, const uint8_t *steps, uint64_t len, uint64_t counts[4], uint16_t *entries)
{
    size_t idle = 0, unknown = 0, stopped = 0, row = 2 * (size_t)net->n;
    clear(s, net, entries);
    for (uint64_t k = 0; k < len; k++) {
        unsigned b = steps[k], i = b;
        if (b >= 16) {
            if (b - 16 >= net->arcs) {
                unknown++;
                continue;
            }
            unsigned site = net->arc[b - 16], h = site & 15;
            if (s->delivered[site] == s->sent[h]) {
                idle++;
                continue;
            }
            s->delivered[site]++;
            i = site >> 4;
            if (s->waits[i] == h) /* it would choose this arc again: no other sum has changed */
                work(s, net, i, (unsigned)s->keys[i][h], entries + row * i);
        } else if (i >= net->n) {
            unknown++;
        } else if (s->phase[i]) {
            idle++;
        } else {
            s->phase[i] = 1;
            send(s, i, i);
            fill(s, i, i, 0, 0, entries + row * i);
            work(s, net, i, least_key(s->keys[i]), entries + row * i);
        }
    }
    for (unsigned i = 0; i < net->n; i++)
        stopped += s->phase[i] == 2;
    memcpy(counts, (uint64_t[4]){len - idle - unknown, idle, unknown, stopped}, 4 * sizeof *counts);
}

uint32_t PLAIN(run)(
    const uint8_t *bytes, uint64_t net_len, const uint8_t *steps, uint64_t steps_len, uint64_t counts[4], uint16_t *entries, uint64_t len)
{
    struct network net;
    struct state s;
    uint32_t refusal = read_network(bytes, net_len, &net);
    if (refusal)
        return refusal;
    if (len < 2 * (size_t)net.n * net.n)
        return 13;
    run(&s, &net, steps, steps_len, counts, entries);
    return 0;
}

/* Writes node i's file; the answer as the header says. */
static uint32_t put_file(const struct state *s, const struct network *net, unsigned i, const uint16_t *row, uint8_t *room, uint64_t len)
{
    unsigned stopped = s->phase[i] == 2, bits = 16 + 13 * (s->filled[i] - 1u), size = stopped ? bits / 8 + 1 : (bits + 7) / 8;
    unsigned held = 0, have = 0, before = 0, at = 2;
    if (len < size)
        return 13;
    room[0] = (uint8_t)(16 | i);
    room[1] = (uint8_t)((net->n - 1) << 4 | net->lmax);
    for (unsigned k = 1; k < s->filled[i]; k++) { /* the node's own entry was filled first */
        unsigned y = s->order[i][k], distance = row[2 * y];
        held = held << 13 | 1u << 12 | y << 8 | (row[2 * y + 1] - 1u) << 4 | (distance - before);
        before = distance;
        for (have += 13; have >= 8; have -= 8)
            room[at++] = (uint8_t)(held >> (have - 8));
    }
    if (at < size)
        room[at] = (uint8_t)(held << (8 - have) | (stopped ? 0 : 255u >> have));
    return size << 8;
}

uint32_t PLAIN(write)(
    const uint8_t *bytes, uint64_t net_len, const uint8_t *steps, uint64_t steps_len, uint32_t node, uint8_t *room, uint64_t room_len)
{
    struct network net;
    struct state s;
    uint64_t counts[4];
    uint16_t entries[2 * 16 * 16];
    uint32_t refusal = read_network(bytes, net_len, &net);
    if (refusal)
        return refusal;
    if (node < 1 || node > net.n)
        return 11;
    run(&s, &net, steps, steps_len, counts, entries);
    if (s.phase[node - 1] == 0)
        return 12;
    return put_file(&s, &net, node - 1, entries + 2 * net.n * (node - 1), room, room_len);
}
