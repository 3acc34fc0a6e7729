/* For context: the same table straight from the network, by a search from every node for the least sums (Dijkstra). No messages. */
#include "plain.h"
#include <string.h>

enum { FAR = 0xFFFF };

static unsigned nearest(const uint16_t *sum, unsigned open, unsigned n)
{
    unsigned best = 16;
    for (unsigned y = 0; y < n; y++)
        if (open >> y & 1 && sum[y] != FAR && (best == 16 || sum[y] < sum[best]))
            best = y;
    return best;
}

static void from_node(const uint8_t *length, unsigned n, unsigned i, uint16_t *row)
{
    uint16_t sum[16], hop[16] = {0};
    unsigned open = 0xFFFF;
    memset(sum, 0xFF, sizeof sum);
    sum[i] = 0;
    for (unsigned u; (u = nearest(sum, open, n)) < n;) {
        open &= ~(1u << u);
        for (unsigned y = 0; y < n; y++) {
            unsigned l = length[u << 4 | y], x = sum[u] + l, first = u == i ? y + 1 : hop[u];
            if (l && (x < sum[y] || (x == sum[y] && first < hop[y]))) {
                sum[y] = (uint16_t)x;
                hop[y] = (uint16_t)first;
            }
        }
    }
    for (unsigned y = 0; y < n; y++) {
        row[2 * y] = sum[y] == FAR ? ZAQ_UNREACHABLE : sum[y];
        row[2 * y + 1] = sum[y] == FAR ? ZAQ_NO_HOP : hop[y];
    }
}

uint32_t PLAIN(shortest)(const uint8_t *net, uint64_t net_len, uint16_t *entries)
{
    uint8_t length[256] = {0};
    uint32_t refusal = PLAIN(check)(net, net_len);
    if (refusal)
        return refusal;
    unsigned n = (net[0] & 15) + 1u;
    for (unsigned k = 0; k < net[2]; k++) {
        const uint8_t *s = net + 3 + 3 * (k / 2);
        unsigned site = k % 2 ? (s[1] & 15u) << 4 | s[2] >> 4 : s[0];
        length[site] = k % 2 ? s[2] & 15 : s[1] >> 4;
    }
    for (unsigned i = 0; i < n; i++)
        from_node(length, n, i, entries + 2 * n * i);
    return 0;
}
