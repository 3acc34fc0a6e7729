/* The competitor's bound on the steps that a run can take: the network is checked, and the number is worked out from its header. */
#include "plain.h"

static uint32_t most(uint32_t n, uint32_t lmax, uint32_t arcs)
{
    return (n + arcs * (n * lmax + n + 1)) << 8;
}

uint32_t PLAIN(most_taken)(const uint8_t *net, uint64_t net_len)
{
    uint32_t refusal = PLAIN(check)(net, net_len);
    return refusal ? refusal : most((net[0] & 15u) + 1, net[1] >> 4, net[2]);
}

uint32_t PLAIN(most_taken_arcs)(uint8_t n, uint8_t lmax, const zaq_arc *arcs, uint64_t count)
{
    uint32_t refusal = PLAIN(check_arcs)(n, lmax, arcs, count);
    return refusal ? refusal : most(n, lmax, (uint32_t)count);
}
