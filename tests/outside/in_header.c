#include "in_header.h"

unsigned header_distance(struct ref_entry e)
{
    return e.distance == UNKNOWN ? ZAQ_UNKNOWN : e.distance == UNREACHABLE ? ZAQ_UNREACHABLE : (unsigned)e.distance;
}

unsigned header_hop(struct ref_entry e)
{
    return e.distance < 0 ? ZAQ_NO_HOP : e.hop;
}

uint32_t entry_answer(struct ref_entry e)
{
    return (uint32_t)header_distance(e) << 16 | (uint32_t)header_hop(e) << 8;
}

uint32_t most_answer(unsigned refusal, const struct ref_net *net)
{
    return refusal ? refusal : (uint32_t)ref_most_taken(net) << 8;
}

size_t arc_list(const struct ref_net *net, zaq_arc list[MOST_ARCS])
{
    for (unsigned k = 0; k < net->arcs; k++)
        list[k] = (zaq_arc){(uint8_t)net->arc[k].tail, (uint8_t)net->arc[k].head, (uint8_t)net->arc[k].len};
    return net->arcs;
}

void put_outcome(const struct ref_run *run, uint64_t counts[4], uint16_t *entries)
{
    unsigned n = run->net->n;
    counts[0] = run->taken;
    counts[1] = run->idle;
    counts[2] = run->unknown;
    counts[3] = ref_stopped(run);
    for (unsigned i = 1; i <= n; i++)
        for (unsigned y = 1; y <= n; y++) {
            struct ref_entry e = ref_entry_of(run, i, y);
            *entries++ = (uint16_t)header_distance(e);
            *entries++ = (uint16_t)header_hop(e);
        }
}

unsigned simulated_route(const struct ref_run *run, unsigned node, unsigned target, uint8_t passed[MOST_NODES])
{
    unsigned count = 0;
    if (ref_entry_of(run, node, target).distance < 0)
        return 0;
    for (unsigned at = node; at != target && count < MOST_NODES;) {
        at = ref_entry_of(run, at, target).hop;
        passed[count++] = (uint8_t)at;
    }
    return count;
}
