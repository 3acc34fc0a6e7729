/* What the reference says, in the header's numbers: for the tests and for the benches. */
#ifndef IN_HEADER_H
#define IN_HEADER_H
#include "../../include/zaqfinell.h"
#include "reference.h"

/* The distance or mark, the first hop or none, and both in one answer. */
unsigned header_distance(struct ref_entry e);
unsigned header_hop(struct ref_entry e);
uint32_t entry_answer(struct ref_entry e);
/* What zaq_most_taken answers of a network with this refusal. */
uint32_t most_answer(unsigned refusal, const struct ref_net *net);
/* The network's arcs as a caller hands them over; returns how many. */
size_t arc_list(const struct ref_net *net, zaq_arc list[MOST_ARCS]);
/* What zaq_run leaves in its two rooms: the counts, and 2 * n * n numbers. */
void put_outcome(const struct ref_run *run, uint64_t counts[4], uint16_t *entries);
/* The nodes after `node` that first hops pass on the way to a target; returns how many. */
unsigned simulated_route(const struct ref_run *run, unsigned node, unsigned target, uint8_t passed[MOST_NODES]);
#endif
