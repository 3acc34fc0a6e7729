/* Request K8: how many steps of a run can be taken. zaq_most_taken and zaq_most_taken_arcs against document 02's number, runs until no step
 * can be taken any more, rings that take as many, and recordings of the taken steps alone. That refused networks get their refusal is tried
 * where networks and lists are, in networks.c and arcs.c. */
#include "test.h"
#include <string.h>

enum { LONG_RUN = 1 << 17 };

static struct ref_net net;
static struct ref_run run;
static uint8_t bytes[MOST_NETWORK], steps[LONG_RUN], recorded[LONG_RUN];
static size_t len, count, kept; /* of the network's bytes, of the steps, of those that were taken */

static void begin_run(void)
{
    len = ref_network_bytes(&net, bytes);
    ref_start(&run, &net);
    count = kept = 0;
    about("network", bytes, len);
}

static void take_step(uint8_t step)
{
    size_t taken = run.taken;
    steps[count++] = step;
    ref_step(&run, step);
    if (run.taken > taken)
        recorded[kept++] = step;
}

/* Messages are left to deliver, or nodes to start. */
static int goes_on(void)
{
    for (unsigned node = 1; node <= net.n; node++)
        if (!run.node[node].started)
            return 1;
    for (unsigned k = 0; k < net.arcs; k++)
        if (run.arc[k].delivered < run.node[net.arc[k].head].sent_count)
            return 1;
    return 0;
}

/* Every start and every delivery is tried, again and again, until none is taken. */
static void in_turn(void)
{
    for (size_t k = 0; goes_on() && count < LONG_RUN; k++)
        take_step((uint8_t)(k < net.n ? k : 16 + (k - net.n) % net.arcs));
}

/* The same in one of the random orders; what the order leaves is taken in turn. */
static void in_any_order(unsigned kind)
{
    static uint8_t order[6000];
    random_steps(&net, kind, order, sizeof order);
    for (size_t k = 0; k < sizeof order && goes_on(); k++)
        take_step(order[k]);
    in_turn();
}

/* Both calls give 02's number; returns it. */
static uint32_t same_most(const char *what)
{
    uint32_t right = most_answer(0, &net), answer = zaq_most_taken(at_edge(0, bytes, len), len);
    same_answer(MOST_TAKEN, answer, right, what);
    same_answer(MOST_TAKEN_ARCS, zaq_most_taken_arcs((uint8_t)net.n, (uint8_t)net.lmax, list_at_edge(&net), net.arcs), right, what);
    return zaq_most(answer);
}

static uint64_t counted(const uint8_t *list, size_t list_len, uint64_t counts[4], uint16_t *entries)
{
    memset(counts, 255, 4 * sizeof *counts);
    memset(entries, 255, ZAQ_ENTRIES_ROOM * sizeof *entries);
    same_answer(RUN, zaq_run(bytes, len, at_edge(1, list, list_len), list_len, counts, entries, ZAQ_ENTRIES_ROOM), 0, "a long run");
    return counts[0];
}

/* The library counts no more than the bound, and a recorder that keeps what is taken loses nothing. */
static uint64_t within_bound(const char *what)
{
    uint64_t counts[4], again[4];
    uint16_t entries[ZAQ_ENTRIES_ROOM], same[ZAQ_ENTRIES_ROOM];
    uint32_t most = same_most(what);
    uint64_t taken = counted(steps, count, counts, entries);
    check(taken == run.taken && taken <= most, "no more steps are taken than zaq_most_taken says");
    check(taken <= net.n + net.arcs * ((net.n - 1) * net.lmax + net.n + 2), "nor more than n + arcs * ((n - 1) * LMAX + n + 2)");
    check(counted(recorded, kept, again, same) == taken && again[1] + again[2] == 0, "what was taken is taken again, and nothing else");
    check(again[3] == counts[3] && memcmp(entries, same, sizeof entries) == 0, "the taken steps alone give the same tables");
    return taken;
}

/* No step is taken any more, whatever its byte. */
static void nothing_is_left(void)
{
    static uint8_t more[LONG_RUN + 256];
    uint64_t counts[4];
    uint16_t entries[ZAQ_ENTRIES_ROOM];
    memcpy(more, steps, count);
    for (unsigned b = 0; b < 256; b++)
        more[count + b] = (uint8_t)b;
    check(counted(more, count + 256, counts, entries) == run.taken && counts[3] == net.n, "the run is at its end");
}

/* A one-way ring with LMAX 1, the arcs from any place on: in turn, and in other orders, it takes as many steps as a run can. */
static void rings(unsigned kind)
{
    for (unsigned n = 2; n <= MOST_NODES; n++)
        for (unsigned from = 0; from < n; from++) {
            net = (struct ref_net){.n = n, .lmax = 1, .arcs = n};
            for (unsigned k = 0; k < n; k++) {
                unsigned tail = (k + from) % n + 1;
                net.arc[k] = (struct ref_arc){tail, tail % n + 1, 1};
            }
            begin_run();
            in_any_order(kind);
            check(within_bound("a ring") == n + n * (n * 1 + n + 1), "a one-way ring with LMAX 1 takes as many steps as a run can");
            nothing_is_left();
        }
}

void test_most_taken(void)
{
    net = (struct ref_net){.n = 1, .lmax = 15};
    begin_run();
    in_turn();
    check(within_bound("a house of one") == 1, "a house of one takes its start and nothing else");
    for (unsigned kind = 0; kind < STEP_KINDS; kind++)
        rings(kind);
    for (unsigned round = 0; round < rounds(3000); round++) {
        random_network(&net);
        begin_run();
        in_any_order(round % STEP_KINDS);
        within_bound("a run to its end");
        nothing_is_left();
    }
    do
        random_network(&net);
    while (net.arcs != MOST_ARCS || net.lmax != 15);
    begin_run();
    check(same_most("the largest house") == 61696, "the largest house's number is 61696");
}
