/* Requirement 2 for whole runs: the counts and every entry of zaq_run and zaq_run_arcs, against the simulation and against shortest
 * chains, and what they leave alone in both rooms. */
#include "test.h"
#include <string.h>

enum { LONG_LIST = 300000 };

static struct ref_net net;
static struct ref_run run;
static struct ref_truth truth;
static uint8_t bytes[512], steps[LONG_LIST];
static unsigned long sizes[MOST_NODES + 1][16], arc_counts[MOST_ARCS + 1]; /* of the networks that were run */

/* Both rooms of a call, with canaries around them. */
static struct rooms {
    uint64_t before, counts[4], between;
    uint16_t entries[ZAQ_ENTRIES_ROOM + 8];
    uint64_t after;
} got, want;

/* Both rooms as they are before the call, and as they must be after it; returns the answer that it must give. */
static uint32_t lay_rooms(unsigned refusal, size_t size)
{
    memset(&got, (int)random_below(256), sizeof got);
    memcpy(&want, &got, sizeof got);
    if (refusal == 0 && size < 2 * (size_t)net.n * net.n)
        refusal = 13;
    if (refusal == 0)
        put_outcome(&run, want.counts, want.entries);
    about_number("room", (uint32_t)size);
    return refusal;
}

/* The same network handed over as an arc list. */
static void same_run_of_list(const uint8_t *lent_steps, size_t count, size_t size, const char *what)
{
    uint32_t right = lay_rooms(0, size);
    const zaq_arc *list = list_at_edge(&net);
    uint32_t answer = zaq_run_arcs((uint8_t)net.n, (uint8_t)net.lmax, list, net.arcs, lent_steps, count, got.counts, got.entries, size);
    same_answer(RUN_ARCS, answer, right, what);
    check(memcmp(&got, &want, sizeof got) == 0, "both rooms hold the outcome of the arc list and nothing else");
}

static void same_run_in(size_t len, size_t count, unsigned refusal, size_t size, const char *what)
{
    uint32_t right = lay_rooms(refusal, size);
    about("network", bytes, len);
    about("steps", steps, count);
    const uint8_t *lent_net = at_edge(0, bytes, len), *lent_steps = at_edge(1, steps, count);
    same_answer(RUN, zaq_run(lent_net, len, lent_steps, count, got.counts, got.entries, size), right, what);
    check(memcmp(&got, &want, sizeof got) == 0, "both rooms hold the outcome and nothing else");
    if (refusal == 0)
        same_run_of_list(lent_steps, count, size, what);
    check(memcmp(lent_net, bytes, len) == 0 && memcmp(lent_steps, steps, count) == 0, "runs leave their inputs alone");
}

/* In a room that is long enough. */
static void same_run(size_t len, size_t count, const char *what)
{
    same_run_in(len, count, 0, random_below(2) ? ZAQ_ENTRIES_ROOM : 2 * (size_t)net.n * net.n, what);
}

static size_t simulate(size_t count)
{
    ref_run_steps(&run, &net, steps, count);
    return ref_network_bytes(&net, bytes);
}

/* The header: no node sends more messages than this. */
static unsigned sent_bound(void)
{
    return (net.n - 1) * net.lmax + net.n + 2;
}

static void sent_within_bound(void)
{
    unsigned longest = 0;
    for (unsigned i = 1; i <= net.n; i++)
        longest = run.node[i].sent_count > longest ? run.node[i].sent_count : longest;
    check(longest <= sent_bound(), "no node sends more than (n - 1) * LMAX + n + 2 messages");
}

/* Each entry handed over that is not unknown is the truth over all chains; unreachable only where there is none. */
static void entries_are_true(size_t count)
{
    int right = 1;
    for (unsigned i = 1; i <= net.n; i++)
        for (unsigned y = 1; y <= net.n; y++) {
            const uint16_t *e = &got.entries[2 * ((i - 1) * net.n + y - 1)];
            struct ref_entry least = {truth.distance[i][y], truth.hop[i][y]};
            if (e[0] != ZAQ_UNKNOWN)
                right &= e[0] == header_distance(least) && e[1] == header_hop(least);
            else
                right &= e[1] == ZAQ_NO_HOP;
            saw_distance(RUN, e[0]);
            saw_distance(RUN_ARCS, e[0]);
        }
    check(right, "entries are the distances and first hops over all chains");
    check(got.counts[0] + got.counts[1] + got.counts[2] == count, "the three counts add up to the list's length");
}

static void one_run(unsigned kind, size_t count)
{
    random_network(&net);
    ref_shortest(&net, &truth);
    random_steps(&net, kind, steps, count);
    same_run(simulate(count), count, "a run is not refused");
    entries_are_true(count);
    sent_within_bound();
    sizes[net.n][net.lmax]++;
    arc_counts[net.arcs]++;
}

static void every_size_was_run(void)
{
    for (unsigned n = 1; n <= MOST_NODES; n++)
        for (unsigned lmax = 1; lmax <= 15; lmax++)
            check(sizes[n][lmax] > 0 || is_quick(), "every n with every LMAX was run");
    check(arc_counts[0] > 0 && arc_counts[MOST_ARCS] > 0, "networks of no arc and of 240 were run");
}

/* Every beginning of a step list. */
static void every_length(unsigned kind)
{
    random_network(&net);
    ref_shortest(&net, &truth);
    random_steps(&net, kind, steps, 300);
    size_t len = simulate(0);
    for (size_t count = 0; count <= 300; count++) {
        same_run(len, count, "a list cut at any length is not refused");
        entries_are_true(count);
        if (count < 300)
            ref_step(&run, steps[count]);
    }
}

/* Every node starts, and arcs deliver in any order until all have stopped: nothing is unknown, and every entry is the truth. */
static void to_the_end(void)
{
    random_network(&net);
    ref_shortest(&net, &truth);
    size_t count = 0, len = simulate(0);
    while (ref_stopped(&run) < net.n && count < LONG_LIST) {
        steps[count] = (uint8_t)(count < net.n ? count : 16 + random_below(net.arcs));
        ref_step(&run, steps[count++]);
    }
    same_run(len, count, "a run to the end is not refused");
    entries_are_true(count);
    sent_within_bound();
    int filled = 1;
    for (unsigned i = 0; i < net.n; i++)
        for (unsigned y = 0; y < net.n; y++)
            filled &= got.entries[2 * (i * net.n + y)] != ZAQ_UNKNOWN;
    check(got.counts[3] == net.n && filled, "once all have stopped nothing is unknown");
}

/* Nodes 1 and 2 hear each other at length 1, and from 2 on each hears the next at LMAX: node 1 sends as many messages as a node can. */
static void lay_line(unsigned n, unsigned lmax)
{
    net = (struct ref_net){.n = n, .lmax = lmax, .arcs = n, .arc = {{1, 2, 1}, {2, 1, 1}}};
    for (unsigned k = 2; k < n; k++)
        net.arc[k] = (struct ref_arc){k, k + 1, lmax};
}

static void longest_lists(void)
{
    for (unsigned n = 2; n <= MOST_NODES; n++)
        for (unsigned lmax = 1; lmax <= 15; lmax++) {
            lay_line(n, lmax);
            ref_shortest(&net, &truth);
            size_t count = 0, idle_in_turn = 0, len = simulate(0);
            /* until nothing is left to deliver: node 1 stops last, and node 2 is still to hear its end */
            while (idle_in_turn < net.arcs && count < LONG_LIST) {
                size_t idle = run.idle;
                steps[count] = (uint8_t)(count < net.n ? count : 16 + count % net.arcs);
                ref_step(&run, steps[count++]);
                idle_in_turn = run.idle > idle ? idle_in_turn + 1 : 0;
            }
            same_run(len, count, "the run with the longest sent list is not refused");
            entries_are_true(count);
            sent_within_bound();
            check(run.node[1].sent_count == sent_bound(), "node 1 of a line sends as many messages as a node can");
        }
    check(run.node[1].sent_count == 243, "243 messages in the largest house");
}

/* Each count goes beyond 16 bits where the list is long enough. */
static void long_lists(void)
{
    do
        random_network(&net);
    while (net.arcs != MOST_ARCS);
    ref_shortest(&net, &truth);
    random_steps(&net, 0, steps, LONG_LIST);
    same_run(simulate(LONG_LIST), LONG_LIST, "a long list of idle steps");
    check(got.counts[1] > 65536, "more idle steps than 16 bits can count");
    do
        random_network(&net);
    while (net.arcs > 20);
    random_steps(&net, 4, steps, LONG_LIST);
    same_run(simulate(LONG_LIST), LONG_LIST, "a long list of unknown steps");
    check(got.counts[2] > 65536, "more unknown steps than 16 bits can count");
}

/* A network that is refused changes neither room, whatever the steps. */
static void refused_networks(void)
{
    struct ref_net dummy;
    for (unsigned round = 0; round < rounds(8000); round++) {
        random_network(&net);
        size_t count = random_below(50);
        random_steps(&net, 7, steps, count);
        size_t len = spoil_somehow(bytes, simulate(0));
        unsigned refusal = ref_read_network(bytes, len, &dummy);
        if (refusal)
            same_run_in(len, count, refusal, random_room(2 * (size_t)net.n * net.n, ZAQ_ENTRIES_ROOM), "a refused network");
    }
}

void test_runs(void)
{
    for (unsigned round = 0; round < rounds(12000); round++)
        one_run(round % STEP_KINDS, random_length());
    every_size_was_run();
    for (unsigned round = 0; round < rounds(40); round++)
        every_length(round % STEP_KINDS);
    for (unsigned round = 0; round < rounds(400); round++)
        to_the_end();
    longest_lists();
    long_lists();
    refused_networks();
}
