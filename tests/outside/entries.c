/* One entry and one route after a run, for every node and target, against the simulation and against the network's own arcs. */
#include "test.h"
#include <string.h>

enum { MOST_ROOM = 24 };

static struct ref_net net;
static struct ref_run run;
static uint8_t bytes[512], steps[MOST_STEPS];
static size_t net_len, step_count;

static struct room {
    uint8_t before[8], nodes[MOST_ROOM], after[8];
} got, want;

static void run_with(unsigned kind, size_t count)
{
    step_count = count;
    random_steps(&net, kind, steps, step_count);
    ref_run_steps(&run, &net, steps, step_count);
    net_len = ref_network_bytes(&net, bytes);
}

static void random_run(unsigned kind)
{
    random_network(&net);
    run_with(kind, random_below(4) ? random_below(250) : 1000 + random_below(3000));
}

static int is_node(uint32_t asked)
{
    return asked >= 1 && asked <= net.n;
}

/* By the network alone: arcs join the nodes passed one after the other, and their lengths add up to the distance. */
static int joined(unsigned node, unsigned target, const uint8_t *nodes, unsigned count, unsigned distance)
{
    unsigned at = node, sum = 0;
    for (unsigned k = 0; k < count; k++) {
        unsigned len = 0;
        for (unsigned a = 0; a < net.arcs; a++)
            if (net.arc[a].tail == at && net.arc[a].head == nodes[k])
                len = net.arc[a].len;
        if (len == 0)
            return 0;
        sum += len;
        at = nodes[k];
    }
    return at == target && sum == distance;
}

/* The network as bytes, or as an arc list, and the steps, each at the end of memory. */
static uint32_t ask_entry(enum call call, uint32_t node, uint32_t target)
{
    const uint8_t *lent = at_edge(1, steps, step_count);
    if (call == ENTRY)
        return zaq_entry(at_edge(0, bytes, net_len), net_len, lent, step_count, node, target);
    return zaq_entry_arcs((uint8_t)net.n, (uint8_t)net.lmax, list_at_edge(&net), net.arcs, lent, step_count, node, target);
}

static uint32_t ask_route(enum call call, uint32_t node, uint32_t target, size_t size)
{
    const uint8_t *lent = at_edge(1, steps, step_count);
    if (call == ROUTE)
        return zaq_route(at_edge(0, bytes, net_len), net_len, lent, step_count, node, target, got.nodes, size);
    return zaq_route_arcs((uint8_t)net.n, (uint8_t)net.lmax, list_at_edge(&net), net.arcs, lent, step_count, node, target, got.nodes, size);
}

static void same_entry(enum call call, uint32_t node, uint32_t target, unsigned refusal)
{
    uint32_t right = refusal ? refusal : entry_answer(ref_entry_of(&run, node, target));
    same_answer(call, ask_entry(call, node, target), right, "one entry after a run");
}

static void same_route(enum call call, uint32_t node, uint32_t target, unsigned refusal)
{
    uint8_t passed[MOST_NODES];
    unsigned count = refusal ? 0 : simulated_route(&run, node, target, passed);
    size_t size = random_below(2) ? ZAQ_ROUTE_ROOM : random_room(count, MOST_ROOM);
    memset(&got, (int)random_below(256), sizeof got);
    memcpy(&want, &got, sizeof got);
    uint32_t right = refusal ? refusal : 13;
    if (refusal == 0 && count <= size) {
        memcpy(want.nodes, passed, count);
        right = (uint32_t)header_distance(ref_entry_of(&run, node, target)) << 16 | count << 8;
    }
    about_number("room", (uint32_t)size);
    uint32_t answer = ask_route(call, node, target, size);
    same_answer(call, answer, right, "one route after a run");
    check(memcmp(&got, &want, sizeof got) == 0, "the room holds the nodes passed and nothing else");
    if (right > 255 && zaq_distance(answer) < ZAQ_UNREACHABLE && zaq_passed(answer) <= ZAQ_ROUTE_ROOM)
        check(joined(node, target, got.nodes, zaq_passed(answer), zaq_distance(answer)), "arcs join the nodes passed");
}

static void both(uint32_t node, uint32_t target, unsigned refusal)
{
    about("network", bytes, net_len);
    about("steps", steps, step_count);
    about_number("node", node);
    about_number("target", target);
    same_entry(ENTRY, node, target, refusal);
    same_route(ROUTE, node, target, refusal);
    if (refusal && refusal != 11)
        return; /* of the bytes alone */
    same_entry(ENTRY_ARCS, node, target, refusal);
    same_route(ROUTE_ARCS, node, target, refusal);
}

static void every_pair(void)
{
    uint32_t asked[MOST_ASKED];
    unsigned count = asked_nodes(net.n, asked);
    for (unsigned i = 0; i < count; i++)
        for (unsigned y = 0; y < count; y++)
            both(asked[i], asked[y], is_node(asked[i]) && is_node(asked[y]) ? 0 : 11);
}

/* A one-way ring of sixteen, all arcs as long as can be, run to the end: distances to 225 and routes of 15 nodes. */
static void farthest(void)
{
    net = (struct ref_net){.n = 16, .lmax = 15, .arcs = 16};
    for (unsigned k = 0; k < 16; k++)
        net.arc[k] = (struct ref_arc){k + 1, (k + 1) % 16 + 1, 15};
    run_with(0, 4000);
    check(ref_stopped(&run) == 16, "the ring has run to the end");
    every_pair();
}

/* The network's refusal comes before the node's. */
static void refused_networks(void)
{
    struct ref_net dummy;
    uint32_t asked[MOST_ASKED];
    for (unsigned round = 0; round < rounds(8000); round++) {
        random_run(round % STEP_KINDS);
        net_len = spoil_somehow(bytes, net_len);
        unsigned refusal = ref_read_network(bytes, net_len, &dummy);
        unsigned count = asked_nodes(net.n, asked);
        if (refusal) {
            uint32_t node = asked[random_below(count)], target = asked[random_below(count)];
            both(node, target, refusal);
        }
    }
}

void test_entries(void)
{
    for (unsigned round = 0; round < rounds(240); round++) {
        random_run(round % STEP_KINDS);
        every_pair();
    }
    farthest();
    for (unsigned round = 0; round < rounds(15000); round++) {
        random_run(round % STEP_KINDS);
        uint32_t node = 1 + random_below(net.n), target = 1 + random_below(net.n);
        both(node, target, 0);
    }
    refused_networks();
}
