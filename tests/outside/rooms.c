/* Rooms of every size, from none to one more than is enough, for the calls whose room may be too short: 13 exactly when it is, nothing is
 * written then, and nothing after what is written. */
#include "test.h"
#include <string.h>

static struct ref_net net;
static struct ref_run run;
static uint8_t bytes[MOST_NETWORK], steps[400];
static size_t net_len, step_count;

static struct rooms {
    uint64_t before, counts[4], between;
    uint16_t entries[ZAQ_ENTRIES_ROOM + 4];
    uint8_t room[MOST_NETWORK + 5];
    uint64_t after;
} got, want;

/* A house of n nodes with some entries known. */
static void take_house(unsigned n)
{
    do
        random_network(&net);
    while (net.n != n);
    step_count = random_below(sizeof steps + 1);
    random_steps(&net, random_below(STEP_KINDS), steps, step_count);
    ref_run_steps(&run, &net, steps, step_count);
    net_len = ref_network_bytes(&net, bytes);
    about("network", bytes, net_len);
    about("steps", steps, step_count);
}

static void lay_rooms(size_t size)
{
    memset(&got, (int)random_below(256), sizeof got);
    memcpy(&want, &got, sizeof got);
    about_number("room", (uint32_t)size);
}

static void same_rooms(const char *what)
{
    check(memcmp(&got, &want, sizeof got) == 0, what);
}

/* ---- a whole run */

static uint32_t outcome(size_t size)
{
    if (size < 2 * (size_t)net.n * net.n)
        return 13;
    put_outcome(&run, want.counts, want.entries);
    return 0;
}

static void run_in(size_t size)
{
    const uint8_t *lent = at_edge(1, steps, step_count);
    lay_rooms(size);
    uint32_t right = outcome(size);
    uint32_t answer = zaq_run(at_edge(0, bytes, net_len), net_len, lent, step_count, got.counts, got.entries, size);
    same_answer(RUN, answer, right, "a run in any room");
    same_rooms("a run in any room: what is written");
    lay_rooms(size);
    right = outcome(size);
    answer = zaq_run_arcs(
        (uint8_t)net.n, (uint8_t)net.lmax, list_at_edge(&net), net.arcs, lent, step_count, got.counts, got.entries, size);
    same_answer(RUN_ARCS, answer, right, "a run of a list in any room");
    same_rooms("a run of a list in any room: what is written");
}

/* ---- a route */

static uint32_t route(unsigned node, unsigned target, size_t size)
{
    uint8_t passed[MOST_NODES];
    unsigned count = simulated_route(&run, node, target, passed);
    if (size < count)
        return 13;
    memcpy(want.room, passed, count);
    return (uint32_t)header_distance(ref_entry_of(&run, node, target)) << 16 | count << 8;
}

static void route_in(unsigned node, unsigned target, size_t size)
{
    const uint8_t *lent = at_edge(1, steps, step_count);
    about_number("node", node);
    about_number("target", target);
    lay_rooms(size);
    uint32_t right = route(node, target, size);
    uint32_t answer = zaq_route(at_edge(0, bytes, net_len), net_len, lent, step_count, node, target, got.room, size);
    same_answer(ROUTE, answer, right, "a route in any room");
    same_rooms("a route in any room: what is written");
    lay_rooms(size);
    right = route(node, target, size);
    answer = zaq_route_arcs(
        (uint8_t)net.n, (uint8_t)net.lmax, list_at_edge(&net), net.arcs, lent, step_count, node, target, got.room, size);
    same_answer(ROUTE_ARCS, answer, right, "a route of a list in any room");
    same_rooms("a route of a list in any room: what is written");
}

static void every_route(void)
{
    for (unsigned i = 1; i <= net.n; i++)
        for (unsigned y = 1; y <= net.n; y++) {
            uint8_t passed[MOST_NODES];
            size_t enough = simulated_route(&run, i, y, passed);
            for (size_t size = 0; size <= enough + 1; size++)
                route_in(i, y, size);
            route_in(i, y, ZAQ_ROUTE_ROOM);
        }
}

/* ---- a packed network */

static void pack_in(size_t size)
{
    lay_rooms(size);
    uint32_t right = size < net_len ? 13 : (uint32_t)net_len << 8;
    if (right != 13)
        memcpy(want.room, bytes, net_len);
    uint32_t answer = zaq_pack_network((uint8_t)net.n, (uint8_t)net.lmax, list_at_edge(&net), net.arcs, got.room, size);
    same_answer(PACK, answer, right, "packing into any room");
    same_rooms("packing into any room: what is written");
}

void test_rooms(void)
{
    for (unsigned round = 0; round < rounds(20); round++)
        for (unsigned n = 1; n <= MOST_NODES; n++) {
            take_house(n);
            for (size_t size = 0; size <= 2 * (size_t)n * n + 1 && round < rounds(10); size++)
                run_in(size);
            run_in(ZAQ_ENTRIES_ROOM);
            for (size_t size = 0; size <= net_len + 1; size++)
                pack_in(size);
            pack_in(ZAQ_NETWORK_ROOM);
            every_route();
        }
}
