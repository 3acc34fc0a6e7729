/* The stand-in's calls: those for bytes and those for a list differ in how the network is taken, and in nothing else. */
#include "standin.h"
#include <string.h>

static uint32_t refused(uint32_t number)
{
    return WRONG(values_on_refusal) ? number | 1u << 16 : number;
}

static uint32_t low_bits(uint32_t node)
{
    return WRONG(node_of_8_bits) ? node & 255 : node;
}

static int is_node(const struct net *net, uint32_t node)
{
    return node >= 1 && node <= (WRONG(node_up_to_16) ? 16 : net->n);
}

/* ---- what each call does once the network is taken with this refusal */

static uint32_t write_file(
    struct run *run, uint32_t refusal, const uint8_t *steps, uint64_t len, uint32_t node, uint8_t *room, uint64_t size)
{
    node = low_bits(node);
    if (refusal)
        return refused(refusal);
    if (WRONG(eleven_after_thirteen) && size < 2)
        return 13;
    if (!is_node(&run->net, node))
        return refused(11);
    run_steps(run, steps, len);
    if (WRONG(thirteen_before_twelve) && size < 2)
        return 13;
    if (!run->node[node].started)
        return 12;
    uint64_t wanted = file_size(&run->node[node]);
    if (WRONG(stored_before_13) && size > 0)
        room[0] = (uint8_t)(16 | (node - 1));
    if (wanted > size || (WRONG(file_fills_room) && wanted == size))
        return 13;
    put_file(run, node, room);
    if (WRONG(last_byte_touched))
        room[size - 1] = wanted < size ? 0 : room[size - 1];
    return (uint32_t)wanted << 8;
}

/* Node i's entry for y, both numbers, at its place. */
static void put_entry(const struct run *run, unsigned i, unsigned y, uint16_t *entries, uint64_t limit)
{
    unsigned n = run->net.n;
    uint64_t place = 2 * ((uint64_t)(i - 1) * (WRONG(rows_of_sixteen) ? 16 : n) + y - 1);
    if (WRONG(entries_by_target))
        place = 2 * ((uint64_t)(y - 1) * n + i - 1);
    uint32_t entry = entry_of(run, i, y), first = zaq_distance(entry), second = zaq_hop(entry);
    if (place < limit)
        entries[place] = (uint16_t)(WRONG(hop_first) ? second : first);
    if (place + 1 < limit)
        entries[place + 1] = (uint16_t)(WRONG(hop_first) ? first : second);
}

static void put_entries(const struct run *run, uint16_t *entries, uint64_t limit)
{
    for (unsigned i = 1; i <= run->net.n; i++)
        for (unsigned y = 1; y <= run->net.n; y++)
            put_entry(run, i, y, entries, limit);
}

static void put_counts(const struct run *run, uint64_t counts[4])
{
    for (unsigned k = 0; k < 3; k++)
        counts[k] = WRONG(counts_of_16_bits) ? run->counts[k] & 65535 : run->counts[k];
    counts[3] = stopped_nodes(run);
}

static uint32_t whole_run(
    struct run *run, uint32_t refusal, const uint8_t *steps, uint64_t len, uint64_t counts[4], uint16_t *entries, uint64_t size)
{
    if (WRONG(run_13_first) && size < 2)
        return 13;
    if (refusal) {
        if (WRONG(run_counts_on_refusal))
            memset(counts, 0, 4 * sizeof *counts);
        return refused(refusal);
    }
    run_steps(run, steps, len);
    uint64_t wanted = WRONG(run_wants_512) ? 512 : 2 * (uint64_t)run->net.n * run->net.n;
    int is_short = WRONG(run_one_short) ? size + 1 < wanted : size < wanted;
    if (!is_short || WRONG(run_counts_written))
        put_counts(run, counts);
    if (!is_short || WRONG(run_writes_what_fits))
        put_entries(run, entries, WRONG(run_one_short) || WRONG(rows_of_sixteen) ? 512 : size);
    if (is_short)
        return 13;
    if (WRONG(run_touches_next) && size > wanted)
        entries[wanted] ^= 1;
    if (WRONG(run_clears_rest))
        memset(entries + wanted, 0, (size - wanted) * sizeof *entries);
    return 0;
}

static uint32_t most_taken(const struct net *net, uint32_t refusal)
{
    if (refusal)
        return refused(refusal);
    uint32_t arcs = net->arcs - (WRONG(most_one_arc_less) && net->arcs > 0), messages = net->n * net->lmax + net->n + 1;
    if (WRONG(most_by_messages_sent))
        messages = (net->n - 1) * net->lmax + net->n + 2;
    if (WRONG(most_without_end))
        messages--;
    uint32_t most = (WRONG(most_without_starts) ? 0 : net->n) + arcs * messages;
    return (WRONG(most_of_15_bits) ? most & 32767 : most) << 8;
}

static uint32_t one_entry(struct run *run, uint32_t refusal, const uint8_t *steps, uint64_t len, uint32_t node, uint32_t target)
{
    node = low_bits(node);
    if (refusal)
        return refused(refusal);
    if (!is_node(&run->net, node) || !is_node(&run->net, target))
        return refused(11);
    if (WRONG(null_steps_refused) && steps == NULL)
        return 1;
    run_steps(run, steps, len);
    return entry_of(run, node, target);
}

/* The nodes that first hops pass; how many. */
static unsigned follow(const struct run *run, unsigned node, unsigned target, uint8_t passed[NODES])
{
    unsigned count = 0;
    if (zaq_distance(entry_of(run, node, target)) >= ZAQ_UNREACHABLE) {
        passed[0] = (uint8_t)target;
        return WRONG(mark_passes_target) ? 1 : 0;
    }
    if (WRONG(route_with_node))
        passed[count++] = (uint8_t)node;
    for (unsigned at = node; at != target && count < NODES - 1;) {
        at = run->node[at].hop[target];
        if (at != target || !WRONG(route_without_target))
            passed[count++] = (uint8_t)at;
        if (!run->node[at].known[target])
            break; /* only a wrong run has such a hop */
    }
    return count;
}

static uint32_t one_route(
    struct run *run, uint32_t refusal, const uint8_t *steps, uint64_t len, uint32_t node, uint32_t target, uint8_t *room, uint64_t size)
{
    uint8_t passed[NODES];
    node = low_bits(node);
    if (refusal)
        return refused(refusal);
    if (WRONG(route_13_first) && size == 0)
        return 13;
    if (!is_node(&run->net, node) || !is_node(&run->net, target))
        return refused(11);
    run_steps(run, steps, len);
    unsigned count = follow(run, node, target, passed), wanted = WRONG(route_wants_15) ? 15 : count;
    int is_short = WRONG(route_one_short) ? size + 1 < wanted : size < wanted || (WRONG(null_room_refused) && room == NULL);
    for (unsigned k = 0; k < count && (!is_short || (WRONG(route_writes_what_fits) && k < size)); k++)
        room[k] = passed[k];
    if (is_short)
        return 13;
    for (uint64_t k = count; k < size && WRONG(route_clears_rest); k++)
        room[k] = 0;
    return zaq_distance(entry_of(run, node, target)) << 16 | count << 8;
}

/* ---- a network's bytes */

uint32_t zaq_check_network(const uint8_t *net, uint64_t net_len)
{
    struct net taken;
    return refused(take_network(net, net_len, &taken));
}

uint32_t zaq_write_table(
    const uint8_t *net, uint64_t net_len, const uint8_t *steps, uint64_t steps_len, uint32_t node, uint8_t *room, uint64_t room_len)
{
    struct run run = {.counts = {0}};
    return write_file(&run, take_network(net, net_len, &run.net), steps, steps_len, node, room, room_len);
}

uint32_t zaq_run(
    const uint8_t *net, uint64_t net_len, const uint8_t *steps, uint64_t steps_len, uint64_t counts[4], uint16_t *entries,
    uint64_t entries_len)
{
    struct run run = {.counts = {0}};
    return whole_run(&run, take_network(net, net_len, &run.net), steps, steps_len, counts, entries, entries_len);
}

uint32_t zaq_most_taken(const uint8_t *net, uint64_t net_len)
{
    struct net taken;
    uint32_t refusal = take_network(net, net_len, &taken);
    return most_taken(&taken, refusal);
}

uint32_t zaq_entry(const uint8_t *net, uint64_t net_len, const uint8_t *steps, uint64_t steps_len, uint32_t node, uint32_t target)
{
    struct run run = {.counts = {0}};
    return one_entry(&run, take_network(net, net_len, &run.net), steps, steps_len, node, target);
}

uint32_t zaq_route(
    const uint8_t *net, uint64_t net_len, const uint8_t *steps, uint64_t steps_len, uint32_t node, uint32_t target, uint8_t *room,
    uint64_t room_len)
{
    struct run run = {.counts = {0}};
    return one_route(&run, take_network(net, net_len, &run.net), steps, steps_len, node, target, room, room_len);
}

/* ---- a list of arcs */

uint32_t zaq_check_arcs(uint8_t n, uint8_t lmax, const zaq_arc *arcs, uint64_t arcs_len)
{
    struct net taken;
    return refused(take_list(n, lmax, arcs, arcs_len, &taken));
}

uint32_t zaq_write_table_arcs(
    uint8_t n, uint8_t lmax, const zaq_arc *arcs, uint64_t arcs_len, const uint8_t *steps, uint64_t steps_len, uint32_t node, uint8_t *room,
    uint64_t room_len)
{
    struct run run = {.counts = {0}};
    return write_file(&run, take_list(n, lmax, arcs, arcs_len, &run.net), steps, steps_len, node, room, room_len);
}

uint32_t zaq_run_arcs(
    uint8_t n, uint8_t lmax, const zaq_arc *arcs, uint64_t arcs_len, const uint8_t *steps, uint64_t steps_len, uint64_t counts[4],
    uint16_t *entries, uint64_t entries_len)
{
    struct run run = {.counts = {0}};
    return whole_run(&run, take_list(n, lmax, arcs, arcs_len, &run.net), steps, steps_len, counts, entries, entries_len);
}

uint32_t zaq_most_taken_arcs(uint8_t n, uint8_t lmax, const zaq_arc *arcs, uint64_t arcs_len)
{
    struct net taken;
    uint32_t refusal = take_list(n, lmax, arcs, arcs_len, &taken);
    return most_taken(&taken, refusal);
}

uint32_t zaq_entry_arcs(
    uint8_t n, uint8_t lmax, const zaq_arc *arcs, uint64_t arcs_len, const uint8_t *steps, uint64_t steps_len, uint32_t node,
    uint32_t target)
{
    struct run run = {.counts = {0}};
    return one_entry(&run, take_list(n, lmax, arcs, arcs_len, &run.net), steps, steps_len, node, target);
}

uint32_t zaq_route_arcs(
    uint8_t n, uint8_t lmax, const zaq_arc *arcs, uint64_t arcs_len, const uint8_t *steps, uint64_t steps_len, uint32_t node,
    uint32_t target, uint8_t *room, uint64_t room_len)
{
    struct run run = {.counts = {0}};
    return one_route(&run, take_list(n, lmax, arcs, arcs_len, &run.net), steps, steps_len, node, target, room, room_len);
}

uint32_t zaq_pack_network(uint8_t n, uint8_t lmax, const zaq_arc *arcs, uint64_t arcs_len, uint8_t *room, uint64_t room_len)
{
    struct net net;
    if (WRONG(pack_13_first) && room_len < 3)
        return 13;
    uint32_t refusal = take_list(n, lmax, arcs, arcs_len, &net);
    if (refusal)
        return refused(refusal);
    uint64_t size = network_size(&net), wanted = WRONG(pack_wants_363) ? 363 : size;
    if (WRONG(pack_writes_header) && room_len > 0)
        room[0] = (uint8_t)(16 | (n - 1));
    if (WRONG(pack_one_short) ? room_len + 1 < wanted : room_len < wanted)
        return 13;
    put_network(&net, room);
    if (WRONG(pack_touches_next) && room_len > size)
        room[size] ^= 1;
    return (uint32_t)size << 8;
}

/* ---- table files */

uint32_t zaq_read_entry(const uint8_t *file, uint64_t file_len, uint32_t target)
{
    struct table table;
    if (WRONG(target_of_8_bits))
        target &= 255;
    uint32_t refusal = take_file(file, file_len, &table);
    int outside = target < 1 || target > table.n;
    if (WRONG(target_before_records) && refusal > 16 && outside)
        return 11;
    if (refusal)
        return refused(refusal);
    return outside ? refused(11) : table.entry[target];
}

uint32_t zaq_read_table(const uint8_t *file, uint64_t file_len, uint16_t *room, uint64_t room_len)
{
    struct table table;
    uint32_t refusal = take_file(file, file_len, &table);
    uint64_t wanted = 2 * (uint64_t)table.n;
    int is_short = WRONG(table_one_short) ? room_len + 1 < wanted : room_len < wanted;
    if (WRONG(table_13_first) && refusal > 16 && is_short)
        return 13;
    if (refusal)
        return refused(refusal);
    for (unsigned y = 1; y <= table.n && (!is_short || (WRONG(table_writes_what_fits) && 2 * y <= room_len)); y++) {
        room[2 * y - 2] = (uint16_t)zaq_distance(table.entry[y]);
        room[2 * y - 1] = (uint16_t)zaq_hop(table.entry[y]);
    }
    if (is_short)
        return 13;
    if (WRONG(table_touches_next) && room_len > wanted)
        room[wanted] ^= 1;
    return (uint32_t)wanted << 8;
}
