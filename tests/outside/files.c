/* The table file of every node after many runs, byte for byte, in rooms of every size; refusals in document 01's order. */
#include "test.h"
#include <string.h>

enum { MOST_ROOM = 40 };

static struct ref_net net;
static struct ref_run run;
static uint8_t bytes[512], steps[MOST_STEPS];
static size_t net_len, step_count;
static unsigned net_refusal;
static unsigned long shapes[MOST_NODES][2]; /* files seen, by records and by stopped */

static struct room {
    uint8_t before[8], bytes[MOST_ROOM], after[8];
} got, want;

static void random_run(unsigned kind, size_t count)
{
    random_network(&net);
    step_count = count;
    random_steps(&net, kind, steps, step_count);
    ref_run_steps(&run, &net, steps, step_count);
    net_len = ref_network_bytes(&net, bytes);
    net_refusal = 0;
}

/* The answer by document 01: the network, 11, 12, 13; or the file, at the beginning of the room. */
static uint32_t wanted(uint32_t node, size_t size)
{
    uint8_t file[32];
    if (net_refusal)
        return net_refusal;
    if (node < 1 || node > net.n)
        return 11;
    if (!run.node[node].started)
        return 12;
    size_t len = ref_write_file(&run, node, file);
    if (len > size)
        return 13;
    memcpy(want.bytes, file, len);
    shapes[run.node[node].filled_count - 1][run.node[node].stopped]++;
    return (uint32_t)len << 8;
}

/* The same file, of the network as an arc list. */
static void same_file_of_list(const uint8_t *lent_steps, uint32_t node, size_t size)
{
    memset(&got, (int)random_below(256), sizeof got);
    memcpy(&want, &got, sizeof got);
    uint32_t right = wanted(node, size);
    const zaq_arc *list = list_at_edge(&net);
    uint32_t answer = zaq_write_table_arcs(
        (uint8_t)net.n, (uint8_t)net.lmax, list, net.arcs, lent_steps, step_count, node, got.bytes, size);
    same_answer(WRITE_ARCS, answer, right, "writing a file of an arc list");
    check(memcmp(&got, &want, sizeof got) == 0, "the room holds the arc list's file and nothing else");
}

static uint32_t same_file(uint32_t node, size_t size)
{
    memset(&got, (int)random_below(256), sizeof got);
    memcpy(&want, &got, sizeof got);
    about("network", bytes, net_len);
    about("steps", steps, step_count);
    about_number("node", node);
    about_number("room", (uint32_t)size);
    const uint8_t *lent_net = at_edge(0, bytes, net_len), *lent_steps = at_edge(1, steps, step_count);
    uint32_t right = wanted(node, size);
    uint32_t answer = zaq_write_table(lent_net, net_len, lent_steps, step_count, node, got.bytes, size);
    same_answer(WRITE, answer, right, "writing a file");
    check(memcmp(&got, &want, sizeof got) == 0, "the room holds the file and nothing else");
    if (net_refusal == 0)
        same_file_of_list(lent_steps, node, size);
    return answer;
}

/* A file written and read back gives the entries of the run. */
static void read_back(unsigned node, size_t len)
{
    uint16_t room[ZAQ_TABLE_ROOM] = {0};
    same_answer(READ_TABLE, zaq_read_table(got.bytes, len, room, ZAQ_TABLE_ROOM), 2 * net.n << 8, "a file written is read back");
    int same = 1;
    for (unsigned y = 1; y <= net.n; y++) {
        uint32_t right = entry_answer(ref_entry_of(&run, node, y));
        same &= room[2 * y - 2] == zaq_distance(right) && room[2 * y - 1] == zaq_hop(right);
        same_answer(READ_ENTRY, zaq_read_entry(got.bytes, len, y), right, "an entry written is read back");
    }
    check(same, "a file read back gives the run's entries");
}

static void every_node(void)
{
    uint32_t asked[MOST_ASKED];
    unsigned count = asked_nodes(net.n, asked);
    for (unsigned k = 0; k < count; k++) {
        same_file(asked[k], random_below(MOST_ROOM + 1));
        uint32_t answer = same_file(asked[k], ZAQ_FILE_ROOM);
        check(zaq_refusal(answer) != 13, "ZAQ_FILE_ROOM is always enough");
        if (zaq_refusal(answer) == 0 && asked[k] <= net.n)
            read_back(asked[k], zaq_written(answer));
    }
}

static void every_room(void)
{
    uint32_t asked[MOST_ASKED];
    unsigned count = asked_nodes(net.n, asked);
    for (unsigned k = 0; k < count; k++)
        for (size_t size = 0; size <= MOST_ROOM; size++)
            same_file(asked[k], size);
}

/* The network's refusal comes before the node's and the room's. */
static void refused_networks(void)
{
    struct ref_net dummy;
    uint32_t asked[MOST_ASKED];
    for (unsigned round = 0; round < rounds(8000); round++) {
        random_run(round % STEP_KINDS, random_below(50));
        net_len = spoil_somehow(bytes, net_len);
        net_refusal = ref_read_network(bytes, net_len, &dummy);
        unsigned count = asked_nodes(net.n, asked);
        if (net_refusal) {
            uint32_t node = asked[random_below(count)];
            same_file(node, random_below(MOST_ROOM + 1));
        }
    }
}

void test_files(void)
{
    for (unsigned round = 0; round < rounds(6000); round++) {
        random_run(round % STEP_KINDS, random_length());
        every_node();
    }
    for (unsigned round = 0; round < rounds(80); round++) {
        random_run(round % STEP_KINDS, random_length());
        every_room();
    }
    refused_networks();
    for (unsigned records = 0; records < MOST_NODES; records++)
        check((shapes[records][0] && shapes[records][1]) || is_quick(), "files of every number of records, with the end mark and without");
}
