/* A network handed over as a list of arcs: its check, its bytes, its refusals in document 01's order by every call that takes a list. */
#include "test.h"
#include <string.h>

enum { MOST_LISTED = 66000, MOST_ROOM = 400 };

static zaq_arc list[MOST_LISTED];
static struct ref_arc plain[MOST_LISTED];
static struct ref_net net;

static struct room {
    uint8_t before[8], bytes[MOST_ROOM], after[8];
} got, want;

/* The list packed by the library and by the reference; the refusal. */
static unsigned same_packing(uint8_t n, uint8_t lmax, size_t count, const char *what)
{
    memset(&got, (int)random_below(256), sizeof got);
    memcpy(&want, &got, sizeof got);
    for (size_t k = 0; k < count; k++)
        plain[k] = (struct ref_arc){list[k].tail, list[k].head, list[k].length};
    unsigned refusal = ref_read_arc_list(n, lmax, plain, count, &net);
    uint8_t packed[MOST_NETWORK];
    size_t len = refusal ? 0 : ref_network_bytes(&net, packed);
    size_t size = random_below(2) ? ZAQ_NETWORK_ROOM : random_room(len, MOST_ROOM);
    uint32_t right = refusal ? refusal : size < len ? 13 : (uint32_t)len << 8;
    if (right > 255)
        memcpy(want.bytes, packed, len);
    about_number("room", (uint32_t)size);
    about_number("n", n);
    about_number("LMAX", lmax);
    about("arcs", (const uint8_t *)list, count * sizeof *list);
    const zaq_arc *lent = (const zaq_arc *)at_edge(0, (const uint8_t *)list, count * sizeof *list);
    same_answer(CHECK_ARCS, zaq_check_arcs(n, lmax, lent, count), refusal, what);
    same_answer(MOST_TAKEN_ARCS, zaq_most_taken_arcs(n, lmax, lent, count), most_answer(refusal, &net), what);
    same_answer(PACK, zaq_pack_network(n, lmax, lent, count, got.bytes, size), right, what);
    check(memcmp(&got, &want, sizeof got) == 0, "the room holds the network's bytes and nothing else");
    return refusal;
}

/* What was packed is accepted, and runs as the list's network does. */
static void runs_the_same(unsigned kind)
{
    static uint8_t steps[1000];
    static struct ref_run run;
    uint64_t counts[4], right_counts[4];
    uint16_t entries[ZAQ_ENTRIES_ROOM], right_entries[ZAQ_ENTRIES_ROOM];
    uint32_t packed = zaq_pack_network((uint8_t)net.n, (uint8_t)net.lmax, list, net.arcs, got.bytes, sizeof got.bytes);
    size_t len = zaq_written(packed);
    random_steps(&net, kind, steps, sizeof steps);
    ref_run_steps(&run, &net, steps, sizeof steps);
    put_outcome(&run, right_counts, right_entries);
    same_answer(PACK, packed, (uint32_t)(3 + (12 * (size_t)net.arcs + 7) / 8) << 8, "a list that is accepted is packed");
    same_answer(CHECK, zaq_check_network(got.bytes, len), 0, "a packed network is accepted");
    uint32_t answer = zaq_run(got.bytes, len, steps, sizeof steps, counts, entries, ZAQ_ENTRIES_ROOM);
    same_answer(RUN, answer, 0, "a packed network runs");
    check(memcmp(counts, right_counts, sizeof counts) == 0, "a packed network runs as its list says: the counts");
    check(memcmp(entries, right_entries, 4 * net.n * net.n) == 0, "a packed network runs as its list says: the entries");
}

/* A fault of refusal `number` in the list, if it has a place for it. */
static void spoil(uint8_t *n, uint8_t *lmax, size_t *count, unsigned number)
{
    zaq_arc *one = &list[random_below(*count ? (unsigned)*count : 1)], *other = &list[random_below(*count ? (unsigned)*count : 1)];
    uint8_t over = (uint8_t)(*n + 1 + random_below(255 - *n));
    if (number == 19)
        *n = (uint8_t)(random_below(2) ? 17 + random_below(239) : 0);
    if (number == 3)
        *lmax = (uint8_t)(random_below(2) ? 16 + random_below(240) : 0);
    if (number == 4)
        *count = 241 + random_below(300);
    if (number == 5) {
        uint8_t *end = random_below(2) ? &one->tail : &one->head;
        *end = random_below(3) ? over : 0;
    }
    if (number == 6)
        one->head = one->tail;
    if (number == 7)
        one->length = (uint8_t)(random_below(2) ? *lmax + 1 + random_below(255 - *lmax) : 0);
    if (number == 8) {
        one->tail = other->tail;
        one->head = other->head;
    }
}

static struct rooms {
    uint64_t counts[4];
    uint16_t entries[ZAQ_ENTRIES_ROOM];
    uint8_t route[ZAQ_ROUTE_ROOM], file[ZAQ_FILE_ROOM];
} rooms, kept;

/* No call runs a list that is refused, whatever else is asked, and all rooms stay as they were. */
static void refused_everywhere(uint8_t n, uint8_t lmax, size_t count, unsigned refusal)
{
    uint8_t steps[20];
    uint32_t asked[MOST_ASKED], node = random_below(18), target = random_below(18);
    unsigned asks = asked_nodes(16, asked);
    random_steps(&net, 7, steps, sizeof steps);
    node = random_below(2) ? node : asked[random_below(asks)];
    memset(&rooms, (int)random_below(256), sizeof rooms);
    memcpy(&kept, &rooms, sizeof rooms);
    about_number("node", node);
    about_number("target", target);
    const zaq_arc *lent = (const zaq_arc *)at_edge(0, (const uint8_t *)list, count * sizeof *list);
    const uint8_t *lent_steps = at_edge(1, steps, sizeof steps);
    size_t size = random_below(2) ? ZAQ_ENTRIES_ROOM : random_below(3);
    uint32_t answer = zaq_run_arcs(n, lmax, lent, count, lent_steps, sizeof steps, rooms.counts, rooms.entries, size);
    same_answer(RUN_ARCS, answer, refusal, "a refused list is not run");
    answer = zaq_entry_arcs(n, lmax, lent, count, lent_steps, sizeof steps, node, target);
    same_answer(ENTRY_ARCS, answer, refusal, "a refused list has no entry");
    size = random_below(ZAQ_ROUTE_ROOM + 1);
    answer = zaq_route_arcs(n, lmax, lent, count, lent_steps, sizeof steps, node, target, rooms.route, size);
    same_answer(ROUTE_ARCS, answer, refusal, "a refused list has no route");
    answer = zaq_write_table_arcs(n, lmax, lent, count, lent_steps, sizeof steps, node, rooms.file, random_below(28));
    same_answer(WRITE_ARCS, answer, refusal, "a refused list has no file");
    check(memcmp(&rooms, &kept, sizeof rooms) == 0, "a refused list changes no room");
}

static void faults(void)
{
    static const unsigned numbers[] = {19, 3, 4, 5, 6, 7, 8};
    for (unsigned round = 0; round < rounds(30000); round++) {
        random_network(&net);
        uint8_t n = (uint8_t)net.n, lmax = (uint8_t)net.lmax;
        size_t count = arc_list(&net, list);
        spoil(&n, &lmax, &count, numbers[random_below(7)]);
        if (n < 17 && lmax < 16 && round % 2)
            spoil(&n, &lmax, &count, numbers[random_below(7)]);
        unsigned refusal = same_packing(n, lmax, count, "a list with one fault or two");
        if (refusal)
            refused_everywhere(n, lmax, count, refusal);
    }
}

/* All of n and LMAX with lists that are empty or of one arc; all numbers of one arc. */
static void every_number(void)
{
    for (unsigned n = 0; n < 256; n++)
        for (unsigned lmax = 0; lmax < 256; lmax += is_quick() ? 1 + random_below(20) : 1) {
            list[0] = (zaq_arc){1, 2, 1};
            same_packing((uint8_t)n, (uint8_t)lmax, 0, "every n and LMAX, no arc");
            same_packing((uint8_t)n, (uint8_t)lmax, 1, "every n and LMAX, one arc");
        }
    for (unsigned k = 0; k < rounds(1u << 18); k++) {
        static const uint8_t tried[] = {0, 1, 2, 3, 4, 5, 8, 15, 16, 17, 18, 31, 32, 33, 255};
        list[0] = (zaq_arc){tried[k % 15], tried[k / 15 % 15], tried[k / 225 % 15]};
        same_packing(tried[1 + k / 3375 % 8], tried[1 + k / 27000 % 7], 1, "every number in one arc");
    }
}

/* Lists that are too long, also where the length's low bits are not. */
static void too_long(void)
{
    static const size_t lengths[] = {240, 241, 242, 255, 256, 257, 300, 495, 496, 65535, 65536, 65537, 65776};
    for (unsigned k = 0; k < sizeof lengths / sizeof *lengths; k++)
        for (unsigned round = 0; round < 20; round++) {
            do
                random_network(&net);
            while (net.arcs != MOST_ARCS);
            uint8_t lmax = (uint8_t)net.lmax;
            arc_list(&net, list);
            unsigned refusal = same_packing(16, lmax, lengths[k], "lists of 240 arcs and more");
            check(refusal == (lengths[k] > 240 ? 4 : 0), "more than 240 arcs are too many");
        }
}

void test_arcs(void)
{
    for (unsigned round = 0; round < rounds(6000); round++) {
        random_network(&net);
        unsigned refusal = same_packing((uint8_t)net.n, (uint8_t)net.lmax, arc_list(&net, list), "an accepted list");
        check(refusal == 0, "document 01 accepts it");
        if (round % 4 == 0)
            runs_the_same(round / 4 % STEP_KINDS);
    }
    faults();
    every_number();
    too_long();
}
