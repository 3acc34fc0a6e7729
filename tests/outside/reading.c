/* Reading table files: every cut, every changed bit, every file of up to 3 bytes, every first record, and random files with faults. */
#include "test.h"
#include <string.h>

enum { MOST_ROOM = 40 };

static struct ref_net net;
static struct ref_run run;
static struct ref_file file; /* what the file in hand says, or its refusal */
static unsigned refusal;
static const uint8_t *lent;
static size_t lent_len;

static struct room {
    uint16_t before[4], numbers[MOST_ROOM], after[4];
} got, want;

/* Takes a file in hand. */
static void take(const uint8_t *bytes, size_t len)
{
    refusal = ref_read_file(bytes, len, &file);
    lent = at_edge(2, bytes, len);
    lent_len = len;
    about("file", lent, len);
}

static void same_entry(uint32_t target)
{
    uint32_t right = refusal;
    if (refusal == 0)
        right = target < 1 || target > file.n ? 11 : entry_answer(ref_file_entry(&file, target));
    about_number("target", target);
    same_answer(READ_ENTRY, zaq_read_entry(lent, lent_len, target), right, "one entry of a file");
}

static void same_table(size_t size)
{
    memset(&got, (int)random_below(256), sizeof got);
    memcpy(&want, &got, sizeof got);
    uint32_t right = refusal ? refusal : size < 2 * file.n ? 13 : 2 * file.n << 8;
    unsigned written = right > 255 ? file.n : 0;
    for (unsigned y = 1; y <= written; y++) {
        want.numbers[2 * y - 2] = (uint16_t)header_distance(ref_file_entry(&file, y));
        want.numbers[2 * y - 1] = (uint16_t)header_hop(ref_file_entry(&file, y));
    }
    about_number("room", (uint32_t)size);
    same_answer(READ_TABLE, zaq_read_table(lent, lent_len, got.numbers, size), right, "all entries of a file");
    check(memcmp(&got, &want, sizeof got) == 0, "the room holds the entries and nothing else");
    for (unsigned y = 1; y <= written; y++)
        saw_distance(READ_TABLE, got.numbers[2 * y - 2]);
}

static void every_target(void)
{
    uint32_t asked[MOST_ASKED];
    unsigned count = asked_nodes(refusal ? 2 : file.n, asked);
    for (unsigned k = 0; k < count; k++)
        same_entry(asked[k]);
}

static void reads(const uint8_t *bytes, size_t len)
{
    take(bytes, len);
    same_table(random_below(3) ? ZAQ_TABLE_ROOM : random_below(MOST_ROOM + 1));
    every_target();
}

void check_cut(const struct ref_run *of, unsigned node, const uint8_t *bytes, size_t left, size_t whole)
{
    const struct ref_node *nd = &of->node[node];
    const uint8_t *cut = at_edge(2, bytes, left);
    int right = 1;
    for (unsigned y = 1; y <= of->net->n; y++) {
        struct ref_entry e = {left == whole && nd->stopped ? UNREACHABLE : UNKNOWN, 0};
        for (unsigned k = 0; k < nd->filled_count; k++)
            if (nd->filled[k].target == y && 16 + 13 * k <= 8 * left) /* the node itself, or record k stands whole */
                e = (struct ref_entry){(int)nd->filled[k].distance, nd->filled[k].hop};
        right &= zaq_read_entry(cut, left, y) == (left < 2 ? 14 : entry_answer(e));
    }
    about("file", cut, left);
    check(right, "a cut file gives the node itself, the whole records, and unknown for the rest");
}

/* A file of a random run, of a random started node; its length, 0 if no node has started. */
static size_t run_file(unsigned kind, uint8_t *bytes, unsigned *node)
{
    static uint8_t steps[3000];
    random_network(&net);
    size_t count = random_below(3) ? random_below(400) : sizeof steps;
    random_steps(&net, kind, steps, count);
    ref_run_steps(&run, &net, steps, count);
    *node = 1 + random_below(net.n);
    return run.node[*node].started ? ref_write_file(&run, *node, bytes) : 0;
}

static void every_cut(void)
{
    uint8_t bytes[MOST_FILE];
    unsigned node;
    for (unsigned round = 0; round < rounds(6000); round++) {
        size_t whole = run_file(round % STEP_KINDS, bytes, &node);
        for (size_t left = 0; left <= whole && whole; left++) {
            check_cut(&run, node, bytes, left, whole);
            reads(bytes, left);
            for (size_t size = 0; size <= MOST_ROOM && round < rounds(300); size++)
                same_table(size);
        }
    }
}

static void every_bit(void)
{
    uint8_t bytes[MOST_FILE];
    unsigned node;
    for (unsigned round = 0; round < rounds(800); round++) {
        size_t whole = run_file(round % STEP_KINDS, bytes, &node);
        for (size_t p = 0; p < 8 * whole; p++) {
            bytes[p / 8] ^= (uint8_t)(128u >> p % 8);
            reads(bytes, whole);
            bytes[p / 8] ^= (uint8_t)(128u >> p % 8);
        }
    }
}

/* All files of up to 3 bytes, each with one target, and some with every target. */
static void short_files(void)
{
    uint8_t bytes[3];
    for (size_t len = 0; len <= sizeof bytes; len++)
        for (uint32_t k = 0; k < 1u << 8 * len; k += is_quick() && len == 3 ? 1 + random_below(40) : 1) {
            for (size_t b = 0; b < len; b++)
                bytes[b] = (uint8_t)(k >> 8 * (len - 1 - b));
            take(bytes, len);
            same_table(k % 29 ? ZAQ_TABLE_ROOM : k % MOST_ROOM);
            same_entry(k % 18);
            if (k % 61 == 0)
                every_target();
        }
}

/* Every first record, in houses of some sizes: files of 4 bytes. */
static void first_records(void)
{
    static const uint8_t headers[][2] = {{0x10, 0x11}, {0x11, 0x24}, {0x10, 0xFF}, {0x1F, 0xF1}, {0x17, 0x97}, {0x12, 0x3E}};
    for (unsigned h = 0; h < sizeof headers / sizeof *headers; h++)
        for (unsigned k = 0; k < 65536; k += is_quick() ? 1 + random_below(20) : 1) {
            uint8_t bytes[] = {headers[h][0], headers[h][1], (uint8_t)(k >> 8), (uint8_t)k};
            take(bytes, sizeof bytes);
            same_table(ZAQ_TABLE_ROOM);
            same_entry(1 + k % (file.n + 1));
            same_entry(1 + (k >> 11) % 16); /* the record's own target */
        }
}

void test_reading(void)
{
    every_cut();
    every_bit();
    short_files();
    first_records();
    for (unsigned round = 0; round < rounds(300000); round++) {
        uint8_t bytes[MOST_FILE];
        reads(bytes, random_file(bytes));
    }
}
