/* How often each refusal and each kind of answer was seen, call by call; and inputs at the end of memory. */
#define _DEFAULT_SOURCE
#include "test.h"
#include <stdio.h>
#include <stdlib.h>
#include <string.h>
#include <sys/mman.h>
#include <unistd.h>

enum { OWN, DISTANCE, FARTHEST, NOT_KNOWN, NOT_REACHABLE, KINDS };

static unsigned long refusals[CALLS][256], kinds[CALLS][KINDS];

/* What the header says of each call. */
static const struct {
    const char *name;
    int entries; /* it hands over distances */
    unsigned refusals[16];
} promised[CALLS] = {
    [CHECK] = {"zaq_check_network", 0, {1, 2, 3, 4, 5, 6, 7, 8, 9}},
    [WRITE] = {"zaq_write_table", 0, {1, 2, 3, 4, 5, 6, 7, 8, 9, 11, 12, 13}},
    [READ_ENTRY] = {"zaq_read_entry", 1, {11, 14, 15, 16, 17, 18}},
    [READ_TABLE] = {"zaq_read_table", 1, {13, 14, 15, 16, 17, 18}},
    [RUN] = {"zaq_run", 1, {1, 2, 3, 4, 5, 6, 7, 8, 9, 13}},
    [MOST_TAKEN] = {"zaq_most_taken", 0, {1, 2, 3, 4, 5, 6, 7, 8, 9}},
    [ENTRY] = {"zaq_entry", 1, {1, 2, 3, 4, 5, 6, 7, 8, 9, 11}},
    [ROUTE] = {"zaq_route", 1, {1, 2, 3, 4, 5, 6, 7, 8, 9, 11, 13}},
    [PACK] = {"zaq_pack_network", 0, {3, 4, 5, 6, 7, 8, 13, 19}},
    [CHECK_ARCS] = {"zaq_check_arcs", 0, {3, 4, 5, 6, 7, 8, 19}},
    [WRITE_ARCS] = {"zaq_write_table_arcs", 0, {3, 4, 5, 6, 7, 8, 11, 12, 13, 19}},
    [RUN_ARCS] = {"zaq_run_arcs", 1, {3, 4, 5, 6, 7, 8, 13, 19}},
    [MOST_TAKEN_ARCS] = {"zaq_most_taken_arcs", 0, {3, 4, 5, 6, 7, 8, 19}},
    [ENTRY_ARCS] = {"zaq_entry_arcs", 1, {3, 4, 5, 6, 7, 8, 11, 19}},
    [ROUTE_ARCS] = {"zaq_route_arcs", 1, {3, 4, 5, 6, 7, 8, 11, 13, 19}},
};

void same_answer(enum call call, uint32_t got, uint32_t want, const char *what)
{
    check(got == want, what);
    refusals[call][zaq_refusal(got)]++;
    if (zaq_refusal(got) == 0 && promised[call].entries && call != READ_TABLE && call != RUN && call != RUN_ARCS)
        saw_distance(call, zaq_distance(got));
}

void saw_distance(enum call call, unsigned distance)
{
    kinds[call][distance == ZAQ_UNKNOWN ? NOT_KNOWN : distance == ZAQ_UNREACHABLE ? NOT_REACHABLE : distance == 0 ? OWN : DISTANCE]++;
    if (distance == 225)
        kinds[call][FARTHEST]++;
}

static int is_promised(enum call call, unsigned refusal)
{
    for (unsigned k = 0; promised[call].refusals[k]; k++)
        if (promised[call].refusals[k] == refusal)
            return 1;
    return refusal == 0;
}

static void seen_of(enum call call)
{
    char what[80];
    /* a quick run need not have seen everything, and a part only what is its own */
    int own = part_run() == ALL || (part_run() == FILES) == (call == READ_ENTRY || call == READ_TABLE);
    unsigned long often = is_quick() || !own ? 0 : 100, once = is_quick() || !own ? 0 : 1;
    for (unsigned refusal = 0; refusal < 256; refusal++) {
        snprintf(what, sizeof what, "%s: refusal %u seen %lu times", promised[call].name, refusal, refusals[call][refusal]);
        if (is_promised(call, refusal))
            check(refusals[call][refusal] >= often, what);
        else
            check(refusals[call][refusal] == 0, what);
    }
    for (unsigned kind = 0; kind < KINDS && promised[call].entries; kind++) {
        snprintf(what, sizeof what, "%s: entries of kind %u seen %lu times", promised[call].name, kind, kinds[call][kind]);
        check(kinds[call][kind] >= (kind == FARTHEST ? once : often), what);
    }
}

void test_seen(void)
{
    for (unsigned call = 0; call < CALLS; call++)
        seen_of((enum call)call);
}

const uint8_t *at_edge(unsigned place, const uint8_t *bytes, size_t len)
{
    enum { SIZE = 1 << 20 };
    static uint8_t *end[3];
    if (end[place] == NULL) {
        size_t page = (size_t)sysconf(_SC_PAGESIZE);
        uint8_t *memory = mmap(NULL, SIZE + page, PROT_READ | PROT_WRITE, MAP_PRIVATE | MAP_ANONYMOUS, -1, 0);
        if (memory == MAP_FAILED || mprotect(memory + SIZE, page, PROT_NONE) != 0) {
            perror("memory with an edge");
            exit(2);
        }
        end[place] = memory + SIZE;
    }
    if (len > SIZE) {
        fprintf(stderr, "%zu bytes are too many for an edge\n", len);
        exit(2);
    }
    return len ? memcpy(end[place] - len, bytes, len) : end[place];
}

const zaq_arc *list_at_edge(const struct ref_net *net)
{
    zaq_arc list[MOST_ARCS];
    size_t count = arc_list(net, list);
    return (const zaq_arc *)at_edge(2, (const uint8_t *)list, count * sizeof *list);
}
