/* Whole runs: the network's check, the run, the counts and all entries, by the library and by plain C; beside them, for context, the
 * same table by a search from every node. Each case is several houses, so that no rival learns one step list by heart. */
#include "bench.h"
#include "houses.h"
#include "plain.h"
#include "../include/zaqfinell.h"
#include <string.h>

enum { HOUSES = 8 };

struct run_case {
    const char *name;
    unsigned arcs, lmax;
    enum order order;
    size_t most;
    double wanted; /* at most this ratio to plain C at -O2; 0: nothing is asked, as of a call without a run */
};

static const struct run_case cases[] = {
    {"240 arcs to 15, any order", 240, 15, ANY_ARC, STEP_ROOM, 1.05},
    {"240 arcs to 15, in turn", 240, 15, IN_TURN, STEP_ROOM, 1.05},
    {"240 arcs to 4, any order", 240, 4, ANY_ARC, STEP_ROOM, 1.05},
    {"240 arcs of 1, any order", 240, 1, ANY_ARC, STEP_ROOM, 1.05},
    {"48 arcs to 15, any order", 48, 15, ANY_ARC, STEP_ROOM, 1.05},
    {"48 arcs to 15, in turn", 48, 15, IN_TURN, STEP_ROOM, 1.05},
    {"32 arcs to 15, any order", 32, 15, ANY_ARC, STEP_ROOM, 1.05},
    {"32 arcs of 1, in turn", 32, 1, IN_TURN, STEP_ROOM, 1.05},
    {"240 arcs, no step", 240, 15, ANY_ARC, 0, 0},
    {"48 arcs, a million bytes", 48, 15, ANY_BYTE, 1000000, 1.1},
    {"240 arcs, a million bytes", 240, 15, ANY_BYTE, 1000000, 1.05},
};

static struct house houses[HOUSES];
static int many;
static struct outcome out;

static void by_library(void)
{
    for (int k = 0; k < many; k++)
        zaq_run(houses[k].net, houses[k].net_len, houses[k].steps, houses[k].steps_len, out.counts, out.entries, ENTRIES);
}

static void by_plain_O2(void)
{
    for (int k = 0; k < many; k++)
        plain_run_O2(houses[k].net, houses[k].net_len, houses[k].steps, houses[k].steps_len, out.counts, out.entries, ENTRIES);
}

static void by_plain_O3(void)
{
    for (int k = 0; k < many; k++)
        plain_run_O3(houses[k].net, houses[k].net_len, houses[k].steps, houses[k].steps_len, out.counts, out.entries, ENTRIES);
}

static void by_search(void)
{
    for (int k = 0; k < many; k++)
        plain_shortest_O2(houses[k].net, houses[k].net_len, out.entries);
}

typedef uint32_t (*run_call)(const uint8_t *, uint64_t, const uint8_t *, uint64_t, uint64_t[4], uint16_t *, uint64_t);

/* A wrong rival is none. */
static void must_agree(const struct house *h, run_call call, const char *name)
{
    memset(&out, 0xA5, sizeof out);
    if (call(h->net, h->net_len, h->steps, h->steps_len, out.counts, out.entries, ENTRIES) == 0
        && memcmp(&out, &h->expected, sizeof out) == 0
        && call(h->net, h->net_len, h->steps, h->steps_len, out.counts, out.entries, ENTRIES - 1) == 13)
        return;
    printf("%s is wrong on a house of %u arcs and %zu steps\n", name, (unsigned)h->net[2], h->steps_len);
    exit(1);
}

static void check_rivals(const struct house *h)
{
    must_agree(h, zaq_run, "zaq_run");
    must_agree(h, plain_run_O2, "plain C at -O2");
    must_agree(h, plain_run_O3, "plain C at -O3");
    if (h->expected.counts[3] < 16)
        return;
    if (plain_shortest_O2(h->net, h->net_len, out.entries) != 0 || memcmp(out.entries, h->expected.entries, sizeof out.entries) != 0) {
        puts("the search from every node is wrong");
        exit(1);
    }
}

static void one_case(const struct run_case *c)
{
    const work rivals[] = {by_library, by_plain_O2, by_plain_O3, by_search};
    double steps = 0;
    many = c->order == ANY_BYTE ? 1 : HOUSES;
    for (int k = 0; k < many; k++) {
        build_net(&houses[k], c->arcs, c->lmax);
        build_steps(&houses[k], c->order, c->most);
        check_rivals(&houses[k]);
        steps += (double)houses[k].steps_len / many;
    }
    struct timing t = compare(rivals, 4);
    print_row(c->name, t.least[LIBRARY] / many / 1e3, t, c->wanted);
    printf("   %8.0f steps, search %.1f us\n", steps, t.least[3] / many / 1e3);
    for (int k = 0; k < many; k++)
        free(houses[k].steps);
}

int main(void)
{
    begin_table("whole runs, 16 nodes", "us", 1.05);
    for (size_t k = 0; k < sizeof cases / sizeof *cases; k++)
        one_case(&cases[k]);
    return 0;
}
