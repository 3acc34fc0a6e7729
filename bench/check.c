/* The check of a network's bytes, and of an arc list, by the library and by plain C. */
#include "bench.h"
#include "houses.h"
#include "plain.h"
#include "../tests/outside/in_header.h"
#include <string.h>

enum { HOUSES = 8, TRIALS = 20000 };

static const double WANTED = 1.2; /* at most this ratio to plain C at -O2, of bytes and of a list */
static struct house houses[HOUSES];
static zaq_arc lists[HOUSES][240];
static size_t counts[HOUSES];
static volatile uint32_t sink;

static void by_library(void)
{
    for (int k = 0; k < HOUSES; k++)
        sink = zaq_check_network(houses[k].net, houses[k].net_len);
}

static void by_plain_O2(void)
{
    for (int k = 0; k < HOUSES; k++)
        sink = plain_check_O2(houses[k].net, houses[k].net_len);
}

static void by_plain_O3(void)
{
    for (int k = 0; k < HOUSES; k++)
        sink = plain_check_O3(houses[k].net, houses[k].net_len);
}

static void list_by_library(void)
{
    for (int k = 0; k < HOUSES; k++)
        sink = zaq_check_arcs(16, 15, lists[k], counts[k]);
}

static void list_by_plain_O2(void)
{
    for (int k = 0; k < HOUSES; k++)
        sink = plain_check_arcs_O2(16, 15, lists[k], counts[k]);
}

static void list_by_plain_O3(void)
{
    for (int k = 0; k < HOUSES; k++)
        sink = plain_check_arcs_O3(16, 15, lists[k], counts[k]);
}

/* A wrong rival is none: accepted networks, and networks with other bits and lengths, most of which are refused. */
static void check_rivals(void)
{
    for (int k = 0; k < TRIALS; k++) {
        struct house h = houses[k % HOUSES];
        for (unsigned flips = k < HOUSES ? 0 : random_below(4); flips > 0; flips--)
            h.net[random_below(random_below(2) ? 3 : (uint32_t)h.net_len)] ^= (uint8_t)(1 << random_below(8));
        size_t len = k < HOUSES || random_below(4) ? h.net_len : random_below(NET_ROOM + 1);
        uint32_t want = expected_refusal(h.net, len);
        if (zaq_check_network(h.net, len) != want || plain_check_O2(h.net, len) != want || plain_check_O3(h.net, len) != want) {
            printf("a network of %zu bytes: refusal %u is wanted\n", len, (unsigned)want);
            exit(1);
        }
    }
}

static zaq_arc random_arc(void)
{
    return (zaq_arc){(uint8_t)random_below(18), (uint8_t)random_below(18), (uint8_t)random_below(17)};
}

/* The same houses as lists, and lists with other numbers, most of which are refused. */
static void check_list_rivals(void)
{
    for (int k = 0; k < TRIALS; k++) {
        zaq_arc list[240];
        size_t count = counts[k % HOUSES];
        uint8_t n = (uint8_t)(k < HOUSES ? 16 : random_below(18)), lmax = (uint8_t)(k < HOUSES ? 15 : random_below(17));
        memcpy(list, lists[k % HOUSES], sizeof list);
        for (unsigned changes = k < HOUSES ? 0 : random_below(3); changes > 0; changes--)
            list[random_below((uint32_t)count)] = random_arc();
        struct ref_arc plain[240];
        struct ref_net net;
        for (size_t a = 0; a < count; a++)
            plain[a] = (struct ref_arc){list[a].tail, list[a].head, list[a].length};
        uint32_t want = ref_read_arc_list(n, lmax, plain, count, &net);
        if (zaq_check_arcs(n, lmax, list, count) != want || plain_check_arcs_O2(n, lmax, list, count) != want
            || plain_check_arcs_O3(n, lmax, list, count) != want) {
            printf("a list of %zu arcs: refusal %u is wanted\n", count, (unsigned)want);
            exit(1);
        }
    }
}

static void build_lists(void)
{
    for (int k = 0; k < HOUSES; k++) {
        struct ref_net net;
        ref_read_network(houses[k].net, houses[k].net_len, &net);
        counts[k] = arc_list(&net, lists[k]);
    }
}

static void time_rivals(const char *name, const work *rivals)
{
    struct timing t = compare(rivals, 3);
    print_row(name, t.least[LIBRARY] / HOUSES, t, WANTED);
    printf("\n");
}

static void one_case(unsigned arcs, const char *name, const char *list_name)
{
    const work rivals[] = {by_library, by_plain_O2, by_plain_O3}, list_rivals[] = {list_by_library, list_by_plain_O2, list_by_plain_O3};
    for (int k = 0; k < HOUSES; k++)
        build_net(&houses[k], arcs, 15);
    build_lists();
    check_rivals();
    check_list_rivals();
    time_rivals(name, rivals);
    time_rivals(list_name, list_rivals);
    for (int k = 0; k < HOUSES; k++)
        free(houses[k].steps);
}

int main(void)
{
    begin_table("check of a network", "ns", WANTED);
    one_case(240, "240 arcs", "240 arcs, as a list");
    one_case(47, "47 arcs", "47 arcs, as a list");
    return 0;
}
