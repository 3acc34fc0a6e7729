/* The bound on the steps that a run can take, by the library and by plain C: a check of the network and some arithmetic. */
#include "bench.h"
#include "houses.h"
#include "plain.h"
#include "../tests/outside/in_header.h"

enum { HOUSES = 8 };

static const double WANTED = 1.2; /* at most this ratio to plain C at -O2, as for the check */
static struct house houses[HOUSES];
static struct ref_net nets[HOUSES];
static zaq_arc lists[HOUSES][240];
static volatile uint32_t sink;

#define RIVAL(name, call)                                                                                                                  \
    static void name(void)                                                                                                                 \
    {                                                                                                                                      \
        for (int k = 0; k < HOUSES; k++)                                                                                                   \
            sink = call;                                                                                                                   \
    }
#define BYTES houses[k].net, houses[k].net_len
#define LIST (uint8_t)nets[k].n, (uint8_t)nets[k].lmax, lists[k], nets[k].arcs
RIVAL(by_library, zaq_most_taken(BYTES))
RIVAL(by_plain_O2, plain_most_taken_O2(BYTES))
RIVAL(by_plain_O3, plain_most_taken_O3(BYTES))
RIVAL(list_by_library, zaq_most_taken_arcs(LIST))
RIVAL(list_by_plain_O2, plain_most_taken_arcs_O2(LIST))
RIVAL(list_by_plain_O3, plain_most_taken_arcs_O3(LIST))

/* A wrong rival is none: of every house, and of each cut to one byte less, all must say what document 02 says. */
static void check_rivals(int k)
{
    for (size_t len = houses[k].net_len - 1; len <= houses[k].net_len; len++) {
        struct ref_net net;
        uint32_t want = most_answer(ref_read_network(houses[k].net, len, &net), &net);
        if (zaq_most_taken(houses[k].net, len) != want || plain_most_taken_O2(houses[k].net, len) != want
            || plain_most_taken_O3(houses[k].net, len) != want) {
            printf("a network of %zu bytes: %u is wanted\n", len, (unsigned)want);
            exit(1);
        }
    }
    uint32_t want = most_answer(0, &nets[k]);
    if (zaq_most_taken_arcs(LIST) != want || plain_most_taken_arcs_O2(LIST) != want || plain_most_taken_arcs_O3(LIST) != want) {
        printf("a list of %u arcs: %u is wanted\n", nets[k].arcs, (unsigned)want);
        exit(1);
    }
}

static void time_rivals(unsigned arcs, const char *form, const work *rivals)
{
    char name[40];
    struct timing t = compare(rivals, 3);
    snprintf(name, sizeof name, "%u arcs%s", arcs, form);
    print_row(name, t.least[LIBRARY] / HOUSES, t, WANTED);
    printf("\n");
}

static void one_case(unsigned arcs)
{
    const work rivals[] = {by_library, by_plain_O2, by_plain_O3}, list_rivals[] = {list_by_library, list_by_plain_O2, list_by_plain_O3};
    for (int k = 0; k < HOUSES; k++) {
        build_net(&houses[k], arcs, 15);
        ref_read_network(houses[k].net, houses[k].net_len, &nets[k]);
        arc_list(&nets[k], lists[k]);
        check_rivals(k);
    }
    time_rivals(arcs, "", rivals);
    time_rivals(arcs, ", as a list", list_rivals);
    for (int k = 0; k < HOUSES; k++)
        free(houses[k].steps);
}

int main(void)
{
    begin_table("the most steps of a run", "ns", WANTED);
    one_case(240);
    one_case(47);
    return 0;
}
