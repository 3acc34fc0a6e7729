/* The most stack that each call takes, measured: all below the caller's own frame is filled with a pattern, then the call is made. */
#include "houses.h"
#include "../tests/outside/in_header.h"
#include <stdio.h>

enum { NET_ARCS = 240, REACH = 1 << 16, PATTERN = 0xA5, WHOLE_CALL = 8192, READ_CALL = 256, STATE_ARRAY = 5840 };

static struct house house; /* a house of sixteen in which everybody hears everybody, with all the steps of a whole run */
static uint8_t file[ZAQ_FILE_ROOM], way[ZAQ_ROUTE_ROOM];
static uint16_t table[ZAQ_TABLE_ROOM], entries[ZAQ_ENTRIES_ROOM];
static uint64_t counts[4];
static zaq_arc arcs[NET_ARCS];
static uint8_t packed[ZAQ_NETWORK_ROOM];
static volatile size_t sink;

#define RUN house.net, house.net_len, house.steps, house.steps_len
#define LIST 16, 15, arcs, NET_ARCS
#define LIST_RUN LIST, house.steps, house.steps_len

static void nothing(void)
{
    sink = 0;
}

static void check_network(void)
{
    sink = zaq_check_network(house.net, house.net_len);
}

static void run(void)
{
    sink = zaq_run(RUN, counts, entries, ZAQ_ENTRIES_ROOM);
}

static void entry(void)
{
    sink = zaq_entry(RUN, 1, 16);
}

static void route(void)
{
    sink = zaq_route(RUN, 1, 16, way, sizeof way);
}

static void write_table(void)
{
    sink = zaq_write_table(RUN, 1, file, sizeof file);
}

static void read_entry(void)
{
    sink = zaq_read_entry(house.file[0], house.file_len[0], 16);
}

static void read_table(void)
{
    sink = zaq_read_table(house.file[0], house.file_len[0], table, ZAQ_TABLE_ROOM);
}

static void pack_network(void)
{
    sink = zaq_pack_network(LIST, packed, sizeof packed);
}

static void check_arcs(void)
{
    sink = zaq_check_arcs(LIST);
}

static void run_arcs(void)
{
    sink = zaq_run_arcs(LIST_RUN, counts, entries, ZAQ_ENTRIES_ROOM);
}

static void most_taken(void)
{
    sink = zaq_most_taken(house.net, house.net_len);
}

static void most_taken_arcs(void)
{
    sink = zaq_most_taken_arcs(LIST);
}

static void entry_arcs(void)
{
    sink = zaq_entry_arcs(LIST_RUN, 1, 16);
}

static void route_arcs(void)
{
    sink = zaq_route_arcs(LIST_RUN, 1, 16, way, sizeof way);
}

static void write_table_arcs(void)
{
    sink = zaq_write_table_arcs(LIST_RUN, 1, file, sizeof file);
}

/* In the order of the table; 0: nothing is asked. */
static const struct {
    const char *name;
    void (*call)(void);
    size_t wanted;
} calls[] = {
    {"zaq_check_network", check_network, 0},
    {"zaq_run", run, WHOLE_CALL},
    {"zaq_most_taken", most_taken, 0},
    {"zaq_entry", entry, WHOLE_CALL},
    {"zaq_route", route, WHOLE_CALL},
    {"zaq_write_table", write_table, WHOLE_CALL},
    {"zaq_read_entry", read_entry, READ_CALL},
    {"zaq_read_table", read_table, READ_CALL},
    {"zaq_pack_network", pack_network, 0},
    {"zaq_check_arcs", check_arcs, 0},
    {"zaq_run_arcs", run_arcs, WHOLE_CALL},
    {"zaq_most_taken_arcs", most_taken_arcs, 0},
    {"zaq_entry_arcs", entry_arcs, WHOLE_CALL},
    {"zaq_route_arcs", route_arcs, WHOLE_CALL},
    {"zaq_write_table_arcs", write_table_arcs, WHOLE_CALL},
};

/* What a call touches below this frame. No call stands between the filling and the counting but the one that is measured. */
static __attribute__((noinline)) size_t used(void (*call)(void))
{
    volatile uint8_t *here;
#ifdef __x86_64__
    __asm__ volatile("mov %%rsp, %0" : "=r"(here));
#else
    __asm__ volatile("mov %0, sp" : "=r"(here));
#endif
    for (volatile uint8_t *p = here - REACH; p < here; p++)
        *p = PATTERN;
    call();
    volatile uint8_t *lowest = here - REACH;
    while (lowest < here && *lowest == PATTERN)
        lowest++;
    return (size_t)(here - lowest);
}

int main(void)
{
    build_net(&house, 240, 15);
    build_steps(&house, ANY_ARC, STEP_ROOM);
    struct ref_net net;
    ref_read_network(house.net, house.net_len, &net);
    arc_list(&net, arcs);
    size_t caller = used(nothing); /* what a function around the call takes */
    printf("\n%-30s %10s   wanted: at most\n", "stack of a call", "bytes");
    for (size_t k = 0; k < sizeof calls / sizeof *calls; k++) {
        calls[k].call(); /* the dynamic linker takes 3 KB of stack when it looks memset up, at the first call */
        size_t bytes = used(calls[k].call) - caller;
        printf("%-30s %10zu", calls[k].name, bytes);
        if (calls[k].wanted)
            printf("   %zu%s", calls[k].wanted, bytes > calls[k].wanted ? " OVER" : "");
        printf("\n");
    }
    printf("The run's state, one array, takes %d bytes of each whole call.\n", STATE_ARRAY);
    return 0;
}
