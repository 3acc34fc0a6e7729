/* Writing a node's file: the network's check, the run and the file, by the library and by plain C. With the starts only, the run is short
 * and the rest of the call is seen. */
#include "bench.h"
#include "houses.h"
#include "plain.h"
#include <string.h>

enum { HOUSES = 8 };

struct write_case {
    const char *name;
    unsigned arcs;
    size_t most;
};

static const struct write_case cases[] = {
    {"32 arcs, 16 starts", 32, 16},
    {"240 arcs, 16 starts", 240, 16},
    {"48 arcs, 500 steps", 48, 500},
    {"48 arcs, whole run", 48, STEP_ROOM},
    {"240 arcs, whole run", 240, STEP_ROOM},
};

static struct house houses[HOUSES];
static uint8_t room[32];
static volatile uint32_t sink;

static void by_library(void)
{
    for (uint32_t k = 0; k < HOUSES; k++)
        sink = zaq_write_table(houses[k].net, houses[k].net_len, houses[k].steps, houses[k].steps_len, k + 1, room, sizeof room);
}

static void by_plain_O2(void)
{
    for (uint32_t k = 0; k < HOUSES; k++)
        sink = plain_write_O2(houses[k].net, houses[k].net_len, houses[k].steps, houses[k].steps_len, k + 1, room, sizeof room);
}

static void by_plain_O3(void)
{
    for (uint32_t k = 0; k < HOUSES; k++)
        sink = plain_write_O3(houses[k].net, houses[k].net_len, houses[k].steps, houses[k].steps_len, k + 1, room, sizeof room);
}

typedef uint32_t (*write_call)(const uint8_t *, uint64_t, const uint8_t *, uint64_t, uint32_t, uint8_t *, uint64_t);

/* A wrong rival is none: the file's bytes, the bytes after it, and a room that is one byte too short. */
static void must_agree(const struct house *h, uint32_t node, write_call call, const char *name)
{
    size_t len = h->file_len[node - 1];
    uint8_t want[sizeof room];
    memset(room, 0xA5, sizeof room);
    memset(want, 0xA5, sizeof want);
    memcpy(want, h->file[node - 1], len);
    if (call(h->net, h->net_len, h->steps, h->steps_len, node, room, len) == len << 8 && memcmp(room, want, sizeof room) == 0
        && call(h->net, h->net_len, h->steps, h->steps_len, node, room, len - 1) == 13 && memcmp(room, want, sizeof room) == 0)
        return;
    printf("%s writes the file of node %u wrongly\n", name, (unsigned)node);
    exit(1);
}

static void one_case(const struct write_case *c)
{
    const work rivals[] = {by_library, by_plain_O2, by_plain_O3};
    for (int k = 0; k < HOUSES; k++) {
        build_net(&houses[k], c->arcs, 15);
        build_steps(&houses[k], ANY_ARC, c->most);
        for (uint32_t node = 1; node <= 16; node++) {
            must_agree(&houses[k], node, zaq_write_table, "zaq_write_table");
            must_agree(&houses[k], node, plain_write_O2, "plain C at -O2");
            must_agree(&houses[k], node, plain_write_O3, "plain C at -O3");
        }
    }
    struct timing t = compare(rivals, 3);
    print_row(c->name, t.least[LIBRARY] / HOUSES / 1e3, t, 1.2);
    printf("\n");
    for (int k = 0; k < HOUSES; k++)
        free(houses[k].steps);
}

int main(void)
{
    begin_table("writing a node's file", "us", 1.2);
    for (size_t k = 0; k < sizeof cases / sizeof *cases; k++)
        one_case(&cases[k]);
    return 0;
}
