/* An installer's question: which way does the sound go? A house as a list of arcs, a run to its end, and the routes of one device. */
#include "zaqfinell.h"
#include <stdio.h>

enum { DEVICES = 5, LMAX = 7, MOST_STEPS = 4096 };

static const char *const names[] = {"", "television", "soundbar", "repeater", "kitchen", "attic"};

/* from, to, length; two ways to the kitchen are equally long, and no arc leads to the attic */
static const zaq_arc arcs[] = {{1, 2, 2}, {2, 1, 2}, {1, 3, 1}, {3, 1, 7}, {2, 4, 3}, {3, 4, 4}, {4, 2, 1}, {5, 1, 1}, {5, 4, 2}};
enum { ARCS = sizeof arcs / sizeof *arcs };

static uint8_t steps[MOST_STEPS];
static size_t steps_len;

static int refused(const char *what, uint32_t answer)
{
    uint32_t refusal = zaq_refusal(answer);
    if (refusal)
        fprintf(stderr, "%s: refused %u: %s\n", what, (unsigned)refusal, zaq_words(refusal));
    return refusal != 0;
}

/* Starts every device, then delivers on every arc in turn until all have stopped. */
static int run_to_the_end(void)
{
    uint64_t counts[4];
    uint16_t entries[2 * DEVICES * DEVICES];
    for (uint8_t device = 1; device <= DEVICES; device++)
        steps[steps_len++] = (uint8_t)(device - 1);
    do {
        for (uint8_t arc = 1; arc <= ARCS; arc++)
            steps[steps_len++] = (uint8_t)(arc + 15);
        if (refused("the run", zaq_run_arcs(DEVICES, LMAX, arcs, ARCS, steps, steps_len, counts, entries, 2 * DEVICES * DEVICES)))
            return 0;
    } while (counts[3] < DEVICES && steps_len + ARCS <= MOST_STEPS);
    return counts[3] == DEVICES;
}

static void tell_route(uint32_t from, uint32_t to)
{
    uint8_t way[ZAQ_ROUTE_ROOM];
    uint32_t answer = zaq_route_arcs(DEVICES, LMAX, arcs, ARCS, steps, steps_len, from, to, way, sizeof way);
    if (refused("the route", answer))
        return;
    if (zaq_distance(answer) == ZAQ_UNKNOWN) {
        printf("%s to %s: not known yet\n", names[from], names[to]);
    } else if (zaq_distance(answer) == ZAQ_UNREACHABLE) {
        printf("%s to %s: no way\n", names[from], names[to]);
    } else {
        printf("%s", names[from]);
        for (uint32_t k = 0; k < zaq_passed(answer); k++)
            printf(" -> %s", names[way[k]]);
        printf(": distance %u\n", (unsigned)zaq_distance(answer));
    }
}

int main(void)
{
    if (refused("the house", zaq_check_arcs(DEVICES, LMAX, arcs, ARCS)))
        return 1;
    if (!run_to_the_end()) {
        fprintf(stderr, "not all devices have stopped\n");
        return 1;
    }
    for (uint32_t to = 2; to <= DEVICES; to++)
        tell_route(1, to);
    return 0;
}
