#include "houses.h"
#include "../include/zaqfinell.h"
#include "../tests/outside/in_header.h"
#include <stdio.h>
#include <stdlib.h>
#include <string.h>

static uint32_t sequence = 20260;

uint32_t random_below(uint32_t bound)
{
    sequence ^= sequence << 13;
    sequence ^= sequence >> 17;
    sequence ^= sequence << 5;
    return sequence % bound;
}

void mix(uint8_t *list, unsigned count)
{
    for (unsigned k = count; k > 1; k--) {
        unsigned other = random_below(k);
        uint8_t last = list[k - 1];
        list[k - 1] = list[other];
        list[other] = last;
    }
}

/* Arcs as bytes, tail and head: the ring's first, the others after them in any order. */
static void list_arcs(uint8_t arc[240])
{
    unsigned count = 0;
    for (unsigned i = 0; i < 16; i++) {
        arc[count++] = (uint8_t)(i << 4 | (i + 1) % 16);
        arc[count++] = (uint8_t)(i << 4 | (i + 15) % 16);
    }
    for (unsigned gap = 2; gap < 15; gap++)
        for (unsigned i = 0; i < 16; i++)
            arc[count++] = (uint8_t)(i << 4 | (i + gap) % 16);
    mix(arc + 32, 208);
}

void build_net(struct house *h, unsigned arcs, unsigned lmax)
{
    uint8_t arc[240];
    struct ref_net net = {.n = 16, .lmax = lmax, .arcs = arcs};
    list_arcs(arc);
    mix(arc, arcs);
    for (unsigned k = 0; k < arcs; k++)
        net.arc[k] = (struct ref_arc){(arc[k] >> 4) + 1u, (arc[k] & 15) + 1u, 1 + random_below(lmax)};
    h->net_len = ref_network_bytes(&net, h->net);
    h->steps_len = 0;
    h->steps = malloc(STEP_ROOM);
    if (h->steps == NULL)
        exit(1);
}

uint32_t expected_refusal(const uint8_t *net, size_t len)
{
    struct ref_net read;
    return ref_read_network(net, len, &read);
}

static uint8_t next_step(const struct house *h, enum order order, const uint8_t *starts)
{
    static unsigned turn;
    if (order == ANY_BYTE)
        return (uint8_t)random_below(256);
    if (h->steps_len < 16)
        return starts[h->steps_len];
    turn = order == IN_TURN ? (turn + 1) % h->net[2] : random_below(h->net[2]);
    return (uint8_t)(16 + turn);
}

static void note_outcome(struct house *h, const struct ref_run *run)
{
    put_outcome(run, h->expected.counts, h->expected.entries);
    for (unsigned i = 1; i <= 16; i++)
        h->file_len[i - 1] = run->node[i].started ? ref_write_file(run, i, h->file[i - 1]) : 0;
}

void build_steps(struct house *h, enum order order, size_t most)
{
    static struct ref_net net;
    static struct ref_run run;
    uint8_t starts[16];
    for (unsigned i = 0; i < 16; i++)
        starts[i] = (uint8_t)i;
    mix(starts, 16);
    if (ref_read_network(h->net, h->net_len, &net) != 0)
        exit(1);
    ref_start(&run, &net);
    while (h->steps_len < most && (order == ANY_BYTE || ref_stopped(&run) < 16)) {
        uint8_t step = next_step(h, order, starts);
        size_t idle = run.idle;
        ref_step(&run, step);
        if (order == ANY_ARC && run.idle > idle)
            run.idle = idle; /* no such arc: another is drawn */
        else
            h->steps[h->steps_len++] = step;
    }
    note_outcome(h, &run);
}
