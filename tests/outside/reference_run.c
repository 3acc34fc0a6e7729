/* The run by document 01's rules, and shortest chains by definition. */
#include "reference.h"
#include <string.h>

/* ---- the method */

void ref_start(struct ref_run *run, const struct ref_net *net)
{
    memset(run, 0, sizeof *run);
    run->net = net;
}

static void send(struct ref_run *run, unsigned i, struct ref_msg m)
{
    struct ref_node *nd = &run->node[i];
    if (nd->sent_count == SENT_ROOM)
        __builtin_trap(); /* nothing after this could be believed; the board has no exit */
    nd->sent[nd->sent_count++] = m;
}

static void send_length(struct ref_run *run, unsigned i, unsigned x)
{
    if (run->node[i].last_sent == x)
        return;
    run->node[i].last_sent = x;
    send(run, i, (struct ref_msg){LENGTH, x});
}

static int has_entry(const struct ref_node *nd, unsigned y)
{
    for (unsigned k = 0; k < nd->filled_count; k++)
        if (nd->filled[k].target == y)
            return 1;
    return 0;
}

/* Rule 1: the arc with the least finite sum, of equals the lowest head; -1 if there is none. */
static int choose(const struct ref_run *run, unsigned i, unsigned *sum)
{
    int best = -1;
    for (unsigned k = 0; k < run->net->arcs; k++) {
        struct ref_arc a = run->net->arc[k];
        if (a.tail != i || run->arc[k].item < 0)
            continue;
        unsigned x = a.len + (unsigned)run->arc[k].item;
        if (best < 0 || x < *sum || (x == *sum && a.head < run->net->arc[best].head)) {
            best = (int)k;
            *sum = x;
        }
    }
    return best;
}

/* From rule 1 (arc < 0) or from rule 3 with the arc waited for. */
static void work(struct ref_run *run, unsigned i, int arc, unsigned x)
{
    struct ref_node *nd = &run->node[i];
    for (;;) {
        if (arc < 0) {
            arc = choose(run, i, &x);
            if (arc < 0 || x > nd->lp + run->net->lmax) {
                send(run, i, (struct ref_msg){END, 0});
                nd->stopped = 1;
                return;
            }
        }
        struct ref_arc_state *st = &run->arc[arc];
        unsigned head = run->net->arc[arc].head;
        if (st->taken == st->delivered) {
            send_length(run, i, x);
            nd->waits_for = arc;
            nd->wait_sum = x;
            return;
        }
        struct ref_msg m = run->node[head].sent[st->taken++];
        if (m.kind == LENGTH || m.kind == END) {
            st->item = m.kind == LENGTH ? (int)m.value : -1;
            arc = -1;
        } else if (!has_entry(nd, m.value)) {
            send_length(run, i, x);
            send(run, i, (struct ref_msg){LABEL, m.value});
            nd->filled[nd->filled_count++] = (struct ref_record){m.value, x, head};
            nd->lp = x;
        }
    }
}

void ref_step(struct ref_run *run, uint8_t step)
{
    if (step <= 15) {
        unsigned i = step + 1u;
        struct ref_node *nd = &run->node[i];
        if (i > run->net->n) {
            run->unknown++;
        } else if (nd->started) {
            run->idle++;
        } else {
            run->taken++;
            nd->started = 1;
            nd->filled[nd->filled_count++] = (struct ref_record){i, 0, 0};
            send(run, i, (struct ref_msg){LABEL, i});
            work(run, i, -1, 0);
        }
        return;
    }
    unsigned k = step - 16u;
    if (k >= run->net->arcs) {
        run->unknown++;
        return;
    }
    unsigned tail = run->net->arc[k].tail, head = run->net->arc[k].head;
    if (run->arc[k].delivered == run->node[head].sent_count) {
        run->idle++;
        return;
    }
    run->taken++;
    run->arc[k].delivered++;
    struct ref_node *nd = &run->node[tail];
    if (nd->started && !nd->stopped)
        work(run, tail, nd->waits_for, nd->wait_sum);
}

void ref_run_steps(struct ref_run *run, const struct ref_net *net, const uint8_t *steps, size_t count)
{
    ref_start(run, net);
    for (size_t k = 0; k < count; k++)
        ref_step(run, steps[k]);
}

struct ref_entry ref_entry_of(const struct ref_run *run, unsigned node, unsigned target)
{
    const struct ref_node *nd = &run->node[node];
    for (unsigned k = 0; k < nd->filled_count; k++)
        if (nd->filled[k].target == target)
            return (struct ref_entry){(int)nd->filled[k].distance, nd->filled[k].hop};
    return (struct ref_entry){nd->stopped ? UNREACHABLE : UNKNOWN, 0};
}

unsigned ref_stopped(const struct ref_run *run)
{
    unsigned count = 0;
    for (unsigned i = 1; i <= run->net->n; i++)
        count += (unsigned)run->node[i].stopped;
    return count;
}

/* ---- shortest chains */

void ref_shortest(const struct ref_net *net, struct ref_truth *truth)
{
    unsigned n = net->n;
    for (unsigned i = 1; i <= n; i++)
        for (unsigned k = 1; k <= n; k++)
            truth->distance[i][k] = i == k ? 0 : UNREACHABLE;
    /* a least chain passes no node twice: n rounds over the arcs find it */
    for (unsigned round = 0; round < n; round++)
        for (unsigned a = 0; a < net->arcs; a++)
            for (unsigned k = 1; k <= n; k++) {
                int rest = truth->distance[net->arc[a].head][k];
                int *here = &truth->distance[net->arc[a].tail][k];
                if (rest >= 0 && (*here < 0 || rest + (int)net->arc[a].len < *here))
                    *here = rest + (int)net->arc[a].len;
            }
    for (unsigned i = 1; i <= n; i++)
        for (unsigned k = 1; k <= n; k++) {
            truth->hop[i][k] = 0;
            for (unsigned a = 0; a < net->arcs && i != k; a++) {
                unsigned h = net->arc[a].head;
                if (net->arc[a].tail == i && truth->distance[h][k] >= 0
                    && truth->distance[i][k] == (int)net->arc[a].len + truth->distance[h][k]
                    && (truth->hop[i][k] == 0 || h < truth->hop[i][k]))
                    truth->hop[i][k] = h;
            }
        }
}
