/* The stand-in's run: docs/FORMATS.md's method, rule by rule. */
#include "standin.h"
#include <string.h>

static void send(struct node *node, unsigned message)
{
    if (node->sent < (WRONG(sent_list_of_242) ? 242 : MESSAGES))
        node->message[node->sent++] = message;
}

static void send_length(struct node *node, unsigned x)
{
    if (node->last == x && !WRONG(equal_length_sent_again))
        return;
    node->last = x;
    send(node, LENGTHS + x);
}

static void fill(struct node *node, unsigned target, unsigned distance, unsigned hop)
{
    node->target[node->filled++] = target;
    node->known[target] = 1;
    node->distance[target] = distance;
    node->hop[target] = WRONG(hop_is_the_target) && hop ? target : hop;
    if (!WRONG(lp_not_set))
        node->lp = distance;
}

static unsigned sum_of(const struct run *run, unsigned k)
{
    return run->item[k] == END ? END : run->net.arc[k].length + run->item[k];
}

/* Whether arc k is taken before the best so far, of equal sums. */
static int wins_tie(const struct run *run, const struct node *node, unsigned k, unsigned best)
{
    if (WRONG(tie_by_order))
        return 0;
    if (WRONG(tie_by_arrival))
        return k == node->heard;
    if (WRONG(tie_to_the_higher))
        return run->net.arc[k].head > run->net.arc[best].head;
    return run->net.arc[k].head < run->net.arc[best].head;
}

/* Rule 1: the arc with the least finite sum; ARCS if there is none. */
static unsigned choose(const struct run *run, unsigned i)
{
    unsigned best = ARCS;
    for (unsigned k = 0; k < run->net.arcs; k++) {
        if (run->net.arc[k].tail != i || sum_of(run, k) == END)
            continue;
        if (best == ARCS || sum_of(run, k) < sum_of(run, best)
            || (sum_of(run, k) == sum_of(run, best) && wins_tie(run, &run->node[i], k, best)))
            best = k;
    }
    return best;
}

/* Rule 2. */
static int must_stop(const struct run *run, const struct node *node, unsigned arc)
{
    if (arc == ARCS)
        return 1;
    unsigned x = sum_of(run, arc), farthest = node->lp + run->net.lmax;
    return WRONG(stop_at_equal) ? x >= farthest : x > farthest && !WRONG(never_stops_far);
}

/* Rule 4 for a label. */
static void hear_label(struct node *node, unsigned label, unsigned x, unsigned head)
{
    if (node->known[label] && !WRONG(label_passed_on_twice))
        return;
    if (!WRONG(no_length_before_label))
        send_length(node, x);
    send(node, label);
    if (!node->known[label])
        fill(node, label, x, head);
}

/* Rules 1 to 4, until the node waits or stops. */
static void work(struct run *run, unsigned i)
{
    struct node *node = &run->node[i];
    for (;;) {
        unsigned arc = choose(run, i);
        if (must_stop(run, node, arc)) {
            send(node, END);
            node->stopped = 1;
            return;
        }
        unsigned x = sum_of(run, arc), head = run->net.arc[arc].head, item = ARCS;
        while (item == ARCS) {
            if (run->taken[arc] == run->delivered[arc]) {
                if (!WRONG(silent_wait))
                    send_length(node, x);
                return;
            }
            unsigned message = run->node[head].message[run->taken[arc]++];
            if (message < LENGTHS)
                hear_label(node, message, x, head);
            else
                item = message == END ? END : message - LENGTHS;
        }
        run->item[arc] = item;
    }
}

static int deliver(struct run *run, unsigned k)
{
    unsigned tail = run->net.arc[k].tail, head = run->net.arc[k].head;
    struct node *node = &run->node[tail];
    if (run->delivered[k] == run->node[head].sent || (WRONG(unstarted_loses) && !node->started)
        || (WRONG(stopped_is_idle) && node->stopped))
        return 0;
    run->delivered[k] = WRONG(deliveries_in_bursts) ? run->node[head].sent : run->delivered[k] + 1;
    node->heard = k;
    if (node->started && (!node->stopped || WRONG(stopped_works_on)))
        work(run, tail);
    return 1;
}

static void deliver_all(struct run *run)
{
    for (int again = 1; again;) {
        again = 0;
        for (unsigned k = 0; k < run->net.arcs; k++)
            again |= deliver(run, k);
    }
}

static int start(struct run *run, unsigned i)
{
    struct node *node = &run->node[i];
    if (node->started)
        return WRONG(second_start_taken);
    node->started = 1;
    node->heard = ARCS;
    fill(node, i, 0, 0);
    send(node, i);
    for (unsigned k = 0; k < run->net.arcs && WRONG(cleared_at_start); k++)
        if (run->net.arc[k].tail == i)
            run->taken[k] = run->delivered[k];
    work(run, i);
    if (WRONG(solved_at_once))
        deliver_all(run);
    return 1;
}

/* Which count a step goes to: 0 taken, 1 idle, 2 unknown. */
static unsigned step(struct run *run, unsigned byte)
{
    unsigned unknown = WRONG(unknown_is_idle) ? 1 : 2, first = WRONG(byte_16_unknown) ? 17 : 16;
    if (byte < 16)
        return byte >= run->net.n ? unknown : start(run, byte + 1) ? 0 : 1;
    if (byte < first || byte - first >= run->net.arcs)
        return unknown;
    return deliver(run, byte - first) ? 0 : 1;
}

void run_steps(struct run *run, const uint8_t *steps, uint64_t len)
{
    static struct run last;
    if (WRONG(state_kept) && last.net.n == run->net.n && last.net.arcs == run->net.arcs && last.net.lmax == run->net.lmax)
        *run = last;
    volatile uint8_t beyond = WRONG(reads_past_steps) ? steps[len] : 0;
    (void)beyond;
    for (uint64_t k = 0; k < len; k++)
        run->counts[step(run, steps[k])]++;
    if (WRONG(state_kept))
        last = *run;
}

unsigned stopped_nodes(const struct run *run)
{
    unsigned count = 0;
    for (unsigned i = 1; i <= run->net.n; i++)
        count += (unsigned)(WRONG(stopped_counts_started) ? run->node[i].started : run->node[i].stopped);
    return count;
}

uint32_t entry_of(const struct run *run, unsigned node, unsigned target)
{
    const struct node *at = &run->node[node];
    uint32_t none = WRONG(hop_0_beside_a_mark) ? 0 : ZAQ_NO_HOP << 8;
    if (at->known[target] || (WRONG(own_known_early) && node == target))
        return at->distance[target] << 16 | at->hop[target] << 8;
    if ((at->stopped && !WRONG(never_unreachable)) || (WRONG(unreachable_early) && at->started))
        return (uint32_t)ZAQ_UNREACHABLE << 16 | none;
    return (uint32_t)ZAQ_UNKNOWN << 16 | none;
}
