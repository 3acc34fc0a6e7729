/* An independent reading of document 01, written from the document alone. Plain and slow on purpose: it shares no idea with the
 * library. Nodes are numbered from 1, arcs from 0. */
#ifndef REFERENCE_H
#define REFERENCE_H
#include <stddef.h>
#include <stdint.h>

/* SENT_ROOM is wider than the 243 messages that a node sends at most, so that a longer list shows. */
enum { MOST_NODES = 16, MOST_ARCS = 240, SENT_ROOM = 400 };
enum { UNKNOWN = -1, UNREACHABLE = -2 };

struct ref_arc {
    unsigned tail, head, len;
};

struct ref_net {
    unsigned n, lmax, arcs;
    struct ref_arc arc[MOST_ARCS];
};

/* The refusal's number, 0 if none; then *net is the network. */
unsigned ref_read_network(const uint8_t *bytes, size_t len, struct ref_net *net);
unsigned ref_read_arc_list(unsigned n, unsigned lmax, const struct ref_arc *arcs, size_t count, struct ref_net *net);
/* The network's bytes; returns how many. */
size_t ref_network_bytes(const struct ref_net *net, uint8_t *bytes);
/* Document 02, K8: n plus the number of arcs times (n * LMAX + n + 1). */
unsigned ref_most_taken(const struct ref_net *net);

/* A message: its kind, and the label or the length. */
struct ref_msg {
    enum { LABEL, LENGTH, END } kind;
    unsigned value;
};

struct ref_entry {
    int distance; /* or UNKNOWN, UNREACHABLE */
    unsigned hop;
};

struct ref_record {
    unsigned target, distance, hop;
};

struct ref_node {
    int started, stopped, waits_for; /* the arc it waits for */
    unsigned wait_sum, lp, last_sent, sent_count, filled_count;
    struct ref_msg sent[SENT_ROOM];
    struct ref_record filled[MOST_NODES]; /* in the order of filling, its own first */
};

struct ref_arc_state {
    unsigned delivered, taken;
    int item; /* the current length, or -1 for infinite */
};

struct ref_run {
    const struct ref_net *net;
    struct ref_node node[MOST_NODES + 1];
    struct ref_arc_state arc[MOST_ARCS];
    size_t taken, idle, unknown;
};

void ref_start(struct ref_run *run, const struct ref_net *net);
void ref_step(struct ref_run *run, uint8_t step);
void ref_run_steps(struct ref_run *run, const struct ref_net *net, const uint8_t *steps, size_t count);
struct ref_entry ref_entry_of(const struct ref_run *run, unsigned node, unsigned target);
unsigned ref_stopped(const struct ref_run *run);

/* By definition over all chains: distance[i][k] is the least sum or UNREACHABLE, hop[i][k] the lowest first hop (0 for i itself). */
struct ref_truth {
    int distance[MOST_NODES + 1][MOST_NODES + 1];
    unsigned hop[MOST_NODES + 1][MOST_NODES + 1];
};
void ref_shortest(const struct ref_net *net, struct ref_truth *truth);

/* The bytes of a node's table file; returns how many. The room has 32. */
size_t ref_write_file(const struct ref_run *run, unsigned node, uint8_t *bytes);

/* What a table file says. */
struct ref_file {
    unsigned own, n, lmax, count;
    int ended; /* the end mark stands */
    struct ref_record record[MOST_NODES];
};
/* The refusal's number, 14 to 18, 0 if none; then *file is what it says. */
unsigned ref_read_file(const uint8_t *bytes, size_t len, struct ref_file *file);
struct ref_entry ref_file_entry(const struct ref_file *file, unsigned target);
#endif
