/* A plain stand-in for the library: every call of the header, written from docs/FORMATS.md for clearness and not for speed. It is right, or
 * has one mistake of mistakes.h, so that the outside tests can be shown to notice it. Nodes are numbered from 1, arcs from 0. */
#ifndef STANDIN_H
#define STANDIN_H
#include "../../include/zaqfinell.h"
#include "mistakes.h"

enum { NODES = 18, ARCS = 256, MESSAGES = 1024, END = 0xFFFF, LENGTHS = 0x1000 };

struct net {
    unsigned n, lmax, arcs;
    struct {
        unsigned tail, head, length;
    } arc[ARCS];
};

/* ---- network.c: each gives the refusal */
uint32_t take_network(const uint8_t *bytes, uint64_t len, struct net *net);
uint32_t take_list(uint8_t n, uint8_t lmax, const zaq_arc *arcs, uint64_t count, struct net *net);
uint64_t network_size(const struct net *net);
void put_network(const struct net *net, uint8_t *room);

/* ---- run.c */
struct node {
    int started, stopped;
    unsigned lp, last, sent, filled;
    unsigned message[MESSAGES]; /* a label, LENGTHS and a length, or END */
    unsigned target[NODES];     /* in the order of filling, its own first */
    unsigned distance[NODES], hop[NODES], known[NODES];
    unsigned heard; /* the arc by which the last message came */
};

struct run {
    struct net net;
    struct node node[NODES];
    unsigned delivered[ARCS], taken[ARCS], item[ARCS];
    uint64_t counts[3]; /* taken, idle, unknown */
};

void run_steps(struct run *run, const uint8_t *steps, uint64_t len);
unsigned stopped_nodes(const struct run *run);
/* The entry as an answer. */
uint32_t entry_of(const struct run *run, unsigned node, unsigned target);

/* ---- file.c */
uint64_t file_size(const struct node *node);
void put_file(const struct run *run, unsigned node, uint8_t *room);
/* What a file says: entries as answers, by target; the refusal, 14 to 18, is returned. */
struct table {
    unsigned n, own;
    uint32_t entry[NODES];
};
uint32_t take_file(const uint8_t *file, uint64_t len, struct table *table);
#endif
