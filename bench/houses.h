/* The houses and step lists that are timed, made by a fixed random sequence: every run of the benchmark has the same. What they should
 * come to is said by the outside tests' simulation, which is written from document 01 alone. */
#ifndef HOUSES_H
#define HOUSES_H
#include <stddef.h>
#include <stdint.h>

enum { NET_ROOM = 363, STEP_ROOM = 1000000 };

/* What a run of a house of sixteen leaves in the two rooms. */
enum { ENTRIES = 2 * 16 * 16 };
struct outcome {
    uint64_t counts[4];
    uint16_t entries[ENTRIES];
};

struct house {
    uint8_t net[NET_ROOM];
    size_t net_len, steps_len;
    uint8_t *steps; /* STEP_ROOM of them have room */
    struct outcome expected;
    uint8_t file[16][32]; /* the file of each node that has started, of this many bytes */
    size_t file_len[16];
};

/* The deliveries: on any arc that has a message, on all arcs in turn whether they have one or not, or any step bytes. */
enum order { ANY_ARC, IN_TURN, ANY_BYTE };

uint32_t random_below(uint32_t bound);
void mix(uint8_t *list, unsigned count);

/* A house of sixteen, arcs of lengths 1 to lmax in any order: a ring both ways (32 arcs), and others up to the number wanted. */
void build_net(struct house *h, unsigned arcs, unsigned lmax);

/* What document 01 says of a network's bytes: the refusal's number, 0 if none. */
uint32_t expected_refusal(const uint8_t *net, size_t len);

/* Starts in any order and deliveries, until every node has stopped or there are `most` steps; and what the steps come to. */
void build_steps(struct house *h, enum order order, size_t most);
#endif
