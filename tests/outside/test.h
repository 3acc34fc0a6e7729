/* What every outside test shares: counting, what was seen, a random source with a printed seed, random houses, step lists and faults. */
#ifndef TEST_H
#define TEST_H
#include "in_header.h"
#include <stddef.h>
#include <stdint.h>

enum { MOST_NETWORK = 363, MOST_STEPS = 20000 };

/* One check: counted, and told with its input where it fails. */
void check(int ok, const char *what);
/* The bytes and numbers that the checks below are about; shown where one fails. */
void about(const char *name, const uint8_t *bytes, size_t len);
void about_number(const char *name, uint32_t number);
/* How often a test tries something that it tries so often in a full run: a quick run has a tenth of it. */
unsigned rounds(unsigned full);
/* Which of the tests run: all, those that read files, or the others. */
enum part { ALL, FILES, OTHERS };
enum part part_run(void);
int is_quick(void);

/* ---- seen.c: the calls that can refuse, and what they have answered */

enum call {
    CHECK, WRITE, READ_ENTRY, READ_TABLE, RUN, MOST_TAKEN, ENTRY, ROUTE, PACK,
    CHECK_ARCS, WRITE_ARCS, RUN_ARCS, MOST_TAKEN_ARCS, ENTRY_ARCS, ROUTE_ARCS, CALLS
};
/* A call's answer is the one wanted; its refusal is counted. */
void same_answer(enum call call, uint32_t got, uint32_t want, const char *what);
/* A distance or mark that a call handed over is counted. */
void saw_distance(enum call call, unsigned distance);
/* The bytes, copied so that they end where memory ends: whoever reads further crashes. A place (0 to 2) holds one copy at a time. */
const uint8_t *at_edge(unsigned place, const uint8_t *bytes, size_t len);
/* The network as an arc list that ends where memory ends, in place 2. */
const zaq_arc *list_at_edge(const struct ref_net *net);

/* ---- random.c */

/* Two of these never stand in one expression that leaves their order open: a seed means the same for every compiler. */
void random_seed(uint32_t seed);
uint32_t random_number(void);
unsigned random_below(unsigned bound);
/* Another byte at one of the places. */
void random_byte(uint8_t *bytes, size_t len);
/* A random accepted network: any n, any LMAX, sparse, dense, a ring, a line, a star, islands, every arc, many ties, long arcs. */
void random_network(struct ref_net *net);
/* A step list in one of STEP_KINDS orders. */
enum { STEP_KINDS = 8 };
void random_steps(const struct ref_net *net, unsigned kind, uint8_t *steps, size_t count);
/* A room's size: enough, one more or less, none, or any size up to `most`. */
size_t random_room(size_t enough, size_t most);
/* How long a random step list is: mostly short, some long enough for every node to stop. */
size_t random_length(void);
/* A fault of refusal `number` (1 to 9) in a network's bytes, if it has a place for it; returns the new length, one more at most. */
size_t spoil_network(uint8_t *bytes, size_t len, unsigned number);
/* One fault or two, or one byte changed. */
size_t spoil_somehow(uint8_t *bytes, size_t len);
/* Nodes to ask for: 0 to n + 1, and numbers that are only right in their low bits. Returns how many. */
enum { MOST_ASKED = 24 };
unsigned asked_nodes(unsigned n, uint32_t asked[MOST_ASKED]);

/* ---- random_files.c */

/* A table file of a random house, mostly with a fault or two: of its header, of a record, of its end, of its length. Returns its length. */
enum { MOST_FILE = 64 };
size_t random_file(uint8_t bytes[MOST_FILE]);

/* Requirement 3, in reading.c: of a node's file of `whole` bytes after the run the first `left` remain. The reader gives the node itself,
 * exactly the entries whose records stand whole, and unknown for the rest; unreachable only if nothing is cut. */
void check_cut(const struct ref_run *run, unsigned node, const uint8_t *file, size_t left, size_t whole);

void test_words(void);
void test_networks(void);
void test_examples(void);
void test_runs(void);
void test_most_taken(void);
void test_entries(void);
void test_rooms(void);
void test_arcs(void);
void test_files(void);
void test_reading(void);
void test_killed_writer(void);
/* After all others: every refusal and every kind of answer was seen often enough, and no call gave one that is not its own. */
void test_seen(void);
/* Reads an input as House table does and prints what 01 says it prints. */
void print_house(void);
/* Writes a random input for House table: a network's bytes and steps, some with a fault. */
void print_input(void);
#endif
