/* Zaqfinell: routing for houses of up to sixteen devices.
 *
 * Link with libzaqfinell.a. Each call takes numbers and buffers and returns one number. No call keeps anything between calls, allocates
 * memory or needs to be set up, so calls may be made from several tasks at once. Lengths and contents may be anything: what is wrong is
 * refused with a number, and a refused call writes nothing. A parameter ending in _len counts the elements of the buffer before it: bytes,
 * arcs, or 16-bit numbers. It is a uint64_t on every chip, 32-bit chips too; a size_t can be handed over as it is. Pointers must be valid
 * for that many elements, and buffers must not overlap; a buffer of 0 elements may be NULL. The library needs memcpy and memset, and
 * nothing else.
 *
 * A buffer that a call writes into is called a room. What a call writes stands at the beginning of the room, and the rest of the room is
 * left unchanged. ZAQ_FILE_ROOM and the other sizes ending in _ROOM are always enough; a smaller room is too short for some houses.
 *
 * Stack, measured on x86-64, 64-bit ARM and 32-bit ARM: under 8 KiB for a call that runs steps, under 1.5 KiB for checking or packing a
 * network, under 256 bytes for reading a file.
 */
#ifndef ZAQFINELL_H
#define ZAQFINELL_H
#include <stddef.h> /* NULL */
#include <stdint.h>

#define ZAQ_VERSION "0.3.0"

#ifdef __cplusplus
extern "C" {
#endif

/* ---- The words ----
 *
 * A house has n nodes, numbered 1 to n (at most 16), and one-way arcs (at most 240). An arc leads from its tail to its head: if sound can
 * go from the television to the kitchen, that is the arc {television, kitchen, length}. Routes and distances run from tail to head; the
 * messages by which tables are found run the other way, so a tail hears what its head sends. A length is 1 to LMAX, the house's greatest
 * length, which is itself 1 to 15. Two devices on one cable are two arcs.
 *
 * Network bytes: 4 bits each for version 1, n - 1, LMAX and 0; 8 bits for the arc count; then 4 bits each for tail - 1, head - 1 and length
 * of every arc; zero bits to the end of the last byte. The most significant bit comes first. zaq_pack_network makes these bytes from a
 * list, and each call that takes them has a twin that takes a list.
 *
 * A step is one byte. 0 to 15: start node byte + 1. 16 to 255: deliver the oldest undelivered message of arc byte - 15, numbered from 1 in
 * the network's order. A step that names no node or arc is counted as unknown. Starting a node again, or delivering on an arc where nothing
 * is undelivered, is counted as idle. Neither changes anything. All other steps are taken. A message delivered to a node before its start
 * is kept for it. A list of steps may have any length, and a longer list is a longer run: to continue a run, call again with the whole
 * list. A node that has stopped knows everything there is to know. As long as some node has not stopped, some step can be taken, and no
 * node sends more than (n - 1) * LMAX + n + 2 messages. So start every node, then deliver on every arc in turn until zaq_run counts n
 * stopped nodes.
 *
 * An entry is what a node knows of a target: unknown, unreachable, or a distance with a first hop. As soon as it is not unknown it is right
 * and final, in every order of steps. Before it starts, a node knows nothing, not even itself. Entries become unreachable only once the
 * node has stopped.
 *
 * A table file holds a record for each entry that a node has filled, except its own, in the order of filling, and an end mark once the node
 * has stopped: 2 to 27 bytes. Cut short after its second byte or later, it still gives the entries whose records are whole, and unknown
 * for the rest: what is told of it is what would be told of a node that has not stopped.
 */

/* ---- Refusals ----
 *
 * Every answer has the refusal in its low byte, ZAQ_ACCEPTED for none, and its values above it; on a refusal the values are all 0. Where
 * several refusals apply, a call gives the first in the order that its comment lists, and no call gives one that its comment does not
 * list. A list of steps is never refused: an accepted network runs any list (12 says that the list does not start the node whose file is
 * wanted). This list has the number, the name and the words of each refusal; the names are constants, and zaq_words gives the words.
 */
#define ZAQ_REFUSALS(X)                                                                                                                    \
    X(1, ZAQ_WRONG_NETWORK_LENGTH, "network bytes under 3, or not the number of bytes that its arcs take")                                 \
    X(2, ZAQ_WRONG_NETWORK_VERSION, "network version not 1, or the fourth field not 0")                                                    \
    X(3, ZAQ_WRONG_LMAX, "LMAX outside 1 to 15")                                                                                           \
    X(4, ZAQ_TOO_MANY_ARCS, "more than 240 arcs")                                                                                          \
    X(5, ZAQ_WRONG_ARC_NODE, "a tail or head outside 1 to n")                                                                              \
    X(6, ZAQ_ARC_TO_ITSELF, "an arc from a node to itself")                                                                                \
    X(7, ZAQ_WRONG_ARC_LENGTH, "an arc of length 0 or over LMAX")                                                                          \
    X(8, ZAQ_REPEATED_ARC, "two arcs with the same tail and head")                                                                         \
    X(9, ZAQ_WRONG_NETWORK_PADDING, "a padding bit of the network not 0")                                                                  \
    X(11, ZAQ_NO_SUCH_NODE, "node or target outside 1 to n")                                                                               \
    X(12, ZAQ_NOT_STARTED, "file wanted of a node not started")                                                                            \
    X(13, ZAQ_ROOM_TOO_SHORT, "what is to be written is longer than the room")                                                             \
    X(14, ZAQ_FILE_TOO_SHORT, "table file under 2 bytes")                                                                                  \
    X(15, ZAQ_WRONG_FILE_VERSION, "table file version not 1")                                                                              \
    X(16, ZAQ_WRONG_FILE_HEADER, "own number over n, or LMAX 0")                                                                           \
    X(17, ZAQ_WRONG_RECORD, "a whole record of the file is wrong")                                                                         \
    X(18, ZAQ_WRONG_FILE_END, "after the end mark, a bit not 0 or a further byte")                                                         \
    X(19, ZAQ_WRONG_NODE_COUNT, "arc list: n outside 1 to 16")

#define ZAQ_AS_CONSTANT(number, name, words) name = number,
enum { ZAQ_REFUSALS(ZAQ_AS_CONSTANT) ZAQ_ACCEPTED = 0 };
#undef ZAQ_AS_CONSTANT

/* The refusal of any answer. */
static inline uint32_t zaq_refusal(uint32_t answer) { return answer & 255; }

/* A refusal's words, for programs that tell a person; only programs that call this hold the texts. */
#define ZAQ_AS_CASE(number, name, words) case number: return words;
static inline const char *zaq_words(uint32_t refusal)
{
    switch (refusal) {
        ZAQ_REFUSALS(ZAQ_AS_CASE)
    case ZAQ_ACCEPTED: return "no refusal";
    default: return "not a refusal of this library";
    }
}
#undef ZAQ_AS_CASE

/* ---- Values of an answer ---- */

/* The distance, 0 to 225, or one of the two marks. */
enum { ZAQ_UNKNOWN = 65535, ZAQ_UNREACHABLE = 65534 };
static inline uint32_t zaq_distance(uint32_t answer) { return answer >> 16; }

/* The first hop: a node, 0 for the node itself only, or ZAQ_NO_HOP beside a mark. */
enum { ZAQ_NO_HOP = 255 };
static inline uint32_t zaq_hop(uint32_t answer) { return answer >> 8 & 255; }

/* How many nodes a route passes. */
static inline uint32_t zaq_passed(uint32_t answer) { return answer >> 8 & 255; }

/* How many numbers a call wrote into the room (for a route, use zaq_passed). */
static inline uint32_t zaq_written(uint32_t answer) { return answer >> 8 & 65535; }

/* How many steps of a run can be taken at most. */
static inline uint32_t zaq_most(uint32_t answer) { return answer >> 8; }

/* ---- The firmware's three calls ----
 *
 * "The network's" refusals are, in this order: 1 if there are fewer than 3 bytes, 2, 3, 4, 1 for any other wrong length, then arc by arc
 * 5, 6, 7 and 8, then 9.
 */

/* Checks a network's bytes: the answer is ZAQ_ACCEPTED or the refusal. Refusals: the network's. */
uint32_t zaq_check_network(const uint8_t *net, uint64_t net_len);

/* Runs the steps over the network and writes the table file of one node: zaq_written bytes. Refusals: the network's, 11, 12, 13. */
enum { ZAQ_FILE_ROOM = 27 };
uint32_t zaq_write_table(
    const uint8_t *net, uint64_t net_len, const uint8_t *steps, uint64_t steps_len, uint32_t node, uint8_t *room, uint64_t room_len);

/* Reads one entry from a table file, whole or cut: zaq_distance and zaq_hop. file_len is the length of the file, not of the room that holds
 * it: bytes after the end mark are refused. Refusals: 14, 15, 16, 17 record by record, 18, then 11 for the target.
 */
uint32_t zaq_read_entry(const uint8_t *file, uint64_t file_len, uint32_t target);

/* ---- For benches, service desks and installers ---- */

/* Reads all entries of a table file of n nodes: zaq_written = 2 * n numbers, for each target from 1 to n its distance or mark, then its
 * first hop. Refusals: 14, 15, 16, 17 record by record, 18, then 13.
 */
enum { ZAQ_TABLE_ROOM = 32 };
uint32_t zaq_read_table(const uint8_t *file, uint64_t file_len, uint16_t *room, uint64_t room_len);

/* The whole outcome of a run; the answer is ZAQ_ACCEPTED or the refusal. counts: how many steps were taken, idle and unknown, and how many
 * nodes have stopped. entries: 2 * n * n numbers, row by row: node 1's distance or mark and first hop for each target from 1 to n, then
 * node 2's, and so on. Node i's distance to y is entries[2 * ((i - 1) * n + y - 1)], and the first hop is the number after it.
 * Refusals: the network's, then 13 if entries_len is less than 2 * n * n.
 */
enum { ZAQ_ENTRIES_ROOM = 512 };
uint32_t zaq_run(
    const uint8_t *net, uint64_t net_len, const uint8_t *steps, uint64_t steps_len, uint64_t counts[4], uint16_t *entries,
    uint64_t entries_len);

/* How long a run can get: in any order, no more than zaq_most steps are taken. That is n + arcs * (n * LMAX + n + 1), never more than
 * 61696. A one-way ring with LMAX 1 can take as many; from LMAX 2 on no house with an arc does. A recorder that keeps only steps that are
 * taken needs room for no more than that, and what it has kept leads to the same tables. Idle and unknown steps have no bound.
 * Refusals: the network's.
 */
uint32_t zaq_most_taken(const uint8_t *net, uint64_t net_len);

/* One entry after a run, the node's for the target: zaq_distance and zaq_hop. Refusals: the network's, 11. */
uint32_t zaq_entry(const uint8_t *net, uint64_t net_len, const uint8_t *steps, uint64_t steps_len, uint32_t node, uint32_t target);

/* The route from node to target after a run: zaq_distance is the distance or a mark, and the room gets the zaq_passed nodes that come
 * after `node` on the way, the target last. No node is passed beside a mark, and none where node is target. Refusals: the network's, 11,
 * then 13 if the room is shorter than the nodes passed.
 */
enum { ZAQ_ROUTE_ROOM = 15 };
uint32_t zaq_route(
    const uint8_t *net, uint64_t net_len, const uint8_t *steps, uint64_t steps_len, uint32_t node, uint32_t target, uint8_t *room,
    uint64_t room_len);

/* ---- A network handed over as a list of arcs ----
 *
 * n, LMAX and the arcs take the place of the network's bytes, and steps number the arcs as the list does. Everything else is as in the call
 * without `_arcs`: what it answers, writes and refuses, except that the network's refusals are those of a list: 19, 3, 4, then arc by arc
 * 5, 6, 7 and 8. The numbers are bytes: check a wider number before you cut it to 8 bits.
 */
typedef struct zaq_arc {
    uint8_t tail;
    uint8_t head;
    uint8_t length;
} zaq_arc;
uint32_t zaq_check_arcs(uint8_t n, uint8_t lmax, const zaq_arc *arcs, uint64_t arcs_len);
uint32_t zaq_write_table_arcs(
    uint8_t n, uint8_t lmax, const zaq_arc *arcs, uint64_t arcs_len, const uint8_t *steps, uint64_t steps_len, uint32_t node, uint8_t *room,
    uint64_t room_len);
uint32_t zaq_run_arcs(
    uint8_t n, uint8_t lmax, const zaq_arc *arcs, uint64_t arcs_len, const uint8_t *steps, uint64_t steps_len, uint64_t counts[4],
    uint16_t *entries, uint64_t entries_len);
uint32_t zaq_most_taken_arcs(uint8_t n, uint8_t lmax, const zaq_arc *arcs, uint64_t arcs_len);
uint32_t zaq_entry_arcs(
    uint8_t n, uint8_t lmax, const zaq_arc *arcs, uint64_t arcs_len, const uint8_t *steps, uint64_t steps_len, uint32_t node,
    uint32_t target);
uint32_t zaq_route_arcs(
    uint8_t n, uint8_t lmax, const zaq_arc *arcs, uint64_t arcs_len, const uint8_t *steps, uint64_t steps_len, uint32_t node,
    uint32_t target, uint8_t *room, uint64_t room_len);

/* Writes the list as network bytes, zaq_written of them, which the calls without `_arcs` take. Refusals: the list's, then 13. */
enum { ZAQ_NETWORK_ROOM = 363 };
uint32_t zaq_pack_network(uint8_t n, uint8_t lmax, const zaq_arc *arcs, uint64_t arcs_len, uint8_t *room, uint64_t room_len);

#ifdef __cplusplus
}
#endif
#endif
