/* Document 01's examples, those marked P and the two that are not, with the numbers that 01 gives. */
#include "test.h"
#include <string.h>

/* n 3, LMAX 4, arcs 1 to 2 of length 1, 2 to 3 of length 1, 1 to 3 of length 2, 3 to 1 of length 4 */
static const uint8_t Q[] = {0x12, 0x40, 0x04, 0x01, 0x11, 0x21, 0x02, 0x22, 0x04};
static const zaq_arc Q_arcs[] = {{1, 2, 1}, {2, 3, 1}, {1, 3, 2}, {3, 1, 4}};

/* all start; arc 1 hands over label 2 and length 1, arc 2 label 3, arc 1 label 3; then every arc, again and again */
static uint8_t steps[3 + 4 + 200] = {0, 1, 2, 16, 16, 17, 16};
enum { FIRST_RECORD = 4, BOTH_RECORDS = 7, TO_THE_END = sizeof steps };

static const uint8_t P4[] = {0x10, 0x24, 0x88, 0x8C, 0x84, 0x40};
static const uint8_t P5[] = {0x10, 0x24, 0x88, 0x8C, 0x84, 0x7F};
static const uint8_t P6[] = {0x10, 0x24, 0x88, 0x8F};
static const uint8_t P10[] = {0x11, 0x24, 0x91, 0x0C, 0x09, 0x00};
static const uint8_t P11[] = {0x10, 0x01, 0x00};

static uint32_t entry(unsigned distance, unsigned hop)
{
    return entry_answer((struct ref_entry){(int)distance, hop});
}

static void entry_is(unsigned node, unsigned target, unsigned distance, unsigned hop, const char *what)
{
    uint8_t room[ZAQ_ROUTE_ROOM];
    same_answer(ENTRY, zaq_entry(Q, sizeof Q, steps, TO_THE_END, node, target), entry(distance, hop), what);
    uint32_t route = zaq_route(Q, sizeof Q, steps, TO_THE_END, node, target, room, sizeof room);
    check(zaq_refusal(route) == 0 && zaq_distance(route) == distance && room[0] == hop && room[zaq_passed(route) - 1] == target, what);
}

static void p1_to_p3(void)
{
    entry_is(1, 2, 1, 2, "P1: node 1 to 2");
    entry_is(1, 3, 2, 2, "P1: node 1 to 3, a tie");
    entry_is(2, 3, 1, 3, "P2: node 2 to 3");
    entry_is(2, 1, 5, 3, "P2: node 2 to 1");
    entry_is(3, 1, 4, 1, "P3: node 3 to 1");
    entry_is(3, 2, 5, 1, "P3: node 3 to 2");
}

static void file_is(unsigned node, size_t count, const uint8_t *file, size_t len, const char *what)
{
    uint8_t room[ZAQ_FILE_ROOM];
    same_answer(WRITE, zaq_write_table(Q, sizeof Q, steps, count, node, room, sizeof room), (uint32_t)len << 8, what);
    check(memcmp(room, file, len) == 0, what);
}

static void p4_to_p6_and_p10(void)
{
    file_is(1, TO_THE_END, P4, sizeof P4, "P4");
    file_is(1, BOTH_RECORDS, P5, sizeof P5, "P5");
    file_is(1, FIRST_RECORD, P6, sizeof P6, "P6");
    file_is(2, TO_THE_END, P10, sizeof P10, "P10");
}

/* What P4 says of nodes 1, 2 and 3 when it is cut to 0, 1, .. 6 bytes. */
static void p7_to_p9(void)
{
    uint32_t own = entry(0, 0), two = entry(1, 2), three = entry(2, 2), unknown = entry(ZAQ_UNKNOWN, ZAQ_NO_HOP);
    const uint32_t said[][3] = {
        {14, 14, 14},
        {14, 14, 14},
        {own, unknown, unknown},
        {own, unknown, unknown},
        {own, two, unknown},
        {own, two, unknown},
        {own, two, three},
    };
    for (size_t len = 0; len <= sizeof P4; len++) {
        about("file", P4, len);
        for (unsigned y = 1; y <= 3; y++)
            same_answer(READ_ENTRY, zaq_read_entry(P4, len, y), said[len][y - 1], "P7, P8, P9");
    }
}

static void p11_and_p12(void)
{
    static const uint8_t alone[] = {0x10, 0x10, 0x00}, start[] = {0x00};
    uint8_t room[ZAQ_FILE_ROOM];
    same_answer(WRITE, zaq_write_table(alone, sizeof alone, start, 1, 1, room, sizeof room), sizeof P11 << 8, "P11");
    check(memcmp(room, P11, sizeof P11) == 0, "P11");
    for (unsigned i = 1; i <= 3; i++) {
        same_answer(WRITE, zaq_write_table(Q, sizeof Q, steps, 0, i, room, sizeof room), 12, "P12: no file");
        for (unsigned y = 1; y <= 3; y++)
            same_answer(ENTRY, zaq_entry(Q, sizeof Q, steps, 0, i, y), entry(ZAQ_UNKNOWN, ZAQ_NO_HOP), "P12: nothing is known");
    }
}

/* "Room of 5 for P4: refusal 13; room of 6 taken. Arc length 4 in Q taken, 5 refused with 7." */
static void unmarked(void)
{
    uint8_t room[6], longer[sizeof Q], network[ZAQ_NETWORK_ROOM];
    zaq_arc arcs[4];
    same_answer(WRITE, zaq_write_table(Q, sizeof Q, steps, TO_THE_END, 1, room, 5), 13, "a room of 5 for P4");
    same_answer(WRITE, zaq_write_table(Q, sizeof Q, steps, TO_THE_END, 1, room, 6), 6 << 8, "a room of 6 for P4");
    check(memcmp(room, P4, sizeof P4) == 0, "P4 in a room of 6");
    memcpy(longer, Q, sizeof Q);
    longer[8] = 0x05;
    same_answer(CHECK, zaq_check_network(Q, sizeof Q), 0, "arc length 4 in Q");
    same_answer(CHECK, zaq_check_network(longer, sizeof longer), 7, "arc length 5 in Q");
    memcpy(arcs, Q_arcs, sizeof arcs);
    same_answer(PACK, zaq_pack_network(3, 4, arcs, 4, network, sizeof network), sizeof Q << 8, "arc length 4 in Q as a list");
    check(memcmp(network, Q, sizeof Q) == 0, "Q as a list");
    arcs[3].length = 5;
    same_answer(PACK, zaq_pack_network(3, 4, arcs, 4, network, sizeof network), 7, "arc length 5 in Q as a list");
}

/* The outcome of a run in a room that just holds it, by document 01's P1 to P3. */
static void whole_outcome(void)
{
    static const uint16_t right[] = {0, 0, 1, 2, 2, 2, 5, 3, 0, 0, 1, 3, 4, 1, 5, 1, 0, 0};
    enum { NUMBERS = sizeof right / sizeof *right };
    uint64_t counts[4];
    uint16_t entries[NUMBERS];
    same_answer(RUN, zaq_run(Q, sizeof Q, steps, TO_THE_END, counts, entries, NUMBERS), 0, "Q run to the end");
    check(memcmp(entries, right, sizeof right) == 0, "P1 to P3 row by row");
    check(counts[0] + counts[1] == TO_THE_END && counts[2] == 0 && counts[3] == 3, "every step of Q is known, and all stop");
    same_answer(RUN_ARCS, zaq_run_arcs(3, 4, Q_arcs, 4, steps, TO_THE_END, counts, entries, NUMBERS), 0, "Q as a list, run to the end");
    check(memcmp(entries, right, sizeof right) == 0, "P1 to P3 row by row, of the list");
}

/* What is empty may be handed over as NULL, whatever it is: no bytes, no arcs, no steps, no room. */
static void no_input(void)
{
    static const uint8_t alone[] = {0x10, 0x10, 0x00};
    uint64_t counts[4] = {9, 9, 9, 9};
    uint16_t entries[18];
    uint32_t nothing = entry(ZAQ_UNKNOWN, ZAQ_NO_HOP);
    same_answer(CHECK, zaq_check_network(NULL, 0), 1, "no network bytes");
    same_answer(MOST_TAKEN, zaq_most_taken(NULL, 0), 1, "no network bytes, no steps");
    same_answer(WRITE, zaq_write_table(NULL, 0, NULL, 0, 1, NULL, 0), 1, "no network bytes, no steps, no room");
    same_answer(RUN, zaq_run(NULL, 0, NULL, 0, counts, NULL, 0), 1, "no network bytes to run");
    same_answer(ENTRY, zaq_entry(NULL, 0, NULL, 0, 1, 1), 1, "no network bytes to ask");
    same_answer(ROUTE, zaq_route(NULL, 0, NULL, 0, 1, 1, NULL, 0), 1, "no network bytes and no route");
    same_answer(RUN, zaq_run(Q, sizeof Q, NULL, 0, counts, entries, 18), 0, "no steps");
    check(counts[0] == 0 && counts[1] == 0 && counts[2] == 0 && counts[3] == 0, "no steps, no counts");
    same_answer(ENTRY, zaq_entry(Q, sizeof Q, NULL, 0, 1, 1), nothing, "no steps, nothing known");
    same_answer(WRITE, zaq_write_table(Q, sizeof Q, NULL, 0, 1, NULL, 0), 12, "no steps and no room");
    same_answer(READ_ENTRY, zaq_read_entry(NULL, 0, 1), 14, "no file");
    same_answer(READ_TABLE, zaq_read_table(NULL, 0, NULL, 0), 14, "no file and no room");
    same_answer(READ_TABLE, zaq_read_table(NULL, 0, entries, 18), 14, "no file and a room");
    same_answer(CHECK, zaq_check_network(alone, sizeof alone), 0, "a node alone");
}

static void no_room(void)
{
    uint64_t counts[4] = {9, 9, 9, 9};
    same_answer(WRITE, zaq_write_table(Q, sizeof Q, steps, TO_THE_END, 1, NULL, 0), 13, "no room for a file");
    same_answer(RUN, zaq_run(Q, sizeof Q, steps, TO_THE_END, counts, NULL, 0), 13, "no room for entries");
    check(counts[0] == 9 && counts[1] == 9 && counts[2] == 9 && counts[3] == 9, "no room for entries, no counts");
    same_answer(ROUTE, zaq_route(Q, sizeof Q, steps, TO_THE_END, 1, 3, NULL, 0), 13, "no room for a route");
    same_answer(ROUTE, zaq_route(Q, sizeof Q, steps, TO_THE_END, 1, 1, NULL, 0), 0, "no room for a route of no node");
    same_answer(ROUTE, zaq_route(Q, sizeof Q, NULL, 0, 1, 2, NULL, 0), entry(ZAQ_UNKNOWN, 0), "no steps, no route and no room");
    same_answer(READ_TABLE, zaq_read_table(P4, sizeof P4, NULL, 0), 13, "no room for a table");
    same_answer(PACK, zaq_pack_network(3, 4, Q_arcs, 4, NULL, 0), 13, "no room for a network");
    same_answer(RUN_ARCS, zaq_run_arcs(3, 4, Q_arcs, 4, steps, TO_THE_END, counts, NULL, 0), 13, "no room for a list's entries");
    same_answer(ROUTE_ARCS, zaq_route_arcs(3, 4, Q_arcs, 4, steps, TO_THE_END, 1, 3, NULL, 0), 13, "no room for a list's route");
    same_answer(WRITE_ARCS, zaq_write_table_arcs(3, 4, Q_arcs, 4, steps, TO_THE_END, 1, NULL, 0), 13, "no room for a list's file");
    check(counts[0] == 9 && counts[3] == 9, "no room for a list's entries, no counts");
}

static void no_arcs(void)
{
    uint64_t counts[4] = {9, 9, 9, 9};
    uint16_t entries[2];
    uint8_t room[ZAQ_FILE_ROOM];
    uint32_t nothing = entry(ZAQ_UNKNOWN, ZAQ_NO_HOP);
    same_answer(CHECK_ARCS, zaq_check_arcs(1, 1, NULL, 0), 0, "no arcs");
    same_answer(MOST_TAKEN_ARCS, zaq_most_taken_arcs(1, 1, NULL, 0), 1 << 8, "no arcs, one start");
    same_answer(PACK, zaq_pack_network(1, 1, NULL, 0, room, 3), 3 << 8, "no arcs packed");
    same_answer(PACK, zaq_pack_network(1, 1, NULL, 0, NULL, 0), 13, "no arcs and no room");
    same_answer(RUN_ARCS, zaq_run_arcs(1, 1, NULL, 0, NULL, 0, counts, NULL, 0), 13, "no arcs, no steps, no room");
    check(counts[0] == 9 && counts[3] == 9, "a list without room for entries has no counts");
    same_answer(RUN_ARCS, zaq_run_arcs(1, 1, NULL, 0, NULL, 0, counts, entries, 2), 0, "no arcs and no steps");
    check(entries[0] == ZAQ_UNKNOWN && entries[1] == ZAQ_NO_HOP && counts[0] == 0, "no arcs and no steps, nothing known");
    same_answer(ENTRY_ARCS, zaq_entry_arcs(1, 1, NULL, 0, NULL, 0, 1, 1), nothing, "no arcs, nothing known");
    same_answer(ROUTE_ARCS, zaq_route_arcs(1, 1, NULL, 0, NULL, 0, 1, 1, NULL, 0), entry(ZAQ_UNKNOWN, 0), "no arcs, no route");
    same_answer(WRITE_ARCS, zaq_write_table_arcs(1, 1, NULL, 0, NULL, 0, 1, NULL, 0), 12, "no arcs, no file");
    same_answer(WRITE_ARCS, zaq_write_table_arcs(1, 1, NULL, 0, (const uint8_t[]){0}, 1, 1, NULL, 0), 13, "no arcs and no room for a file");
    same_answer(WRITE_ARCS, zaq_write_table_arcs(1, 1, NULL, 0, (const uint8_t[]){0}, 1, 1, room, 3), 3 << 8, "no arcs and a file");
    check(memcmp(room, P11, sizeof P11) == 0, "P11 of a list");
}

static void arcs_without_steps(void)
{
    uint64_t counts[4] = {9, 9, 9, 9};
    uint16_t entries[18];
    uint32_t nothing = entry(ZAQ_UNKNOWN, ZAQ_NO_HOP);
    same_answer(RUN_ARCS, zaq_run_arcs(3, 4, Q_arcs, 4, NULL, 0, counts, entries, 18), 0, "a list and no steps");
    check(counts[0] == 0 && counts[3] == 0 && entries[0] == ZAQ_UNKNOWN && entries[17] == ZAQ_NO_HOP, "a list and no steps: the rooms");
    same_answer(ENTRY_ARCS, zaq_entry_arcs(3, 4, Q_arcs, 4, NULL, 0, 1, 2), nothing, "a list and no steps: an entry");
    same_answer(ROUTE_ARCS, zaq_route_arcs(3, 4, Q_arcs, 4, NULL, 0, 1, 2, NULL, 0), entry(ZAQ_UNKNOWN, 0), "a list and no steps: a route");
    same_answer(WRITE_ARCS, zaq_write_table_arcs(3, 4, Q_arcs, 4, NULL, 0, 1, NULL, 0), 12, "a list and no steps: a file");
}

void test_examples(void)
{
    for (size_t k = BOTH_RECORDS; k < TO_THE_END; k++)
        steps[k] = (uint8_t)(16 + k % 4);
    p1_to_p3();
    p4_to_p6_and_p10();
    p7_to_p9();
    p11_and_p12();
    unmarked();
    whole_outcome();
    no_input();
    no_room();
    no_arcs();
    arcs_without_steps();
}
