/* Requirement 1 for networks: refused with document 01's number, exactly when it says so. */
#include "test.h"
#include <string.h>

static uint8_t bytes[512];

static void compare(size_t len, const char *what)
{
    struct ref_net net;
    unsigned refusal = ref_read_network(bytes, len, &net);
    const uint8_t *lent = at_edge(0, bytes, len);
    about("network", bytes, len);
    same_answer(CHECK, zaq_check_network(lent, len), refusal, what);
    same_answer(MOST_TAKEN, zaq_most_taken(lent, len), most_answer(refusal, &net), what);
}

/* Network Q of document 01, and one fault of each kind in it, with the number that 01 gives. */
static const uint8_t Q[] = {0x12, 0x40, 0x04, 0x01, 0x11, 0x21, 0x02, 0x22, 0x04};

struct fault {
    unsigned number, place;
    uint8_t value;
    int longer;
};

static const struct fault faults[] = {
    {1, 0, 0x12, 1},  {1, 0, 0x12, -1}, {2, 0, 0x22, 0}, {2, 0, 0x02, 0}, {2, 1, 0x41, 0}, {3, 1, 0x00, 0},
    {4, 2, 241, 0},   {4, 2, 255, 0},   {5, 3, 0x31, 0}, {5, 3, 0x03, 0}, {6, 3, 0x11, 0}, {6, 3, 0x00, 0},
    {7, 4, 0x01, 0},  {7, 4, 0x51, 0},  {8, 6, 0x01, 0}, {7, 8, 0x00, 0}, {7, 8, 0x05, 0},
};

static size_t with_fault(size_t len, const struct fault *f)
{
    bytes[f->place] = f->value;
    return (size_t)((long)len + f->longer);
}

static void each_fault(void)
{
    for (size_t a = 0; a < sizeof faults / sizeof *faults; a++) {
        memset(bytes, 0, sizeof bytes);
        memcpy(bytes, Q, sizeof Q);
        size_t len = with_fault(sizeof Q, &faults[a]);
        about("network", bytes, len);
        check(zaq_check_network(bytes, len) == faults[a].number, "one fault, 01's number");
        for (size_t b = 0; b < sizeof faults / sizeof *faults; b++) {
            memset(bytes, 0, sizeof bytes);
            memcpy(bytes, Q, sizeof Q);
            compare(with_fault(with_fault(sizeof Q, &faults[a]), &faults[b]), "two faults, 01's order");
        }
    }
    memcpy(bytes, Q, sizeof Q);
    check(zaq_check_network(bytes, sizeof Q) == 0, "network Q is taken: an arc of length 4 with LMAX 4");
    check(zaq_check_network(bytes, 0) == 1, "no bytes at all");
}

/* Refusal 9: the half byte after an odd number of arcs. */
static void padding(void)
{
    for (unsigned value = 0; value < 16; value++) {
        memcpy(bytes, (const uint8_t[]){0x11, 0x10, 0x01, 0x01, 0x10}, 5);
        bytes[4] = (uint8_t)(0x10 | value);
        about("network", bytes, 5);
        check(zaq_check_network(bytes, 5) == (value ? 9u : 0u), "padding");
    }
}

static void all_headers(void)
{
    memset(bytes, 0, sizeof bytes);
    for (unsigned head = 0; head < 65536; head += is_quick() ? 1 + random_below(20) : 1) {
        bytes[0] = (uint8_t)(head >> 8);
        bytes[1] = (uint8_t)head;
        bytes[2] = 1;
        bytes[3] = 0x01;
        bytes[4] = 0x10;
        compare(5, "every header");
        compare(2, "every header, cut");
    }
    for (unsigned count = 0; count < 256; count++)
        for (size_t len = 0; len <= 400; len++) {
            memcpy(bytes, (const uint8_t[]){0x1F, 0xF0}, 2);
            bytes[2] = (uint8_t)count;
            compare(len, "every arc count at every length");
        }
}

static void every_length(void)
{
    struct ref_net net;
    for (unsigned round = 0; round < rounds(40); round++)
        for (size_t len = 0; len <= 400; len++) {
            for (size_t k = 0; k < sizeof bytes; k++)
                bytes[k] = (uint8_t)random_number();
            compare(len, "random bytes");
            random_network(&net);
            size_t right = ref_network_bytes(&net, bytes);
            compare(len, "a network at another length");
            compare(right, "an accepted network");
            random_byte(bytes, right);
            compare(right, "a network with one byte changed");
        }
}

static void every_bit(void)
{
    struct ref_net net;
    for (unsigned round = 0; round < rounds(60); round++) {
        random_network(&net);
        size_t len = ref_network_bytes(&net, bytes);
        for (size_t p = 0; p < 8 * len; p++) {
            bytes[p / 8] ^= (uint8_t)(128u >> p % 8);
            compare(len, "a network with one bit changed");
            bytes[p / 8] ^= (uint8_t)(128u >> p % 8);
        }
    }
}

static void spoiled(void)
{
    struct ref_net net;
    for (unsigned round = 0; round < rounds(30000); round++) {
        random_network(&net);
        compare(spoil_somehow(bytes, ref_network_bytes(&net, bytes)), "a network with one fault or two");
    }
}

void test_networks(void)
{
    each_fault();
    padding();
    all_headers();
    every_length();
    every_bit();
    spoiled();
}
