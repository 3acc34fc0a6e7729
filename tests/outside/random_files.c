/* Random table files with plausible headers and records, so that every fault of a file comes often. */
#include "test.h"
#include <string.h>

static struct ref_net net;
static struct ref_run made; /* a run that never was: only what the writer looks at */

/* A node other than `own`; there are two at least. */
static unsigned other_than(unsigned own)
{
    unsigned node = 1 + random_below(net.n - 1);
    return node < own ? node : node + 1;
}

/* Records for some targets in any order, each a little farther. */
static void make_records(struct ref_node *nd, unsigned own)
{
    unsigned targets[MOST_NODES], count = 0, distance = 0;
    nd->filled[0] = (struct ref_record){own, 0, 0};
    nd->filled_count = 1;
    for (unsigned y = 1; y <= net.n; y++)
        if (y != own)
            targets[count++] = y;
    for (unsigned wanted = random_below(count + 1); nd->filled_count <= wanted; count--) {
        unsigned k = random_below(count);
        distance += nd->filled_count == 1 ? 1 + random_below(net.lmax) : random_below(net.lmax + 1);
        nd->filled[nd->filled_count++] = (struct ref_record){targets[k], distance, other_than(own)};
        targets[k] = targets[count - 1];
    }
}

/* Moves a record and those after it farther by this much, or nearer. */
static void move(struct ref_node *nd, unsigned from, unsigned by)
{
    for (unsigned k = from; k < nd->filled_count; k++)
        nd->filled[k].distance += by;
}

static void spoil_record(struct ref_node *nd, unsigned own)
{
    unsigned at = 1 + random_below(nd->filled_count - 1), over = net.n < 16 ? net.n + 1 + random_below(16 - net.n) : own;
    struct ref_record *record = &nd->filled[at];
    unsigned by = record->distance - nd->filled[at - 1].distance;
    switch (random_below(7)) {
    case 0:
        record->target = own;
        break;
    case 1:
        record->target = over;
        break;
    case 2: /* repeated */
        record->target = nd->filled[1 + random_below(nd->filled_count - 1)].target;
        break;
    case 3:
        record->hop = own;
        break;
    case 4:
        record->hop = over;
        break;
    case 5:
        if (net.lmax < 15)
            move(nd, at, net.lmax + 1 - by + random_below(15 - net.lmax));
        break;
    default: /* no difference: wrong in the first record only */
        move(nd, at, 0u - by);
    }
}

/* A fault of the header, of the end, or of the length. */
static size_t spoil_bytes(uint8_t *bytes, size_t len)
{
    size_t more = 1 + random_below((unsigned)(MOST_FILE - len));
    switch (random_below(12)) {
    case 0:
        random_byte(bytes, 2);
        return len;
    case 1:
        bytes[len - 1] |= (uint8_t)(1u << random_below(4));
        return len;
    case 2: /* further bytes of zeros, or of ones */
        memset(bytes + len, random_below(2) ? 255 : 0, more);
        return len + more;
    case 3: /* anything after it */
        for (size_t k = len; k < len + more; k++)
            bytes[k] = (uint8_t)random_number();
        return len + more;
    case 4:
        return random_below((unsigned)len);
    case 5: {
        size_t place = random_below((unsigned)len);
        bytes[place] ^= (uint8_t)(1u << random_below(8));
        return len;
    }
    default:
        return len;
    }
}

size_t random_file(uint8_t bytes[MOST_FILE])
{
    net.n = 1 + random_below(MOST_NODES);
    net.lmax = 1 + random_below(15);
    made.net = &net;
    unsigned own = 1 + random_below(net.n);
    struct ref_node *nd = &made.node[own];
    make_records(nd, own);
    nd->stopped = (int)random_below(2);
    if (nd->filled_count > 1 && random_below(3) == 0)
        spoil_record(nd, own);
    return spoil_bytes(bytes, ref_write_file(&made, own, bytes));
}
