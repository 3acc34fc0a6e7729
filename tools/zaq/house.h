/* A house as every command takes it, and a table as the library reads it. Nodes are numbered from 1, arcs from 0 in memory and from 1 in
 * words. */
#ifndef ZAQ_HOUSE_H
#define ZAQ_HOUSE_H
#include "zaqfinell.h"

enum { MOST_NODES = 16, MOST_ARCS = 240, NAME_ROOM = 256 };

struct house {
    uint8_t n, lmax;
    size_t arcs_len;
    zaq_arc arcs[MOST_ARCS];
    uint8_t net[ZAQ_NETWORK_ROOM];
    size_t net_len;
    char names[MOST_NODES + 1][NAME_ROOM]; /* valid UTF-8 without control characters, empty if none was given; names[0] is not used */
};

/* What a table says of each target: a mark is a distance, as in zaqfinell.h. */
struct table {
    uint32_t own;                        /* whose table it is */
    uint16_t entries[ZAQ_TABLE_ROOM];    /* as zaq_read_table gives them: distance or mark, then first hop, for each target */
};
#endif
