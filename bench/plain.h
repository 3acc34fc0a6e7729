/* The plain C that the library is measured against: document 01's rules written for speed, with the header's calls and answers. It is
 * compiled twice, at -O2 and at -O3; LEVEL is the end of each function's name. */
#ifndef PLAIN_H
#define PLAIN_H
#include "../include/zaqfinell.h"

#define PLAIN_CALLS(level)                                                                                                                 \
    uint32_t plain_check_##level(const uint8_t *net, uint64_t net_len);                                                                    \
    uint32_t plain_check_arcs_##level(uint8_t n, uint8_t lmax, const zaq_arc *arcs, uint64_t count);                                       \
    uint32_t plain_most_taken_##level(const uint8_t *net, uint64_t net_len);                                                               \
    uint32_t plain_most_taken_arcs_##level(uint8_t n, uint8_t lmax, const zaq_arc *arcs, uint64_t count);                                  \
    uint32_t plain_run_##level(                                                                                                            \
        const uint8_t *net, uint64_t net_len, const uint8_t *steps, uint64_t steps_len, uint64_t counts[4], uint16_t *entries,             \
        uint64_t entries_len);                                                                                                             \
    uint32_t plain_write_##level(                                                                                                          \
        const uint8_t *net, uint64_t net_len, const uint8_t *steps, uint64_t steps_len, uint32_t node, uint8_t *room, uint64_t room_len);  \
    uint32_t plain_read_##level(const uint8_t *file, uint64_t file_len, uint32_t target);                                                  \
    uint32_t plain_shortest_##level(const uint8_t *net, uint64_t net_len, uint16_t *entries);

PLAIN_CALLS(O2)
PLAIN_CALLS(O3)

#define JOINED(name, level) plain_##name##_##level
#define JOIN(name, level) JOINED(name, level)
#define PLAIN(name) JOIN(name, LEVEL)
#endif
