/* The competitor's check of an arc list. It lays the network out as it goes, as the library does. */
#include "plain.h"
#include <string.h>

/* What is checked is kept: a caller would run it. */
static struct {
    uint8_t length[256], site[240];
} laid;

static uint32_t lay_arc(unsigned k, zaq_arc a, unsigned n, unsigned lmax)
{
    if (a.tail - 1u >= n || a.head - 1u >= n)
        return 5;
    if (a.tail == a.head)
        return 6;
    if (a.length - 1u >= lmax)
        return 7;
    uint8_t site = (uint8_t)((a.tail - 1) << 4 | (a.head - 1));
    if (laid.length[site])
        return 8;
    laid.length[site] = a.length;
    laid.site[k] = site;
    return 0;
}

uint32_t PLAIN(check_arcs)(uint8_t n, uint8_t lmax, const zaq_arc *arcs, uint64_t count)
{
    if (n - 1u >= 16)
        return 19;
    if (lmax - 1u >= 15)
        return 3;
    if (count > 240)
        return 4;
    memset(laid.length, 0, sizeof laid.length);
    for (unsigned k = 0; k < count; k++) {
        uint32_t refusal = lay_arc(k, arcs[k], n, lmax);
        if (refusal)
            return refusal;
    }
    return 0;
}
