/* The competitor's reader of one entry: one walk over the records, with the bits that were read and not yet used held in a number. */
#include "plain.h"

struct walk {
    const uint8_t *file;
    uint64_t len, at; /* the byte to be read next */
    uint32_t held, have; /* the last `have` bits of `held` are not used yet */
};

/* Whether a whole record stands; it is the 13 bits above the last `have` then. */
static int next_record(struct walk *w)
{
    while (w->have < 13) {
        if (w->at == w->len)
            return 0;
        w->held = w->held << 8 | w->file[w->at++];
        w->have += 8;
    }
    return w->held >> (w->have - 1) & 1;
}

/* How the file ends where no record stands: a mark, or 18. Fewer than 13 bits are only left at the file's end. */
static uint32_t ending(const struct walk *w)
{
    if (w->have == 0 || w->held >> (w->have - 1) & 1)
        return ZAQ_UNKNOWN;
    return w->have > 8 || w->held & ((1u << w->have) - 1) ? 18 : ZAQ_UNREACHABLE;
}

uint32_t PLAIN(read)(const uint8_t *file, uint64_t file_len, uint32_t target)
{
    if (file_len < 2)
        return 14;
    if (file[0] >> 4 != 1)
        return 15;
    uint32_t own = file[0] & 15, n = (file[1] >> 4) + 1u, lmax = file[1] & 15, wanted = target - 1;
    if (own >= n || lmax == 0)
        return 16;
    struct walk w = {file, file_len, 2, 0, 0};
    uint32_t marks = 1u << own, before = 0, answer = wanted == own ? 1 : 0;
    while (next_record(&w)) {
        uint32_t record = w.held >> (w.have -= 13), y = record >> 8 & 15, hop = record >> 4 & 15, by = record & 15;
        if (y >= n || marks >> y & 1 || hop >= n || hop == own || by > lmax || before + by == 0)
            return 17;
        marks |= 1u << y;
        before += by;
        if (y == wanted)
            answer = before << 16 | (hop + 1) << 8;
    }
    uint32_t end = ending(&w);
    if (end == 18)
        return 18;
    if (wanted >= n)
        return 11;
    if (answer == 0)
        return end << 16 | ZAQ_NO_HOP << 8;
    return answer & ~1u; /* 1: the node itself */
}
