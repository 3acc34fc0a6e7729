/* A house text while it is read. Lines may stand in any order, so the text is gone through twice: for the devices and LMAX, then for the
 * links, which the library checks with them. */
#ifndef ZAQ_READING_H
#define ZAQ_READING_H
#include "load.h"

struct line {
    size_t number;
    const uint8_t *from, *at, *end; /* without what ends the line */
};

struct reading {
    struct house *house;
    struct mistakes *mistakes;
    struct line lmax, device[MOST_NODES + 1]; /* the line of each, at its number; number 0 where there is none */
    int device_wrong;                         /* a device has no good number, so it is not known how many there are */
    int link_wrong;                           /* a link line has a mistake, so it is not known how many arcs come before the next one */
    size_t arcs_len;
    zaq_arc arcs[MOST_ARCS + 1]; /* one more than a house may have, for the library to refuse */
};

/* The line at `from`; gives where the next one begins. */
const uint8_t *cut_line(const uint8_t *from, const uint8_t *end, size_t number, struct line *line);
void skip_blanks(struct line *line);
/* Takes the word if it is the line's next one. */
int take_word(struct line *line, const char *word);

/* Each takes something from the line, or adds a mistake and gives 0. A number is one that fits in a byte, so that nothing is cut off
 * before the library sees it. */
int take_number(struct reading *reading, struct line *line, const char *expected, uint8_t *value);
int take_end(struct reading *reading, struct line *line);

/* A mistake at a place of the line; the second one says what stands there. */
void mistake_at(struct reading *reading, const struct line *line, const uint8_t *place, const char *form, ...) FORMED(4, 5);
void not_expected(struct reading *reading, const struct line *line, const uint8_t *place, const char *expected);

void read_link(struct reading *reading, struct line *line);
#endif
