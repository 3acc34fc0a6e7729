/* Houses and tables from files, and what can be wrong with them. */
#ifndef ZAQ_LOAD_H
#define ZAQ_LOAD_H
#include "files.h"
#include "house.h"

/* ---- Mistakes of a house text ---- */

enum { MOST_TOLD = 10 };

struct mistake {
    size_t line, column; /* in characters; both from 1 */
    char words[400];
};

/* The first ten by their places, and how many there are in all. */
struct mistakes {
    size_t count;
    struct mistake first[MOST_TOLD];
};
void add_mistake(struct mistakes *mistakes, size_t line, size_t column, const char *words);

/* ---- Houses ---- */

/* Why a house is not taken. */
struct fault {
    int empty;
    uint32_t refusal;   /* the library's, for network bytes */
    size_t arc_number;  /* the arc that it is about, from 1; 0 if none */
    zaq_arc arc;
    struct mistakes mistakes; /* of a text, or the control byte for which a text was taken for network bytes */
};

/* What a file may hold. Where it may be either, it is network bytes if it has a control byte other than tab, CR and LF; every network that
 * is accepted has one, since its first byte begins with version 1. */
enum form { EITHER, NETWORK, TEXT };

/* Each gives 0, or a status. After REFUSED the fault says why, and nothing has been told yet. */
int read_house(const char *path, enum form form, struct house *house, struct fault *fault);
int tell_fault(const char *path, const struct fault *fault);
/* Both in one: after a status everything has been told. */
int load_house(const char *path, enum form form, struct house *house);

/* The parts: a house from network bytes and from text; 0 or REFUSED. */
int house_of_network(const uint8_t *net, size_t net_len, struct house *house, struct fault *fault);
int house_of_text(const uint8_t *text, size_t text_len, struct house *house, struct mistakes *mistakes);

/* Where a text begins: after the byte order mark, which some editors put first and which is no column. */
const uint8_t *skip_mark(const uint8_t *text, const uint8_t *end);
/* The first control byte that no text has; `end` if there is none. */
const uint8_t *find_control(const uint8_t *at, const uint8_t *end);
#endif
