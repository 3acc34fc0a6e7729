/* Nodes, entries and counts in words and as JSON, one form for all commands. */
#ifndef ZAQ_TELL_H
#define ZAQ_TELL_H
#include "run.h"

/* `3 (repeater, hall)`, or `node 3` where there is no name; a house that is not known is NULL. */
void put_node(FILE *out, const struct house *house, uint32_t node);
/* `itself`, `unknown`, `unreachable`, or `distance 5, first hop 3 (repeater, hall)`. */
void put_entry(FILE *out, const struct house *house, struct entry entry);
/* `1 device`, `2 devices`. */
void put_number(FILE *out, uint64_t number, const char *one);
/* `9 steps: 7 taken, 2 idle, 0 unknown`. */
void put_counts(FILE *out, uint64_t steps, const uint64_t counts[4]);

/* Members of a JSON object, without a comma before or after them. */
void put_json_entry(FILE *out, uint32_t target, struct entry entry);
void put_json_devices(FILE *out, const struct house *house);
void put_json_counts(FILE *out, uint64_t steps, const uint64_t counts[4]);
void put_json_table(FILE *out, const uint16_t *table, uint32_t n);
const char *json_truth(int truth);
#endif
