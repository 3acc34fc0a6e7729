/* Runs of a house, and what they and table files say: everything by the library's calls. */
#ifndef ZAQ_RUN_H
#define ZAQ_RUN_H
#include "files.h"
#include "house.h"

/* What zaq_run gives. */
struct outcome {
    uint64_t counts[4]; /* steps taken, idle and unknown; nodes that have stopped */
    uint16_t entries[ZAQ_ENTRIES_ROOM];
};

/* What a node knows of a target. */
struct entry {
    uint32_t distance, hop; /* as zaqfinell.h has them, marks too */
};

int is_known(struct entry entry);
/* Of a table: distance or mark, then first hop, for each target. */
struct entry entry_of(const uint16_t *table, uint32_t target);
/* A node's table in an outcome. */
const uint16_t *table_of(const struct house *house, const struct outcome *outcome, uint32_t node);

/* Runs the steps; 0, or a status that was told. */
int run_steps(const struct house *house, const uint8_t *steps, size_t steps_len, struct outcome *outcome);
/* The steps that bring a house to its end: every node starts, then every arc delivers in turn until all nodes have stopped. On the heap,
 * with their outcome; 0, or a status that was told. */
int run_to_the_end(const struct house *house, struct bytes *steps, struct outcome *outcome);
/* The outcome of the end alone. */
int finish(const struct house *house, struct outcome *outcome);
/* The steps of a file, or those to the end if there is no file. */
int load_steps(const char *path, const struct house *house, struct bytes *steps);

/* Who has started: before it starts, a node knows nothing, not even itself. */
int has_started(const struct house *house, const struct outcome *outcome, uint32_t node);
/* Who has stopped: its table file has an end mark. Whoever has stopped knows all there is to know, but a node may know every target and not
 * have stopped yet. */
int knows_all(const uint16_t *table, uint32_t n);
int has_stopped(const struct house *house, const uint8_t *steps, size_t steps_len, uint32_t node);
/* Whether a table file that the library reads has an end mark. */
int has_end_mark(const uint8_t *file, size_t file_len);

/* A table file. */
struct table_file {
    uint32_t refusal; /* if it is one, nothing else is set */
    uint32_t n, lmax;
    int end_mark;
    struct table table;
};

/* What the library says of a longer file is settled by so many bytes: they have room for sixteen records, of which one is wrong since only
 * fifteen targets have one, or an end mark with a byte after it. */
enum { MOST_FILE = 1 << 12 };
/* Reads a table file: 0 and what the library makes of it, a refusal too; or a status that was told. */
int read_table_file(const char *path, struct table_file *file);
/* Whether it may be of this house, whose finished outcome is given: 0, or REFUSED with the reason in words. */
enum { REASON_ROOM = 200 };
int is_of_another(const struct table_file *file, const struct house *house, const struct outcome *finished, char reason[REASON_ROOM]);
#endif
