/* Files in and out. Each call gives 0, or a status after one line on standard error. */
#ifndef ZAQ_FILES_H
#define ZAQ_FILES_H
#include "say.h"

/* Bytes on the heap; free(at) after use. */
struct bytes {
    uint8_t *at;
    size_t len, room;
};

/* Whether a path is `-`. */
int is_standard(const char *path);
/* How a message names an input: `-` is standard input. */
const char *input_name(const char *path);
/* A whole file, or standard input for `-`. A longer one than `most` bytes is not taken. */
int read_bytes(const char *path, size_t most, struct bytes *bytes);
/* The same for a reader to whom the rest does not matter: of a longer one, at least the first `most` bytes. */
int read_beginning(const char *path, size_t most, struct bytes *bytes);
/* Room for `more` bytes after those that are there; 0 if there is no memory, told. */
int has_room(struct bytes *bytes, size_t more);

/* Where a command writes to. Everything is kept in memory until the end, and then a file gets its name only when it is whole and on the
 * disk; until then the old one stays as it was. */
struct output {
    FILE *file; /* for the command to write to */
    char *text;
    size_t len;
    int to; /* the descriptor that it goes to */
    const char *path;
    char *place; /* what is renamed to, links followed; NULL where nothing is renamed */
    char *temporary;
};

/* No path, or `-`, is standard output. What was read (NULL for none) is not written to, and a file that the caller has opened for writing
 * is written to where it stands. */
enum { MOST_INPUTS = 2 };
int open_output(struct output *out, const char *path, const char *const inputs[MOST_INPUTS]);
/* Ends the output: writes it if the status is 0; if that fails, or the status is another, nothing is left of it. Gives the status. */
int close_output(struct output *out, int status);
/* Makes sure that everything written to standard output has arrived. */
int close_standard_output(int status);
/* Before anything is opened: a closed standard file must not lend its number to another one, and a write that fails must come back as an
 * error, not end the program. */
void guard_standard_files(void);
#endif
