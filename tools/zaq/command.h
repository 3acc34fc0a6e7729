/* What was asked for, and the commands. */
#ifndef ZAQ_COMMAND_H
#define ZAQ_COMMAND_H
#include "load.h"

/* A command with its words, of which there are as many as it takes, and its options, NULL or 0 where they were not given. */
struct call {
    char **words;
    int count;
    const char *out, *house, *every;
    int json, net, help;
};

enum { TAKES_OUT = 1, TAKES_JSON = 2, TAKES_NET = 4, TAKES_EVERY = 8, TAKES_HOUSE = 16, NEEDS_OUT = 32 };

struct command {
    const char *name;
    int (*run)(const struct call *call); /* gives the exit status, after its messages */
    unsigned options;
    int least, most; /* words */
    const char *usage, *help;
};

/* The command of this name, or NULL. */
const struct command *find_command(const char *name);

/* Tells a command's options from its words: 0, or FAILED after a message. */
int read_call(const struct command *command, int count, char **words, struct call *call);
/* How a call's house is to be read. */
enum form form_of(const struct call *call);
/* The house of a call: 0, or a status after messages and, with --json, after the object by which check answers. */
int load_or_answer(const struct call *call, const char *path, struct house *house);
/* A node of the house, as a word: 0, or a status after a message. Whether there is a node of this number is the library's to say. */
int read_node(const char *word, const struct house *house, uint32_t *node);
/* A number that is nothing but digits; a greater one than can be held is the greatest. */
int read_number(const char *word, uint64_t *number);

/* Help with a command or with house texts; with everything if topic is NULL. */
int help_of(const char *topic);

int pack_command(const struct call *call);
int unpack_command(const struct call *call);
int check_command(const struct call *call);
int routes_command(const struct call *call);
int run_command(const struct call *call);
int write_command(const struct call *call);
int show_command(const struct call *call);
int draw_command(const struct call *call);
int help_command(const struct call *call);
#endif
