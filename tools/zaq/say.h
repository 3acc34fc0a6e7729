/* Messages, and text that comes from outside: what a terminal or a JSON reader could not take is made harmless. */
#ifndef ZAQ_SAY_H
#define ZAQ_SAY_H
#include <stddef.h>
#include <stdint.h>
#include <stdio.h>

/* The exit statuses; of several, the greatest counts. */
enum { DONE = 0, REFUSED = 1, FAILED = 2 };

/* Lets the compiler hold a message's values to its form. */
#ifdef __GNUC__
#define FORMED(form, first) __attribute__((format(printf, form, first)))
#else
#define FORMED(form, first)
#endif

/* One line on standard error, `zaq: ..`; gives the status. */
int say(int status, const char *form, ...) FORMED(2, 3);
/* The same about a file: `zaq: FILE: ..`. */
int say_of(int status, const char *path, const char *form, ...) FORMED(3, 4);
/* The same about a place in it: `zaq: FILE:LINE:COLUMN: ..`. */
int say_at(int status, const char *path, size_t line, size_t column, const char *words);
/* The same for what the system refused, in its words (errno). */
int say_failed(const char *path);
/* The same for what the library refused. */
int say_refused(const char *path, uint32_t refusal);

/* ---- UTF-8 */

/* The value of a byte that is no UTF-8; it counts as one character. */
#define NOT_UTF8 UINT32_MAX
/* The character at the beginning of at least one byte; gives how many bytes it takes. */
size_t character(const uint8_t *at, const uint8_t *end, uint32_t *value);
int is_control(uint32_t value);

/* A word as a message quotes it: control characters and bytes that are no UTF-8 as \xNN, a long word cut. */
struct quote {
    char text[200];
};
const char *quote_bytes(struct quote *quote, const uint8_t *at, const uint8_t *end);
const char *quote_word(struct quote *quote, const char *word);

/* A whole text on a terminal, made harmless in the same way; nothing at all is two quotes. */
void put_shown(FILE *out, const char *text);
/* A text as a JSON string, or null where there is none. */
void put_json(FILE *out, const char *text);
#endif
