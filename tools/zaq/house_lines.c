/* The lines of a text, and the words of a line. */
#include "reading.h"
#include <stdarg.h>
#include <string.h>

static int is_blank(uint8_t byte)
{
    return byte == ' ' || byte == '\t';
}

const uint8_t *skip_mark(const uint8_t *text, const uint8_t *end)
{
    static const uint8_t mark[] = {0xef, 0xbb, 0xbf};
    return (size_t)(end - text) >= sizeof mark && memcmp(text, mark, sizeof mark) == 0 ? text + sizeof mark : text;
}

const uint8_t *find_control(const uint8_t *at, const uint8_t *end)
{
    while (at < end && (*at >= 0x20 || *at == '\t' || *at == '\r' || *at == '\n'))
        at++;
    return at;
}

const uint8_t *cut_line(const uint8_t *from, const uint8_t *end, size_t number, struct line *line)
{
    const uint8_t *feed = memchr(from, '\n', (size_t)(end - from));
    *line = (struct line){number, from, from, feed ? feed : end};
    if (line->end > from && line->end[-1] == '\r')
        line->end--;
    return feed ? feed + 1 : end;
}

void skip_blanks(struct line *line)
{
    while (line->at < line->end && is_blank(*line->at))
        line->at++;
}

static const uint8_t *word_end(const struct line *line, const uint8_t *at)
{
    while (at < line->end && !is_blank(*at))
        at++;
    return at;
}

int take_word(struct line *line, const char *word)
{
    size_t len = strlen(word);
    skip_blanks(line);
    if ((size_t)(word_end(line, line->at) - line->at) != len || memcmp(line->at, word, len) != 0)
        return 0;
    line->at += len;
    return 1;
}

void mistake_at(struct reading *reading, const struct line *line, const uint8_t *place, const char *form, ...)
{
    char words[sizeof reading->mistakes->first->words];
    size_t column = 1;
    uint32_t value;
    va_list rest;
    va_start(rest, form);
    vsnprintf(words, sizeof words, form, rest);
    va_end(rest);
    for (const uint8_t *at = line->from; at < place; column++)
        at += character(at, line->end, &value);
    add_mistake(reading->mistakes, line->number, column, words);
}

void not_expected(struct reading *reading, const struct line *line, const uint8_t *place, const char *expected)
{
    struct quote quote;
    if (place == line->end)
        mistake_at(reading, line, place, "found the end of the line, expected %s", expected);
    else
        mistake_at(reading, line, place, "found '%s', expected %s", quote_bytes(&quote, place, word_end(line, place)), expected);
}

int take_number(struct reading *reading, struct line *line, const char *expected, uint8_t *value)
{
    unsigned found = 0;
    skip_blanks(line);
    const uint8_t *word = line->at;
    for (; line->at < line->end && *line->at >= '0' && *line->at <= '9'; line->at++)
        found = found > UINT8_MAX ? found : 10 * found + (unsigned)(*line->at - '0');
    /* an arrow or a comment may follow without a blank; anything else makes the digits part of some other word */
    int goes_on = line->at < line->end && !is_blank(*line->at) && !memchr("-<#", *line->at, 3);
    if (line->at == word || goes_on || found > UINT8_MAX) {
        not_expected(reading, line, word, expected);
        return 0;
    }
    *value = (uint8_t)found;
    return 1;
}

int take_end(struct reading *reading, struct line *line)
{
    skip_blanks(line);
    if (line->at < line->end && *line->at != '#') {
        not_expected(reading, line, line->at, "the end of the line, or a comment after #");
        return 0;
    }
    /* a comment may hold anything, but by such a byte a file that may be either is taken for network bytes */
    const uint8_t *control = find_control(line->at, line->end);
    if (control < line->end)
        mistake_at(reading, line, control, "found the control byte 0x%02x, expected none in a house text", (unsigned)*control);
    return control == line->end;
}
