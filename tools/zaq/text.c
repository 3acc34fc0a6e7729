/* Text from outside. */
#include "say.h"
#include <string.h>

size_t character(const uint8_t *at, const uint8_t *end, uint32_t *value)
{
    static const uint32_t least[] = {0, 0, 0x80, 0x800, 0x10000};
    size_t size = *at < 0x80 ? 1 : *at < 0xc0 ? 0 : *at < 0xe0 ? 2 : *at < 0xf0 ? 3 : *at < 0xf8 ? 4 : 0;
    *value = NOT_UTF8;
    if (size == 0 || size > (size_t)(end - at))
        return 1;
    uint32_t found = size == 1 ? *at : *at & (0xffu >> (size + 1));
    for (size_t k = 1; k < size; k++) {
        if (at[k] >> 6 != 2)
            return 1;
        found = found << 6 | (at[k] & 63u);
    }
    /* written longer than need be, half of a UTF-16 pair, or above the last character */
    if (found < least[size] || (found >= 0xd800 && found < 0xe000) || found > 0x10ffff)
        return 1;
    *value = found;
    return size;
}

int is_control(uint32_t value)
{
    return value < 0x20 || (value >= 0x7f && value < 0xa0);
}

const char *quote_bytes(struct quote *quote, const uint8_t *at, const uint8_t *end)
{
    enum { MOST = 40, LONGEST = 16 }; /* characters, and bytes of one: a control character of two bytes takes eight */
    char *to = quote->text;
    unsigned shown = 0;
    for (uint32_t value; at < end && shown < MOST && to + LONGEST < quote->text + sizeof quote->text; shown++) {
        size_t taken = character(at, end, &value);
        if (value == NOT_UTF8 || is_control(value))
            for (size_t k = 0; k < taken; k++)
                to += sprintf(to, "\\x%02x", at[k]);
        else {
            memcpy(to, at, taken);
            to += taken;
        }
        at += taken;
    }
    strcpy(to, at < end ? ".." : "");
    return quote->text;
}

const char *quote_word(struct quote *quote, const char *word)
{
    return quote_bytes(quote, (const uint8_t *)word, (const uint8_t *)word + strlen(word));
}

void put_shown(FILE *out, const char *text)
{
    struct quote quote;
    const uint8_t *at = (const uint8_t *)text, *end = at + strlen(text);
    uint32_t value;
    if (at == end)
        fputs("''", out);
    while (at < end) {
        size_t taken = character(at, end, &value);
        fputs(quote_bytes(&quote, at, at + taken), out);
        at += taken;
    }
}

void put_json(FILE *out, const char *text)
{
    if (!text) {
        fputs("null", out);
        return;
    }
    const uint8_t *at = (const uint8_t *)text, *end = at + strlen(text);
    fputc('"', out);
    for (uint32_t value; at < end;) {
        size_t taken = character(at, end, &value);
        if (value == NOT_UTF8)
            fputs("\\ufffd", out); /* JSON has no other bytes: the sign for what cannot be told */
        else if (value == '"' || value == '\\')
            fprintf(out, "\\%c", (char)value);
        else if (is_control(value))
            fprintf(out, "\\u%04x", (unsigned)value);
        else
            fwrite(at, 1, taken, out);
        at += taken;
    }
    fputc('"', out);
}
