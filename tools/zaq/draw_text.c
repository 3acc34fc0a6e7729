/* Names may be any UTF-8: here they become XML, and are cut to the room that they have. */
#include "draw_parts.h"
#include "say.h"
#include <string.h>

enum { REPLACEMENT = 0xfffd };
#define ELLIPSIS "\xe2\x80\xa6"

/* The character at the beginning of the text, and how many bytes it takes. What XML does not take is the replacement character. */
static uint32_t xml_character(const char *text, size_t *taken)
{
    const uint8_t *at = (const uint8_t *)text;
    uint32_t value;
    *taken = character(at, at + strlen(text), &value);
    return value == NOT_UTF8 || is_control(value) || value == 0xfffe || value == 0xffff ? REPLACEMENT : value;
}

static void put_character(FILE *out, uint32_t value, const char *bytes, size_t len)
{
    switch (value) {
    case '&': fputs("&amp;", out); break;
    case '<': fputs("&lt;", out); break;
    case '>': fputs("&gt;", out); break;
    case '"': fputs("&quot;", out); break;
    case '\'': fputs("&#39;", out); break;
    case REPLACEMENT: fputs("\xef\xbf\xbd", out); break;
    default: fwrite(bytes, 1, len, out);
    }
}

/* How wide a character is at most, in hundredths of the text size: the fonts are the reader's, and these are of a wide one. */
static unsigned width_of(uint32_t value)
{
    if ((value >= 0x300 && value < 0x370) || (value >= 0x200b && value < 0x2010) || (value >= 0xfe00 && value < 0xfe10))
        return 0; /* these change the character before */
    if (value >= 0x1100)
        return value < 0x10000 ? 100 : 135;
    if (value >= 0x80)
        return 80;
    if (strchr("'Iijl", (int)value))
        return 30;
    if (strchr(" !\"(),-./:;[]`frt{|}", (int)value))
        return 47;
    if (strchr("%@MWm", (int)value))
        return 100;
    return (value >= 'A' && value <= 'Z') || strchr("#&+<=>^w~", (int)value) ? 84 : 65;
}

/* Writes the characters that fit, and says whether all did. */
static int put_fitting(FILE *out, const char *name, double room)
{
    size_t taken;
    double used = 0;
    for (; *name; name += taken) {
        uint32_t value = xml_character(name, &taken);
        used += width_of(value);
        if (used > room)
            return 0;
        if (out)
            put_character(out, value, name, taken);
    }
    return 1;
}

void draw_name(FILE *out, const char *name)
{
    put_fitting(out, name, 135.0 * NAME_ROOM);
}

void draw_cut_name(FILE *out, const char *name, double room, double size)
{
    double wide = 100 * room / size;
    if (put_fitting(NULL, name, wide))
        draw_name(out, name);
    else if (!put_fitting(out, name, wide - 100))
        fputs(ELLIPSIS, out);
}

void draw_node_words(const struct picture *picture, unsigned node)
{
    const char *name = picture->house->names[node];
    fprintf(picture->out, name[0] ? "%u (" : "node %u", node);
    draw_name(picture->out, name);
    if (name[0])
        fputc(')', picture->out);
}
