#include "load.h"
#include <string.h>

static int is_before(const struct mistake *one, size_t line, size_t column)
{
    return one->line < line || (one->line == line && one->column <= column);
}

void add_mistake(struct mistakes *mistakes, size_t line, size_t column, const char *words)
{
    size_t kept = mistakes->count < MOST_TOLD ? mistakes->count : MOST_TOLD, place = kept;
    mistakes->count++;
    while (place > 0 && !is_before(&mistakes->first[place - 1], line, column))
        place--;
    if (place == MOST_TOLD)
        return;
    if (kept == MOST_TOLD)
        kept--;
    memmove(&mistakes->first[place + 1], &mistakes->first[place], (kept - place) * sizeof *mistakes->first);
    struct mistake *mistake = &mistakes->first[place];
    mistake->line = line;
    mistake->column = column;
    snprintf(mistake->words, sizeof mistake->words, "%s", words);
}
