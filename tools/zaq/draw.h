/* A house as a picture, and what one of its nodes knows of it. */
#ifndef ZAQ_DRAW_H
#define ZAQ_DRAW_H
#include "run.h"
#include <stdio.h>

/* Writes SVG; without a table (NULL), the house alone. A table comes with the house's finished outcome, which has the ways to what it
 * knows: a table file may have lost the nodes on them. Gives 0, or nonzero when writing failed. */
int draw_house(FILE *out, const struct house *house, const struct table *table, const struct outcome *finished);
#endif
