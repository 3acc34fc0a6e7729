/* zaq draw: a house as a picture, with what one of its devices knows. */
#include "command.h"
#include "draw.h"
#include "run.h"
#include <string.h>

/* A node's finished table. */
static int table_of_node(const char *word, const struct house *house, struct table *table, struct outcome *finished)
{
    int status = read_node(word, house, &table->own);
    if (status == DONE)
        status = finish(house, finished);
    if (status == DONE)
        memcpy(table->entries, table_of(house, finished, table->own), 2 * house->n * sizeof *table->entries);
    return status;
}

/* What a table file says, if it is of this house. */
static int table_of_file(const char *path, const struct house *house, struct table *table, struct outcome *finished)
{
    struct table_file file;
    char reason[REASON_ROOM];
    int status = read_table_file(path, &file);
    if (status == DONE && file.refusal)
        status = say_refused(input_name(path), file.refusal);
    if (status == DONE)
        status = finish(house, finished);
    if (status == DONE && is_of_another(&file, house, finished, reason))
        status = say_of(REFUSED, input_name(path), "not of this house: %s", reason);
    *table = file.table;
    return status;
}

int draw_command(const struct call *call)
{
    const char *word = call->count > 1 ? call->words[1] : NULL;
    uint64_t number;
    int by_node = word && read_number(word, &number);
    const char *const inputs[MOST_INPUTS] = {call->words[0], by_node ? NULL : word};
    struct house house;
    struct table table;
    struct outcome finished;
    struct output out;
    int status = load_house(call->words[0], form_of(call), &house);
    if (status == DONE && word)
        status = (by_node ? table_of_node : table_of_file)(word, &house, &table, &finished);
    if (status == DONE)
        status = open_output(&out, call->out, inputs);
    if (status)
        return status;
    if (draw_house(out.file, &house, word ? &table : NULL, word ? &finished : NULL))
        status = say(FAILED, "the picture could not be drawn");
    return close_output(&out, status);
}
