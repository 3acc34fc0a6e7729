/* zaq write: the table file of one device. */
#include "command.h"
#include "run.h"
#include <stdlib.h>

/* The table file of a node after the steps. */
static int make_file(const char *path, const struct house *house, const struct bytes *steps, uint32_t node, uint8_t file[ZAQ_FILE_ROOM],
    size_t *file_len)
{
    uint32_t answer = zaq_write_table(house->net, house->net_len, steps->at, steps->len, node, file, ZAQ_FILE_ROOM);
    *file_len = zaq_written(answer);
    return zaq_refusal(answer) ? say_refused(input_name(path), zaq_refusal(answer)) : DONE;
}

int write_command(const struct call *call)
{
    const char *const inputs[MOST_INPUTS] = {call->words[0], call->count > 2 ? call->words[1] : NULL};
    struct house house;
    struct bytes steps;
    struct output out;
    uint8_t file[ZAQ_FILE_ROOM];
    size_t file_len = 0;
    uint32_t node;
    int status = load_house(inputs[0], form_of(call), &house);
    if (status == DONE)
        status = read_node(call->words[call->count - 1], &house, &node);
    if (status == DONE)
        status = load_steps(inputs[1], &house, &steps);
    if (status)
        return status;
    status = make_file(inputs[0], &house, &steps, node, file, &file_len);
    free(steps.at);
    if (status == DONE)
        status = open_output(&out, call->out, inputs);
    if (status)
        return status;
    fwrite(file, 1, file_len, out.file);
    return close_output(&out, DONE);
}
