#include "run.h"
#include <stdlib.h>
#include <string.h>

int is_known(struct entry entry)
{
    return entry.distance != ZAQ_UNKNOWN && entry.distance != ZAQ_UNREACHABLE;
}

struct entry entry_of(const uint16_t *table, uint32_t target)
{
    return (struct entry){table[2 * target - 2], table[2 * target - 1]};
}

const uint16_t *table_of(const struct house *house, const struct outcome *outcome, uint32_t node)
{
    return outcome->entries + 2 * (size_t)house->n * (node - 1);
}

int run_steps(const struct house *house, const uint8_t *steps, size_t steps_len, struct outcome *outcome)
{
    uint32_t answer = zaq_run(house->net, house->net_len, steps, steps_len, outcome->counts, outcome->entries, ZAQ_ENTRIES_ROOM);
    return zaq_refusal(answer) ? say_refused("the run", zaq_refusal(answer)) : DONE;
}

int run_to_the_end(const struct house *house, struct bytes *steps, struct outcome *outcome)
{
    /* while a node has not stopped, a step is taken in each round at least, and no run takes more of them than this */
    uint32_t rounds = zaq_most(zaq_most_taken(house->net, house->net_len));
    *steps = (struct bytes){NULL, 0, 0};
    if (!has_room(steps, house->n))
        return FAILED;
    for (unsigned node = 1; node <= house->n; node++)
        steps->at[steps->len++] = (uint8_t)(node - 1);
    int status = run_steps(house, steps->at, steps->len, outcome);
    while (status == DONE && outcome->counts[3] < house->n && rounds-- > 0) {
        if (!has_room(steps, house->arcs_len))
            status = FAILED;
        for (size_t arc = 1; status == DONE && arc <= house->arcs_len; arc++)
            steps->at[steps->len++] = (uint8_t)(arc + 15);
        if (status == DONE)
            status = run_steps(house, steps->at, steps->len, outcome);
    }
    if (status == DONE && outcome->counts[3] < house->n)
        status = say(FAILED, "not all nodes have stopped, though every message was delivered");
    if (status) {
        free(steps->at);
        steps->at = NULL;
    }
    return status;
}

int finish(const struct house *house, struct outcome *outcome)
{
    struct bytes steps;
    int status = run_to_the_end(house, &steps, outcome);
    if (status == DONE)
        free(steps.at);
    return status;
}

int load_steps(const char *path, const struct house *house, struct bytes *steps)
{
    struct outcome outcome;
    return path ? read_bytes(path, SIZE_MAX, steps) : run_to_the_end(house, steps, &outcome);
}

int has_started(const struct house *house, const struct outcome *outcome, uint32_t node)
{
    return is_known(entry_of(table_of(house, outcome, node), node));
}

int knows_all(const uint16_t *table, uint32_t n)
{
    for (uint32_t target = 1; target <= n; target++)
        if (entry_of(table, target).distance == ZAQ_UNKNOWN)
            return 0;
    return 1;
}

int has_stopped(const struct house *house, const uint8_t *steps, size_t steps_len, uint32_t node)
{
    uint8_t file[ZAQ_FILE_ROOM];
    uint32_t answer = zaq_write_table(house->net, house->net_len, steps, steps_len, node, file, sizeof file);
    return zaq_refusal(answer) == ZAQ_ACCEPTED && has_end_mark(file, zaq_written(answer));
}
