/* zaq run: a recording of steps, replayed. */
#include "command.h"
#include "tell.h"
#include <stdlib.h>
#include <string.h>

/* A run after some of its steps. */
struct moment {
    size_t steps_len;
    struct outcome outcome;
    int started[MOST_NODES + 1], stopped[MOST_NODES + 1];
};

static void nothing_yet(struct moment *moment)
{
    memset(moment, 0, sizeof *moment);
    for (size_t k = 0; k < ZAQ_ENTRIES_ROOM; k++)
        moment->outcome.entries[k] = ZAQ_UNKNOWN;
}

static unsigned how_many(const int nodes[MOST_NODES + 1])
{
    unsigned count = 0;
    for (unsigned node = 1; node <= MOST_NODES; node++)
        count += nodes[node] != 0;
    return count;
}

static int run_until(const struct house *house, const uint8_t *steps, size_t steps_len, struct moment *moment)
{
    const struct outcome *outcome = &moment->outcome;
    int status = run_steps(house, steps, steps_len, &moment->outcome);
    moment->steps_len = steps_len;
    for (uint32_t node = 1; node <= house->n; node++) {
        moment->started[node] = has_started(house, outcome, node);
        moment->stopped[node] = knows_all(table_of(house, outcome, node), house->n);
    }
    if (status || how_many(moment->stopped) == outcome->counts[3])
        return status;
    for (uint32_t node = 1; node <= house->n; node++)
        moment->stopped[node] = moment->stopped[node] && has_stopped(house, steps, steps_len, node);
    return DONE;
}

static void put_moment(const struct house *house, const struct moment *moment)
{
    put_counts(stdout, moment->steps_len, moment->outcome.counts);
    printf("; %u of %u devices started, %u stopped\n", how_many(moment->started), (unsigned)house->n, how_many(moment->stopped));
}

/* ---- the outcome */

static void tell_outcome(const struct house *house, const struct moment *moment)
{
    put_moment(house, moment);
    for (uint32_t node = 1; node <= house->n; node++) {
        const uint16_t *table = table_of(house, &moment->outcome, node);
        put_node(stdout, house, node);
        puts(moment->stopped[node] ? " has stopped:" : moment->started[node] ? " has started:" : " has not started: it knows nothing");
        for (uint32_t target = 1; target <= house->n && moment->started[node]; target++) {
            fputs("  to ", stdout);
            put_node(stdout, house, target);
            fputs(": ", stdout);
            put_entry(stdout, house, entry_of(table, target));
            putchar('\n');
        }
    }
}

static void put_json_outcome(const struct house *house, const struct moment *moment)
{
    putchar('{');
    put_json_counts(stdout, moment->steps_len, moment->outcome.counts);
    fputs(", ", stdout);
    put_json_devices(stdout, house);
    fputs(", \"nodes\": [", stdout);
    for (uint32_t node = 1; node <= house->n; node++) {
        printf("%s{\"node\": %u, \"started\": %s, \"stopped\": %s, ", node == 1 ? "" : ", ", (unsigned)node,
            json_truth(moment->started[node]), json_truth(moment->stopped[node]));
        put_json_table(stdout, table_of(house, &moment->outcome, node), house->n);
        putchar('}');
    }
    fputs("]}\n", stdout);
}

/* ---- what has become known since */

static int is_news(const struct house *house, const struct moment *before, const struct moment *now, uint32_t node, uint32_t target)
{
    return entry_of(table_of(house, &before->outcome, node), target).distance == ZAQ_UNKNOWN
           && entry_of(table_of(house, &now->outcome, node), target).distance != ZAQ_UNKNOWN;
}

static void tell_event(const struct house *house, uint32_t node, const char *event)
{
    fputs("  ", stdout);
    put_node(stdout, house, node);
    printf(" %s\n", event);
}

static void tell_news(const struct house *house, const struct moment *before, const struct moment *now)
{
    fputs("after ", stdout);
    put_moment(house, now);
    for (uint32_t node = 1; node <= house->n; node++) {
        if (now->started[node] && !before->started[node])
            tell_event(house, node, "has started");
        for (uint32_t target = 1; target <= house->n; target++) {
            if (target == node || !is_news(house, before, now, node, target))
                continue;
            fputs("  ", stdout);
            put_node(stdout, house, node);
            fputs(" knows ", stdout);
            put_node(stdout, house, target);
            fputs(": ", stdout);
            put_entry(stdout, house, entry_of(table_of(house, &now->outcome, node), target));
            putchar('\n');
        }
        if (now->stopped[node] && !before->stopped[node])
            tell_event(house, node, "has stopped");
    }
}

static void put_json_new(const char *name, const int before[MOST_NODES + 1], const int now[MOST_NODES + 1])
{
    const char *comma = "";
    printf(", \"%s\": [", name);
    for (unsigned node = 1; node <= MOST_NODES; node++)
        if (now[node] && !before[node]) {
            printf("%s%u", comma, node);
            comma = ", ";
        }
    putchar(']');
}

static void put_json_news(const struct house *house, const struct moment *before, const struct moment *now)
{
    const char *comma = "";
    fputs(before->steps_len ? ", {" : "{", stdout);
    put_json_counts(stdout, now->steps_len, now->outcome.counts);
    put_json_new("started", before->started, now->started);
    put_json_new("stopped", before->stopped, now->stopped);
    fputs(", \"known\": [", stdout);
    for (uint32_t node = 1; node <= house->n; node++)
        for (uint32_t target = 1; target <= house->n; target++)
            if (is_news(house, before, now, node, target)) {
                printf("%s{\"node\": %u, ", comma, (unsigned)node);
                put_json_entry(stdout, target, entry_of(table_of(house, &now->outcome, node), target));
                putchar('}');
                comma = ", ";
            }
    fputs("]}", stdout);
}

/* A run keeps nothing, so each moment is a run from the beginning. */
static int tell_every(const struct house *house, const struct bytes *steps, uint64_t every, int json)
{
    struct moment before, now;
    int status = DONE;
    nothing_yet(&now);
    if (json) {
        putchar('{');
        put_json_devices(stdout, house);
        fputs(", \"moments\": [", stdout);
    }
    do {
        before = now;
        size_t left = steps->len - before.steps_len;
        status = run_until(house, steps->at, before.steps_len + (every < left ? (size_t)every : left), &now);
        if (status == DONE)
            (json ? put_json_news : tell_news)(house, &before, &now);
    } while (status == DONE && now.steps_len < steps->len && !ferror(stdout));
    fputs(json ? "]}\n" : "", stdout);
    return status;
}

int run_command(const struct call *call)
{
    struct house house;
    struct bytes steps;
    struct moment end;
    struct quote quote;
    uint64_t every = 0;
    if (call->every && (!read_number(call->every, &every) || every == 0))
        return say(FAILED, "--every needs a number of steps from 1 on, not '%s'", quote_word(&quote, call->every));
    int status = load_or_answer(call, call->words[0], &house);
    if (status == DONE)
        status = load_steps(call->count > 1 ? call->words[1] : NULL, &house, &steps);
    if (status)
        return status;
    if (every) {
        status = tell_every(&house, &steps, every, call->json);
    } else {
        nothing_yet(&end);
        status = run_until(&house, steps.at, steps.len, &end);
        if (status == DONE)
            (call->json ? put_json_outcome : tell_outcome)(&house, &end);
    }
    free(steps.at);
    return status;
}
