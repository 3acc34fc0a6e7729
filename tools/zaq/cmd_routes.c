/* zaq routes: the finished tables, and the whole way to each target. */
#include "command.h"
#include "tell.h"
#include <stdlib.h>

/* The ways that were asked for, from and to which nodes, over the steps of a finished run. */
struct asked {
    const struct house *house;
    struct bytes steps;
    uint32_t from, last_from, to, last_to;
};

struct way {
    struct entry entry;
    uint32_t passed;
    uint8_t nodes[ZAQ_ROUTE_ROOM + 1]; /* the first is where it begins */
};

static int find_way(const struct asked *asked, uint32_t from, uint32_t to, struct way *way)
{
    const struct house *house = asked->house;
    uint32_t answer = zaq_route(house->net, house->net_len, asked->steps.at, asked->steps.len, from, to, way->nodes + 1, ZAQ_ROUTE_ROOM);
    if (zaq_refusal(answer))
        return say_refused("the route", zaq_refusal(answer));
    way->passed = zaq_passed(answer);
    way->nodes[0] = (uint8_t)from;
    way->entry = (struct entry){zaq_distance(answer), from == to ? 0 : way->passed ? way->nodes[1] : ZAQ_NO_HOP};
    return DONE;
}

/* A node's finished table, a way on each line. */
static int tell_table(const struct asked *asked, uint32_t from)
{
    struct way way;
    fputs("from ", stdout);
    put_node(stdout, asked->house, from);
    fputs(asked->house->n == 1 ? ": there is no other device\n" : ":\n", stdout);
    for (uint32_t to = 1; to <= asked->house->n; to++) {
        if (to == from)
            continue;
        if (find_way(asked, from, to, &way))
            return REFUSED;
        fputs("  to ", stdout);
        put_node(stdout, asked->house, to);
        if (way.passed == 0) {
            fputs(": ", stdout);
            put_entry(stdout, asked->house, way.entry);
        } else {
            printf(", distance %u", (unsigned)way.entry.distance);
        }
        for (uint32_t k = 0; k <= way.passed && way.passed; k++) {
            fputs(k ? " -> " : ": ", stdout);
            put_node(stdout, asked->house, way.nodes[k]);
        }
        putchar('\n');
    }
    return DONE;
}

static unsigned length_of(const struct house *house, uint8_t tail, uint8_t head)
{
    for (size_t k = 0; k < house->arcs_len; k++)
        if (house->arcs[k].tail == tail && house->arcs[k].head == head)
            return house->arcs[k].length;
    return 0; /* never: a way has arcs of the house only */
}

/* One way, an arc on each line. */
static int tell_way(const struct asked *asked)
{
    const struct house *house = asked->house;
    struct way way;
    if (find_way(asked, asked->from, asked->to, &way))
        return REFUSED;
    fputs("from ", stdout);
    put_node(stdout, house, asked->from);
    fputs(" to ", stdout);
    put_node(stdout, house, asked->to);
    fputs(": ", stdout);
    put_entry(stdout, house, way.entry);
    putchar('\n');
    for (uint32_t k = 1; k <= way.passed; k++) {
        fputs("  ", stdout);
        put_node(stdout, house, way.nodes[k - 1]);
        fputs(" -> ", stdout);
        put_node(stdout, house, way.nodes[k]);
        printf(", length %u\n", length_of(house, way.nodes[k - 1], way.nodes[k]));
    }
    return DONE;
}

static int put_json_way(const struct asked *asked, uint32_t from, uint32_t to)
{
    struct way way;
    if (find_way(asked, from, to, &way))
        return REFUSED;
    printf("%s{\"from\": %u, ", from == asked->from && to == asked->to ? "" : ", ", (unsigned)from);
    put_json_entry(stdout, to, way.entry);
    fputs(is_known(way.entry) ? ", \"way\": [" : ", \"way\": null}", stdout);
    for (uint32_t k = 0; k <= way.passed && is_known(way.entry); k++)
        printf("%u%s", (unsigned)way.nodes[k], k < way.passed ? ", " : "]}");
    return DONE;
}

static int put_json_ways(const struct asked *asked)
{
    int status = DONE;
    putchar('{');
    put_json_devices(stdout, asked->house);
    fputs(", \"routes\": [", stdout);
    for (uint32_t from = asked->from; from <= asked->last_from; from++)
        for (uint32_t to = asked->to; to <= asked->last_to && status == DONE; to++)
            status = put_json_way(asked, from, to);
    fputs("]}\n", stdout);
    return status;
}

/* Reads FROM and TO; without them, all nodes are asked for. */
static int read_asked(const struct call *call, struct asked *asked)
{
    const struct house *house = asked->house;
    asked->from = asked->to = 1;
    asked->last_from = asked->last_to = house->n;
    int status = call->count > 1 ? read_node(call->words[1], house, &asked->from) : DONE;
    if (status == DONE && call->count > 2)
        status = read_node(call->words[2], house, &asked->to);
    if (call->count > 1)
        asked->last_from = asked->from;
    if (call->count > 2)
        asked->last_to = asked->to;
    return status;
}

int routes_command(const struct call *call)
{
    struct house house;
    struct outcome outcome;
    struct asked asked = {.house = &house};
    int status = load_or_answer(call, call->words[0], &house);
    if (status == DONE)
        status = read_asked(call, &asked);
    if (status == DONE)
        status = run_to_the_end(&house, &asked.steps, &outcome);
    if (status)
        return status;
    if (call->json)
        status = put_json_ways(&asked);
    else if (call->count > 2)
        status = tell_way(&asked);
    else
        for (uint32_t from = asked.from; from <= asked.last_from && status == DONE; from++)
            status = tell_table(&asked, from);
    free(asked.steps.at);
    return status;
}
