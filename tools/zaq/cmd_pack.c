/* zaq pack, zaq unpack: a house text and its network bytes. */
#include "command.h"

/* Whether the arc after this one is its way back, so that both are one line, in the order in which that line is packed. */
static int is_both_ways(const struct house *house, size_t k)
{
    const zaq_arc *arc = &house->arcs[k];
    return k + 1 < house->arcs_len && arc[1].tail == arc->head && arc[1].head == arc->tail && arc[1].length == arc->length;
}

static void put_house(FILE *out, const struct house *house)
{
    fprintf(out, "lmax %u\n", (unsigned)house->lmax);
    for (unsigned node = 1; node <= house->n; node++)
        fprintf(out, "device %u\n", node);
    for (size_t k = 0; k < house->arcs_len; k++) {
        const zaq_arc *arc = &house->arcs[k];
        int both_ways = is_both_ways(house, k);
        fprintf(out, "link %u %s %u length %u\n", (unsigned)arc->tail, both_ways ? "<->" : "->", (unsigned)arc->head,
            (unsigned)arc->length);
        k += (size_t)both_ways;
    }
}

static void put_network(FILE *out, const struct house *house)
{
    fwrite(house->net, 1, house->net_len, out);
}

/* A house of one form, written in the other. */
static int convert(const struct call *call, enum form form, void (*put)(FILE *, const struct house *))
{
    const char *const inputs[MOST_INPUTS] = {call->words[0], NULL};
    struct house house;
    struct output out;
    int status = load_house(call->words[0], form, &house);
    if (status == DONE)
        status = open_output(&out, call->out, inputs);
    if (status)
        return status;
    put(out.file, &house);
    return close_output(&out, DONE);
}

int pack_command(const struct call *call)
{
    return convert(call, TEXT, put_network);
}

int unpack_command(const struct call *call)
{
    return convert(call, NETWORK, put_house);
}
