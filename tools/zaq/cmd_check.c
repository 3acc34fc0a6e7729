/* zaq check: whether the library accepts a house. */
#include "command.h"
#include "tell.h"

static void put_mistakes(const struct mistakes *mistakes)
{
    fputs("\"mistakes\": [", stdout);
    for (size_t k = 0; k < mistakes->count && k < MOST_TOLD; k++) {
        const struct mistake *mistake = &mistakes->first[k];
        printf("%s{\"line\": %lu, \"column\": %lu, \"words\": ", k ? ", " : "", (unsigned long)mistake->line,
            (unsigned long)mistake->column);
        put_json(stdout, mistake->words);
        putchar('}');
    }
    printf("], \"mistakes_in_all\": %lu", (unsigned long)mistakes->count);
}

static const char *words_of(int status, const struct fault *fault)
{
    if (status == FAILED)
        return "the file could not be read";
    return fault->refusal ? zaq_words(fault->refusal) : fault->empty ? "the file is empty" : "the text has mistakes";
}

static void put_fault(int status, const struct fault *fault)
{
    const zaq_arc *arc = &fault->arc;
    if (fault->refusal)
        printf("\"refusal\": %u, \"words\": ", (unsigned)fault->refusal);
    else
        fputs("\"refusal\": null, \"words\": ", stdout);
    put_json(stdout, words_of(status, fault));
    if (fault->arc_number)
        printf(", \"arc\": {\"number\": %lu, \"tail\": %u, \"head\": %u, \"length\": %u}, ", (unsigned long)fault->arc_number,
            (unsigned)arc->tail, (unsigned)arc->head, (unsigned)arc->length);
    else
        fputs(", \"arc\": null, ", stdout);
    put_mistakes(&fault->mistakes);
    fputs("}\n", stdout);
}

static void put_verdict(const char *path, int accepted)
{
    fputs("{\"file\": ", stdout);
    put_json(stdout, input_name(path));
    printf(", \"accepted\": %s, ", json_truth(accepted));
}

int load_or_answer(const struct call *call, const char *path, struct house *house)
{
    struct fault fault;
    int status = read_house(path, form_of(call), house, &fault);
    if (status == REFUSED)
        tell_fault(path, &fault);
    if (status && call->json) {
        put_verdict(path, 0);
        put_fault(status, &fault);
    }
    return status;
}

int check_command(const struct call *call)
{
    struct house house;
    int status = load_or_answer(call, call->words[0], &house);
    if (status)
        return status;
    uint32_t most = zaq_most(zaq_most_taken(house.net, house.net_len));
    if (call->json) {
        put_verdict(call->words[0], 1);
        put_json_devices(stdout, &house);
        printf(", \"arcs\": %lu, \"lmax\": %u, \"most_taken\": %lu}\n", (unsigned long)house.arcs_len, (unsigned)house.lmax,
            (unsigned long)most);
    } else {
        put_shown(stdout, input_name(call->words[0]));
        fputs(" is accepted: ", stdout);
        put_number(stdout, house.n, "device");
        fputs(", ", stdout);
        put_number(stdout, house.arcs_len, "arc");
        printf(", LMAX %u; at most ", (unsigned)house.lmax);
        put_number(stdout, most, "step");
        puts(most == 1 ? " of a run is taken" : " of a run are taken");
    }
    return DONE;
}
