/* What document 01 says of House table, for the test of the program: the text for an input, and random inputs. */
#include "test.h"
#include <stdio.h>

enum { USED = 65000 };

static uint8_t input[MOST_NETWORK + USED];
static struct ref_net net;
static struct ref_run run;

static void print_entry(unsigned node, unsigned target)
{
    struct ref_entry e = ref_entry_of(&run, node, target);
    if (e.distance == UNKNOWN)
        printf("%u %u ? ?\n", node, target);
    else if (e.distance == UNREACHABLE)
        printf("%u %u - -\n", node, target);
    else
        printf("%u %u %d %u\n", node, target, e.distance, e.hop);
}

void print_house(void)
{
    size_t len = fread(input, 1, USED, stdin);
    size_t need = len < 3 ? len : 3 + (12 * (size_t)input[2] + 7) / 8;
    unsigned refusal = ref_read_network(input, need < len ? need : len, &net);
    if (refusal) {
        printf("refused %u\n", refusal);
        return;
    }
    ref_run_steps(&run, &net, input + need, len - need);
    printf("taken %zu idle %zu unknown %zu stopped %u\n", run.taken, run.idle, run.unknown, ref_stopped(&run));
    for (unsigned i = 1; i <= net.n; i++)
        for (unsigned k = 1; k <= net.n; k++)
            print_entry(i, k);
}

/* Two of three are accepted; of the others one half has a fault, and one half ends inside the network. */
void print_input(void)
{
    random_network(&net);
    size_t len = ref_network_bytes(&net, input), count = random_length();
    uint8_t *steps = input + MOST_NETWORK + 1; /* a fault may make the network one byte longer */
    random_steps(&net, random_below(STEP_KINDS), steps, count);
    unsigned way = random_below(6);
    if (way == 0)
        len = spoil_somehow(input, len);
    if (way == 1) {
        len = random_below((unsigned)len);
        count = 0;
    }
    fwrite(input, 1, len, stdout);
    fwrite(steps, 1, count, stdout);
}
