/* The outside tests on the board: those that need no process, no file and no page of memory, the quick tenth of them. */
#include "../../outside/test.h"
#include "board.h"
#include <string.h>

enum { MOST_TOLD = 10, EDGE = 1 << 20, SEED = 20011 };

static unsigned long passed, failed;

void check(int ok, const char *what)
{
    if (ok) {
        passed++;
        return;
    }
    failed++;
    if (failed > MOST_TOLD)
        return;
    say("FAILED: ");
    say(what);
    say("\n");
}

void same_answer(enum call call, uint32_t got, uint32_t want, const char *what)
{
    (void)call;
    check(got == want, what);
}

/* What a check is about, and how often each answer was seen, is told by the same tests under an operating system. */
void about(const char *name, const uint8_t *bytes, size_t len)
{
    (void)name, (void)bytes, (void)len;
}

void about_number(const char *name, uint32_t number)
{
    (void)name, (void)number;
}

void saw_distance(enum call call, unsigned distance)
{
    (void)call, (void)distance;
}

unsigned rounds(unsigned full)
{
    return (full + 9) / 10;
}

enum part part_run(void)
{
    return ALL;
}

int is_quick(void)
{
    return 1;
}

/* No page ends where these bytes end, but nothing follows them that a test would take for right. */
const uint8_t *at_edge(unsigned place, const uint8_t *bytes, size_t len)
{
    static uint8_t memory[3][EDGE];
    if (len > EDGE) {
        say("too many bytes for an edge\n");
        leave(2);
    }
    return len ? memcpy(memory[place] + EDGE - len, bytes, len) : memory[place] + EDGE;
}

const zaq_arc *list_at_edge(const struct ref_net *net)
{
    zaq_arc list[MOST_ARCS];
    return (const zaq_arc *)at_edge(2, (const uint8_t *)list, arc_list(net, list) * sizeof *list);
}

static void group(const char *name, void (*test)(void))
{
    unsigned long before = passed + failed;
    test();
    say(name);
    say(": ");
    say_number(passed + failed - before);
    say(" checks\n");
}

int main(void)
{
    random_seed(SEED);
    group("01's examples", test_examples);
    group("networks", test_networks);
    group("runs", test_runs);
    group("entries and routes", test_entries);
    group("arc lists", test_arcs);
    group("rooms of every size", test_rooms);
    group("writing files", test_files);
    group("reading files", test_reading);
    say_number(passed);
    say(" passed, ");
    say_number(failed);
    say(" failed\n");
    return failed != 0 || passed == 0;
}
