/* The outside tests: the static library, as C calls it, against an independent reading of document 01.
 * usage: outside [quick] [SEED]   the tests, or a tenth of them up to the first group with a failure
 *        outside files [SEED]     those that read files, and outside others [SEED] all others: the two can run at once
 *        outside print            what document 01 says House table prints for standard input
 *        outside input SEED       a random input for House table */
#include "test.h"
#include <stdio.h>
#include <stdlib.h>
#include <string.h>
#include <time.h>

enum { MOST_SHOWN = 700 };

static unsigned long passed, failed;
static int quick;
static enum part part;

int is_quick(void)
{
    return quick;
}

unsigned rounds(unsigned full)
{
    return quick ? (full + 9) / 10 : full;
}

/* what the checks are about; without bytes it is a number */
static struct {
    const char *name;
    const uint8_t *bytes;
    size_t len;
} shown[6];

static void show(const char *name, const uint8_t *bytes, size_t len)
{
    for (unsigned k = 0; k < sizeof shown / sizeof *shown; k++)
        if (shown[k].name == NULL || strcmp(shown[k].name, name) == 0) {
            shown[k].name = name;
            shown[k].bytes = bytes;
            shown[k].len = len;
            return;
        }
}

void about(const char *name, const uint8_t *bytes, size_t len)
{
    show(name, bytes, len);
}

void about_number(const char *name, uint32_t number)
{
    show(name, NULL, number);
}

void check(int ok, const char *what)
{
    if (ok) {
        passed++;
        return;
    }
    failed++;
    if (failed > 10)
        return;
    printf("FAILED: %s\n", what);
    for (unsigned k = 0; k < sizeof shown / sizeof *shown && shown[k].name; k++) {
        printf("  %s: %zu", shown[k].name, shown[k].len);
        for (size_t b = 0; shown[k].bytes && b < shown[k].len && b < MOST_SHOWN; b++)
            printf("%s %02X", b == 0 ? " bytes" : "", shown[k].bytes[b]);
        printf("%s\n", shown[k].bytes && shown[k].len > MOST_SHOWN ? " .." : "");
    }
}

enum part part_run(void)
{
    return part;
}

static const struct {
    const char *name;
    void (*test)(void);
    enum part part;
} tests[] = {
    {"the list of refusals", test_words, OTHERS},
    {"01's examples", test_examples, OTHERS},
    {"how long a run can get", test_most_taken, OTHERS},
    {"networks", test_networks, OTHERS},
    {"runs", test_runs, OTHERS},
    {"entries and routes", test_entries, OTHERS},
    {"arc lists", test_arcs, OTHERS},
    {"rooms of every size", test_rooms, OTHERS},
    {"writing files", test_files, OTHERS},
    {"reading files", test_reading, FILES},
    {"a killed writer", test_killed_writer, FILES},
    {"what was seen", test_seen, ALL},
};

static void run_tests(void)
{
    for (size_t k = 0; k < sizeof tests / sizeof *tests && !(quick && failed); k++) {
        if (part != ALL && tests[k].part != ALL && tests[k].part != part)
            continue;
        unsigned long passed_before = passed, failed_before = failed;
        clock_t began = clock();
        memset(shown, 0, sizeof shown);
        tests[k].test();
        printf("%s: %lu checks, %lu failed, %.1f s\n", tests[k].name, passed + failed - passed_before - failed_before,
            failed - failed_before, (double)(clock() - began) / CLOCKS_PER_SEC);
        fflush(stdout);
    }
}

/* A seed; 0 where the word is none. */
static uint32_t seed_of(const char *word)
{
    char *end;
    unsigned long seed = strtoul(word, &end, 10);
    return *word >= '0' && *word <= '9' && *end == '\0' ? (uint32_t)seed : 0;
}

int main(int argc, char **argv)
{
    const char *word = argc > 1 ? argv[1] : "";
    quick = strcmp(word, "quick") == 0;
    part = strcmp(word, "files") == 0 ? FILES : strcmp(word, "others") == 0 ? OTHERS : ALL;
    int input = strcmp(word, "input") == 0, place = quick || input || part != ALL ? 2 : 1;
    if (argc == 2 && strcmp(word, "print") == 0) {
        print_house();
        return 0;
    }
    uint32_t seed = argc > place ? seed_of(argv[place]) : 20011;
    if (argc > place + 1 || seed == 0) {
        fprintf(stderr, "usage: outside [quick|files|others] [SEED] | print | input SEED    SEED is a number from 1 on\n");
        return 2;
    }
    random_seed(seed);
    if (input) {
        print_input();
        return 0;
    }
    printf("seed %lu\n", (unsigned long)seed);
    fflush(stdout);
    run_tests();
    printf("%lu passed, %lu failed\n", passed, failed);
    return failed != 0;
}
