/* Reading one entry from a table file, by the library and by plain C. Each case is many files of one kind. */
#include "bench.h"
#include "houses.h"
#include "plain.h"
#include "../tests/outside/in_header.h"
#include <string.h>

enum { FILES = 64, OTHERS = 15, TRIALS = 20000 };

/* What is asked for: a target with a record, one without, or any target of a file that is cut anywhere after its header. */
enum asked { KNOWN, ABSENT, CUT };

struct read_case {
    const char *name;
    unsigned records, stopped;
    enum asked asked;
};

static const struct read_case cases[] = {
    {"no record, unreachable", 0, 1, ABSENT},
    {"3 records, known", 3, 1, KNOWN},
    {"3 records, unreachable", 3, 1, ABSENT},
    {"3 records, unknown", 3, 0, ABSENT},
    {"8 records, known", 8, 1, KNOWN},
    {"8 records, unreachable", 8, 1, ABSENT},
    {"8 records, unknown", 8, 0, ABSENT},
    {"8 records, cut", 8, 1, CUT},
    {"15 records, known", 15, 1, KNOWN},
    {"15 records, cut", 15, 1, CUT},
};

struct asked_file {
    uint8_t bytes[32];
    size_t len;
    uint32_t target;
};

static struct asked_file files[FILES];
static volatile uint32_t sink;

static void by_library(void)
{
    for (int k = 0; k < FILES; k++)
        sink = zaq_read_entry(files[k].bytes, files[k].len, files[k].target);
}

static void by_plain_O2(void)
{
    for (int k = 0; k < FILES; k++)
        sink = plain_read_O2(files[k].bytes, files[k].len, files[k].target);
}

static void by_plain_O3(void)
{
    for (int k = 0; k < FILES; k++)
        sink = plain_read_O3(files[k].bytes, files[k].len, files[k].target);
}

static size_t put_bits(uint8_t *bytes, size_t place, unsigned width, unsigned value)
{
    for (unsigned k = width; k-- > 0; place++)
        bytes[place / 8] = (uint8_t)((bytes[place / 8] & ~(128 >> place % 8)) | (value >> k & 1) << (7 - place % 8));
    return place;
}

/* A file in a house of sixteen, with records for the case's first targets of `others`; and a target. */
static void build_file(struct asked_file *f, const struct read_case *c, unsigned own, const uint8_t *others)
{
    size_t place = 16;
    memset(f->bytes, c->stopped ? 0 : 255, sizeof f->bytes);
    put_bits(f->bytes, 0, 16, 1u << 12 | own << 8 | 0xFF);
    for (unsigned k = 0; k < c->records; k++) {
        unsigned hop = (own + 1 + random_below(OTHERS)) % 16, by = k ? random_below(16) : 1 + random_below(15);
        place = put_bits(f->bytes, place, 13, 1u << 12 | (unsigned)others[k] << 8 | hop << 4 | by);
    }
    f->len = (place + c->stopped + 7) / 8;
    if (c->asked == CUT)
        f->len = 2 + random_below((uint32_t)f->len - 2);
    unsigned first = c->asked == ABSENT ? c->records : 0, last = c->asked == KNOWN ? c->records : OTHERS;
    f->target = others[first + random_below(last - first)] + 1u;
}

static void build_case(const struct read_case *c)
{
    for (int k = 0; k < FILES; k++) {
        uint8_t others[OTHERS];
        unsigned own = random_below(16);
        for (unsigned y = 0; y < OTHERS; y++)
            others[y] = (uint8_t)((own + 1 + y) % 16);
        mix(others, OTHERS);
        build_file(&files[k], c, own, others);
    }
}

/* What document 01 says, by the simulation of the outside tests. */
static uint32_t expected(const struct asked_file *f)
{
    struct ref_file file;
    unsigned refusal = ref_read_file(f->bytes, f->len, &file);
    if (refusal)
        return refusal;
    if (f->target < 1 || f->target > file.n)
        return 11;
    return entry_answer(ref_file_entry(&file, f->target));
}

/* A wrong rival is none. */
static void must_agree(const struct asked_file *f, const char *name)
{
    uint32_t want = expected(f), library = zaq_read_entry(f->bytes, f->len, f->target);
    uint32_t plain_2 = plain_read_O2(f->bytes, f->len, f->target), plain_3 = plain_read_O3(f->bytes, f->len, f->target);
    if (library == want && plain_2 == want && plain_3 == want)
        return;
    printf("%s: the answer is %x; the library says %x, plain C %x and %x\n", name, want, library, plain_2, plain_3);
    exit(1);
}

/* The case's files, and files with other bits, lengths and targets, most of which are refused. */
static void check_rivals(const char *name)
{
    for (int k = 0; k < FILES; k++)
        must_agree(&files[k], name);
    for (int k = 0; k < TRIALS; k++) {
        struct asked_file f = files[k % FILES];
        for (unsigned flips = random_below(4); flips > 0; flips--)
            f.bytes[random_below(28)] ^= (uint8_t)(1 << random_below(8));
        f.len = random_below(2) ? f.len : random_below(sizeof f.bytes);
        f.target = random_below(19);
        must_agree(&f, name);
    }
}

int main(void)
{
    const work rivals[] = {by_library, by_plain_O2, by_plain_O3};
    begin_table("reading an entry", "ns", 1.2);
    for (size_t k = 0; k < sizeof cases / sizeof *cases; k++) {
        build_case(&cases[k]);
        check_rivals(cases[k].name);
        struct timing t = compare(rivals, 3);
        print_row(cases[k].name, t.least[LIBRARY] / FILES, t, 1.2);
        printf("\n");
    }
    return 0;
}
