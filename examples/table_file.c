/* What a device does with its table: check the house, run it, bring the table to a file, lose power while writing, read what is left.
 *
 * usage: table_file FILE [KEEP]
 *
 * Writes node 1's table to FILE, reads it back, cuts FILE to its first KEEP bytes (4 if not given), and reads it again. */
#define _POSIX_C_SOURCE 200809L /* truncate */
#include "zaqfinell.h"
#include <errno.h>
#include <stdio.h>
#include <stdlib.h>
#include <string.h>
#include <unistd.h>

enum { DEVICES = 3, THIS_DEVICE = 1 };

/* three devices, LMAX 4: arcs 1 to 2 of length 1, 2 to 3 of 1, 1 to 3 of 2, 3 to 1 of 4 */
static const uint8_t house[] = {0x12, 0x40, 0x04, 0x01, 0x11, 0x21, 0x02, 0x22, 0x04};
enum { ARCS = 4, ROUNDS = 30 };

static const char usage[] = "usage: table_file FILE [KEEP]\n"
                            "Writes node 1's table to FILE, reads it, cuts it to KEEP bytes (4 if not given), reads it again.\n";

/* Tells what was refused, on standard error. */
static int refused(const char *what, uint32_t answer)
{
    if (zaq_refusal(answer) == 0)
        return 0;
    fprintf(stderr, "%s: refused %u: %s\n", what, (unsigned)zaq_refusal(answer), zaq_words(zaq_refusal(answer)));
    return 1;
}

static int system_failed(const char *path)
{
    fprintf(stderr, "%s: %s\n", path, strerror(errno));
    return 1;
}

/* Every device starts, then every arc delivers, round after round. */
static size_t make_steps(uint8_t steps[DEVICES + ARCS * ROUNDS])
{
    size_t count = 0;
    for (unsigned device = 1; device <= DEVICES; device++)
        steps[count++] = (uint8_t)(device - 1);
    for (unsigned k = 0; k < ARCS * ROUNDS; k++)
        steps[count++] = (uint8_t)(16 + k % ARCS);
    return count;
}

/* Runs the house and writes this device's table; how many bytes it has, or -1. */
static long write_file(const char *path)
{
    uint8_t steps[DEVICES + ARCS * ROUNDS], file[ZAQ_FILE_ROOM];
    size_t count = make_steps(steps);
    uint32_t answer = zaq_write_table(house, sizeof house, steps, count, THIS_DEVICE, file, sizeof file);
    if (refused("the table", answer))
        return -1;
    FILE *disk = fopen(path, "wb");
    if (disk == NULL) {
        system_failed(path);
        return -1;
    }
    size_t written = fwrite(file, 1, zaq_written(answer), disk);
    if (fclose(disk) != 0 || written != zaq_written(answer)) {
        system_failed(path);
        return -1;
    }
    return (long)written;
}

/* One device's entry in plain words. */
static void tell(unsigned device, uint32_t answer)
{
    if (zaq_refusal(answer) == ZAQ_FILE_TOO_SHORT)
        printf("  device %u: the file is too short to say anything (refusal 14)\n", device);
    else if (zaq_refusal(answer))
        printf("  device %u: the file is damaged (refusal %u)\n", device, (unsigned)zaq_refusal(answer));
    else if (zaq_distance(answer) == ZAQ_UNKNOWN)
        printf("  device %u: not known yet\n", device);
    else if (zaq_distance(answer) == ZAQ_UNREACHABLE)
        printf("  device %u: cannot be reached\n", device);
    else if (zaq_hop(answer) == 0)
        printf("  device %u: this one\n", device);
    else
        printf("  device %u: at distance %u, first hop %u\n", device, (unsigned)zaq_distance(answer), (unsigned)zaq_hop(answer));
}

static int read_file(const char *path)
{
    uint8_t file[ZAQ_FILE_ROOM + 1]; /* one more, so that a longer file is not taken for a whole one */
    FILE *disk = fopen(path, "rb");
    if (disk == NULL)
        return system_failed(path);
    size_t len = fread(file, 1, sizeof file, disk);
    int failed = ferror(disk);
    fclose(disk);
    if (failed)
        return system_failed(path);
    printf("Bytes in the file: %u\n", (unsigned)len);
    for (unsigned device = 1; device <= DEVICES; device++)
        tell(device, zaq_read_entry(file, len, device));
    return 0;
}

/* The second argument, 0 to 27; -1 if it is anything else. */
static long read_keep(const char *text)
{
    char *end;
    long keep = strtol(text, &end, 10);
    return end == text || *end != '\0' || keep < 0 || keep > ZAQ_FILE_ROOM ? -1 : keep;
}

/* Cuts the file as a loss of power does, and reads it before and after. */
static int cut(const char *path, long len, long keep)
{
    if (keep > len) {
        fprintf(stderr, "%s has %ld bytes: it cannot be cut to %ld\n", path, len, keep);
        return 2;
    }
    if (read_file(path))
        return 1;
    if (truncate(path, keep) != 0)
        return system_failed(path);
    printf("Power was lost after byte %ld.\n", keep);
    return read_file(path);
}

int main(int argc, char **argv)
{
    if (argc == 2 && strcmp(argv[1], "--help") == 0) {
        fputs(usage, stdout);
        return 0;
    }
    if (argc < 2 || argc > 3) {
        fputs(usage, stderr);
        return 2;
    }
    long keep = argc == 3 ? read_keep(argv[2]) : 4;
    if (keep < 0) {
        fprintf(stderr, "KEEP is a number from 0 to %d, not '%s'\n", ZAQ_FILE_ROOM, argv[2]);
        return 2;
    }
    if (refused("the house", zaq_check_network(house, sizeof house)))
        return 1;
    long len = write_file(argv[1]);
    return len < 0 ? 1 : cut(argv[1], len, keep);
}
