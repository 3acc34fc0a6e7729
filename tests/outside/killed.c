/* A writer that is killed: a child process writes a table file byte by byte and is killed after byte k, for every k. The parent reads
 * what has remained. */
#define _POSIX_C_SOURCE 200809L
#include "test.h"
#include <signal.h>
#include <stdio.h>
#include <stdlib.h>
#include <string.h>
#include <sys/wait.h>
#include <unistd.h>

static struct ref_net net;
static struct ref_run run;

static void give_up(const char *what)
{
    perror(what);
    exit(2);
}

/* Writes k bytes, one at a time, tells it, and waits to be killed. */
static void child(int disk, int tell, const uint8_t *bytes, size_t k)
{
    for (size_t b = 0; b < k; b++)
        if (write(disk, bytes + b, 1) != 1)
            _exit(1);
    if (write(tell, "", 1) != 1)
        _exit(1);
    for (;;)
        pause();
}

/* Starts a writer and kills it after byte k; what has remained, and how many bytes. */
static size_t killed_after(const uint8_t *bytes, size_t k, uint8_t *left, size_t size)
{
    FILE *disk = tmpfile();
    int line[2], status = 0;
    char told;
    if (disk == NULL || pipe(line) != 0)
        give_up("file and pipe for a child");
    fflush(NULL);
    pid_t pid = fork();
    if (pid < 0)
        give_up("child");
    if (pid == 0)
        child(fileno(disk), line[1], bytes, k);
    close(line[1]);
    check(read(line[0], &told, 1) == 1, "the child has written its bytes");
    kill(pid, SIGKILL);
    check(waitpid(pid, &status, 0) == pid && WIFSIGNALED(status) && WTERMSIG(status) == SIGKILL, "the child was killed");
    close(line[0]);
    ssize_t len = pread(fileno(disk), left, size, 0);
    fclose(disk);
    return len < 0 ? 0 : (size_t)len;
}

/* The library writes the file; a child brings it to disk and dies. */
static void every_kill(unsigned node, const uint8_t *steps, size_t count)
{
    uint8_t network[MOST_NETWORK], file[ZAQ_FILE_ROOM], left[2 * ZAQ_FILE_ROOM];
    size_t len = ref_network_bytes(&net, network);
    uint32_t answer = zaq_write_table(network, len, steps, count, node, file, sizeof file);
    check(zaq_refusal(answer) == 0, "a file to be brought to disk");
    for (size_t k = 0; k <= zaq_written(answer); k++) {
        size_t remained = killed_after(file, k, left, sizeof left);
        check(remained == k && memcmp(left, file, k) == 0, "the bytes written have remained");
        check_cut(&run, node, left, remained, zaq_written(answer));
    }
}

void test_killed_writer(void)
{
    static uint8_t steps[4000];
    for (unsigned round = 0; round < rounds(30); round++) {
        size_t count = round % 2 ? sizeof steps : 40 + random_below(300);
        do
            random_network(&net);
        while (net.n < 4 || net.arcs < net.n);
        random_steps(&net, 0, steps, count);
        ref_run_steps(&run, &net, steps, count);
        every_kill(1 + random_below(net.n), steps, count);
    }
}
