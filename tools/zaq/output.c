#define _XOPEN_SOURCE 700 /* open_memstream, fsync, realpath */
#include "files.h"
#include <errno.h>
#include <fcntl.h>
#include <signal.h>
#include <stdlib.h>
#include <string.h>
#include <sys/stat.h>
#include <unistd.h>

/* A new file beside `place`, with the rights of the old file if there is one; its descriptor, or -1 (errno). */
static int make_temporary(struct output *out, const struct stat *old)
{
    const char *slash = strrchr(out->place, '/');
    int folder = slash ? (int)(slash - out->place) + 1 : 0, made = -1;
    size_t room = (size_t)folder + 64;
    out->temporary = malloc(room);
    if (!out->temporary)
        return -1;
    errno = EEXIST;
    for (unsigned turn = 0; made < 0 && errno == EEXIST && turn < 1000; turn++) {
        snprintf(out->temporary, room, "%.*s.zaq-%ld-%u", folder, out->place, (long)getpid(), turn);
        made = open(out->temporary, O_WRONLY | O_CREAT | O_EXCL, 0666);
    }
    if (made >= 0 && old && fchmod(made, old->st_mode & 07777) != 0) {
        int why = errno;
        close(made);
        unlink(out->temporary);
        errno = why;
        made = -1;
    }
    return made;
}

static char *copy(const char *text)
{
    char *made = malloc(strlen(text) + 1);
    return made ? strcpy(made, text) : NULL;
}

/* Opens the temporary file for a place that is a file or nothing yet. */
static int open_beside(struct output *out, const struct stat *old)
{
    struct stat link;
    if (!old && lstat(out->path, &link) == 0) { /* renaming would replace a link to nothing, and not make what it names */
        errno = ENOENT;
        return -1;
    }
    /* who may not write to the old file may not replace it */
    if (old && access(out->path, W_OK) != 0)
        return -1;
    out->place = old ? realpath(out->path, NULL) : copy(out->path);
    return out->place ? make_temporary(out, old) : -1;
}

static int is_same(const struct stat *one, const struct stat *other)
{
    return one->st_dev == other->st_dev && one->st_ino == other->st_ino;
}

/* Whether a file is one of the inputs; a device or a pipe holds nothing that could be destroyed. */
static int is_input(const struct stat *file, const char *const inputs[MOST_INPUTS])
{
    struct stat input;
    for (int k = 0; k < MOST_INPUTS && S_ISREG(file->st_mode); k++)
        if (inputs[k] && (is_standard(inputs[k]) ? fstat(STDIN_FILENO, &input) : stat(inputs[k], &input)) == 0 && is_same(file, &input))
            return 1;
    return 0;
}

/* The descriptor by which the caller has opened this file for writing, or -1. Its name may be /dev/stdout: replacing the file would lose
 * what others write to it before and after. */
static int find_open(const struct stat *file)
{
    enum { LAST = 255 }; /* shells hand over lower ones */
    struct stat other;
    for (int number = STDOUT_FILENO; number <= LAST; number++) {
        int flags = fcntl(number, F_GETFL);
        if (flags >= 0 && (flags & O_ACCMODE) != O_RDONLY && fstat(number, &other) == 0 && is_same(file, &other))
            return number;
    }
    return -1;
}

/* Opens what is there (`old`), or makes it. */
static int open_path(struct output *out, const struct stat *old)
{
    int given = old ? find_open(old) : -1;
    if (given >= 0)
        return given;
    /* a device or a pipe is written to, not replaced; a folder is refused by the system */
    return old && !S_ISREG(old->st_mode) ? open(out->path, O_WRONLY) : open_beside(out, old);
}

/* Frees what the output holds, and gives the status; errno is still that of `why`. */
static int end(struct output *out, int status, int why)
{
    free(out->text);
    free(out->place);
    free(out->temporary);
    errno = why;
    return why ? say_failed(out->path) : status;
}

int open_output(struct output *out, const char *path, const char *const inputs[MOST_INPUTS])
{
    struct stat old;
    int standard = !path || is_standard(path), there = (standard ? fstat(STDOUT_FILENO, &old) : stat(path, &old)) == 0;
    *out = (struct output){.path = standard ? "standard output" : path};
    if (there && is_input(&old, inputs))
        return say_of(FAILED, out->path, "this is also an input, and stays as it was; the output needs another name");
    out->to = standard ? STDOUT_FILENO : open_path(out, there ? &old : NULL);
    if (out->to >= 0)
        out->file = open_memstream(&out->text, &out->len);
    if (out->file)
        return DONE;
    int why = errno;
    if (out->to >= 0 && out->temporary)
        unlink(out->temporary);
    return end(out, FAILED, why);
}

/* 0, or why not everything is written (errno). */
static int write_all(int to, const char *text, size_t len)
{
    while (len > 0) {
        ssize_t written = write(to, text, len);
        if (written < 0 && errno != EINTR)
            return errno;
        if (written > 0) {
            text += written;
            len -= (size_t)written;
        }
    }
    return 0;
}

int close_output(struct output *out, int status)
{
    int why = fclose(out->file) != 0 ? errno : 0;
    if (!why && status == DONE)
        why = write_all(out->to, out->text, out->len);
    if (!why && out->temporary && fsync(out->to) != 0)
        why = errno;
    if (out->to > STDERR_FILENO && close(out->to) != 0 && !why)
        why = errno;
    if (!why && status == DONE && out->temporary && rename(out->temporary, out->place) != 0)
        why = errno;
    if (out->temporary && (why || status != DONE))
        unlink(out->temporary);
    return end(out, status, why);
}

int close_standard_output(int status)
{
    int lost = ferror(stdout); /* an earlier write failed, and its errno may be gone */
    if (fclose(stdout) != 0)
        return say_failed("standard output");
    return lost ? say_of(FAILED, "standard output", "not everything could be written") : status;
}

void guard_standard_files(void)
{
    for (int number = 0; number < 3; number++)
        if (fcntl(number, F_GETFD) < 0 && open("/dev/null", number == 0 ? O_WRONLY : O_RDONLY) < 0)
            _Exit(FAILED); /* there is nowhere to say it */
    signal(SIGPIPE, SIG_IGN);
    signal(SIGXFSZ, SIG_IGN); /* a file over the limit of its size */
}
