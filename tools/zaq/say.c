#include "say.h"
#include "zaqfinell.h"
#include <errno.h>
#include <stdarg.h>
#include <string.h>

static int tell(int status, const char *path, const char *form, va_list rest)
{
    fputs("zaq: ", stderr);
    if (path) {
        put_shown(stderr, path);
        fputs(": ", stderr);
    }
    vfprintf(stderr, form, rest);
    fputc('\n', stderr);
    return status;
}

int say(int status, const char *form, ...)
{
    va_list rest;
    va_start(rest, form);
    tell(status, NULL, form, rest);
    va_end(rest);
    return status;
}

int say_of(int status, const char *path, const char *form, ...)
{
    va_list rest;
    va_start(rest, form);
    tell(status, path, form, rest);
    va_end(rest);
    return status;
}

int say_at(int status, const char *path, size_t line, size_t column, const char *words)
{
    fputs("zaq: ", stderr);
    put_shown(stderr, path);
    fprintf(stderr, ":%lu:%lu: %s\n", (unsigned long)line, (unsigned long)column, words);
    return status;
}

int say_failed(const char *path)
{
    return say_of(FAILED, path, "%s", strerror(errno));
}

int say_refused(const char *path, uint32_t refusal)
{
    return say_of(REFUSED, path, "refused %u: %s", (unsigned)refusal, zaq_words(refusal));
}
