#include "files.h"
#include <errno.h>
#include <stdlib.h>
#include <string.h>

enum { FIRST_ROOM = 4096 };

int is_standard(const char *path)
{
    return strcmp(path, "-") == 0;
}

const char *input_name(const char *path)
{
    return is_standard(path) ? "standard input" : path;
}

int has_room(struct bytes *bytes, size_t more)
{
    size_t room = bytes->room ? bytes->room : FIRST_ROOM;
    while (room - bytes->len < more && room <= SIZE_MAX / 2)
        room *= 2;
    uint8_t *at = room - bytes->len < more ? NULL : room == bytes->room ? bytes->at : realloc(bytes->at, room);
    if (!at) {
        say(FAILED, "out of memory");
        return 0;
    }
    bytes->at = at;
    bytes->room = room;
    return 1;
}

static int read_stream(FILE *file, const char *name, size_t most, struct bytes *bytes)
{
    size_t got;
    do {
        if (!has_room(bytes, FIRST_ROOM))
            return FAILED;
        got = fread(bytes->at + bytes->len, 1, FIRST_ROOM, file);
        bytes->len += got;
    } while (got > 0 && bytes->len <= most);
    return ferror(file) ? say_failed(name) : DONE;
}

/* Nothing is left on the heap after a status. */
static int kept_or_freed(int status, struct bytes *bytes)
{
    if (status) {
        free(bytes->at);
        bytes->at = NULL;
    }
    return status;
}

int read_beginning(const char *path, size_t most, struct bytes *bytes)
{
    int standard = is_standard(path);
    FILE *file = standard ? stdin : fopen(path, "rb");
    *bytes = (struct bytes){NULL, 0, 0};
    if (!file)
        return say_failed(path);
    int status = read_stream(file, input_name(path), most, bytes);
    if (!standard)
        fclose(file);
    return kept_or_freed(status, bytes);
}

int read_bytes(const char *path, size_t most, struct bytes *bytes)
{
    int status = read_beginning(path, most, bytes);
    if (status == DONE && bytes->len > most)
        status = say_of(FAILED, input_name(path), "too long: over %lu bytes", (unsigned long)most);
    return kept_or_freed(status, bytes);
}
