/* Table files, as the library reads them. */
#include "run.h"
#include <stdlib.h>
#include <string.h>

/* A file with one more byte is refused as going on after its end mark exactly if it has one: without one, a byte of ones can only continue
 * a record or begin one. */
int has_end_mark(const uint8_t *file, size_t file_len)
{
    uint8_t longer[ZAQ_FILE_ROOM + 1];
    uint16_t room[ZAQ_TABLE_ROOM];
    if (file_len > ZAQ_FILE_ROOM)
        return 0;
    memcpy(longer, file, file_len);
    longer[file_len] = 0xff;
    return zaq_refusal(zaq_read_table(longer, file_len + 1, room, ZAQ_TABLE_ROOM)) == ZAQ_WRONG_FILE_END;
}

int read_table_file(const char *path, struct table_file *file)
{
    struct bytes bytes;
    memset(file, 0, sizeof *file);
    int status = read_beginning(path, MOST_FILE, &bytes);
    if (status)
        return status;
    uint32_t answer = zaq_read_table(bytes.at, bytes.len, file->table.entries, ZAQ_TABLE_ROOM);
    file->refusal = zaq_refusal(answer);
    if (!file->refusal) {
        file->n = zaq_written(answer) / 2;
        file->lmax = bytes.at[1] & 15u; /* docs/FORMATS.md; no call tells it */
        file->end_mark = has_end_mark(bytes.at, bytes.len);
        for (uint32_t node = 1; node <= file->n; node++)
            if (entry_of(file->table.entries, node).hop == 0) /* the node itself only */
                file->table.own = node;
    }
    free(bytes.at);
    return DONE;
}

/* An entry in few words, for a reason. */
static const char *in_words(struct entry entry, char room[40])
{
    if (entry.distance == ZAQ_UNREACHABLE)
        return "unreachable";
    sprintf(room, "distance %u by %u", (unsigned)entry.distance, (unsigned)entry.hop);
    return room;
}

int is_of_another(const struct table_file *file, const struct house *house, const struct outcome *finished, char reason[REASON_ROOM])
{
    char one[40], other[40];
    if (file->n != house->n) {
        snprintf(reason, REASON_ROOM, "it has %u device%s, and the house %u", (unsigned)file->n, file->n == 1 ? "" : "s",
            (unsigned)house->n);
        return REFUSED;
    }
    if (file->lmax != house->lmax) {
        snprintf(reason, REASON_ROOM, "its LMAX is %u, and the house's %u", (unsigned)file->lmax, (unsigned)house->lmax);
        return REFUSED;
    }
    for (uint32_t target = 1; target <= file->n; target++) {
        struct entry told = entry_of(file->table.entries, target);
        struct entry right = entry_of(table_of(house, finished, file->table.own), target);
        /* what is not unknown is right and final, so it is what the finished table says */
        if (told.distance != ZAQ_UNKNOWN && (told.distance != right.distance || told.hop != right.hop)) {
            snprintf(reason, REASON_ROOM, "from %u to %u it says %s, and the house %s", (unsigned)file->table.own, (unsigned)target,
                in_words(told, one), in_words(right, other));
            return REFUSED;
        }
    }
    return DONE;
}
