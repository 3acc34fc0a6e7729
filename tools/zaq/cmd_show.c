/* zaq show: what table files say. */
#include "command.h"
#include "tell.h"

/* What is shown: the files read so far, and the house that they should be of, if one was given. */
struct showing {
    int json;
    const struct house *house; /* or NULL */
    struct outcome finished;
    unsigned files, whole, without_end, refused, failed;
};

static void tell_file(const struct showing *showing, const char *name, const struct table_file *file)
{
    put_shown(stdout, name);
    fputs(": the table of ", stdout);
    put_node(stdout, showing->house, file->table.own);
    fputs(", in a house of ", stdout);
    put_number(stdout, file->n, "device");
    printf(" with LMAX %u\n", (unsigned)file->lmax);
    if (file->end_mark)
        puts("  whole: the end mark is there");
    else if (knows_all(file->table.entries, file->n))
        puts("  no end mark, but no target is unknown: nothing is missing");
    else
        puts("  no end mark: the file was cut, or its device had not stopped when it was written");
    for (uint32_t target = 1; target <= file->n; target++) {
        fputs("  to ", stdout);
        put_node(stdout, showing->house, target);
        fputs(": ", stdout);
        put_entry(stdout, showing->house, entry_of(file->table.entries, target));
        putchar('\n');
    }
}

/* A file as a JSON object; `reason` is why it is not of this house, or NULL. */
static void put_json_file(const struct showing *showing, const char *name, const struct table_file *file, const char *reason)
{
    fputs(showing->files ? ", {\"file\": " : "{\"file\": ", stdout);
    put_json(stdout, name);
    if (!file) {
        fputs(", \"read\": false}", stdout);
        return;
    }
    fputs(", \"read\": true, ", stdout);
    if (file->refusal) {
        printf("\"refusal\": %u, \"words\": ", (unsigned)file->refusal);
        put_json(stdout, zaq_words(file->refusal));
        putchar('}');
        return;
    }
    printf("\"refusal\": null, \"node\": %u, \"n\": %u, \"lmax\": %u, \"end_mark\": %s, ", (unsigned)file->table.own, (unsigned)file->n,
        (unsigned)file->lmax, json_truth(file->end_mark));
    if (showing->house) {
        printf("\"of_this_house\": %s, \"words\": ", json_truth(!reason));
        put_json(stdout, reason);
        fputs(", ", stdout);
    }
    put_json_table(stdout, file->table.entries, file->n);
    putchar('}');
}

/* Tells what is wrong with a file, or what it says; gives the status. */
static int show_file(struct showing *showing, const char *path)
{
    const char *name = input_name(path);
    struct table_file file;
    char reason[REASON_ROOM];
    int status = read_table_file(path, &file), another = 0;
    if (status == FAILED) {
        showing->failed++;
    } else if (file.refusal) {
        status = say_refused(name, file.refusal);
    } else if (showing->house && is_of_another(&file, showing->house, &showing->finished, reason)) {
        another = 1;
        status = say_of(REFUSED, name, "not of this house: %s", reason);
    }
    if (showing->json)
        put_json_file(showing, name, status == FAILED ? NULL : &file, another ? reason : NULL);
    else if (status == DONE)
        tell_file(showing, name, &file);
    showing->files++;
    showing->refused += status == REFUSED;
    showing->whole += status == DONE && file.end_mark;
    showing->without_end += status == DONE && !file.end_mark;
    return status;
}

static void tell_sum(const struct showing *showing)
{
    if (showing->json)
        printf("], \"whole\": %u, \"without_end_mark\": %u, \"refused\": %u, \"not_read\": %u}\n", showing->whole, showing->without_end,
            showing->refused, showing->failed);
    else if (showing->files > 1)
        printf("%u files: %u whole, %u without an end mark, %u refused, %u not read\n", showing->files, showing->whole,
            showing->without_end, showing->refused, showing->failed);
}

int show_command(const struct call *call)
{
    struct house house;
    struct showing showing = {.json = call->json, .house = call->house ? &house : NULL};
    if (call->net && !call->house)
        return say(FAILED, "show: --net says how the file of --house is read, and there is no --house");
    int status = call->house ? load_or_answer(call, call->house, &house) : DONE;
    if (status == DONE && call->house)
        status = finish(&house, &showing.finished);
    if (status)
        return status;
    if (call->json && call->house) {
        putchar('{');
        put_json_devices(stdout, &house);
        fputs(", \"files\": [", stdout);
    } else if (call->json) {
        fputs("{\"devices\": null, \"files\": [", stdout);
    }
    for (int k = 0; k < call->count; k++) {
        int one = show_file(&showing, call->words[k]);
        status = one > status ? one : status;
    }
    tell_sum(&showing);
    return status;
}
