#include "tell.h"

void put_node(FILE *out, const struct house *house, uint32_t node)
{
    if (house && house->names[node][0])
        fprintf(out, "%u (%s)", (unsigned)node, house->names[node]);
    else
        fprintf(out, "node %u", (unsigned)node);
}

void put_entry(FILE *out, const struct house *house, struct entry entry)
{
    if (entry.distance == ZAQ_UNKNOWN)
        fputs("unknown", out);
    else if (entry.distance == ZAQ_UNREACHABLE)
        fputs("unreachable", out);
    else if (entry.hop == 0)
        fputs("itself", out);
    else {
        fprintf(out, "distance %u, first hop ", (unsigned)entry.distance);
        put_node(out, house, entry.hop);
    }
}

void put_number(FILE *out, uint64_t number, const char *one)
{
    fprintf(out, "%llu %s%s", (unsigned long long)number, one, number == 1 ? "" : "s");
}

void put_counts(FILE *out, uint64_t steps, const uint64_t counts[4])
{
    put_number(out, steps, "step");
    fprintf(out, ": %llu taken, %llu idle, %llu unknown", (unsigned long long)counts[0], (unsigned long long)counts[1],
        (unsigned long long)counts[2]);
}

const char *json_truth(int truth)
{
    return truth ? "true" : "false";
}

void put_json_entry(FILE *out, uint32_t target, struct entry entry)
{
    const char *state = entry.distance == ZAQ_UNKNOWN ? "unknown" : entry.distance == ZAQ_UNREACHABLE ? "unreachable" : "known";
    fprintf(out, "\"target\": %u, \"state\": \"%s\", ", (unsigned)target, state);
    if (is_known(entry))
        fprintf(out, "\"distance\": %u, \"first_hop\": %u", (unsigned)entry.distance, (unsigned)entry.hop);
    else
        fputs("\"distance\": null, \"first_hop\": null", out);
}

void put_json_devices(FILE *out, const struct house *house)
{
    fputs("\"devices\": [", out);
    for (uint32_t node = 1; node <= house->n; node++) {
        fprintf(out, "%s{\"node\": %u, \"name\": ", node == 1 ? "" : ", ", (unsigned)node);
        put_json(out, house->names[node][0] ? house->names[node] : NULL);
        fputc('}', out);
    }
    fputc(']', out);
}

void put_json_counts(FILE *out, uint64_t steps, const uint64_t counts[4])
{
    fprintf(out, "\"steps\": %llu, \"taken\": %llu, \"idle\": %llu, \"unknown\": %llu", (unsigned long long)steps,
        (unsigned long long)counts[0], (unsigned long long)counts[1], (unsigned long long)counts[2]);
}

void put_json_table(FILE *out, const uint16_t *table, uint32_t n)
{
    fputs("\"entries\": [", out);
    for (uint32_t target = 1; target <= n; target++) {
        fputs(target == 1 ? "{" : ", {", out);
        put_json_entry(out, target, entry_of(table, target));
        fputc('}', out);
    }
    fputc(']', out);
}
