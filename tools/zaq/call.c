/* The words and options of a call. */
#include "command.h"
#include <string.h>

/* An option that a word may be; `value` is where its value goes, `flag` what it sets. */
struct option {
    const char *name, *wants;
    unsigned takes;
    const char **value;
    int *flag;
};

int read_number(const char *word, uint64_t *number)
{
    *number = 0;
    for (const char *at = word; *at; at++) {
        if (*at < '0' || *at > '9')
            return 0;
        uint64_t digit = (uint64_t)(*at - '0');
        *number = *number > (UINT64_MAX - digit) / 10 ? UINT64_MAX : 10 * *number + digit;
    }
    return *word != '\0';
}

int read_node(const char *word, const struct house *house, uint32_t *node)
{
    struct quote quote;
    uint64_t number;
    if (!read_number(word, &number))
        return say(FAILED, "a node is a number, not '%s'", quote_word(&quote, word));
    *node = number > UINT32_MAX ? UINT32_MAX : (uint32_t)number;
    uint32_t refusal = zaq_refusal(zaq_entry(house->net, house->net_len, NULL, 0, *node, *node));
    if (!refusal)
        return DONE;
    return say(REFUSED, "refused %u: %s (node %s, and n is %u)", (unsigned)refusal, zaq_words(refusal), quote_word(&quote, word),
        (unsigned)house->n);
}

enum form form_of(const struct call *call)
{
    return call->net ? NETWORK : EITHER;
}

/* Takes the option at words[*at], and its value after it. */
static int take_option(const struct command *command, const struct option *option, int count, char **words, int *at)
{
    struct quote quote;
    if (option->takes && !(command->options & option->takes))
        return say(FAILED, "%s takes no %s", command->name, option->name);
    if (option->flag ? *option->flag : *option->value != NULL)
        return say(FAILED, "%s is given twice", option->name);
    if (option->flag) {
        *option->flag = 1;
        return DONE;
    }
    if (*at + 1 >= count)
        return say(FAILED, "%s needs %s after it", option->name, option->wants);
    const char *value = words[++*at];
    if (value[0] == '-' && value[1] != '\0')
        return say(FAILED, "%s needs %s after it, not the option %s", option->name, option->wants, quote_word(&quote, value));
    *option->value = value;
    return DONE;
}

/* Sorts the words: what is no option moves to the front. */
static int sort_words(const struct command *command, int count, char **words, struct call *call)
{
    const struct option options[] = {
        {"-o", "a file's name", TAKES_OUT, &call->out, NULL},      {"--json", NULL, TAKES_JSON, NULL, &call->json},
        {"--net", NULL, TAKES_NET, NULL, &call->net},              {"--every", "a number of steps", TAKES_EVERY, &call->every, NULL},
        {"--house", "a house's file", TAKES_HOUSE, &call->house, NULL}, {"--help", NULL, 0, NULL, &call->help},
    };
    enum { OPTIONS = sizeof options / sizeof *options };
    struct quote quote;
    int ended = 0, status = DONE;
    for (int at = 0; at < count && status == DONE; at++) {
        char *word = words[at];
        size_t which = 0;
        if (ended || word[0] != '-' || word[1] == '\0') {
            call->words[call->count++] = word;
        } else if (strcmp(word, "--") == 0) {
            ended = 1;
        } else {
            while (which < OPTIONS && strcmp(word, options[which].name) != 0)
                which++;
            status = which < OPTIONS ? take_option(command, &options[which], count, words, &at)
                                     : say(FAILED, "%s: unknown option %s", command->name, quote_word(&quote, word));
        }
    }
    return status;
}

/* Standard input can be read once. */
static int reads_twice(const struct call *call)
{
    int standard = call->house && is_standard(call->house);
    for (int k = 0; k < call->count; k++)
        standard += is_standard(call->words[k]);
    return standard > 1;
}

int read_call(const struct command *command, int count, char **words, struct call *call)
{
    struct quote quote;
    *call = (struct call){.words = words};
    int status = sort_words(command, count, words, call);
    if (status || call->help)
        return status;
    if (call->count > command->most)
        return say(FAILED, "%s: one word too many, '%s'; usage: zaq %s", command->name, quote_word(&quote, call->words[command->most]),
            command->usage);
    if (call->count < command->least)
        return say(FAILED, "%s: a word is missing; usage: zaq %s", command->name, command->usage);
    if (command->options & NEEDS_OUT && !call->out)
        return say(FAILED, "%s: -o and a file's name are missing (- is standard output); usage: zaq %s", command->name, command->usage);
    return reads_twice(call) ? say(FAILED, "%s: standard input (-) can be read only once", command->name) : DONE;
}
