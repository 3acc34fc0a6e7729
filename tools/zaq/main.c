/* zaq: houses, their routes and their table files, from a command line. */
#include "command.h"
#include <string.h>

static int run(int count, char **words)
{
    struct quote quote;
    struct call call;
    if (count < 2)
        return say(FAILED, "a command is missing; zaq help lists them");
    if (strcmp(words[1], "--version") == 0 || strcmp(words[1], "--help") == 0) {
        if (count > 2)
            return say(FAILED, "%s: one word too many, '%s'", words[1], quote_word(&quote, words[2]));
        if (words[1][2] == 'h')
            return help_of(NULL);
        puts("zaq " ZAQ_VERSION);
        return DONE;
    }
    const struct command *command = find_command(words[1]);
    if (!command)
        return say(FAILED, "there is no command '%s'; zaq help lists them", quote_word(&quote, words[1]));
    int status = read_call(command, count - 2, words + 2, &call);
    if (status)
        return status;
    return call.help ? help_of(command->name) : command->run(&call);
}

int main(int count, char **words)
{
    guard_standard_files();
    return close_standard_output(run(count, words));
}
