/* The commands, and what `zaq help` says of them. */
#include "command.h"
#include <limits.h>
#include <string.h>

static const char pack_help[] = "Makes network bytes of a house text. `zaq help house` says how one is written.\n";
static const char unpack_help[] =
    "Makes a house text of network bytes, which have no names. Packed again, the\n"
    "text gives the same bytes.\n";
static const char check_help[] =
    "Says whether the library accepts the house: how many devices and arcs it has,\n"
    "and how many steps of a run are taken at most, or the refusal's number and words\n"
    "and which arc it is about. Every mistake of a text, up to ten, is told with its\n"
    "line and column.\n";
static const char routes_help[] =
    "Runs the house to its end and tells the distance and the whole way from each\n"
    "device to each other one, or from device FROM only, or from FROM to TO with the\n"
    "length of every arc on the way. The device after the first arrow of a way is\n"
    "the first hop.\n";
static const char run_help[] =
    "Runs step bytes over the house and tells how many were taken, idle and unknown,\n"
    "who has started and stopped, and what each device knows. STEPS is a file of\n"
    "step bytes, of any length. Without one, every device starts, and every arc\n"
    "delivers in turn until all devices have stopped. With --every K, the counts and\n"
    "what has become known since are told after every K steps and at the end; each\n"
    "time the run is made from its beginning.\n";
static const char write_help[] =
    "Runs step bytes as `zaq run` does and writes the table file of device NODE.\n"
    "FILE gets its name only when it is whole and on the disk; until then an older\n"
    "FILE stays as it was.\n";
static const char show_help[] =
    "Tells whose table file each FILE is, whether its end mark is there, and every\n"
    "entry. A file without an end mark was cut, or its device had not stopped when it\n"
    "was written; the file cannot tell which. With --house, devices have their names,\n"
    "and a file that does not agree with the finished tables of that house is refused\n"
    "as not of this house.\n";
static const char draw_help[] =
    "Draws the house as SVG, with the finished table of device NODE, or with what the\n"
    "table file FILE says. A word of digits is a NODE: a file named 7 is ./7 here.\n";
static const char help_help[] =
    "Lists the commands, or tells how one is used. `zaq help house` says how a house\n"
    "text is written.\n";

static const struct command commands[] = {
    {"pack", pack_command, TAKES_OUT | NEEDS_OUT, 1, 1, "pack HOUSE -o NET", pack_help},
    {"unpack", unpack_command, TAKES_OUT, 1, 1, "unpack NET [-o HOUSE]", unpack_help},
    {"check", check_command, TAKES_JSON | TAKES_NET, 1, 1, "check HOUSE|NET [--json] [--net]", check_help},
    {"routes", routes_command, TAKES_JSON | TAKES_NET, 1, 3, "routes HOUSE|NET [FROM [TO]] [--json] [--net]", routes_help},
    {"run", run_command, TAKES_JSON | TAKES_NET | TAKES_EVERY, 1, 2, "run HOUSE|NET [STEPS] [--every K] [--json] [--net]", run_help},
    {"write", write_command, TAKES_OUT | NEEDS_OUT | TAKES_NET, 2, 3, "write HOUSE|NET [STEPS] NODE -o FILE [--net]", write_help},
    {"show", show_command, TAKES_JSON | TAKES_NET | TAKES_HOUSE, 1, INT_MAX, "show FILE.. [--house HOUSE|NET] [--json] [--net]",
        show_help},
    {"draw", draw_command, TAKES_OUT | TAKES_NET, 1, 2, "draw HOUSE|NET [NODE|FILE] [-o SVG] [--net]", draw_help},
    {"help", help_command, 0, 0, 1, "help [COMMAND|house]", help_help},
    {NULL, NULL, 0, 0, 0, NULL, NULL},
};

static const char common_help[] =
    "HOUSE is a house text, NET network bytes. Where either may stand, a file is taken\n"
    "for network bytes if it has a control byte other than tab, CR and LF, or if --net\n"
    "is given. The name - is standard input, or standard output after -o.\n"
    "After -- no word is an option, but - is still standard input.\n"
    "A file that is read is not written to as well: -o needs another name.\n"
    "Exit status: 0 done; 1 refused; 2 wrong use, or a file could not be read or\n"
    "written.\n";

static const char house_help[] =
    "A house text has one thing to a line, in any order:\n"
    "\n"
    "    # a comment\n"
    "    lmax 9\n"
    "    device 1 television, living room\n"
    "    device 2 soundbar, living room\n"
    "    device 3 speaker, terrace\n"
    "    link 1 <-> 2 length 1\n"
    "    link 2 -> 3 length 9     # one way: sound goes from 2 to 3\n"
    "\n"
    "lmax     the greatest length, 1 to 15; one line\n"
    "device   a number and a name. The numbers are 1 to n, n at most 16, without gap\n"
    "         or repeat. The name is the rest of the line in UTF-8, up to 255 bytes;\n"
    "         it may hold a #, and it may be missing\n"
    "link     one way (A -> B) or both ways (A <-> B), with a length from 1 to LMAX.\n"
    "         A -> B is one arc, from A to B; A <-> B is two, that from A to B first.\n"
    "         Arcs are numbered from 1 in the order of the lines\n"
    "battery  is reserved for battery devices\n"
    "\n"
    "A comment begins with # on a line of its own, or after what a link or lmax line\n"
    "says. Tabs, several blanks, CRLF and a byte order mark are fine.\n";

const struct command *find_command(const char *name)
{
    for (const struct command *command = commands; command->name; command++)
        if (strcmp(command->name, name) == 0)
            return command;
    return NULL;
}

int help_of(const char *topic)
{
    struct quote quote;
    if (topic && strcmp(topic, "house") == 0) {
        fputs(house_help, stdout);
        return DONE;
    }
    const struct command *asked = topic ? find_command(topic) : NULL;
    if (topic && !asked)
        return say(FAILED, "there is no command '%s'; zaq help lists them", quote_word(&quote, topic));
    if (asked)
        printf("usage: zaq %s\n\n%s\n", asked->usage, asked->help);
    else
        fputs("usage: zaq COMMAND ..\n\n", stdout);
    for (const struct command *command = commands; command->name && !asked; command++)
        printf("    zaq %s\n", command->usage);
    fputs(asked ? "" : "    zaq --version\n\n", stdout);
    fputs(common_help, stdout);
    return DONE;
}

int help_command(const struct call *call)
{
    return help_of(call->count ? call->words[0] : NULL);
}
