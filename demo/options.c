#include "options.h"

#include <errno.h>
#include <inttypes.h>
#include <stdio.h>
#include <stdlib.h>
#include <string.h>

enum { DEFAULT_PACKETS = 150000, MOST_PACKETS = 1000000000 };

static const char program[] = "tollmeander-demo";

void options_print_help(void)
{
    printf("Usage: %s [--packets N] [--seed S] [--help]\n\n"
           "Eight guests send packets through one host to eight devices, and get each frame\n"
           "back. One guest crashes within a packet, one posts slots that make no packet, one\n"
           "names pages that it has not granted. The devices confirm packets later and in any\n"
           "order; one fails some, one drops some, and one never confirms one: its guest stops\n"
           "when its ring is full. Four guests post by the library, the four with such ends\n"
           "write their slots by hand. Every frame and every reply is checked.\n\n"
           "  --packets N   packets that each guest sends, 1 to %d (default %d)\n"
           "  --seed S      another course of random numbers, 0 to 18446744073709551615\n"
           "                (default 1)\n"
           "  --help        this text\n\n"
           "Exit status: 0 if all was as it must be, 1 if not, 2 for bad options.\n",
           program, MOST_PACKETS, DEFAULT_PACKETS);
}

static bool complain(const char *what, const char *about)
{
    fprintf(stderr, "%s: %s%s\nTry '%s --help'.\n", program, what, about, program);
    return false;
}

/* Reads a decimal number of digits alone. */
static bool read_number(const char *text, uint64_t least, uint64_t most, uint64_t *number)
{
    char *end;

    if (text[0] == '\0' || strspn(text, "0123456789") != strlen(text))
        return false;
    errno = 0;
    *number = strtoull(text, &end, 10);
    return errno == 0 && *number >= least && *number <= most;
}

/* The value of an option, given as "--name value" or "--name=value"; NULL if this is not it. */
static const char *value_of(const char *name, int argc, char **argv, int *at)
{
    size_t length = strlen(name);

    if (strncmp(argv[*at], name, length) != 0)
        return NULL;
    if (argv[*at][length] == '=')
        return argv[*at] + length + 1;
    if (argv[*at][length] != '\0')
        return NULL;
    return ++*at < argc ? argv[*at] : "";
}

static bool read_option(struct options *options, int argc, char **argv, int *at)
{
    const char *argument = argv[*at];
    const char *value;

    if (strcmp(argument, "--help") == 0) {
        options->help = true;
        return true;
    }
    if ((value = value_of("--packets", argc, argv, at)) != NULL)
        return read_number(value, 1, MOST_PACKETS, &options->packets) ||
               complain("--packets needs a number from 1 to 1000000000, not: ", value);
    if ((value = value_of("--seed", argc, argv, at)) != NULL)
        return read_number(value, 0, UINT64_MAX, &options->seed) ||
               complain("--seed needs a number from 0 to 18446744073709551615, not: ", value);
    return complain("unknown option: ", argument);
}

bool options_read(struct options *options, int argc, char **argv)
{
    *options = (struct options){ .packets = DEFAULT_PACKETS, .seed = 1 };
    for (int at = 1; at < argc; at++)
        if (!read_option(options, argc, argv, &at))
            return false;
    return true;
}
