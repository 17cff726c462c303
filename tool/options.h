/* What was typed behind the command. */
#ifndef TOOL_OPTIONS_H
#define TOOL_OPTIONS_H

#include "read_xml.h"
#include "status.h"

enum option {
    OPTION_URI = 1 << 0,
    OPTION_ZERO = 1 << 1,
    OPTION_BROWSER = 1 << 2,
    OPTION_AS_READ = 1 << 3,
    OPTION_BARE = 1 << 4,
    OPTION_UNDER = 1 << 5,
    OPTION_DIFF = 1 << 6,
    OPTION_OUTPUT = 1 << 7,
    OPTION_COLOR = 1 << 8,
    OPTION_READING = 1 << 9, /* --no-comments and the like, where XML is read */
    OPTION_JSON = 1 << 10,
    OPTION_HELP = 1 << 11,
    OPTION_LIST = 1 << 12,
    OPTION_MAKER = 1 << 13,
    OPTION_MAKERS = 1 << 14
};

struct options {
    unsigned given; /* the options that were, as bits */
    const char *uri, *under, *output, *color;
    struct xml_wishes wishes;
    const char **operands;
    size_t count;
};

/* Sorts what was typed behind a command into options and operands; `taken` are the options that the command has. What is
   wrong is said. The caller frees the operands. */
enum status read_options(const char *command, unsigned taken, char **words, size_t count, struct options *options);

bool has_option(const struct options *options, enum option option);

/* Lines of help on the options of a command. */
void print_options(unsigned taken);

#endif
