#define _POSIX_C_SOURCE 200809L
#include "output.h"

#include <stdio.h>
#include <stdlib.h>
#include <string.h>
#include <unistd.h>

static bool colored;

void set_color(const char *when)
{
    const char *refused = getenv("NO_COLOR"), *terminal = getenv("TERM");
    if (when && strcmp(when, "auto") != 0)
        colored = strcmp(when, "always") == 0;
    else
        colored = isatty(STDOUT_FILENO) && !(refused && *refused) && !(terminal && strcmp(terminal, "dumb") == 0);
}

void print_line(struct buffer *line, char end)
{
    if (line->length > 0)
        fwrite(line->at, 1, line->length, stdout);
    putchar(end);
    line->length = 0;
}

void begin_red(struct buffer *line)
{
    append_text(line, colored ? "\033[31m" : "");
}

void end_red(struct buffer *line)
{
    append_text(line, colored ? "\033[0m" : "");
}
