/* What is printed on standard output. */
#ifndef TOOL_OUTPUT_H
#define TOOL_OUTPUT_H

#include "bytes.h"

/* Whether lines are coloured from now on: "always", "never", or NULL or "auto" for a terminal unless NO_COLOR is set. */
void set_color(const char *when);

/* Prints a line and the byte that ends it, and empties it. */
void print_line(struct buffer *line, char end);

/* Red, from here to there. */
void begin_red(struct buffer *line);
void end_red(struct buffer *line);

#endif
