/* The whole program, but for its start. */
#ifndef TOOL_RUN_H
#define TOOL_RUN_H

#include "status.h"

/* Runs a command line, and answers the status. */
enum status run(int count, char **words);

#endif
