/* What is said beside the answers, on standard error. */
#ifndef TOOL_MESSAGES_H
#define TOOL_MESSAGES_H

#include "bytes.h"
#include "status.h"

/* Whether messages are objects of JSON from now on, and whether those about troubles and refusals then stand among the
   answers, on standard output. */
void messages_in_json(bool wanted, bool among_answers);
bool are_messages_in_json(void);

/* Says a line about a trouble or a refusal, behind the program's name. */
void say(const struct buffer *line);

/* Says what the trouble is, with a file (or NULL), and answers STATUS_TROUBLE. What `detail` has is shown behind `text`. */
enum status trouble(const char *file, const char *text, const char *detail);
enum status trouble_at_line(const char *file, size_t line, struct bytes text);

/* Says something that is no trouble. */
void note(const char *file, size_t line, struct bytes text);

#endif
