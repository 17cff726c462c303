/* Refusals of the library, told so that a person can act on them. */
#ifndef TOOL_REFUSALS_H
#define TOOL_REFUSALS_H

#include "session.h"

/* Says a refusal: the file, the row, its path, the field, the sentence and what to do; for 23 also what the name's maker
   means and what a reader takes it for. Answers STATUS_REFUSED. `about` is said behind the sentence, or NULL. */
enum status refused(const struct session *session, noemathu_refusal refusal, const char *about);

/* Behind a line: ", row 3, /session/p:note, field value", as far as a refusal has a row and a field; and as members of an
   object. */
void append_place(struct buffer *line, const struct session *session, noemathu_refusal refusal);
void json_place(struct buffer *line, const struct session *session, noemathu_refusal refusal);

/* Behind a line: what to do about a refusal. */
void append_remedy(struct buffer *line, const struct session *session, noemathu_refusal refusal);

#endif
