/* Text as it may be shown: what a terminal would act on, and what nobody would see, is escaped. */
#ifndef TOOL_ESCAPE_H
#define TOOL_ESCAPE_H

#include "bytes.h"

/* Bytes with control characters, characters without a width or that turn the direction of writing, and bytes that are no
   UTF-8, as \n, \t, \r, \u{85} and \x{ff}; a backslash is doubled. */
void append_shown(struct buffer *line, struct bytes bytes);

/* The same between double quotes, with those inside as \". */
void append_quoted(struct buffer *line, struct bytes bytes);

/* A string of JSON; bytes that are no UTF-8 become U+FFFD. */
void append_json_string(struct buffer *line, struct bytes bytes);

/* Undoes append_shown for \u{85} and the like; false if it is none of its escapes. */
bool append_unescaped(struct buffer *out, struct bytes bytes);

#endif
