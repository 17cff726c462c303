/* An object of JSON in one line. */
#ifndef TOOL_JSON_H
#define TOOL_JSON_H

#include "bytes.h"

/* Begins an object in an empty line. */
void json_begin(struct buffer *line);

/* A member behind those that stand there. */
void json_string(struct buffer *line, const char *name, struct bytes value);
void json_text(struct buffer *line, const char *name, const char *value);
void json_number(struct buffer *line, const char *name, size_t value);
void json_flag(struct buffer *line, const char *name, bool value);
void json_null(struct buffer *line, const char *name);

/* An object as a member: what stands between the two are its members. */
void json_open(struct buffer *line, const char *name);
void json_close(struct buffer *line);

#endif
