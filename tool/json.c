#include "json.h"
#include "escape.h"

void json_begin(struct buffer *line)
{
    append_text(line, "{");
}

static void begin_member(struct buffer *line, const char *name)
{
    if (line->length > 0 && line->at[line->length - 1] != '{')
        append_text(line, ",");
    append_json_string(line, text_bytes(name));
    append_text(line, ":");
}

void json_string(struct buffer *line, const char *name, struct bytes value)
{
    begin_member(line, name);
    append_json_string(line, value);
}

void json_text(struct buffer *line, const char *name, const char *value)
{
    json_string(line, name, text_bytes(value));
}

void json_number(struct buffer *line, const char *name, size_t value)
{
    begin_member(line, name);
    append_number(line, value);
}

void json_flag(struct buffer *line, const char *name, bool value)
{
    begin_member(line, name);
    append_text(line, value ? "true" : "false");
}

void json_null(struct buffer *line, const char *name)
{
    begin_member(line, name);
    append_text(line, "null");
}

void json_open(struct buffer *line, const char *name)
{
    begin_member(line, name);
    append_text(line, "{");
}

void json_close(struct buffer *line)
{
    append_text(line, "}");
}
