#include "messages.h"
#include "escape.h"
#include "json.h"

#include <stdio.h>

static bool in_json, on_output;

void messages_in_json(bool wanted, bool among_answers)
{
    in_json = wanted;
    on_output = wanted && among_answers;
}

bool are_messages_in_json(void)
{
    return in_json;
}

static void say_on(FILE *stream, const struct buffer *line)
{
    fflush(stdout);
    if (!in_json)
        fputs("noemathu: ", stream);
    fwrite(line->at, 1, line->length, stream);
    fputs("\n", stream);
}

void say(const struct buffer *line)
{
    say_on(on_output ? stdout : stderr, line);
}

/* A message about a line of a file; 0 is no line. */
static void say_of(FILE *stream, const char *file, size_t line, const char *what, struct bytes text)
{
    struct buffer message = {0};
    if (in_json) {
        json_begin(&message);
        if (file)
            json_text(&message, "file", file);
        if (line > 0)
            json_number(&message, "line", line);
        json_string(&message, what, text);
        json_close(&message);
    } else {
        if (file)
            append_shown(&message, text_bytes(file));
        if (file && line > 0) {
            append_text(&message, ":");
            append_number(&message, line);
        }
        append_text(&message, file ? ": " : "");
        append(&message, text);
    }
    say_on(stream, &message);
    free_buffer(&message);
}

enum status trouble(const char *file, const char *text, const char *detail)
{
    struct buffer whole = {0};
    append_text(&whole, text);
    append_shown(&whole, text_bytes(detail));
    say_of(on_output ? stdout : stderr, file, 0, "trouble", buffer_bytes(&whole));
    free_buffer(&whole);
    return STATUS_TROUBLE;
}

enum status trouble_at_line(const char *file, size_t line, struct bytes text)
{
    say_of(on_output ? stdout : stderr, file, line, "trouble", text);
    return STATUS_TROUBLE;
}

void note(const char *file, size_t line, struct bytes text)
{
    say_of(stderr, file, line, "note", text);
}
