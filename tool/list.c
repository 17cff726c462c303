/* list, audit: the names of a session, as a reader takes them. */
#include "commands.h"
#include "escape.h"
#include "json.h"
#include "meanings.h"
#include "messages.h"
#include "output.h"

#include <stdio.h>

/* Whether a name is in the namespace that was asked for, or none was. */
static bool is_wanted(const struct options *options, struct bytes uri)
{
    return !options->uri || same_bytes(uri, text_bytes(options->uri));
}

/* The rows of a session, or of the node that was named, that a reader meets by name, in the order of the text: the first
   after some row, which is NOEMATHU_NONE at the beginning. */
static uint32_t next_name(const struct session *session, uint32_t row)
{
    const struct tree *tree = &session->tree;
    unsigned depth = 0;
    uint32_t top = session->node;
    do {
        if (row != NOEMATHU_NONE)
            row = row_after(tree, row, top, &depth);
        else
            row = top != NOEMATHU_NONE ? top : first_under(tree, NOEMATHU_NONE);
    } while (row != NOEMATHU_NONE && !has_meaning(tree, row));
    return row;
}

static void print_name(const struct options *options, const struct session *session, uint32_t row, struct meaning meaning)
{
    struct buffer line = {0};
    if (has_option(options, OPTION_JSON)) {
        json_begin(&line);
        json_text(&line, "file", session->file);
        json_node(&line, &session->tree, row);
        json_close(&line);
    } else {
        append_file_path(&line, options, session, row);
        append_text(&line, "\t");
        if (meaning.is_read)
            append_expanded(&line, meaning.read.uri, meaning.read.local_name);
        else
            append_reading(&line, &session->tree, row, meaning);
        append_maker(&line, "\t", session->tree.rows[row]);
    }
    print_line(&line, has_option(options, OPTION_ZERO) ? '\0' : '\n');
    free_buffer(&line);
}

static enum status list(const struct options *options, const struct session *session)
{
    bool found = false;
    for (uint32_t row = next_name(session, NOEMATHU_NONE); row != NOEMATHU_NONE; row = next_name(session, row)) {
        struct meaning meaning = meaning_of(&session->tree, row);
        if (options->uri && !(meaning.is_read && is_wanted(options, meaning.read.uri)))
            continue;
        found = true;
        print_name(options, session, row, meaning);
    }
    return found ? STATUS_DONE : STATUS_NO;
}

/* A list of several files finds something if one of them has it. */
static bool found_somewhere;

static enum status list_one(const struct options *options, const struct session *session)
{
    found_somewhere |= list(options, session) == STATUS_DONE;
    return STATUS_DONE;
}

enum status command_list(const struct options *options)
{
    found_somewhere = false;
    enum status worst = for_each_file(options, list_one);
    return worst == STATUS_DONE && !found_somewhere ? STATUS_NO : worst;
}

static void print_wrong(const struct options *options, const struct session *session, uint32_t row, struct meaning meaning)
{
    struct buffer line = {0};
    if (has_option(options, OPTION_JSON)) {
        json_begin(&line);
        json_text(&line, "file", session->file);
        json_node(&line, &session->tree, row);
        if (options->uri)
            json_flag(&line, "into", meaning.is_read && is_wanted(options, meaning.read.uri));
        json_close(&line);
    } else {
        append_file_path(&line, options, session, row);
        append_text(&line, ": ");
        begin_red(&line);
        append_meaning(&line, &session->tree, row, meaning);
        end_red(&line);
    }
    print_line(&line, '\n');
    free_buffer(&line);
}

/* How many names there were, and how many of them are read as something else; of several files, where there are some. */
static void say_count(const struct options *options, const struct session *session, size_t names, size_t wrong)
{
    struct buffer line = {0};
    append_number(&line, wrong);
    append_text(&line, " of ");
    append_number(&line, names);
    append_text(&line, names == 1 ? " name" : " names");
    append_text(&line, " would be read as something else than the maker means");
    if (options->uri) {
        append_text(&line, ", from or into ");
        append_quoted(&line, text_bytes(options->uri));
    }
    note(session->file, 0, buffer_bytes(&line));
    free_buffer(&line);
}

static enum status audit(const struct options *options, const struct session *session)
{
    size_t names = 0, wrong = 0;
    for (uint32_t row = next_name(session, NOEMATHU_NONE); row != NOEMATHU_NONE; row = next_name(session, row)) {
        struct meaning meaning = meaning_of(&session->tree, row);
        bool concerns = is_wanted(options, meaning.meant.uri) || (meaning.is_read && is_wanted(options, meaning.read.uri));
        names++;
        if (meaning.is_same || !concerns)
            continue;
        wrong++;
        print_wrong(options, session, row, meaning);
    }
    if (wrong > 0 || options->count <= 1)
        say_count(options, session, names, wrong);
    return wrong > 0 ? STATUS_NO : STATUS_DONE;
}

enum status command_audit(const struct options *options)
{
    return for_each_file(options, audit);
}
