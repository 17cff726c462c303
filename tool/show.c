/* show: the tree, with row numbers, expanded names and values. */
#include "commands.h"
#include "escape.h"
#include "json.h"
#include "meanings.h"
#include "output.h"
#include "paths.h"

#include <stdio.h>

static void append_value(struct buffer *line, const struct tree *tree, uint32_t row, const char *before)
{
    append_text(line, before);
    append_quoted(line, field_of(tree, tree->rows[row].value));
}

/* An element or attribute: as it is written, what its maker means, who that is if it is told, and what a reader takes it for if
   that is another. */
static void append_named(struct buffer *line, const struct tree *tree, uint32_t row)
{
    noemathu_row given = tree->rows[row];
    append_text(line, is_element(given) ? "<" : "@");
    append_written(line, tree, row);
    append_text(line, is_element(given) ? "> " : " ");
    if (is_level1(given))
        append_text(line, "DOM Level 1, without a namespace");
    else
        append_expanded(line, field_of(tree, given.uri), field_of(tree, given.local_name));
    if (is_attribute(given))
        append_value(line, tree, row, " = ");
    append_maker(line, "   ", given);
    struct meaning meaning = {.is_same = true};
    if (has_meaning(tree, row))
        meaning = meaning_of(tree, row);
    if (meaning.is_same)
        return;
    append_text(line, "   <-- ");
    append_reading(line, tree, row, meaning);
}

void append_maker(struct buffer *line, const char *before, noemathu_row row)
{
    if (row.maker == 0)
        return;
    append_text(line, before);
    append_text(line, "by maker ");
    append_number(line, row.maker);
}

void append_node(struct buffer *line, const struct tree *tree, uint32_t row)
{
    noemathu_row given = tree->rows[row];
    bool wrong = has_meaning(tree, row) && !meaning_of(tree, row).is_same;
    if (wrong)
        begin_red(line);
    if (is_element(given) || is_attribute(given)) {
        append_named(line, tree, row);
    } else if (given.type == NOEMATHU_DECLARATION) {
        append_written(line, tree, row);
        append_value(line, tree, row, " = ");
    } else {
        append_text(line, given.type == NOEMATHU_TEXT ? "" : kind_of(given.type));
        if (given.type == NOEMATHU_TEXT || given.value.length > 0)
            append_value(line, tree, row, given.type == NOEMATHU_TEXT ? "" : " ");
    }
    if (!is_element(given) && !is_attribute(given))
        append_maker(line, "   ", given);
    if (wrong)
        end_red(line);
}

void json_maker(struct buffer *line, noemathu_row row)
{
    if (row.maker != 0)
        json_number(line, "maker", row.maker);
}

void json_node(struct buffer *line, const struct tree *tree, uint32_t row)
{
    struct buffer path = {0};
    noemathu_row given = tree->rows[row];
    append_path(&path, tree, row);
    json_number(line, "row", row);
    if (given.parent != NOEMATHU_NONE)
        json_number(line, "parent", given.parent);
    json_string(line, "path", buffer_bytes(&path));
    json_number(line, "type", given.type);
    json_text(line, "kind", kind_of(given.type));
    if (given.type == NOEMATHU_DECLARATION)
        json_string(line, "declares", field_of(tree, given.local_name));
    if (is_element(given) || is_attribute(given))
        json_string(line, "prefix", field_of(tree, given.prefix));
    if (has_meaning(tree, row)) {
        struct meaning meaning = meaning_of(tree, row);
        json_meaning(line, meaning);
        json_flag(line, "same", meaning.is_same);
    }
    if (!is_element(given))
        json_string(line, "value", field_of(tree, given.value));
    json_maker(line, given);
    free_buffer(&path);
}

static unsigned digits(size_t number)
{
    return number < 10 ? 1 : 1 + digits(number / 10);
}

static void print_row(const struct options *options, const struct session *session, uint32_t row, unsigned depth)
{
    struct buffer line = {0};
    if (has_option(options, OPTION_JSON)) {
        json_begin(&line);
        json_text(&line, "file", session->file);
        json_node(&line, &session->tree, row);
        json_close(&line);
    } else {
        char number[32];
        snprintf(number, sizeof number, "%*u  ", (int)digits(session->tree.count), (unsigned)row);
        append_text(&line, number);
        for (unsigned i = 0; i < depth; i++)
            append_text(&line, "  ");
        append_node(&line, &session->tree, row);
    }
    print_line(&line, '\n');
    free_buffer(&line);
}

static enum status print_tree(const struct options *options, const struct session *session)
{
    const struct tree *tree = &session->tree;
    for (uint32_t top = 0; top < tree->count; top++) {
        unsigned depth = 0;
        bool wanted = session->node == NOEMATHU_NONE ? tree->rows[top].parent == NOEMATHU_NONE : top == session->node;
        for (uint32_t row = wanted ? top : NOEMATHU_NONE; row != NOEMATHU_NONE; row = row_after(tree, row, top, &depth))
            print_row(options, session, row, depth);
    }
    return STATUS_DONE;
}

enum status command_show(const struct options *options)
{
    return for_each_file(options, print_tree);
}
