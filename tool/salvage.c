/* salvage: an old bundle without the rows that draw refusals 6 and 7, and what they were. */
#include "commands.h"
#include "escape.h"
#include "files.h"
#include "json.h"
#include "messages.h"
#include "output.h"
#include "paths.h"
#include "refusals.h"

/* A row that is dropped, by its old number, and the refusal that it draws. */
struct dropped {
    uint32_t row, number;
};

/* Behind a line: the row as it was written. The bundle is one that the library refuses, so it cannot be asked what names
   mean. */
static void append_dropped(struct buffer *line, const struct tree *tree, struct dropped dropped)
{
    noemathu_row row = tree->rows[dropped.row];
    append_path(line, tree, dropped.row);
    append_text(line, ": row ");
    append_number(line, dropped.row);
    append_text(line, is_attribute(row) ? ", @" : ", ");
    append_written(line, tree, dropped.row);
    if (is_attribute(row) && row.uri.length > 0) {
        append_text(line, " ");
        append_expanded(line, field_of(tree, row.uri), field_of(tree, row.local_name));
    }
    append_text(line, " = ");
    append_quoted(line, field_of(tree, row.value));
    append_maker(line, ", ", row);
    append_text(line, ", is dropped by refusal ");
    append_number(line, dropped.number);
    append_text(line, ": ");
    append_text(line, noemathu_text(dropped.number));
}

static void json_dropped(struct buffer *line, const struct session *session, const struct tree *tree, struct dropped dropped)
{
    struct buffer path = {0};
    noemathu_row row = tree->rows[dropped.row];
    append_path(&path, tree, dropped.row);
    json_begin(line);
    json_text(line, "file", session->file);
    json_number(line, "dropped", dropped.row);
    json_number(line, "parent", row.parent);
    json_string(line, "path", buffer_bytes(&path));
    json_number(line, "type", row.type);
    json_text(line, "kind", kind_of(row.type));
    if (row.type == NOEMATHU_DECLARATION) {
        json_string(line, "declares", field_of(tree, row.local_name));
    } else {
        json_string(line, "prefix", field_of(tree, row.prefix));
        json_string(line, "uri", field_of(tree, row.uri));
        json_string(line, "local", field_of(tree, row.local_name));
    }
    json_string(line, "value", field_of(tree, row.value));
    json_maker(line, row);
    json_number(line, "refusal", dropped.number);
    json_text(line, "sentence", noemathu_text(dropped.number));
    json_close(line);
    free_buffer(&path);
}

/* Names the rows that are dropped: as the answer, or beside the bundle. All rows of what can be salvaged can be looked at. */
static void tell_dropped(const struct options *options, const struct session *session, const uint32_t *list, size_t count)
{
    struct tree tree = tree_of(session->bundle.at, session->bundle.length, (noemathu_refusal){0, 0, 0});
    bool answers = has_option(options, OPTION_LIST);
    for (size_t i = 0; i < count; i++) {
        struct buffer line = {0};
        struct dropped dropped = {list[2 * i], list[2 * i + 1]};
        if (has_option(options, OPTION_JSON))
            json_dropped(&line, session, &tree, dropped);
        else
            append_dropped(&line, &tree, dropped);
        if (answers)
            print_line(&line, '\n');
        else if (has_option(options, OPTION_JSON))
            say(&line);
        else
            note(session->file, 0, buffer_bytes(&line));
        free_buffer(&line);
    }
    free_tree(&tree);
}

/* Writes what was salvaged, or the node of it that was named. */
static enum status write_salvaged(const struct options *options, const struct session *session, struct buffer *bundle)
{
    struct session result;
    enum status status = STATUS_DONE;
    session_of_bundle(session->file, bundle, &result);
    if (session->named)
        status = find_node(&result, session->named, &result.node);
    if (status == STATUS_DONE && session->named)
        status = cut_out(&result, false);
    if (status == STATUS_DONE)
        status = write_file(options->output, buffer_bytes(&result.bundle), true);
    close_session(&result);
    return status;
}

static enum status salvage(const struct options *options, struct session *session)
{
    static uint32_t list[NOEMATHU_LIST_MOST];
    struct buffer bundle = {held(NULL, NOEMATHU_BUNDLE_MOST, 1), 0, NOEMATHU_BUNDLE_MOST};
    noemathu_salvaged saved = noemathu_salvage(session->bundle.at, session->bundle.length, bundle.at, bundle.room, list,
                                               NOEMATHU_LIST_MOST);
    bool lists = has_option(options, OPTION_LIST);
    enum status status = lists && saved.dropped > 0 ? STATUS_NO : STATUS_DONE, written = STATUS_DONE;
    bundle.length = saved.bytes;
    if (saved.refusal.number != NOEMATHU_NOT_REFUSED) {
        status = refused_at(session, saved.refusal);
    } else {
        if (!lists || options->output)
            written = write_salvaged(options, session, &bundle);
        if (written == STATUS_DONE)
            tell_dropped(options, session, list, saved.dropped);
    }
    free_buffer(&bundle);
    return written > status ? written : status;
}

enum status command_salvage(const struct options *options)
{
    struct session session;
    enum status status =
        open_session(options->count > 0 ? options->operands[0] : NULL, EVEN_REFUSED, options->wishes, &session);
    if (status == STATUS_DONE)
        status = salvage(options, &session);
    close_session(&session);
    return status;
}
