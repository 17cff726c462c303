/* from-xml, xml, cut, graft, normalize, pack: what writes a bundle or a text. */
#include "commands.h"
#include "files.h"
#include "json.h"
#include "messages.h"
#include "output.h"
#include "paths.h"
#include "refusals.h"
#include "scope.h"

#include <stdio.h>
#include <stdlib.h>

static enum status write_bundle(const struct options *options, const struct session *session)
{
    return write_file(options->output, buffer_bytes(&session->bundle), true);
}

/* Says that a node whose value might hold a prefix comes without the declarations in scope at it. */
static void say_bare(const struct session *session, uint32_t row)
{
    struct buffer line = {0};
    size_t count;
    if (!is_attribute(session->tree.rows[row]) && !is_characters(session->tree.rows[row]))
        return;
    free(bindings_at(&session->tree, row, &count));
    append_path(&line, &session->tree, row);
    append_text(&line, " comes without the declarations in scope there, which only an element can carry");
    if (count > 0)
        note(session->file, 0, buffer_bytes(&line));
    free_buffer(&line);
}

enum status cut_out(struct session *session, bool bare)
{
    struct nodes nodes = {0};
    if (!bare)
        say_bare(session, session->node);
    copy_node(&nodes, &session->tree, session->node, NOEMATHU_NONE, bare);
    enum status status = session_of_nodes(session->file, &nodes, session);
    free_nodes(&nodes);
    return status;
}

enum status command_from_xml(const struct options *options)
{
    struct session session;
    enum status status =
        open_session(options->count > 0 ? options->operands[0] : NULL, ONLY_XML, options->wishes, &session);
    if (status == STATUS_DONE && session.node != NOEMATHU_NONE)
        status = cut_out(&session, false);
    if (status == STATUS_DONE)
        status = write_bundle(options, &session);
    close_session(&session);
    return status;
}

enum status command_cut(const struct options *options)
{
    struct session session;
    enum status status = open_operand(options, 0, &session);
    if (status == STATUS_DONE && session.node == NOEMATHU_NONE)
        status = trouble(session.file, "cut takes one node: name it as FILE#NODE", "");
    if (status == STATUS_DONE)
        status = cut_out(&session, has_option(options, OPTION_BARE));
    if (status == STATUS_DONE)
        status = write_bundle(options, &session);
    close_session(&session);
    return status;
}

/* The kinds of the rows under a row, or without a parent, that are not in the text: all but one row, or all but elements. */
static void append_beside(struct buffer *line, const struct tree *tree, uint32_t parent, uint32_t written)
{
    for (uint32_t i = first_under(tree, parent); i != NOEMATHU_NONE; i = next_under(tree, i)) {
        if (i == written || (parent != NOEMATHU_NONE && is_element(tree->rows[i])))
            continue;
        append_text(line, line->length > 0 ? ", " : "what stands beside the element is not in the text: ");
        append_text(line, kind_of(tree->rows[i].type));
    }
}

/* Says what of a file is not in the text: what a document holds beside its element, and, if no node was named, all that stands
   beside the first row. */
static void say_beside(const struct session *session)
{
    struct buffer line = {0};
    uint32_t row = node_or_first(session);
    if (session->tree.rows[row].type == NOEMATHU_DOCUMENT)
        append_beside(&line, &session->tree, row, NOEMATHU_NONE);
    if (session->node == NOEMATHU_NONE)
        append_beside(&line, &session->tree, NOEMATHU_NONE, row);
    if (line.length > 0)
        note(session->file, 0, buffer_bytes(&line));
    free_buffer(&line);
}

static enum status write_text(const struct options *options, const struct session *session)
{
    size_t room = noemathu_xml_room(session->bundle.at);
    struct buffer text = {held(NULL, room + 1, 1), 0, room + 1};
    noemathu_used used =
        noemathu_write_xml(session->bundle.at, session->bundle.length, node_or_first(session), text.at, room);
    enum status status;
    text.length = used.bytes;
    append_text(&text, "\n");
    if (used.refusal.number != NOEMATHU_NOT_REFUSED)
        status = refused(session, used.refusal, NULL);
    else
        status = write_file(options->output, buffer_bytes(&text), false);
    if (status == STATUS_DONE)
        say_beside(session);
    free_buffer(&text);
    return status;
}

enum status command_xml(const struct options *options)
{
    struct session session;
    enum status status = open_operand(options, 0, &session);
    if (status == STATUS_DONE)
        status = write_text(options, &session);
    close_session(&session);
    return status;
}


/* graft */

/* Copies a guest's node, or all of it: of a document or a fragment what it holds, but for the document type. */
static void copy_guest(struct nodes *nodes, const struct session *guest, uint32_t row, uint32_t under, bool bare)
{
    uint32_t type = guest->tree.rows[row].type;
    if (type == NOEMATHU_DOCUMENT_TYPE) {
        note(guest->file, 0, text_bytes("the document type stays behind"));
    } else if (type == NOEMATHU_DOCUMENT || type == NOEMATHU_FRAGMENT) {
        for (uint32_t i = first_under(&guest->tree, row); i != NOEMATHU_NONE; i = next_under(&guest->tree, i))
            copy_guest(nodes, guest, i, under, bare);
    } else {
        if (!bare)
            say_bare(guest, row);
        copy_node(nodes, &guest->tree, row, under, bare);
    }
}

static enum status add_guest(const struct options *options, size_t number, struct nodes *nodes, uint32_t under)
{
    struct session guest;
    bool bare = has_option(options, OPTION_BARE);
    enum status status = open_operand(options, number, &guest);
    if (status == STATUS_DONE && guest.node != NOEMATHU_NONE)
        copy_guest(nodes, &guest, guest.node, under, bare);
    else if (status == STATUS_DONE)
        for (uint32_t i = first_under(&guest.tree, NOEMATHU_NONE); i != NOEMATHU_NONE; i = next_under(&guest.tree, i))
            copy_guest(nodes, &guest, i, under, bare);
    close_session(&guest);
    return status;
}

enum status command_graft(const struct options *options)
{
    struct session host;
    struct nodes nodes = {0};
    uint32_t under = NOEMATHU_NONE;
    if (!options->under)
        return trouble(NULL, "graft needs --under NODE: the node of HOST that gets the guests", "");
    enum status status = open_operand(options, 0, &host);
    if (status == STATUS_DONE && host.node != NOEMATHU_NONE)
        status = cut_out(&host, has_option(options, OPTION_BARE));
    if (status == STATUS_DONE)
        status = find_node(&host, options->under, &under);
    if (status == STATUS_DONE)
        copy_rows(&nodes, &host.tree);
    for (size_t i = 1; i < options->count && status == STATUS_DONE; i++)
        status = add_guest(options, i, &nodes, under);
    if (status == STATUS_DONE)
        status = session_of_nodes("the grafted tree", &nodes, &host);
    if (status == STATUS_DONE)
        status = write_bundle(options, &host);
    free_nodes(&nodes);
    close_session(&host);
    return status;
}


/* normalize */

/* A line of the tree with what changes: a space, - or + before the row. */
static void print_change(const struct options *options, const struct session *session, uint32_t row, unsigned depth, char mark)
{
    struct buffer line = {0};
    if (has_option(options, OPTION_JSON)) {
        json_begin(&line);
        json_text(&line, "file", session->file);
        json_text(&line, "change", mark == '+' ? "after" : mark == '-' ? "before" : "none");
        json_node(&line, &session->tree, row);
        json_close(&line);
    } else {
        char number[32];
        snprintf(number, sizeof number, "%c %4u  ", mark, (unsigned)row);
        append_text(&line, number);
        for (unsigned i = 0; i < depth; i++)
            append_text(&line, "  ");
        append_node(&line, &session->tree, row);
    }
    print_line(&line, '\n');
    free_buffer(&line);
}

/* Whether a row has another prefix or value than before. */
static bool is_changed(const struct tree *before, const struct tree *after, uint32_t row)
{
    return !same_bytes(field_of(before, before->rows[row].prefix), field_of(after, after->rows[row].prefix)) ||
           !same_bytes(field_of(before, before->rows[row].value), field_of(after, after->rows[row].value));
}

static enum status print_changes(const struct options *options, const struct session *before, const struct session *after)
{
    const struct tree *tree = &after->tree;
    bool changed = false;
    for (uint32_t top = first_under(tree, NOEMATHU_NONE); top != NOEMATHU_NONE; top = next_under(tree, top)) {
        unsigned depth = 0;
        for (uint32_t row = top; row != NOEMATHU_NONE; row = row_after(tree, row, top, &depth)) {
            bool added = row >= before->tree.count, other = !added && is_changed(&before->tree, tree, row);
            if (other)
                print_change(options, before, row, depth, '-');
            print_change(options, after, row, depth, added || other ? '+' : ' ');
            changed |= added || other;
        }
    }
    return changed ? STATUS_NO : STATUS_DONE;
}

static enum status normalize(const struct options *options, const struct session *session)
{
    struct buffer bundle = {held(NULL, NOEMATHU_BUNDLE_MOST, 1), 0, NOEMATHU_BUNDLE_MOST};
    struct session result;
    noemathu_used used = noemathu_normalize(session->bundle.at, session->bundle.length, bundle.at, bundle.room);
    enum status status, written = STATUS_DONE;
    bundle.length = used.bytes;
    session_of_bundle(session->file, &bundle, &result);
    if (used.refusal.number != NOEMATHU_NOT_REFUSED)
        status = refused(session, used.refusal, NULL);
    else
        status = has_option(options, OPTION_DIFF) ? print_changes(options, session, &result) : STATUS_DONE;
    if (used.refusal.number == NOEMATHU_NOT_REFUSED && (!has_option(options, OPTION_DIFF) || options->output))
        written = write_bundle(options, &result);
    close_session(&result);
    return written > status ? written : status;
}

enum status command_normalize(const struct options *options)
{
    struct session session;
    enum status status = open_operand(options, 0, &session);
    if (status == STATUS_DONE && session.node != NOEMATHU_NONE)
        status = cut_out(&session, false);
    if (status == STATUS_DONE)
        status = normalize(options, &session);
    close_session(&session);
    return status;
}


/* pack */

static enum status pack(const struct options *options, const struct session *session)
{
    struct buffer bundle = {held(NULL, NOEMATHU_BUNDLE_MOST, 1), 0, NOEMATHU_BUNDLE_MOST};
    noemathu_used used = noemathu_pack(session->bundle.at, session->bundle.length, bundle.at, bundle.room);
    bool shares = used.refusal.number == NOEMATHU_REFUSED_POOL_ROOM;
    enum status status;
    bundle.length = used.bytes;
    if (used.refusal.number != NOEMATHU_NOT_REFUSED)
        status = refused(session, used.refusal,
                         shares ? "fields that are parts of each other stand apart in a packed pool; the file is good as it is"
                                : NULL);
    else
        status = write_file(options->output, buffer_bytes(&bundle), true);
    free_buffer(&bundle);
    return status;
}

enum status command_pack(const struct options *options)
{
    struct session session;
    enum status status = open_operand(options, 0, &session);
    if (status == STATUS_DONE && session.node != NOEMATHU_NONE)
        status = cut_out(&session, false);
    if (status == STATUS_DONE)
        status = pack(options, &session);
    close_session(&session);
    return status;
}
