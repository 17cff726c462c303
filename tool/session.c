#define _POSIX_C_SOURCE 200809L
#include "session.h"
#include "escape.h"
#include "files.h"
#include "messages.h"
#include "paths.h"
#include "refusals.h"
#include "sniff.h"

#include <stdio.h>
#include <stdlib.h>
#include <string.h>
#include <unistd.h>

static char *copied(const char *text, size_t length)
{
    char *copy = held(NULL, length + 1, 1);
    memcpy(copy, text, length);
    copy[length] = 0;
    return copy;
}

/* Whether some text is a row number or begins as a path does. */
static bool looks_like_node(const char *text)
{
    return text[0] == '/' || (text[0] != 0 && strspn(text, "0123456789") == strlen(text));
}

/* FILE#NODE as FILE and NODE; NODE is NULL if there is none. A file that has the whole name is that file. */
static char *split_argument(const char *argument, const char **node)
{
    const char *mark = argument ? strrchr(argument, '#') : NULL;
    *node = NULL;
    if (is_standard(argument))
        return copied("-", 1);
    if (!mark || access(argument, F_OK) == 0)
        return copied(argument, strlen(argument));
    *node = mark + 1;
    return mark == argument ? copied("-", 1) : copied(argument, (size_t)(mark - argument));
}


/* XML text. */

/* Whether rows and bytes fit into a bundle. */
static bool fits(size_t rows, size_t bytes)
{
    return rows <= NOEMATHU_MOST_ROWS && bytes <= NOEMATHU_MOST_POOL;
}

/* The figures of a text that is too large, and the share of white space. */
static void append_figures(struct buffer *line, const struct xml_rows *rows, bool left_out)
{
    char text[400];
    size_t all_rows = rows->nodes.rows, bytes = rows->nodes.pool.length;
    bool helps = fits(all_rows - rows->blank_rows, bytes - rows->blank_bytes);
    snprintf(text, sizeof text, "it has %zu rows and %zu pool bytes%s", all_rows, bytes,
             left_out ? ", white space between elements left out" : "");
    append_text(line, text);
    if (left_out)
        return;
    snprintf(text, sizeof text, "; white space between elements is %zu of the rows (%zu %%) and %zu of the bytes (%zu %%)",
             rows->blank_rows, 100 * rows->blank_rows / all_rows, rows->blank_bytes, 100 * rows->blank_bytes / bytes);
    append_text(line, text);
    append_text(line, helps ? ": without it, by --no-blanks, it fits" : "");
}

/* Says what the rows of a text do not hold: lines of a number, a colon and words. */
static void say_losses(const char *file, struct bytes losses)
{
    while (losses.length > 0) {
        const uint8_t *end = memchr(losses.at, '\n', losses.length), *colon = memchr(losses.at, ':', losses.length);
        size_t line = strtoul((const char *)losses.at, NULL, 10);
        note(file, line, (struct bytes){colon + 1, (size_t)(end - colon - 1)});
        losses.length -= (size_t)(end + 1 - losses.at);
        losses.at = end + 1;
    }
}

/* The bundle of XML text. */
static enum status open_xml(struct session *session, struct bytes text, struct xml_wishes wishes)
{
    struct xml_rows rows;
    struct buffer figures = {0};
    enum status status = STATUS_DONE;
    if (!read_xml(text, wishes, &rows)) {
        status = trouble_at_line(session->file, rows.fault_line, buffer_bytes(&rows.fault));
    } else {
        noemathu_refusal refusal = write_nodes(&rows.nodes, &session->bundle);
        if (refusal.number == NOEMATHU_REFUSED_SIZE) {
            append_figures(&figures, &rows, wishes.no_blanks);
            char *about = taken_string(&figures);
            status = refused(session, refusal, about);
            free(about);
        } else if (refusal.number != NOEMATHU_NOT_REFUSED) {
            status = session_of_nodes(session->file, &rows.nodes, session);
        } else {
            say_losses(session->file, buffer_bytes(&rows.losses));
            session->lines = rows.lines;
            rows.lines = NULL;
        }
    }
    free_xml_rows(&rows);
    return status;
}


/* Opening. */

/* Says a refusal, and of what is too large how large it is. */
static enum status refused_with_size(const struct session *session, noemathu_refusal refusal, size_t rows, size_t bytes)
{
    char text[100];
    snprintf(text, sizeof text, "it has %zu rows and %zu pool byte%s", rows, bytes, bytes == 1 ? "" : "s");
    return refused(session, refusal, refusal.number == NOEMATHU_REFUSED_SIZE ? text : NULL);
}

/* Notes what the library says of a session's bundle, and makes the tree that can then be looked at. */
static void set_refusal(struct session *session, noemathu_refusal refusal)
{
    session->refusal = refusal;
    free_tree(&session->tree);
    session->tree = tree_of(session->bundle.at, session->bundle.length, refusal);
}

enum status refused_at(struct session *session, noemathu_refusal refusal)
{
    bool has_header = refusal.number == NOEMATHU_REFUSED_SIZE;
    set_refusal(session, refusal);
    return refused_with_size(session, refusal, has_header ? noemathu_row_count(session->bundle.at) : 0,
                             has_header ? noemathu_pool_length(session->bundle.at) : 0);
}

/* Has the library judge the bundle of a session, and makes its tree. */
static enum status judge(struct session *session, enum expected expected)
{
    set_refusal(session, noemathu_check(session->bundle.at, session->bundle.length));
    bool taken = session->refusal.number == NOEMATHU_NOT_REFUSED || expected == EVEN_REFUSED;
    return taken ? STATUS_DONE : refused_at(session, session->refusal);
}

static enum status open_bytes(struct session *session, struct buffer *bytes, enum expected expected, struct xml_wishes wishes)
{
    bool marked = begins_as_bundle(buffer_bytes(bytes));
    if (bytes->length == 0)
        return trouble(session->file, "is empty", "");
    if (expected == ONLY_XML && marked)
        return trouble(session->file, "is a bundle already", "");
    if (expected == ONLY_XML || begins_as_xml(buffer_bytes(bytes))) {
        enum status status = open_xml(session, buffer_bytes(bytes), wishes);
        return status == STATUS_DONE ? judge(session, expected) : status;
    }
    if (marked && (wishes.no_comments || wishes.no_instructions || wishes.no_cdata || wishes.no_blanks))
        note(session->file, 0, text_bytes("is a bundle: --no-comments and the like are for XML text"));
    session->bundle = *bytes;
    *bytes = (struct buffer){0};
    return judge(session, expected);
}

enum status open_session(const char *argument, enum expected expected, struct xml_wishes wishes, struct session *session)
{
    const char *node;
    struct buffer bytes = {0};
    char *file = split_argument(argument, &node);
    *session = (struct session){.node = NOEMATHU_NONE, .file = copied(input_name(file), strlen(input_name(file))), .named = node};
    enum status status = node && !looks_like_node(node)
                             ? trouble(argument, "a NODE is a row number or a path that begins with /, not ", node)
                             : read_file(file, &bytes);
    if (status == STATUS_DONE)
        status = open_bytes(session, &bytes, expected, wishes);
    if (status == STATUS_DONE && node && session->refusal.number == NOEMATHU_NOT_REFUSED)
        status = find_node(session, node, &session->node);
    free_buffer(&bytes);
    free(file);
    return status;
}

/* Rows and pool as they are, for a message about what the library has refused. */
static void write_unjudged(const struct nodes *nodes, struct buffer *bundle)
{
    uint8_t header[NOEMATHU_BUNDLE_HEADER] = {'N', 'T', 'B', NOEMATHU_BUNDLE_VERSION, 0, 0};
    for (size_t k = 0; k < 2; k++)
        header[6 + k] = (uint8_t)(nodes->rows >> 8 * k);
    for (size_t k = 0; k < 4; k++)
        header[8 + k] = (uint8_t)(nodes->pool.length >> 8 * k);
    bundle->length = 0;
    append(bundle, (struct bytes){header, sizeof header});
    for (size_t i = 0; i < NOEMATHU_ROW_WORDS * nodes->rows; i++)
        for (size_t k = 0; k < 4; k++)
            append(bundle, (struct bytes){(uint8_t[]){(uint8_t)(nodes->table[i] >> 8 * k)}, 1});
    append(bundle, buffer_bytes(&nodes->pool));
}

enum status session_of_nodes(const char *file, const struct nodes *nodes, struct session *session)
{
    struct buffer bundle = {0};
    noemathu_refusal refusal = write_nodes(nodes, &bundle);
    char *name = copied(file, strlen(file));
    close_session(session);
    *session = (struct session){.node = NOEMATHU_NONE, .file = name};
    if (refusal.number != NOEMATHU_NOT_REFUSED && refusal.number != NOEMATHU_REFUSED_SIZE)
        write_unjudged(nodes, &bundle);
    session->bundle = bundle;
    session->tree = tree_of(bundle.at, bundle.length, refusal);
    if (refusal.number == NOEMATHU_NOT_REFUSED)
        return STATUS_DONE;
    return refused_with_size(session, refusal, nodes->rows, nodes->pool.length);
}

void session_of_bundle(const char *file, struct buffer *bundle, struct session *session)
{
    *session = (struct session){.node = NOEMATHU_NONE, .file = copied(file, strlen(file)), .bundle = *bundle};
    *bundle = (struct buffer){0};
    session->tree = tree_of(session->bundle.at, session->bundle.length, (noemathu_refusal){0, 0, 0});
}


/* Nodes. */

/* Says that a path leads nowhere, in the words of the library's refusal, or that it is not one node's. */
static enum status no_such_path(const struct session *session, const char *path, struct path_end end)
{
    struct buffer about = {0};
    noemathu_found none = noemathu_default_uri(session->bundle.at, session->bundle.length, NOEMATHU_NONE);
    append_shown(&about, text_bytes(path));
    append_text(&about, end.answer == PATH_NONE ? " is no path of a node: /session/p:order[2]/@p:since is one" : ": ");
    if (end.answer != PATH_NONE) {
        if (end.last == NOEMATHU_NONE)
            append_text(&about, "the top");
        else
            append_path(&about, &session->tree, end.last);
        append_text(&about, " has ");
        append_text(&about, end.answer == PATH_NOTHING ? "no node " : "several nodes ");
        append_shown(&about, end.step);
        if (end.answer == PATH_SEVERAL)
            append_text(&about, ": put a number behind it, as [1]");
    }
    char *text = taken_string(&about);
    enum status status = end.answer == PATH_NOTHING ? refused(session, none.refusal, text)
                                                    : trouble_at_line(session->file, 0, text_bytes(text));
    free(text);
    return status;
}

enum status find_node(const struct session *session, const char *node, uint32_t *row)
{
    if (node[0] == '/' || !looks_like_node(node)) {
        struct path_end end = row_of_path(&session->tree, text_bytes(node));
        *row = end.row;
        return end.answer == PATH_FOUND ? STATUS_DONE : no_such_path(session, node, end);
    }
    unsigned long number = strtoul(node, NULL, 10);
    *row = number < NOEMATHU_NONE ? (uint32_t)number : NOEMATHU_NONE;
    noemathu_found found = noemathu_default_uri(session->bundle.at, session->bundle.length, *row);
    return found.refusal.number == NOEMATHU_NOT_REFUSED ? STATUS_DONE : refused(session, found.refusal, NULL);
}

uint32_t node_or_first(const struct session *session)
{
    return session->node != NOEMATHU_NONE ? session->node : 0;
}

void close_session(struct session *session)
{
    free_tree(&session->tree);
    free_buffer(&session->bundle);
    free(session->file);
    free(session->lines);
    *session = (struct session){0};
}
