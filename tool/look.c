/* check, uri, prefix, scope: questions to the library. */
#define _POSIX_C_SOURCE 200809L
#include "commands.h"
#include "escape.h"
#include "json.h"
#include "messages.h"
#include "output.h"
#include "paths.h"
#include "refusals.h"
#include "scope.h"

#include <stdlib.h>
#include <unistd.h>

enum status open_operand(const struct options *options, size_t number, struct session *session)
{
    const char *argument = number < options->count ? options->operands[number] : NULL;
    return open_session(argument, BUNDLE_OR_XML, options->wishes, session);
}

enum status for_each_file(const struct options *options,
                          enum status (*act)(const struct options *options, const struct session *session))
{
    enum status worst = STATUS_DONE;
    for (size_t i = 0; i < (options->count > 0 ? options->count : 1); i++) {
        struct session session;
        enum status status = open_operand(options, i, &session);
        if (status == STATUS_DONE)
            status = act(options, &session);
        worst = status > worst ? status : worst;
        close_session(&session);
    }
    return worst;
}

void append_file_path(struct buffer *line, const struct options *options, const struct session *session, uint32_t row)
{
    if (options->count > 1) {
        append_shown(line, text_bytes(session->file));
        append_text(line, "#");
    }
    append_path(line, &session->tree, row);
}

/* What was accepted; what is refused was told when it was opened. */
static enum status print_accepted(const struct options *options, const struct session *session)
{
    struct buffer line = {0};
    size_t rows = noemathu_row_count(session->bundle.at), bytes = noemathu_pool_length(session->bundle.at);
    bool is_old = noemathu_version(session->bundle.at) != NOEMATHU_BUNDLE_VERSION;
    if (has_option(options, OPTION_JSON)) {
        json_begin(&line);
        json_text(&line, "file", session->file);
        json_number(&line, "refusal", NOEMATHU_NOT_REFUSED);
        json_number(&line, "rows", rows);
        json_number(&line, "pool_bytes", bytes);
        if (is_old)
            json_number(&line, "version", 1);
        json_close(&line);
    } else {
        append_shown(&line, text_bytes(session->file));
        append_text(&line, ": accepted, ");
        append_number(&line, rows);
        append_text(&line, rows == 1 ? " row, " : " rows, ");
        append_number(&line, bytes);
        append_text(&line, bytes == 1 ? " pool byte" : " pool bytes");
        append_text(&line, is_old ? ", of version 1" : "");
    }
    print_line(&line, '\n');
    free_buffer(&line);
    return STATUS_DONE;
}

enum status command_check(const struct options *options)
{
    return for_each_file(options, print_accepted);
}

/* Prints what a lookup found, or says that it found nothing. */
static enum status answer(const struct options *options, const struct session *session, struct bytes query,
                          noemathu_found found, struct bytes result)
{
    struct buffer line = {0};
    if (found.refusal.number != NOEMATHU_NOT_REFUSED)
        return refused(session, found.refusal, NULL);
    bool nothing = found.found == NOEMATHU_NOTHING;
    if (has_option(options, OPTION_JSON)) {
        json_begin(&line);
        json_text(&line, "file", session->file);
        json_number(&line, "row", node_or_first(session));
        json_string(&line, "query", query);
        if (nothing)
            json_null(&line, "found");
        else
            json_string(&line, "found", result);
        json_flag(&line, "built_in", found.found == NOEMATHU_BUILT_IN_XML || found.found == NOEMATHU_BUILT_IN_XMLNS);
        json_close(&line);
        print_line(&line, '\n');
    } else if (nothing) {
        append_text(&line, "nothing is found for ");
        append_quoted(&line, query);
        append_text(&line, " at ");
        append_path(&line, &session->tree, node_or_first(session));
        note(session->file, 0, buffer_bytes(&line));
    } else {
        append_shown(&line, result);
        print_line(&line, '\n');
    }
    free_buffer(&line);
    return nothing ? STATUS_NO : STATUS_DONE;
}

/* Opens the file of a question. Where that fails and the question is the name of a file, says in which order they stand. */
static enum status open_asked(const struct options *options, const char *command, struct session *session)
{
    enum status status = open_operand(options, 1, session);
    if (status == STATUS_TROUBLE && options->count == 2 && access(options->operands[0], F_OK) == 0)
        trouble(NULL, "what is asked for comes first, then the file; see noemathu help ", command);
    return status;
}

/* A question of the library about a prefix or a URI at a row. */
typedef noemathu_found lookup(const uint8_t *bundle, size_t length, uint32_t row, const uint8_t *query, size_t query_length);

static noemathu_found asked(lookup *ask, const struct session *session, struct bytes query)
{
    return ask(session->bundle.at, session->bundle.length, node_or_first(session), query.at, query.length);
}

enum status command_uri(const struct options *options)
{
    struct session session;
    struct bytes prefix = text_bytes(options->operands[0]), uri;
    enum status status = open_asked(options, "uri", &session);
    if (status == STATUS_DONE) {
        lookup *ask = has_option(options, OPTION_BROWSER) ? noemathu_uri_of_prefix : noemathu_in_scope_uri;
        noemathu_found found = asked(ask, &session, prefix);
        uri.at = noemathu_uri(session.bundle.at, found, &uri.length);
        status = answer(options, &session, prefix, found, uri);
    }
    close_session(&session);
    return status;
}

/* The prefix that a lookup of a prefix has found. */
static struct bytes found_prefix(const struct session *session, noemathu_found found)
{
    switch (found.found) {
    case NOEMATHU_PLACE: return field_of(&session->tree, found.place);
    case NOEMATHU_BUILT_IN_XML: return text_bytes("xml");
    case NOEMATHU_BUILT_IN_XMLNS: return text_bytes("xmlns");
    default: return (struct bytes){NULL, 0};
    }
}

enum status command_prefix(const struct options *options)
{
    struct session session;
    struct bytes uri = text_bytes(options->operands[0]);
    enum status status = open_asked(options, "prefix", &session);
    if (status == STATUS_DONE) {
        lookup *ask = has_option(options, OPTION_BROWSER) ? noemathu_prefix_of_uri : noemathu_in_scope_prefix;
        noemathu_found found = asked(ask, &session, uri);
        status = answer(options, &session, uri, found, found_prefix(&session, found));
    }
    close_session(&session);
    return status;
}

/* A line of scope: the prefix, its URI, and the element that declares it; NOEMATHU_NONE for a built-in. */
static void print_binding(const struct options *options, const struct session *session, struct binding binding)
{
    struct buffer line = {0}, path = {0};
    const struct tree *tree = &session->tree;
    uint32_t declaration = binding.declaration;
    if (declaration != NOEMATHU_NONE)
        append_path(&path, tree, tree->rows[declaration].parent);
    if (has_option(options, OPTION_JSON)) {
        json_begin(&line);
        json_text(&line, "file", session->file);
        json_string(&line, "prefix", binding.prefix);
        json_string(&line, "uri", binding.uri);
        if (declaration != NOEMATHU_NONE) {
            json_number(&line, "row", declaration);
            json_string(&line, "declared_at", buffer_bytes(&path));
        }
        json_flag(&line, "built_in", declaration == NOEMATHU_NONE);
        json_close(&line);
    } else {
        append_text(&line, binding.prefix.length > 0 ? "xmlns:" : "xmlns");
        append_shown(&line, binding.prefix);
        append_text(&line, "=");
        append_quoted(&line, binding.uri);
        append_text(&line, declaration == NOEMATHU_NONE ? "\tbuilt in" : "\t");
        append(&line, buffer_bytes(&path));
    }
    print_line(&line, '\n');
    free_buffer(&line);
    free_buffer(&path);
}

static void print_scope(const struct options *options, const struct session *session, uint32_t row)
{
    static const char *const built_in[] = {"xml", "xmlns"};
    size_t count;
    struct binding *bindings = bindings_at(&session->tree, row, &count);
    for (size_t i = 0; i < count; i++)
        print_binding(options, session, bindings[i]);
    free(bindings);
    for (size_t i = 0; i < 2; i++) {
        struct bytes prefix = text_bytes(built_in[i]), uri;
        noemathu_found found = noemathu_in_scope_uri(session->bundle.at, session->bundle.length, row, prefix.at, prefix.length);
        uri.at = noemathu_uri(session->bundle.at, found, &uri.length);
        if (found.found != NOEMATHU_NOTHING)
            print_binding(options, session, (struct binding){prefix, uri, NOEMATHU_NONE});
    }
}

enum status command_scope(const struct options *options)
{
    struct session session;
    enum status status = open_operand(options, 0, &session);
    if (status == STATUS_DONE) {
        uint32_t row = node_or_first(&session);
        noemathu_found found = noemathu_default_uri(session.bundle.at, session.bundle.length, row);
        if (found.refusal.number != NOEMATHU_NOT_REFUSED)
            status = refused(&session, found.refusal, NULL);
        else
            print_scope(options, &session, row);
    }
    close_session(&session);
    return status;
}
