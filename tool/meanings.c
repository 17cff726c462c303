#include "meanings.h"
#include "escape.h"
#include "json.h"

#include <string.h>

bool has_meaning(const struct tree *tree, uint32_t row)
{
    noemathu_row given = tree->rows[row];
    return is_element(given) || (is_attribute(given) && given.parent != NOEMATHU_NONE);
}

/* The prefix that a reader sees: a row's own, or what stands before the colon of a Level 1 name. */
static struct bytes written_prefix(const struct tree *tree, uint32_t row)
{
    struct bytes name = field_of(tree, tree->rows[row].local_name);
    if (!is_level1(tree->rows[row]))
        return field_of(tree, tree->rows[row].prefix);
    const uint8_t *colon = memchr(name.at, ':', name.length);
    return (struct bytes){name.at, colon ? (size_t)(colon - name.at) : 0};
}

/* Whether a Level 1 name with this prefix is one that a reader of namespaces takes. */
static bool is_readable(struct bytes name, struct bytes prefix)
{
    if (prefix.length == 0)
        return memchr(name.at, ':', name.length) == NULL;
    const uint8_t *local_name = name.at + prefix.length + 1;
    size_t length = name.length - prefix.length - 1;
    return length > 0 && !memchr(local_name, ':', length) && !strchr("0123456789-.", local_name[0]);
}

/* What a prefix means to a reader, by the library: for an attribute no prefix is no namespace, whatever the default is. */
static bool is_bound(const struct tree *tree, uint32_t row, struct bytes prefix, struct bytes *uri)
{
    *uri = (struct bytes){NULL, 0};
    if (is_attribute(tree->rows[row]) && prefix.length == 0)
        return true;
    noemathu_found found = noemathu_in_scope_uri(tree->bundle, tree->length, row, prefix.at, prefix.length);
    uri->at = noemathu_uri(tree->bundle, found, &uri->length);
    return prefix.length == 0 || found.found != NOEMATHU_NOTHING;
}

struct meaning meaning_of(const struct tree *tree, uint32_t row)
{
    struct meaning meaning = {.meant = {field_of(tree, tree->rows[row].uri), field_of(tree, tree->rows[row].local_name)}};
    struct bytes name = meaning.meant.local_name, prefix = written_prefix(tree, row);
    meaning.is_read = is_bound(tree, row, prefix, &meaning.read.uri);
    meaning.read.local_name = name;
    meaning.is_name = true;
    if (is_level1(tree->rows[row])) {
        meaning.is_name = is_readable(name, prefix);
        meaning.is_read = meaning.is_read && meaning.is_name;
        if (prefix.length > 0 && meaning.is_read)
            meaning.read.local_name = (struct bytes){name.at + prefix.length + 1, name.length - prefix.length - 1};
        if (is_attribute(tree->rows[row]) && same_bytes(name, text_bytes("xmlns")))
            meaning.read.uri = text_bytes(NOEMATHU_XMLNS_URI);
    }
    meaning.is_same = meaning.is_read && same_bytes(meaning.meant.uri, meaning.read.uri) &&
                      same_bytes(meaning.meant.local_name, meaning.read.local_name);
    return meaning;
}

void append_reading(struct buffer *line, const struct tree *tree, uint32_t row, struct meaning meaning)
{
    if (meaning.is_read) {
        append_text(line, "a reader takes it for ");
        append_expanded(line, meaning.read.uri, meaning.read.local_name);
        return;
    }
    if (!meaning.is_name) {
        append_text(line, "a reader of namespaces does not take it for a name");
        return;
    }
    append_text(line, "a reader cannot tell: the prefix ");
    append_shown(line, written_prefix(tree, row));
    append_text(line, " is not declared there");
}

void append_meaning(struct buffer *line, const struct tree *tree, uint32_t row, struct meaning meaning)
{
    append_text(line, "its maker means ");
    append_expanded(line, meaning.meant.uri, meaning.meant.local_name);
    append_text(line, "; ");
    append_reading(line, tree, row, meaning);
}

static void json_expanded(struct buffer *line, const char *name, struct expanded expanded)
{
    json_open(line, name);
    json_string(line, "uri", expanded.uri);
    json_string(line, "local", expanded.local_name);
    json_close(line);
}

void json_meaning(struct buffer *line, struct meaning meaning)
{
    json_expanded(line, "meant", meaning.meant);
    if (meaning.is_read)
        json_expanded(line, "read", meaning.read);
    else
        json_null(line, "read");
}
