#include "tree.h"
#include "escape.h"

#include <stdlib.h>

/* A field that lies in the pool, or none. */
static noemathu_place careful(noemathu_place place, size_t pool)
{
    bool inside = place.offset <= pool && place.length <= pool - place.offset;
    return inside ? place : (noemathu_place){0, 0};
}

/* A row that was refused, so that it can be shown: without fields that lie elsewhere and without a parent behind it. */
static noemathu_row careful_row(const uint8_t *bundle, uint32_t number)
{
    noemathu_row row = noemathu_row_of(bundle, number);
    size_t pool = noemathu_pool_length(bundle);
    row.prefix = careful(row.prefix, pool);
    row.local_name = careful(row.local_name, pool);
    row.uri = careful(row.uri, pool);
    row.value = careful(row.value, pool);
    if (row.parent >= number)
        row.parent = NOEMATHU_NONE;
    return row;
}

/* How many rows of a bundle can be looked at after an answer. */
static uint32_t rows_to_look_at(const uint8_t *bundle, noemathu_refusal refusal)
{
    bool no_bundle = refusal.number >= NOEMATHU_REFUSED_MARK && refusal.number <= NOEMATHU_REFUSED_LENGTHS;
    bool of_check = refusal.number >= NOEMATHU_REFUSED_STRUCTURE && refusal.number <= NOEMATHU_REFUSED_DOUBLE;
    bool of_fields = refusal.number >= NOEMATHU_REFUSED_OFFSET && refusal.number <= NOEMATHU_REFUSED_MALFORMED_UTF8;
    if (no_bundle || refusal.number == NOEMATHU_REFUSED_SIZE)
        return 0;
    return of_check || of_fields ? refusal.row + 1 : (uint32_t)noemathu_row_count(bundle);
}

struct tree tree_of(const uint8_t *bundle, size_t length, noemathu_refusal refusal)
{
    struct tree tree = {bundle, length, rows_to_look_at(bundle, refusal), NULL, NULL, NULL};
    tree.rows = held(NULL, tree.count, sizeof *tree.rows);
    tree.first = held(NULL, (size_t)tree.count + 1, sizeof *tree.first);
    tree.next = held(NULL, tree.count, sizeof *tree.next);
    for (uint32_t i = 0; i <= tree.count; i++)
        tree.first[i] = NOEMATHU_NONE;
    for (uint32_t i = 0; i < tree.count; i++)
        tree.rows[i] = careful_row(bundle, i);
    for (uint32_t i = tree.count; i-- > 0;) {
        uint32_t parent = tree.rows[i].parent;
        uint32_t *first = tree.first + (parent == NOEMATHU_NONE ? tree.count : parent);
        tree.next[i] = *first;
        *first = i;
    }
    return tree;
}

void free_tree(struct tree *tree)
{
    free(tree->rows);
    free(tree->first);
    free(tree->next);
    *tree = (struct tree){0};
}

uint32_t first_under(const struct tree *tree, uint32_t row)
{
    return tree->first[row == NOEMATHU_NONE ? tree->count : row];
}

uint32_t next_under(const struct tree *tree, uint32_t row)
{
    return tree->next[row];
}

struct bytes field_of(const struct tree *tree, noemathu_place place)
{
    if (place.length == 0)
        return (struct bytes){NULL, 0};
    return (struct bytes){noemathu_bytes(tree->bundle, place), place.length};
}

bool is_element(noemathu_row row)
{
    return row.type == NOEMATHU_ELEMENT || row.type == NOEMATHU_LEVEL1_ELEMENT;
}

bool is_attribute(noemathu_row row)
{
    return row.type == NOEMATHU_ATTRIBUTE || row.type == NOEMATHU_LEVEL1_ATTRIBUTE;
}

bool is_level1(noemathu_row row)
{
    return row.type == NOEMATHU_LEVEL1_ELEMENT || row.type == NOEMATHU_LEVEL1_ATTRIBUTE;
}

bool is_owned(noemathu_row row)
{
    return is_attribute(row) || row.type == NOEMATHU_DECLARATION;
}

bool is_characters(noemathu_row row)
{
    return row.type == NOEMATHU_TEXT || row.type == NOEMATHU_CDATA;
}

const char *kind_of(uint32_t type)
{
    static const char *const kinds[] = {"node of an unknown type", "element", "attribute", "text", "CDATA section",
                                        "entity reference", "entity", "instruction", "comment", "document",
                                        "document type", "fragment", "notation", "declaration"};
    if (type == NOEMATHU_LEVEL1_ELEMENT)
        return "Level 1 element";
    if (type == NOEMATHU_LEVEL1_ATTRIBUTE)
        return "Level 1 attribute";
    return kinds[type <= NOEMATHU_DECLARATION ? type : 0];
}

bool is_within(const struct tree *tree, uint32_t row, uint32_t top)
{
    while (row != top && row != NOEMATHU_NONE)
        row = tree->rows[row].parent;
    return row == top;
}

/* The first row under a parent, from a row of its list on, that stands in the start tag, or that does not. */
static uint32_t from(const struct tree *tree, uint32_t row, bool owned)
{
    while (row != NOEMATHU_NONE && is_owned(tree->rows[row]) != owned)
        row = next_under(tree, row);
    return row;
}

/* The row behind another one under the same parent, what is owned before what is held. */
static uint32_t sibling_after(const struct tree *tree, uint32_t row)
{
    bool owned = is_owned(tree->rows[row]);
    uint32_t next = from(tree, next_under(tree, row), owned);
    if (next != NOEMATHU_NONE || !owned)
        return next;
    return from(tree, first_under(tree, tree->rows[row].parent), false);
}

static uint32_t first_child(const struct tree *tree, uint32_t row)
{
    uint32_t owned = from(tree, first_under(tree, row), true);
    return owned != NOEMATHU_NONE ? owned : from(tree, first_under(tree, row), false);
}

uint32_t row_after(const struct tree *tree, uint32_t row, uint32_t top, unsigned *depth)
{
    uint32_t below = first_child(tree, row);
    if (below != NOEMATHU_NONE) {
        (*depth)++;
        return below;
    }
    for (; row != top; row = tree->rows[row].parent, (*depth)--) {
        uint32_t next = sibling_after(tree, row);
        if (next != NOEMATHU_NONE)
            return next;
    }
    return NOEMATHU_NONE;
}

void append_written(struct buffer *line, const struct tree *tree, uint32_t row)
{
    bool declaration = tree->rows[row].type == NOEMATHU_DECLARATION;
    struct bytes prefix = declaration ? text_bytes("xmlns") : field_of(tree, tree->rows[row].prefix);
    struct bytes local_name = field_of(tree, tree->rows[row].local_name);
    append_shown(line, prefix);
    if (prefix.length > 0 && local_name.length > 0)
        append_text(line, ":");
    append_shown(line, local_name);
}

void append_expanded(struct buffer *line, struct bytes uri, struct bytes local_name)
{
    append_text(line, "{");
    append_shown(line, uri);
    append_text(line, "}");
    append_shown(line, local_name);
}
