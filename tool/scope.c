#include "scope.h"

#include <stdlib.h>

/* The element at which a lookup from a row begins, by section 4.2 of docs/RULES.md; NOEMATHU_NONE if there is none. */
static uint32_t start_element(const struct tree *tree, uint32_t row)
{
    uint32_t type = tree->rows[row].type;
    if (type == NOEMATHU_DOCUMENT)
        for (uint32_t i = first_under(tree, row); i != NOEMATHU_NONE; i = next_under(tree, i))
            if (is_element(tree->rows[i]))
                return i;
    while (row != NOEMATHU_NONE && !is_element(tree->rows[row]))
        row = tree->rows[row].parent;
    return row;
}

static bool is_among(const struct binding *bindings, size_t count, struct bytes prefix)
{
    for (size_t i = 0; i < count; i++)
        if (same_bytes(bindings[i].prefix, prefix))
            return true;
    return false;
}

struct binding *bindings_at(const struct tree *tree, uint32_t row, size_t *count)
{
    struct binding *bindings = held(NULL, tree->count, sizeof *bindings);
    size_t seen = 0;
    for (uint32_t at = start_element(tree, row); at != NOEMATHU_NONE; at = tree->rows[at].parent)
        for (uint32_t i = first_under(tree, at); i != NOEMATHU_NONE; i = next_under(tree, i)) {
            struct bytes prefix = field_of(tree, tree->rows[i].local_name);
            if (tree->rows[i].type == NOEMATHU_DECLARATION && !is_among(bindings, seen, prefix))
                bindings[seen++] = (struct binding){prefix, {NULL, 0}, i};
        }
    *count = 0;
    for (size_t i = 0; i < seen; i++) {
        struct binding binding = bindings[i];
        noemathu_found found =
            noemathu_in_scope_uri(tree->bundle, tree->length, row, binding.prefix.at, binding.prefix.length);
        binding.uri.at = noemathu_uri(tree->bundle, found, &binding.uri.length);
        if (found.found != NOEMATHU_NOTHING)
            bindings[(*count)++] = binding;
    }
    return bindings;
}

/* A row with its fields in another pool. */
static noemathu_row moved_row(struct nodes *nodes, const struct tree *tree, uint32_t row)
{
    noemathu_row moved = tree->rows[row];
    moved.prefix = share(nodes, field_of(tree, moved.prefix));
    moved.local_name = share(nodes, field_of(tree, moved.local_name));
    moved.uri = share(nodes, field_of(tree, moved.uri));
    moved.value = share(nodes, field_of(tree, moved.value));
    return moved;
}

/* Gives a copied element the declarations that are in scope at the original and stand outside of it. They are by the maker of the
   element, which needs them, as those that normalization adds. */
static void carry_scope(struct nodes *nodes, const struct tree *tree, uint32_t row, uint32_t copy)
{
    size_t count;
    struct binding *bindings = bindings_at(tree, row, &count);
    for (size_t i = 0; i < count; i++) {
        if (tree->rows[bindings[i].declaration].parent == row)
            continue;
        noemathu_row declaration = {.type = NOEMATHU_DECLARATION, .parent = copy, .maker = tree->rows[row].maker};
        declaration.local_name = share(nodes, bindings[i].prefix);
        declaration.value = share(nodes, bindings[i].uri);
        add_row(nodes, declaration);
    }
    free(bindings);
}

void copy_node(struct nodes *nodes, const struct tree *tree, uint32_t row, uint32_t parent, bool bare)
{
    uint32_t *moved = held(NULL, tree->count, sizeof *moved);
    for (uint32_t i = row; i < tree->count; i++) {
        if (!is_within(tree, i, row))
            continue;
        noemathu_row copy = moved_row(nodes, tree, i);
        copy.parent = i == row ? parent : moved[copy.parent];
        moved[i] = add_row(nodes, copy);
        if (i == row && is_element(copy) && !bare)
            carry_scope(nodes, tree, row, moved[i]);
    }
    free(moved);
}

void copy_rows(struct nodes *nodes, const struct tree *tree)
{
    for (uint32_t i = 0; i < tree->count; i++)
        add_row(nodes, moved_row(nodes, tree, i));
}
