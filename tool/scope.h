/* What is in scope at a node, and nodes copied with it. */
#ifndef TOOL_SCOPE_H
#define TOOL_SCOPE_H

#include "nodes.h"
#include "tree.h"

/* A prefix that has a URI somewhere, and the row that declares it. */
struct binding {
    struct bytes prefix, uri;
    uint32_t declaration;
};

/* The declarations in scope at a row of an accepted bundle, the nearest element's first; what they mean is asked of the
   library. The caller frees them. */
struct binding *bindings_at(const struct tree *tree, uint32_t row, size_t *count);

/* Copies a node with all that it holds under a row, or NOEMATHU_NONE. An element gets the declarations in scope at it that
   stand outside of it, unless it is to be bare. */
void copy_node(struct nodes *nodes, const struct tree *tree, uint32_t row, uint32_t parent, bool bare);

/* Copies all rows, which keep their numbers. */
void copy_rows(struct nodes *nodes, const struct tree *tree);

#endif
