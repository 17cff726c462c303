/* Paths of nodes, as they are written: /session/p:order[2]/@p:since.

   A step is the written name of an element, @ and that of an attribute, @xmlns or @xmlns:p for a declaration, or text(),
   cdata(), comment() and so on. [2] is the second of several siblings with this step, in row order; where there are
   several, it is always there. A document or a fragment is no step: what it holds stands beside the rows without a
   parent, and / is the only row without one. Control characters in names are escaped, in what is shown and in what is
   asked for. */
#ifndef TOOL_PATHS_H
#define TOOL_PATHS_H

#include "tree.h"

/* Behind a line: the path of a row. */
void append_path(struct buffer *line, const struct tree *tree, uint32_t row);

enum path_answer {
    PATH_FOUND,
    PATH_NOTHING, /* a step that no node has */
    PATH_SEVERAL, /* a step that several nodes have */
    PATH_NONE     /* no path */
};

/* The row that a path leads to. Else `last` is the row that the steps before the one at fault lead to, or NOEMATHU_NONE;
   `step` is that step, and `several` how many nodes have it. */
struct path_end {
    enum path_answer answer;
    uint32_t row, last;
    struct bytes step;
    size_t several;
};

struct path_end row_of_path(const struct tree *tree, struct bytes path);

#endif
