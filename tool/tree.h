/* The rows of a bundle as a tree. */
#ifndef TOOL_TREE_H
#define TOOL_TREE_H

#include "bytes.h"

#include <noemathu.h>

struct tree {
    const uint8_t *bundle;
    size_t length;
    uint32_t count;         /* how many rows can be looked at */
    noemathu_row *rows;
    uint32_t *first, *next; /* the rows under each row, in row order; under row `count`, those without a parent */
};

/* The tree of a bundle that the library has accepted, or of one that it has refused at a row: then the rows up to that one,
   which is looked at with care. Without such a row the tree is empty. The bundle stays the caller's. */
struct tree tree_of(const uint8_t *bundle, size_t length, noemathu_refusal refusal);
void free_tree(struct tree *tree);

/* The first row under a row, or under NOEMATHU_NONE, and the one behind it; NOEMATHU_NONE after the last. */
uint32_t first_under(const struct tree *tree, uint32_t row);
uint32_t next_under(const struct tree *tree, uint32_t row);

/* The bytes of a field. */
struct bytes field_of(const struct tree *tree, noemathu_place place);

bool is_element(noemathu_row row);   /* types 1 and 257 */
bool is_attribute(noemathu_row row); /* types 2 and 258 */
bool is_level1(noemathu_row row);    /* types 257 and 258 */
bool is_owned(noemathu_row row);     /* what stands in a start tag: attributes and declarations */
bool is_characters(noemathu_row row); /* text and CDATA */

/* What a node of this type is called. */
const char *kind_of(uint32_t type);

/* Whether a row is another one or stands under it. */
bool is_within(const struct tree *tree, uint32_t row, uint32_t top);

/* The row behind another one in the order of the text: what an element owns, then what it holds, in row order, all below
   `top` and then all of the table if `top` is NOEMATHU_NONE; NOEMATHU_NONE after the last. `depth` is kept up to date. */
uint32_t row_after(const struct tree *tree, uint32_t row, uint32_t top, unsigned *depth);

/* Behind a line: a name as it is written, p:order, or for a declaration xmlns:p. */
void append_written(struct buffer *line, const struct tree *tree, uint32_t row);

/* A URI and a local name as {URI}name. */
void append_expanded(struct buffer *line, struct bytes uri, struct bytes local_name);

#endif
