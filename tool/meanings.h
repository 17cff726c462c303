/* What a name means to its maker, and what a reader takes it for who has only names and declarations. */
#ifndef TOOL_MEANINGS_H
#define TOOL_MEANINGS_H

#include "tree.h"

struct expanded {
    struct bytes uri, local_name;
};

struct meaning {
    struct expanded meant; /* the row's own URI and local name */
    bool is_read;          /* a reader can tell its namespace */
    bool is_name;          /* it is a name to a reader; else it is a Level 1 name with colons in wrong places */
    struct expanded read;
    bool is_same;          /* it is read as it is meant */
};

/* Whether a row has a name that a reader meets: elements, and attributes that have an owner. */
bool has_meaning(const struct tree *tree, uint32_t row);

/* The two meanings of such a row, in a bundle that was accepted. What is in scope is asked of the library. */
struct meaning meaning_of(const struct tree *tree, uint32_t row);

/* "its maker means {U}a; a reader takes it for {V}a" */
void append_meaning(struct buffer *line, const struct tree *tree, uint32_t row, struct meaning meaning);

/* The second half of it. */
void append_reading(struct buffer *line, const struct tree *tree, uint32_t row, struct meaning meaning);

/* The same as members "meant" and "read" of an object; "read" is null where no reader can tell. */
void json_meaning(struct buffer *line, struct meaning meaning);

#endif
