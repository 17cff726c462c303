/* A file that was opened: a bundle, its tree, and the node of it that was named. */
#ifndef TOOL_SESSION_H
#define TOOL_SESSION_H

#include "read_xml.h"
#include "status.h"
#include "tree.h"

struct session {
    char *file;            /* as it is named in messages */
    struct buffer bundle;
    struct tree tree;
    const char *named;     /* what stands behind # in the argument, or NULL */
    uint32_t node;         /* the row that it names, or NOEMATHU_NONE */
    size_t *lines;         /* where it was XML text: the line of each row; else NULL */
    noemathu_refusal refusal; /* what the library says of the bundle */
};

enum expected {
    BUNDLE_OR_XML,
    ONLY_XML,
    EVEN_REFUSED /* a bundle or XML; that the library refuses the bundle is not said, and no node of it is looked for */
};

/* Opens FILE or FILE#NODE, - or NULL for standard input, and has the library judge it. What is wrong is said. */
enum status open_session(const char *argument, enum expected expected, struct xml_wishes wishes, struct session *session);

/* A session of rows that were made here, named in messages as `file`. */
enum status session_of_nodes(const char *file, const struct nodes *nodes, struct session *session);

/* A session of a bundle that the library has written; the bytes are the session's from then on. */
void session_of_bundle(const char *file, struct buffer *bundle, struct session *session);

/* Says what the library refuses about a session that was opened EVEN_REFUSED. */
enum status refused_at(struct session *session, noemathu_refusal refusal);

/* The row that a NODE names, a row number or a path. What is wrong is said. */
enum status find_node(const struct session *session, const char *node, uint32_t *row);

/* The node that was named, or the row to begin with. */
uint32_t node_or_first(const struct session *session);

void close_session(struct session *session);

#endif
