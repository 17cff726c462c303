/* A table and a pool that grow. Equal names, URIs and values stand in the pool once. */
#ifndef TOOL_NODES_H
#define TOOL_NODES_H

#include "bytes.h"

#include <noemathu.h>

struct nodes {
    uint32_t *table;
    size_t rows, room;
    struct buffer pool;
    noemathu_place *shared; /* the places that the pool has, by the hash of their bytes */
    size_t places, slots;
};

/* Where bytes stand in the pool; they are put there if no field had them before. */
noemathu_place share(struct nodes *nodes, struct bytes bytes);

/* Adds a row, and answers its number. */
uint32_t add_row(struct nodes *nodes, noemathu_row row);

noemathu_row row_of(const struct nodes *nodes, size_t row);

/* The rows and the pool as a bundle, by the library, which judges them. */
noemathu_refusal write_nodes(const struct nodes *nodes, struct buffer *bundle);

void free_nodes(struct nodes *nodes);

#endif
