#include "nodes.h"

#include <stdlib.h>
#include <string.h>

/* FNV-1a. */
static size_t hash_of(struct bytes bytes)
{
    uint64_t hash = UINT64_C(14695981039346656037);
    for (size_t i = 0; i < bytes.length; i++)
        hash = (hash ^ bytes.at[i]) * UINT64_C(1099511628211);
    return (size_t)(hash ^ hash >> 32);
}

static struct bytes bytes_at(const struct nodes *nodes, noemathu_place place)
{
    return (struct bytes){nodes->pool.at + place.offset, place.length};
}

/* The slot of some bytes: the one that has them, or the empty one where they belong. */
static noemathu_place *slot_of(const struct nodes *nodes, struct bytes bytes)
{
    size_t slot = hash_of(bytes) & (nodes->slots - 1);
    while (nodes->shared[slot].length > 0 && !same_bytes(bytes_at(nodes, nodes->shared[slot]), bytes))
        slot = (slot + 1) & (nodes->slots - 1);
    return nodes->shared + slot;
}

static void make_slots(struct nodes *nodes)
{
    noemathu_place *before = nodes->shared;
    size_t slots = nodes->slots;
    nodes->slots = slots > 0 ? 2 * slots : 1024;
    nodes->shared = held(NULL, nodes->slots, sizeof *nodes->shared);
    memset(nodes->shared, 0, nodes->slots * sizeof *nodes->shared);
    for (size_t i = 0; i < slots; i++)
        if (before[i].length > 0)
            *slot_of(nodes, bytes_at(nodes, before[i])) = before[i];
    free(before);
}

noemathu_place share(struct nodes *nodes, struct bytes bytes)
{
    if (bytes.length == 0)
        return (noemathu_place){0, 0};
    if (2 * nodes->places >= nodes->slots)
        make_slots(nodes);
    noemathu_place *slot = slot_of(nodes, bytes);
    if (slot->length == 0) {
        *slot = (noemathu_place){(uint32_t)nodes->pool.length, (uint32_t)bytes.length};
        append(&nodes->pool, bytes);
        nodes->places++;
    }
    return *slot;
}

uint32_t add_row(struct nodes *nodes, noemathu_row row)
{
    if (nodes->rows == nodes->room) {
        nodes->room = 2 * nodes->room + 64;
        nodes->table = held(nodes->table, nodes->room, NOEMATHU_ROW_WORDS * sizeof *nodes->table);
    }
    noemathu_put_row(nodes->table, nodes->rows, row);
    return (uint32_t)nodes->rows++;
}

noemathu_row row_of(const struct nodes *nodes, size_t row)
{
    const uint32_t *words = nodes->table + NOEMATHU_ROW_WORDS * row;
    return (noemathu_row){words[0], words[1], {words[2], words[3]}, {words[4], words[5]}, {words[6], words[7]},
                          {words[8], words[9]}, words[10]};
}

noemathu_refusal write_nodes(const struct nodes *nodes, struct buffer *bundle)
{
    bundle->at = held(bundle->at, NOEMATHU_BUNDLE_MOST, 1);
    bundle->room = NOEMATHU_BUNDLE_MOST;
    noemathu_used used = noemathu_write(nodes->table, NOEMATHU_ROW_WORDS * nodes->rows, nodes->pool.at, nodes->pool.length,
                                        bundle->at, bundle->room);
    bundle->length = used.bytes;
    return used.refusal;
}

void free_nodes(struct nodes *nodes)
{
    free(nodes->table);
    free(nodes->shared);
    free_buffer(&nodes->pool);
    *nodes = (struct nodes){0};
}
