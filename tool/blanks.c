#include "blanks.h"

#include <stdlib.h>
#include <string.h>

/* What is known of each row. */
struct about {
    bool keeps_space; /* xml:space="preserve" holds there */
    bool has_text;    /* it holds a text that is not white space alone */
};

static struct bytes bytes_of(const struct nodes *nodes, noemathu_place place)
{
    return place.length > 0 ? (struct bytes){nodes->pool.at + place.offset, place.length} : (struct bytes){NULL, 0};
}

static bool is_space_attribute(const struct nodes *nodes, noemathu_row row)
{
    return row.type == NOEMATHU_ATTRIBUTE && same_bytes(bytes_of(nodes, row.uri), text_bytes(NOEMATHU_XML_URI)) &&
           same_bytes(bytes_of(nodes, row.local_name), text_bytes("space"));
}

/* Rows come in the order of the text, so an element's attributes stand before what it holds. */
static struct about *look(const struct nodes *nodes)
{
    struct about *about = held(NULL, nodes->rows, sizeof *about);
    memset(about, 0, nodes->rows * sizeof *about);
    for (size_t i = 0; i < nodes->rows; i++) {
        noemathu_row row = row_of(nodes, i);
        if (row.parent == NOEMATHU_NONE)
            continue;
        about[i].keeps_space = about[row.parent].keeps_space;
        if (is_space_attribute(nodes, row))
            about[row.parent].keeps_space = same_bytes(bytes_of(nodes, row.value), text_bytes("preserve"));
        if (row.type == NOEMATHU_CDATA || (row.type == NOEMATHU_TEXT && !is_blank(bytes_of(nodes, row.value))))
            about[row.parent].has_text = true;
    }
    return about;
}

/* The same rows without the white space, and their lines. */
static void copy_rest(struct xml_rows *rows, const struct about *about, struct nodes *rest, size_t *lines)
{
    const struct nodes *nodes = &rows->nodes;
    uint32_t *moved = held(NULL, nodes->rows, sizeof *moved);
    for (size_t i = 0; i < nodes->rows; i++) {
        noemathu_row row = row_of(nodes, i);
        const struct about *around = about + (row.parent == NOEMATHU_NONE ? i : row.parent);
        if (row.type == NOEMATHU_TEXT && !around->has_text && !around->keeps_space)
            continue;
        row.parent = row.parent == NOEMATHU_NONE ? row.parent : moved[row.parent];
        row.prefix = share(rest, bytes_of(nodes, row.prefix));
        row.local_name = share(rest, bytes_of(nodes, row.local_name));
        row.uri = share(rest, bytes_of(nodes, row.uri));
        row.value = share(rest, bytes_of(nodes, row.value));
        lines[rest->rows] = rows->lines[i];
        moved[i] = add_row(rest, row);
    }
    free(moved);
}

void leave_out_blanks(struct xml_rows *rows, bool wished)
{
    struct nodes rest = {0};
    struct about *about = look(&rows->nodes);
    size_t *lines = held(NULL, rows->nodes.rows, sizeof *lines);
    copy_rest(rows, about, &rest, lines);
    rows->blank_rows = rows->nodes.rows - rest.rows;
    rows->blank_bytes = rows->nodes.pool.length - rest.pool.length;
    if (wished) {
        free_nodes(&rows->nodes);
        free(rows->lines);
        rows->nodes = rest;
        rows->lines = lines;
    } else {
        free_nodes(&rest);
        free(lines);
    }
    free(about);
}
