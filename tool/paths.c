#include "paths.h"
#include "escape.h"

/* Whether what a row holds stands at the top of paths. */
static bool is_top(noemathu_row row)
{
    return row.type == NOEMATHU_DOCUMENT || row.type == NOEMATHU_FRAGMENT;
}

/* The row that a path has before a row's own step; NOEMATHU_NONE at the top. */
static uint32_t path_parent(const struct tree *tree, uint32_t row)
{
    uint32_t parent = tree->rows[row].parent;
    return parent == NOEMATHU_NONE || is_top(tree->rows[parent]) ? NOEMATHU_NONE : parent;
}

/* The first row, from a row number on, that stands at the top of paths. */
static uint32_t top_from(const struct tree *tree, uint32_t row)
{
    while (row < tree->count && path_parent(tree, row) != NOEMATHU_NONE)
        row++;
    return row < tree->count ? row : NOEMATHU_NONE;
}

/* The rows whose path has a row before the last step, in row order: the first of them, and the one behind another. */
static uint32_t first_step(const struct tree *tree, uint32_t parent)
{
    return parent == NOEMATHU_NONE ? top_from(tree, 0) : first_under(tree, parent);
}

static uint32_t next_step(const struct tree *tree, uint32_t parent, uint32_t row)
{
    return parent == NOEMATHU_NONE ? top_from(tree, row + 1) : next_under(tree, row);
}

/* A row's step without its number. */
static void append_step(struct buffer *line, const struct tree *tree, uint32_t row)
{
    static const char *const steps[] = {"node()", "", "", "text()", "cdata()", "entity-reference()", "entity()",
                                        "processing-instruction()", "comment()", "document()", "document-type()",
                                        "fragment()", "notation()"};
    uint32_t type = tree->rows[row].type;
    bool named = is_element(tree->rows[row]) || is_owned(tree->rows[row]);
    if (is_owned(tree->rows[row]))
        append_text(line, "@");
    if (named)
        append_written(line, tree, row);
    else
        append_text(line, steps[type <= NOEMATHU_NOTATION ? type : 0]);
}

static bool has_step(const struct tree *tree, uint32_t row, struct bytes step)
{
    struct buffer own = {0};
    append_step(&own, tree, row);
    bool same = same_bytes(buffer_bytes(&own), step);
    free_buffer(&own);
    return same;
}

/* How many rows beside a row have its step, and how many of them up to it. */
static size_t count_step(const struct tree *tree, uint32_t row, struct bytes step, size_t *up_to)
{
    uint32_t parent = path_parent(tree, row);
    size_t count = 0;
    for (uint32_t i = first_step(tree, parent); i != NOEMATHU_NONE; i = next_step(tree, parent, i)) {
        count += has_step(tree, i, step);
        if (i == row)
            *up_to = count;
    }
    return count;
}

/* The only row without a parent, if it is a document or a fragment. */
static bool is_whole(const struct tree *tree, uint32_t row)
{
    uint32_t only = first_under(tree, NOEMATHU_NONE);
    return row == only && next_under(tree, only) == NOEMATHU_NONE && is_top(tree->rows[row]);
}

void append_path(struct buffer *line, const struct tree *tree, uint32_t row)
{
    struct buffer step = {0};
    size_t number = 1;
    if (is_whole(tree, row)) {
        append_text(line, "/");
        return;
    }
    uint32_t parent = path_parent(tree, row);
    if (parent != NOEMATHU_NONE)
        append_path(line, tree, parent);
    append_step(&step, tree, row);
    size_t several = count_step(tree, row, buffer_bytes(&step), &number);
    append_text(line, "/");
    append(line, buffer_bytes(&step));
    if (several > 1) {
        append_text(line, "[");
        append_number(line, number);
        append_text(line, "]");
    }
    free_buffer(&step);
}

/* A step as it was typed: its name, and the number in brackets; 0 without one. False if it is no step. */
static bool split_step(struct bytes step, struct bytes *name, size_t *number)
{
    *number = 0;
    *name = step;
    if (step.length == 0 || step.at[step.length - 1] != ']')
        return step.length > 0;
    size_t open = step.length - 1;
    while (open > 0 && step.at[open] != '[')
        open--;
    for (size_t i = open + 1; i < step.length - 1; i++) {
        if (step.at[i] < '0' || step.at[i] > '9' || *number > NOEMATHU_MOST_ROWS)
            return false;
        *number = 10 * *number + (size_t)(step.at[i] - '0');
    }
    name->length = open;
    return open > 0 && *number > 0;
}

/* One step down from end->last, which is moved to the row found. */
static void take_step(const struct tree *tree, struct path_end *end)
{
    struct buffer typed = {0}, shown = {0};
    struct bytes name;
    size_t number;
    uint32_t found = NOEMATHU_NONE;
    end->several = 0;
    bool good = split_step(end->step, &name, &number) && append_unescaped(&typed, name);
    append_shown(&shown, buffer_bytes(&typed));
    for (uint32_t i = first_step(tree, end->last); good && i != NOEMATHU_NONE; i = next_step(tree, end->last, i))
        if (has_step(tree, i, buffer_bytes(&shown)) && (++end->several == number || found == NOEMATHU_NONE))
            found = i;
    free_buffer(&typed);
    free_buffer(&shown);
    if (!good)
        end->answer = PATH_NONE;
    else if (end->several == 0 || number > end->several)
        end->answer = PATH_NOTHING;
    else if (number == 0 && end->several > 1)
        end->answer = PATH_SEVERAL;
    else
        end->last = found;
}

struct path_end row_of_path(const struct tree *tree, struct bytes path)
{
    struct path_end end = {PATH_FOUND, NOEMATHU_NONE, NOEMATHU_NONE, path, 0};
    uint32_t only = first_under(tree, NOEMATHU_NONE);
    if (path.length == 0 || path.at[0] != '/') {
        end.answer = PATH_NONE;
    } else if (path.length == 1) {
        end.several = (only != NOEMATHU_NONE) + (size_t)(only != NOEMATHU_NONE && next_under(tree, only) != NOEMATHU_NONE);
        end.answer = end.several == 0 ? PATH_NOTHING : end.several > 1 ? PATH_SEVERAL : PATH_FOUND;
        end.row = only;
        return end;
    }
    for (size_t at = 1; end.answer == PATH_FOUND && at <= path.length; at += end.step.length + 1) {
        end.step = (struct bytes){path.at + at, 0};
        while (at + end.step.length < path.length && end.step.at[end.step.length] != '/')
            end.step.length++;
        take_step(tree, &end);
    }
    end.row = end.last;
    return end;
}
