/* diff: two trees by expanded names. Prefixes, declarations and the order of attributes do not count, and adjoining texts
   and CDATA sections are one text. Makers count if that is wished: then adjoining texts are one where they are by one maker. */
#include "commands.h"
#include "escape.h"
#include "json.h"
#include "meanings.h"
#include "output.h"
#include "paths.h"

#include <stdio.h>
#include <stdlib.h>
#include <string.h>

/* One of the two trees. Nodes are equal if their numbers are. */
struct side {
    const struct session *session;
    bool as_read, makers;
    noemathu_place *numbers; /* of each row with all that it holds */
    noemathu_place *names;   /* of each row's type and name */
};

/* What an element holds, or the top: a row, or several rows of text. */
struct item {
    uint32_t row;
    noemathu_place number;
};

struct items {
    struct item *at;
    size_t count;
};

/* Bytes behind their length, so that what is put together can be told apart. */
static void append_part(struct buffer *whole, struct bytes part)
{
    append_number(whole, part.length);
    append_text(whole, ":");
    append(whole, part);
}

/* A row's type and name. */
static noemathu_place name_of(struct nodes *shared, const struct side *side, uint32_t row)
{
    struct buffer whole = {0};
    const struct tree *tree = &side->session->tree;
    struct meaning meaning = {.meant = {field_of(tree, tree->rows[row].uri), field_of(tree, tree->rows[row].local_name)}};
    struct bytes prefix = {NULL, 0};
    if (side->as_read && has_meaning(tree, row)) {
        meaning = meaning_of(tree, row);
        if (!meaning.is_read)
            prefix = field_of(tree, tree->rows[row].prefix);
        else
            meaning.meant = meaning.read;
    }
    append_text(&whole, "name ");
    append_number(&whole, is_characters(tree->rows[row]) ? NOEMATHU_TEXT : tree->rows[row].type);
    append_part(&whole, prefix);
    append_part(&whole, meaning.meant.uri);
    append_part(&whole, meaning.meant.local_name);
    noemathu_place name = share(shared, buffer_bytes(&whole));
    free_buffer(&whole);
    return name;
}

static bool is_same_number(noemathu_place one, noemathu_place other)
{
    return one.offset == other.offset && one.length == other.length;
}

/* Behind some bytes, a row's maker, if makers count. */
static void append_maker_part(struct buffer *whole, const struct side *side, uint32_t row)
{
    uint32_t maker = side->session->tree.rows[row].maker;
    if (side->makers)
        append_part(whole, (struct bytes){(const uint8_t *)&maker, sizeof maker});
}

/* Whether a text is joined to the one before it, which is another row. */
static bool is_joined(const struct side *side, uint32_t row, uint32_t before)
{
    const struct tree *tree = &side->session->tree;
    return !side->makers || tree->rows[row].maker == tree->rows[before].maker;
}

/* Gives the last item, which is a text, its number, if a text was joined. */
static void end_text(struct nodes *shared, struct items *items, struct buffer *text)
{
    if (text->length > 0)
        items->at[items->count - 1].number = share(shared, buffer_bytes(text));
    text->length = 0;
}

/* The items under a row, or at the top: texts are joined, empty ones left out, declarations and attributes too. */
static struct items items_under(struct nodes *shared, const struct side *side, uint32_t row)
{
    const struct tree *tree = &side->session->tree;
    struct items items = {held(NULL, tree->count, sizeof *items.at), 0};
    struct buffer text = {0};
    for (uint32_t i = first_under(tree, row); i != NOEMATHU_NONE; i = next_under(tree, i)) {
        bool characters = is_characters(tree->rows[i]), owned = is_owned(tree->rows[i]) && row != NOEMATHU_NONE;
        if (owned || (characters && tree->rows[i].value.length == 0))
            continue;
        if (!characters || (text.length > 0 && !is_joined(side, i, items.at[items.count - 1].row)))
            end_text(shared, &items, &text);
        if (!characters || text.length == 0)
            items.at[items.count++] = (struct item){i, characters ? (noemathu_place){0, 0} : side->numbers[i]};
        if (characters && text.length == 0) {
            append_text(&text, "text ");
            append_maker_part(&text, side, i);
        }
        if (characters)
            append(&text, field_of(tree, tree->rows[i].value));
    }
    end_text(shared, &items, &text);
    free_buffer(&text);
    return items;
}

static int compare_places(const void *one, const void *other)
{
    const noemathu_place *first = one, *second = other;
    return (first->offset > second->offset) - (first->offset < second->offset);
}

/* The number of a row whose children have theirs: equal for equal trees, of either side. */
static noemathu_place number_of(struct nodes *shared, const struct side *side, uint32_t row)
{
    const struct tree *tree = &side->session->tree;
    struct buffer whole = {0};
    struct items items = items_under(shared, side, row);
    noemathu_place *attributes = held(NULL, tree->count, sizeof *attributes);
    size_t count = 0;
    for (uint32_t i = first_under(tree, row); i != NOEMATHU_NONE; i = next_under(tree, i))
        if (is_attribute(tree->rows[i]))
            attributes[count++] = side->numbers[i];
    qsort(attributes, count, sizeof *attributes, compare_places);
    append_part(&whole, (struct bytes){(const uint8_t *)(side->names + row), sizeof *side->names});
    append_part(&whole, field_of(tree, tree->rows[row].value));
    append_maker_part(&whole, side, row);
    for (size_t i = 0; i < count; i++)
        append_part(&whole, (struct bytes){(const uint8_t *)(attributes + i), sizeof *attributes});
    append_text(&whole, "|");
    for (size_t i = 0; i < items.count; i++)
        append_part(&whole, (struct bytes){(const uint8_t *)&items.at[i].number, sizeof items.at[i].number});
    noemathu_place number = share(shared, buffer_bytes(&whole));
    free_buffer(&whole);
    free(attributes);
    free(items.at);
    return number;
}

/* Rows stand behind their parents, so the last ones come first. */
static void number_rows(struct nodes *shared, struct side *side)
{
    uint32_t count = side->session->tree.count;
    side->numbers = held(NULL, count, sizeof *side->numbers);
    side->names = held(NULL, count, sizeof *side->names);
    for (uint32_t row = count; row-- > 0;) {
        side->names[row] = name_of(shared, side, row);
        side->numbers[row] = number_of(shared, side, row);
    }
}

/* How well two items go together: not at all, by their name, wholly. */
static unsigned likeness(const struct side *sides, struct item one, struct item other)
{
    if (is_same_number(one.number, other.number))
        return 4;
    noemathu_row first = sides[0].session->tree.rows[one.row], second = sides[1].session->tree.rows[other.row];
    bool elements = is_element(first) && is_element(second);
    return elements && is_same_number(sides[0].names[one.row], sides[1].names[other.row]) ? 1 : 0;
}

/* A text with those that adjoin it. */
static struct buffer joined_text(const struct side *side, uint32_t row)
{
    struct buffer text = {0};
    const struct tree *tree = &side->session->tree;
    for (uint32_t i = row; i != NOEMATHU_NONE; i = next_under(tree, i)) {
        if (is_owned(tree->rows[i]))
            continue;
        if (!is_characters(tree->rows[i]) || !is_joined(side, i, row))
            break;
        append(&text, field_of(tree, tree->rows[i].value));
    }
    return text;
}

/* A line about a row that only one side has. */
static void print_only(const struct options *options, const struct side *sides, unsigned which, uint32_t row)
{
    struct buffer line = {0}, text = {0};
    const struct tree *tree = &sides[which].session->tree;
    if (is_characters(tree->rows[row]))
        text = joined_text(&sides[which], row);
    if (has_option(options, OPTION_JSON)) {
        json_begin(&line);
        json_text(&line, "only", which == 0 ? "first" : "second");
        json_text(&line, "file", sides[which].session->file);
        json_node(&line, tree, row);
        if (text.length > 0)
            json_string(&line, "text", buffer_bytes(&text));
        json_close(&line);
    } else {
        append_text(&line, which == 0 ? "- " : "+ ");
        append_path(&line, tree, row);
        append_text(&line, "\t");
        if (text.length > 0) {
            append_quoted(&line, buffer_bytes(&text));
            append_maker(&line, "   ", tree->rows[row]);
        } else {
            append_node(&line, tree, row);
        }
    }
    print_line(&line, '\n');
    free_buffer(&line);
    free_buffer(&text);
}

/* The attributes of two elements that the other one has not, with the same value. */
static bool print_attributes(const struct options *options, const struct side *sides, uint32_t first, uint32_t second)
{
    uint32_t rows[2] = {first, second};
    bool differ = false;
    for (unsigned which = 0; which < 2; which++) {
        const struct tree *own = &sides[which].session->tree, *other = &sides[1 - which].session->tree;
        for (uint32_t i = first_under(own, rows[which]); i != NOEMATHU_NONE; i = next_under(own, i)) {
            bool found = !is_attribute(own->rows[i]);
            for (uint32_t k = first_under(other, rows[1 - which]); k != NOEMATHU_NONE && !found; k = next_under(other, k))
                found = is_attribute(other->rows[k]) && is_same_number(sides[which].numbers[i], sides[1 - which].numbers[k]);
            if (!found)
                print_only(options, sides, which, i);
            differ |= !found;
        }
    }
    return differ;
}

static bool print_items(const struct options *options, struct nodes *shared, const struct side *sides, struct items one,
                        struct items other);

/* The elements themselves, of one name, where their makers count and differ. */
static bool print_makers(const struct options *options, const struct side *sides, uint32_t first, uint32_t second)
{
    if (!sides[0].makers || sides[0].session->tree.rows[first].maker == sides[1].session->tree.rows[second].maker)
        return false;
    print_only(options, sides, 0, first);
    print_only(options, sides, 1, second);
    return true;
}

/* What differs in two elements of one name. */
static bool print_inside(const struct options *options, struct nodes *shared, const struct side *sides, uint32_t first,
                         uint32_t second)
{
    bool differ = print_makers(options, sides, first, second);
    differ |= print_attributes(options, sides, first, second);
    struct items one = items_under(shared, &sides[0], first), other = items_under(shared, &sides[1], second);
    differ |= print_items(options, shared, sides, one, other);
    free(one.at);
    free(other.at);
    return differ;
}

/* The most likeness that the items from each pair on have, in order. */
static unsigned *best_pairs(const struct side *sides, struct items one, struct items other)
{
    size_t width = other.count + 1;
    unsigned *best = held(NULL, (one.count + 1) * width, sizeof *best);
    memset(best, 0, (one.count + 1) * width * sizeof *best);
    for (size_t i = one.count; i-- > 0;)
        for (size_t k = other.count; k-- > 0;) {
            unsigned like = likeness(sides, one.at[i], other.at[k]);
            unsigned most = like > 0 ? like + best[(i + 1) * width + k + 1] : 0;
            unsigned without[2] = {best[(i + 1) * width + k], best[i * width + k + 1]};
            most = without[0] > most ? without[0] : most;
            best[i * width + k] = without[1] > most ? without[1] : most;
        }
    return best;
}

static bool print_items(const struct options *options, struct nodes *shared, const struct side *sides, struct items one,
                        struct items other)
{
    size_t width = other.count + 1, i = 0, k = 0;
    unsigned *best = best_pairs(sides, one, other);
    bool differ = false;
    while (i < one.count || k < other.count) {
        unsigned like = i < one.count && k < other.count ? likeness(sides, one.at[i], other.at[k]) : 0;
        if (like > 0 && best[i * width + k] == like + best[(i + 1) * width + k + 1]) {
            if (like == 1)
                differ |= print_inside(options, shared, sides, one.at[i].row, other.at[k].row);
            i++, k++;
            continue;
        }
        differ = true;
        if (i < one.count && (k == other.count || best[i * width + k] == best[(i + 1) * width + k]))
            print_only(options, sides, 0, one.at[i++].row);
        else
            print_only(options, sides, 1, other.at[k++].row);
    }
    free(best);
    return differ;
}

/* The items of the node that was named, or of the whole: what documents and fragments hold stands for them. */
static struct items top_items(struct nodes *shared, const struct side *side)
{
    const struct tree *tree = &side->session->tree;
    struct items items = {held(NULL, tree->count, sizeof *items.at), 0};
    if (side->session->node != NOEMATHU_NONE) {
        items.at[items.count++] = (struct item){side->session->node, side->numbers[side->session->node]};
        return items;
    }
    struct items top = items_under(shared, side, NOEMATHU_NONE);
    for (size_t i = 0; i < top.count; i++) {
        uint32_t type = tree->rows[top.at[i].row].type;
        bool holds = type == NOEMATHU_DOCUMENT || type == NOEMATHU_FRAGMENT;
        struct items inner = holds ? items_under(shared, side, top.at[i].row) : (struct items){NULL, 0};
        for (size_t k = 0; k < inner.count; k++)
            items.at[items.count++] = inner.at[k];
        if (!holds)
            items.at[items.count++] = top.at[i];
        free(inner.at);
    }
    free(top.at);
    return items;
}

static enum status compare(const struct options *options, const struct session *sessions)
{
    struct nodes shared = {0};
    bool as_read = has_option(options, OPTION_AS_READ), makers = has_option(options, OPTION_MAKERS);
    struct side sides[2] = {{&sessions[0], as_read, makers, NULL, NULL}, {&sessions[1], as_read, makers, NULL, NULL}};
    struct items items[2];
    for (unsigned which = 0; which < 2; which++) {
        number_rows(&shared, &sides[which]);
        items[which] = top_items(&shared, &sides[which]);
    }
    bool differ = print_items(options, &shared, sides, items[0], items[1]);
    for (unsigned which = 0; which < 2; which++) {
        free(items[which].at);
        free(sides[which].numbers);
        free(sides[which].names);
    }
    free_nodes(&shared);
    return differ ? STATUS_NO : STATUS_DONE;
}

enum status command_diff(const struct options *options)
{
    struct session sessions[2];
    enum status status = open_operand(options, 0, &sessions[0]);
    enum status second = open_operand(options, 1, &sessions[1]);
    status = second > status ? second : status;
    if (status == STATUS_DONE)
        status = compare(options, sessions);
    close_session(&sessions[0]);
    close_session(&sessions[1]);
    return status;
}
