/* A host's work: two makers hand over their nodes, each as a bundle of its own. The host grafts both into one session
   bundle, asks what a prefix means at a node, writes the session as XML, normalizes it, and asks and writes again. Then
   the session is edited for some time, which leaves texts in its pool that no row uses any more, and is packed. All the
   while each row says whose it is: the host is maker 1.

   The tree is printed like XML with the namespace URI of each name in braces. Those are what the makers meant; before
   normalization the declarations say something else, and there is no XML text that means the same. */
#include <noemathu.h>
#include <stdio.h>
#include <stdlib.h>
#include <string.h>

/* A table and a pool that grow. */
struct nodes {
    uint32_t table[NOEMATHU_MOST_WORDS];
    uint8_t pool[NOEMATHU_MOST_POOL];
    size_t rows, held;
};

struct bundle {
    uint8_t bytes[NOEMATHU_BUNDLE_MOST];
    size_t length;
};

static void print_refusal(noemathu_refusal refusal)
{
    printf("refusal %u, row %u", refusal.number, refusal.row);
    if (refusal.word)
        printf(", field: %s", noemathu_field(refusal.word));
    printf(": %s\n", noemathu_text(refusal.number));
}

static void stop_if(noemathu_refusal refusal)
{
    if (refusal.number == NOEMATHU_NOT_REFUSED)
        return;
    print_refusal(refusal);
    exit(1);
}

static noemathu_place put(struct nodes *nodes, const char *text)
{
    return noemathu_put_bytes(nodes->pool, sizeof nodes->pool, &nodes->held, text, strlen(text));
}

static uint32_t add_row(struct nodes *nodes, noemathu_row row)
{
    if (nodes->rows == NOEMATHU_MOST_ROWS)
        stop_if((noemathu_refusal){NOEMATHU_REFUSED_SIZE, 0, 0});
    noemathu_put_row(nodes->table, nodes->rows, row);
    return (uint32_t)nodes->rows++;
}

/* Whose the rows are that are added. */
static uint32_t maker;

static uint32_t add(struct nodes *nodes, uint32_t type, uint32_t parent, const char *prefix, const char *local_name,
                    const char *uri, const char *value)
{
    noemathu_row row = {.type = type, .parent = parent, .maker = maker};
    row.prefix = put(nodes, prefix);
    row.local_name = put(nodes, local_name);
    row.uri = put(nodes, uri);
    row.value = put(nodes, value);
    return add_row(nodes, row);
}

static void write_bundle(const struct nodes *nodes, struct bundle *out)
{
    noemathu_used used = noemathu_write(nodes->table, NOEMATHU_ROW_WORDS * nodes->rows, nodes->pool, nodes->held,
                                        out->bytes, sizeof out->bytes);
    stop_if(used.refusal);
    out->length = used.bytes;
}

/* The first maker's nodes declare the prefix that they use. */
static void make_order(struct nodes *nodes)
{
    uint32_t order = add(nodes, NOEMATHU_ELEMENT, NOEMATHU_NONE, "p", "order", "urn:purchase", "");
    add(nodes, NOEMATHU_DECLARATION, order, "", "p", "", "urn:purchase");
    uint32_t item = add(nodes, NOEMATHU_ELEMENT, order, "p", "item", "urn:purchase", "");
    add(nodes, NOEMATHU_TEXT, item, "", "", "", "a bicycle");
}

/* The second maker's nodes were cut out of a larger tree, and their declarations stayed behind. One prefix is the first
   maker's too, and one attribute has a URI and no prefix. */
static void make_person(struct nodes *nodes)
{
    uint32_t person = add(nodes, NOEMATHU_ELEMENT, NOEMATHU_NONE, "p", "person", "urn:people", "");
    add(nodes, NOEMATHU_ATTRIBUTE, person, "p", "since", "urn:people", "2019");
    add(nodes, NOEMATHU_ATTRIBUTE, person, "", "role", "urn:roles", "rider");
    uint32_t name = add(nodes, NOEMATHU_ELEMENT, person, "", "name", "", "");
    add(nodes, NOEMATHU_TEXT, name, "", "", "", "Ada");
}

/* Grafts the rows of a bundle under a row: row numbers and offsets move up by what is there already. Answers where the
   first of them stands. */
static uint32_t graft(struct nodes *nodes, uint32_t under, const struct bundle *from)
{
    uint32_t rows = (uint32_t)nodes->rows, held = (uint32_t)nodes->held;
    stop_if(noemathu_check(from->bytes, from->length));
    for (size_t i = 0; i < noemathu_row_count(from->bytes); i++) {
        noemathu_row row = noemathu_row_of(from->bytes, i);
        noemathu_place *fields[] = {&row.prefix, &row.local_name, &row.uri, &row.value};
        row.parent = row.parent == NOEMATHU_NONE ? under : row.parent + rows;
        for (size_t k = 0; k < 4; k++)
            if (fields[k]->length > 0)
                fields[k]->offset += held;
        add_row(nodes, row);
    }
    noemathu_put_bytes(nodes->pool, sizeof nodes->pool, &nodes->held, noemathu_pool(from->bytes),
                       noemathu_pool_length(from->bytes));
    return rows;
}

static void print_place(const struct bundle *bundle, noemathu_place place)
{
    printf("%.*s", (int)place.length, (const char *)noemathu_bytes(bundle->bytes, place));
}

static void print_name(const struct bundle *bundle, noemathu_row row)
{
    print_place(bundle, row.prefix);
    fputs(row.prefix.length > 0 ? ":" : "", stdout);
    print_place(bundle, row.local_name);
    fputs("{", stdout);
    print_place(bundle, row.uri);
    fputs("}", stdout);
}

/* An attribute or a declaration, as it stands in a start tag. */
static void print_owned(const struct bundle *bundle, noemathu_row row)
{
    if (row.type == NOEMATHU_DECLARATION) {
        fputs(row.local_name.length > 0 ? " xmlns:" : " xmlns", stdout);
        print_place(bundle, row.local_name);
    } else {
        fputs(" ", stdout);
        print_name(bundle, row);
    }
    fputs("=\"", stdout);
    print_place(bundle, row.value);
    fputs("\"", stdout);
}

static bool is_owned(noemathu_row row)
{
    return row.type == NOEMATHU_DECLARATION || row.type == NOEMATHU_ATTRIBUTE;
}

/* The rows under a row, a line for each child. */
static void print_children(const struct bundle *bundle, uint32_t parent, int depth)
{
    size_t rows = noemathu_row_count(bundle->bytes);
    for (uint32_t i = 0; i < rows; i++) {
        noemathu_row row = noemathu_row_of(bundle->bytes, i);
        if (row.parent != parent || is_owned(row))
            continue;
        printf("%*s", 4 * depth, "");
        if (row.type != NOEMATHU_ELEMENT) {
            print_place(bundle, row.value);
            puts("");
            continue;
        }
        fputs("<", stdout);
        print_name(bundle, row);
        for (size_t k = 0; k < rows; k++) {
            noemathu_row owned = noemathu_row_of(bundle->bytes, k);
            if (owned.parent == i && is_owned(owned))
                print_owned(bundle, owned);
        }
        puts(">");
        print_children(bundle, i, depth + 1);
    }
}

/* The XML text of the whole session, from its first row, or why there is none. */
static void print_text(const struct bundle *bundle)
{
    size_t room = noemathu_xml_room(bundle->bytes);
    uint8_t *text = malloc(room);
    if (!text)
        exit(1);
    noemathu_used used = noemathu_write_xml(bundle->bytes, bundle->length, 0, text, room);
    if (used.refusal.number == NOEMATHU_NOT_REFUSED)
        printf("%.*s\n", (int)used.bytes, (const char *)text);
    else
        print_refusal(used.refusal);
    free(text);
}

/* The tree, what a prefix means at a row of it by the declarations in scope, and its XML text. */
static void show(const char *title, const struct bundle *bundle, uint32_t row, const char *prefix)
{
    noemathu_found found =
        noemathu_in_scope_uri(bundle->bytes, bundle->length, row, (const uint8_t *)prefix, strlen(prefix));
    stop_if(found.refusal);
    printf("%s, %zu bytes:\n", title, bundle->length);
    print_children(bundle, NOEMATHU_NONE, 1);
    printf("at row %u the prefix %s means ", row, prefix);
    print_place(bundle, found.place);
    puts(found.found == NOEMATHU_PLACE ? "" : "nothing");
    fputs("as XML text: ", stdout);
    print_text(bundle);
    puts("");
}

/* Some edits of a text: each new one is put behind the pool, and the one before stays where it was, of no use. */
static void edit_text(struct bundle *bundle, uint32_t row, int edits)
{
    static struct nodes nodes;
    noemathu_sizes sizes = noemathu_read(bundle->bytes, bundle->length, nodes.table, NOEMATHU_MOST_WORDS, nodes.pool, sizeof nodes.pool);
    stop_if(sizes.refusal);
    nodes.rows = sizes.rows;
    nodes.held = sizes.bytes;
    noemathu_row text = noemathu_row_of(bundle->bytes, row);
    for (int i = 1; i <= edits; i++) {
        char bicycles[40];
        snprintf(bicycles, sizeof bicycles, "%d bicycles, delivered by hand", i);
        text.value = put(&nodes, bicycles);
    }
    noemathu_put_row(nodes.table, row, text);
    write_bundle(&nodes, bundle);
}

/* How many rows each of the three makers has. */
static void print_makers(const char *title, const struct bundle *bundle)
{
    size_t rows[4] = {0};
    for (size_t i = 0; i < noemathu_row_count(bundle->bytes); i++)
        rows[noemathu_row_of(bundle->bytes, i).maker]++;
    printf("%s, rows of makers 1, 2 and 3: %zu, %zu, %zu\n", title, rows[1], rows[2], rows[3]);
}

/* How long a session is and how much of it is names, and its XML text. */
static void show_size(const char *title, const struct bundle *bundle)
{
    printf("%s, %zu bytes, of which the pool is %zu:\n", title, bundle->length, noemathu_pool_length(bundle->bytes));
    print_text(bundle);
}

int main(void)
{
    static struct nodes order, person, nodes;
    static struct bundle made, session, normalized, packed;
    maker = 1;
    uint32_t root = add(&nodes, NOEMATHU_ELEMENT, NOEMATHU_NONE, "", "session", "urn:session", "");

    maker = 2;
    make_order(&order);
    write_bundle(&order, &made);
    uint32_t first = graft(&nodes, root, &made);

    maker = 3;
    make_person(&person);
    write_bundle(&person, &made);
    uint32_t second = graft(&nodes, first, &made);

    write_bundle(&nodes, &session);
    show("before", &session, second, "p");

    noemathu_used used = noemathu_normalize(session.bytes, session.length, normalized.bytes, sizeof normalized.bytes);
    stop_if(used.refusal);
    normalized.length = used.bytes;
    show("after", &normalized, second, "p");

    edit_text(&normalized, first + 3, 30);
    show_size("edited", &normalized);
    used = noemathu_pack(normalized.bytes, normalized.length, packed.bytes, sizeof packed.bytes);
    stop_if(used.refusal);
    packed.length = used.bytes;
    show_size("packed", &packed);
    print_makers("before", &session);
    print_makers("after", &packed);
    puts("");

    /* A maker who counts one byte too many: the length of a URI that ends with the pool. */
    add(&nodes, NOEMATHU_ELEMENT, root, "", "note", "urn:notes", "");
    nodes.table[NOEMATHU_ROW_WORDS * (nodes.rows - 1) + 7]++;
    used = noemathu_write(nodes.table, NOEMATHU_ROW_WORDS * nodes.rows, nodes.pool, nodes.held, session.bytes, sizeof session.bytes);
    print_refusal(used.refusal);
    return 0;
}
