/* Six makers' panels in one session, and a backup that bills by maker. Each maker hands its panel over as a bundle; one of them
   still writes version 1, in which rows have no makers. The host grafts all into a session, and gives each row the number of
   the maker it came from; its own rows have maker 0. One maker's attribute stands on another's element. Then the host normalizes
   the session, and counts rows: a declaration that had to be added is billed to whose row needed it. */
#include <noemathu.h>
#include <stdio.h>
#include <stdlib.h>
#include <string.h>

enum { HOST, MAKERS = 6 };

/* A table and a pool that grow. */
struct nodes {
    uint32_t table[NOEMATHU_MOST_WORDS];
    uint8_t pool[NOEMATHU_MOST_POOL];
    size_t rows, held;
};

struct bundle {
    uint8_t bytes[NOEMATHU_BUNDLE_MOST];
    size_t length;
};

static void stop_if(noemathu_refusal refusal)
{
    if (refusal.number == NOEMATHU_NOT_REFUSED)
        return;
    printf("refusal %u, row %u: %s\n", refusal.number, refusal.row, noemathu_text(refusal.number));
    exit(1);
}

static noemathu_place put(struct nodes *nodes, const char *text)
{
    return noemathu_put_bytes(nodes->pool, sizeof nodes->pool, &nodes->held, text, strlen(text));
}

static uint32_t add_row(struct nodes *nodes, noemathu_row row)
{
    if (nodes->rows == NOEMATHU_MOST_ROWS)
        stop_if((noemathu_refusal){NOEMATHU_REFUSED_SIZE, 0, 0});
    noemathu_put_row(nodes->table, nodes->rows, row);
    return (uint32_t)nodes->rows++;
}

static uint32_t add(struct nodes *nodes, uint32_t type, uint32_t parent, uint32_t maker, const char *prefix,
                    const char *local_name, const char *uri, const char *value)
{
    noemathu_row row = {.type = type, .parent = parent, .maker = maker};
    row.prefix = put(nodes, prefix);
    row.local_name = put(nodes, local_name);
    row.uri = put(nodes, uri);
    row.value = put(nodes, value);
    return add_row(nodes, row);
}

static void write_bundle(const struct nodes *nodes, struct bundle *out)
{
    noemathu_used used = noemathu_write(nodes->table, NOEMATHU_ROW_WORDS * nodes->rows, nodes->pool, nodes->held,
                                        out->bytes, sizeof out->bytes);
    stop_if(used.refusal);
    out->length = used.bytes;
}

/* What a maker's program writes: a panel with a knob. Every maker calls its namespace p; a careful one declares that. */
static void make_panel(const char *uri, const char *knob, bool declares, struct bundle *out)
{
    static struct nodes nodes;
    nodes.rows = nodes.held = 0;
    uint32_t panel = add(&nodes, NOEMATHU_ELEMENT, NOEMATHU_NONE, 0, "p", "panel", uri, "");
    if (declares)
        add(&nodes, NOEMATHU_DECLARATION, panel, 0, "", "p", "", uri);
    uint32_t inner = add(&nodes, NOEMATHU_ELEMENT, panel, 0, "p", "knob", uri, "");
    add(&nodes, NOEMATHU_ATTRIBUTE, inner, 0, "", "name", "", knob);
    write_bundle(&nodes, out);
}

/* The same bundle as a program from before makers would write it: the version is 1, and each row ends four bytes earlier. */
static void make_old(struct bundle *bundle)
{
    size_t rows = noemathu_row_count(bundle->bytes), bytes = noemathu_pool_length(bundle->bytes), to = NOEMATHU_BUNDLE_HEADER;
    const uint8_t *pool = noemathu_pool(bundle->bytes);
    for (size_t i = 0; i < rows; i++, to += 40)
        memmove(bundle->bytes + to, bundle->bytes + NOEMATHU_BUNDLE_BYTES(i, 0), 40);
    memmove(bundle->bytes + to, pool, bytes);
    bundle->bytes[3] = 1;
    bundle->length = to + bytes;
}

/* Grafts a panel under a row: row numbers and offsets move up by what is there already, and every row gets its maker. Answers
   where the first of them stands. */
static uint32_t graft(struct nodes *nodes, uint32_t under, uint32_t maker, const struct bundle *from)
{
    uint32_t rows = (uint32_t)nodes->rows, held = (uint32_t)nodes->held;
    stop_if(noemathu_check(from->bytes, from->length));
    printf("    maker %u: a panel of %zu rows and %zu bytes, version %u\n", maker, noemathu_row_count(from->bytes), from->length,
           noemathu_version(from->bytes));
    for (size_t i = 0; i < noemathu_row_count(from->bytes); i++) {
        noemathu_row row = noemathu_row_of(from->bytes, i);
        noemathu_place *fields[] = {&row.prefix, &row.local_name, &row.uri, &row.value};
        row.parent = row.parent == NOEMATHU_NONE ? under : row.parent + rows;
        row.maker = maker;
        for (size_t k = 0; k < 4; k++)
            if (fields[k]->length > 0)
                fields[k]->offset += held;
        add_row(nodes, row);
    }
    noemathu_put_bytes(nodes->pool, sizeof nodes->pool, &nodes->held, noemathu_pool(from->bytes),
                       noemathu_pool_length(from->bytes));
    return rows;
}

/* The rows of each maker, the host's first. */
static void count_rows(const struct bundle *bundle, size_t *counts)
{
    for (size_t maker = HOST; maker <= MAKERS; maker++)
        counts[maker] = 0;
    for (size_t i = 0; i < noemathu_row_count(bundle->bytes); i++)
        counts[noemathu_row_of(bundle->bytes, i).maker]++;
}

/* The declarations that were added: the rows behind those that there were. */
static void print_added(const struct bundle *before, const struct bundle *after)
{
    for (size_t i = noemathu_row_count(before->bytes); i < noemathu_row_count(after->bytes); i++) {
        noemathu_row row = noemathu_row_of(after->bytes, i);
        printf("    at row %u for maker %u: xmlns%s%.*s=\"%.*s\"\n", row.parent, row.maker, row.local_name.length > 0 ? ":" : "",
               (int)row.local_name.length, (const char *)noemathu_bytes(after->bytes, row.local_name), (int)row.value.length,
               (const char *)noemathu_bytes(after->bytes, row.value));
    }
}

static void print_bill(const struct bundle *before, const struct bundle *after)
{
    size_t had[MAKERS + 1], has[MAKERS + 1];
    count_rows(before, had);
    count_rows(after, has);
    for (size_t maker = HOST; maker <= MAKERS; maker++)
        printf("    maker %zu: %zu rows, %zu of them added\n", maker, has[maker], has[maker] - had[maker]);
}

int main(void)
{
    static const char *const uris[MAKERS] = {"urn:alder", "urn:birch", "urn:cedar", "urn:dogwood", "urn:elm", "urn:fir"};
    static const char *const knobs[MAKERS] = {"cutoff", "drive", "tone", "pitch", "decay", "treble"};
    static struct nodes nodes;
    static struct bundle panel, session, normalized;
    uint32_t root = add(&nodes, NOEMATHU_ELEMENT, NOEMATHU_NONE, HOST, "", "session", "urn:desk", ""), under = root;
    puts("the panels:");
    for (uint32_t i = 0; i < MAKERS; i++) {
        make_panel(uris[i], knobs[i], i % 3 == 0, &panel);
        if (i == 3)
            make_old(&panel);
        under = graft(&nodes, i == 1 ? under : root, i + 1, &panel); /* the second one in the first */
    }
    /* The third maker's automation writes onto a knob of the last one. */
    add(&nodes, NOEMATHU_ATTRIBUTE, under + 1, 3, "p", "curve", "urn:cedar", "slow");
    write_bundle(&nodes, &session);

    noemathu_used used = noemathu_normalize(session.bytes, session.length, normalized.bytes, sizeof normalized.bytes);
    stop_if(used.refusal);
    normalized.length = used.bytes;
    puts("normalized, which adds");
    print_added(&session, &normalized);
    puts("the bill:");
    print_bill(&session, &normalized);
    return 0;
}
