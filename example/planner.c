/* A planner that is not trusted: makers want prefixes of their own where normalization would make NS1. The planner takes
   them from a list and proposes a bundle; the host has the proposal checked, and takes it if it is accepted. Then two
   planners err, one that lies about a URI and one that forgets a declaration: the host is told the row, and falls back on
   normalization. */
#include <noemathu.h>
#include <stdio.h>
#include <stdlib.h>
#include <string.h>

/* A table and a pool that grow. */
struct nodes {
    uint32_t table[NOEMATHU_MOST_WORDS];
    uint8_t pool[NOEMATHU_MOST_POOL];
    size_t rows, held;
};

struct bundle {
    uint8_t bytes[NOEMATHU_BUNDLE_MOST];
    size_t length;
};

/* The prefixes that makers want for their namespaces. */
static const struct wish {
    const char *uri, *prefix;
} wishes[] = {{"urn:people", "people"}, {"urn:roles", "r"}};

enum { WISHES = sizeof wishes / sizeof *wishes };

/* What a planner does wrong. */
enum plan { HONEST, LIES, FORGETS };

static void stop_if(noemathu_refusal refusal)
{
    if (refusal.number == NOEMATHU_NOT_REFUSED)
        return;
    printf("refusal %u, row %u: %s\n", refusal.number, refusal.row, noemathu_text(refusal.number));
    exit(1);
}

static noemathu_place put(struct nodes *nodes, const char *text)
{
    return noemathu_put_bytes(nodes->pool, sizeof nodes->pool, &nodes->held, text, strlen(text));
}

static uint32_t add(struct nodes *nodes, noemathu_row row)
{
    if (nodes->rows == NOEMATHU_MOST_ROWS)
        stop_if((noemathu_refusal){NOEMATHU_REFUSED_SIZE, 0, 0});
    noemathu_put_row(nodes->table, nodes->rows, row);
    return (uint32_t)nodes->rows++;
}

static void write_bundle(const struct nodes *nodes, struct bundle *out)
{
    noemathu_used used = noemathu_write(nodes->table, NOEMATHU_ROW_WORDS * nodes->rows, nodes->pool, nodes->held,
                                        out->bytes, sizeof out->bytes);
    stop_if(used.refusal);
    out->length = used.bytes;
}

/* A person, whose attribute has a URI and no prefix. Nothing is declared. */
static void make_session(struct bundle *out)
{
    static struct nodes nodes;
    nodes.rows = nodes.held = 0;
    noemathu_row person = {.type = NOEMATHU_ELEMENT, .parent = NOEMATHU_NONE};
    person.local_name = put(&nodes, "person");
    person.uri = put(&nodes, "urn:people");
    uint32_t owner = add(&nodes, person);
    noemathu_row role = {.type = NOEMATHU_ATTRIBUTE, .parent = owner};
    role.local_name = put(&nodes, "role");
    role.uri = put(&nodes, "urn:roles");
    role.value = put(&nodes, "rider");
    add(&nodes, role);
    noemathu_row text = {.type = NOEMATHU_TEXT, .parent = owner};
    text.value = put(&nodes, "Ada");
    add(&nodes, text);
    write_bundle(&nodes, out);
}

/* The prefix that is wished for a URI, or none. */
static const char *wished(const struct bundle *bundle, noemathu_place uri)
{
    for (size_t i = 0; i < WISHES; i++)
        if (strlen(wishes[i].uri) == uri.length && memcmp(wishes[i].uri, noemathu_bytes(bundle->bytes, uri), uri.length) == 0)
            return wishes[i].prefix;
    return NULL;
}

/* A proposal: each name with a wish takes its prefix, which its element, or its owner, declares. */
static void propose(const struct bundle *from, enum plan plan, struct bundle *out)
{
    static struct nodes nodes;
    noemathu_sizes sizes = noemathu_read(from->bytes, from->length, nodes.table, NOEMATHU_MOST_WORDS, nodes.pool, sizeof nodes.pool);
    stop_if(sizes.refusal);
    nodes.rows = sizes.rows;
    nodes.held = sizes.bytes;
    for (uint32_t i = 0; i < sizes.rows; i++) {
        noemathu_row row = noemathu_row_of(from->bytes, i);
        const char *prefix = row.type == NOEMATHU_ELEMENT || row.type == NOEMATHU_ATTRIBUTE ? wished(from, row.uri) : NULL;
        if (!prefix)
            continue;
        noemathu_row declaration = {.type = NOEMATHU_DECLARATION, .parent = row.type == NOEMATHU_ELEMENT ? i : row.parent,
                                    .maker = row.maker};
        row.prefix = declaration.local_name = put(&nodes, prefix);
        declaration.value = row.uri;
        if (plan == LIES && row.type == NOEMATHU_ATTRIBUTE)
            row.uri = declaration.value = put(&nodes, "urn:mine");
        noemathu_put_row(nodes.table, i, row);
        if (plan != FORGETS || row.type == NOEMATHU_ELEMENT)
            add(&nodes, declaration);
    }
    write_bundle(&nodes, out);
}

static void print_text(const struct bundle *bundle)
{
    static uint8_t text[1000];
    noemathu_used used = noemathu_write_xml(bundle->bytes, bundle->length, 0, text, sizeof text);
    stop_if(used.refusal);
    printf("    %.*s\n", (int)used.bytes, (const char *)text);
}

/* The host: a proposal that is accepted is taken, in the place of any other the session is normalized. */
static void take(const struct bundle *session, enum plan plan)
{
    static struct bundle proposal;
    propose(session, plan, &proposal);
    noemathu_refusal refusal = noemathu_check_proposal(session->bytes, session->length, proposal.bytes, proposal.length);
    if (refusal.number == NOEMATHU_NOT_REFUSED) {
        puts("accepted:");
    } else {
        printf("refusal %u, row %u: %s; normalized instead:\n", refusal.number, refusal.row, noemathu_text(refusal.number));
        noemathu_used used = noemathu_normalize(session->bytes, session->length, proposal.bytes, sizeof proposal.bytes);
        stop_if(used.refusal);
        proposal.length = used.bytes;
        stop_if(noemathu_check_proposal(session->bytes, session->length, proposal.bytes, proposal.length));
    }
    print_text(&proposal);
}

int main(void)
{
    static struct bundle session;
    make_session(&session);
    take(&session, HONEST);
    take(&session, LIES);
    take(&session, FORGETS);
    return 0;
}
