/* An old session, from an archive of the time before there was a check: it declares what may not be declared, a prefix
   twice and an attribute twice, and is a bundle of version 1, whose rows have no makers. The check refuses it, at the first
   such row. The host salvages it, tells its engineer which rows were dropped, each by its old number and its name, and why,
   and goes on with the rest, which is of version 2: what the names mean is mended by normalization, and packing leaves the
   names of the dropped rows out. */
#include <noemathu.h>
#include <stdio.h>
#include <stdlib.h>
#include <string.h>

struct bundle {
    uint8_t bytes[NOEMATHU_BUNDLE_MOST];
    size_t length;
};

static void print_refusal(noemathu_refusal refusal)
{
    printf("refusal %u, row %u: %s\n", refusal.number, refusal.row, noemathu_text(refusal.number));
}

static void stop_if(noemathu_refusal refusal)
{
    if (refusal.number == NOEMATHU_NOT_REFUSED)
        return;
    print_refusal(refusal);
    exit(1);
}

/* The nodes of the old session. Names are given as `prefix:local`, or less of it. */
static const struct node {
    uint32_t type, parent;
    const char *name, *uri, *value;
} archive[] = {
    {NOEMATHU_ELEMENT, NOEMATHU_NONE, "desk", "urn:desk", ""},
    {NOEMATHU_DECLARATION, 0, "", "", "urn:desk"},
    {NOEMATHU_DECLARATION, 0, "xml", "", "urn:mine"},    /* rebinds xml */
    {NOEMATHU_DECLARATION, 0, "p", "", ""},              /* takes the URI away from a prefix */
    {NOEMATHU_DECLARATION, 0, "p", "", "urn:people"},    /* the first that may stand */
    {NOEMATHU_DECLARATION, 0, "p", "", "urn:patches"},   /* a second one */
    {NOEMATHU_ELEMENT, 0, "p:person", "urn:people", ""},
    {NOEMATHU_ATTRIBUTE, 6, "name", "", "Ada"},
    {NOEMATHU_ATTRIBUTE, 6, "p:role", "urn:people", "sound"},
    {NOEMATHU_ATTRIBUTE, 6, "name", "", "Ada L."},       /* a second one */
    {NOEMATHU_ELEMENT, 0, "p:patch", "urn:patches", ""}, /* meant the second declaration */
    {NOEMATHU_TEXT, 10, "", "", "channel 12"},
};

enum { ARCHIVED = sizeof archive / sizeof *archive };

static void put_number(struct bundle *bundle, uint32_t number, size_t bytes)
{
    for (; bytes > 0; bytes--, number >>= 8)
        bundle->bytes[bundle->length++] = (uint8_t)number;
}

/* Writes the archive's bytes as its maker did: noemathu_write would refuse these rows. */
static void write_archive(struct bundle *bundle)
{
    static uint8_t pool[NOEMATHU_MOST_POOL];
    static uint32_t table[NOEMATHU_ROW_WORDS * ARCHIVED];
    size_t held = 0;
    for (size_t i = 0; i < ARCHIVED; i++) {
        const struct node *node = &archive[i];
        const char *colon = strchr(node->name, ':'), *local_name = colon ? colon + 1 : node->name;
        noemathu_row row = {.type = node->type, .parent = node->parent};
        row.prefix = noemathu_put_bytes(pool, sizeof pool, &held, node->name, colon ? (size_t)(colon - node->name) : 0);
        row.local_name = noemathu_put_bytes(pool, sizeof pool, &held, local_name, strlen(local_name));
        row.uri = noemathu_put_bytes(pool, sizeof pool, &held, node->uri, strlen(node->uri));
        row.value = noemathu_put_bytes(pool, sizeof pool, &held, node->value, strlen(node->value));
        noemathu_put_row(table, i, row);
    }
    memcpy(bundle->bytes, "NTB\1\0\0", 6);
    bundle->length = 6;
    put_number(bundle, ARCHIVED, 2);
    put_number(bundle, (uint32_t)held, 4);
    for (size_t i = 0; i < ARCHIVED; i++)
        for (size_t k = 0; k < NOEMATHU_OLD_ROW_WORDS; k++)
            put_number(bundle, table[NOEMATHU_ROW_WORDS * i + k], 4);
    memcpy(bundle->bytes + bundle->length, pool, held);
    bundle->length += held;
}

static void print_place(const struct bundle *bundle, noemathu_place place)
{
    printf("%.*s", (int)place.length, (const char *)noemathu_bytes(bundle->bytes, place));
}

/* An attribute or a declaration as it would stand in a start tag. */
static void print_owned(const struct bundle *bundle, uint32_t number)
{
    noemathu_row row = noemathu_row_of(bundle->bytes, number);
    bool declares = row.type == NOEMATHU_DECLARATION;
    fputs(declares ? "xmlns" : "", stdout);
    print_place(bundle, row.prefix);
    fputs((declares || row.prefix.length > 0) && row.local_name.length > 0 ? ":" : "", stdout);
    print_place(bundle, row.local_name);
    fputs("=\"", stdout);
    print_place(bundle, row.value);
    fputs("\"", stdout);
}

/* Salvages a session, and tells what was dropped: the list has the numbers that the rows had in it. */
static void salvage(const struct bundle *from, struct bundle *to)
{
    static uint32_t list[NOEMATHU_LIST_MOST];
    noemathu_salvaged salvaged =
        noemathu_salvage(from->bytes, from->length, to->bytes, sizeof to->bytes, list, NOEMATHU_LIST_MOST);
    stop_if(salvaged.refusal);
    to->length = salvaged.bytes;
    printf("salvaged, %zu bytes of version %u; dropped:\n", to->length, noemathu_version(to->bytes));
    for (size_t i = 0; i < salvaged.dropped; i++) {
        uint32_t row = list[2 * i], number = list[2 * i + 1];
        printf("    row %u, ", row);
        print_owned(from, row);
        printf(", by %u: %s\n", number, noemathu_text(number));
    }
}

/* The XML text of a session, from its first row, or why there is none. */
static void print_text(const struct bundle *bundle)
{
    static uint8_t text[1000];
    noemathu_used used = noemathu_write_xml(bundle->bytes, bundle->length, 0, text, sizeof text);
    fputs("as XML text: ", stdout);
    if (used.refusal.number == NOEMATHU_NOT_REFUSED)
        printf("%.*s\n", (int)used.bytes, (const char *)text);
    else
        print_refusal(used.refusal);
}

int main(void)
{
    static struct bundle old, salvaged, normalized, packed;
    write_archive(&old);
    printf("an old session, %zu bytes of version %u: ", old.length, noemathu_version(old.bytes));
    print_refusal(noemathu_check(old.bytes, old.length));

    salvage(&old, &salvaged);
    stop_if(noemathu_check(salvaged.bytes, salvaged.length));
    print_text(&salvaged);

    noemathu_used used = noemathu_normalize(salvaged.bytes, salvaged.length, normalized.bytes, sizeof normalized.bytes);
    stop_if(used.refusal);
    normalized.length = used.bytes;
    printf("normalized, %zu bytes\n", normalized.length);

    used = noemathu_pack(normalized.bytes, normalized.length, packed.bytes, sizeof packed.bytes);
    stop_if(used.refusal);
    packed.length = used.bytes;
    printf("packed, %zu bytes\n", packed.length);
    print_text(&packed);
    return 0;
}
