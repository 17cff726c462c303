/* Runs an operation on a bundle from a file, so many times, and prints what it answers: the number and row of the refusal,
   what a lookup finds and how long it is, how many rows and bytes an output takes. The operation `copy` is what writing XML
   text is held against: the check, and a copy, byte by byte, of the text that is there already; `memcpy` makes the copy by
   the C library. Packing and salvage write into outputs of just as many bytes and words as they take.
   An operation whose name begins with `table_` is run over the table and the pool that the bundle stands for
   (bench/over-tables), and one that ends in `_small` writes into small outputs. Run 0 times, an operation is run once on a
   stack of its own, and the bytes of stack that it took are printed.
   Usage: driver OPERATION FILE TIMES [ROW QUERY] */
#include <noemathu.h>
#include <pthread.h>
#include <stdio.h>
#include <stdlib.h>
#include <string.h>

/* Room for the result of a small table. */
enum { SMALL_ROWS = 20, SMALL_POOL = 512 };

static uint8_t bundle[NOEMATHU_BUNDLE_MOST], out[NOEMATHU_BUNDLE_MOST], pool[NOEMATHU_MOST_POOL];
static uint32_t table[NOEMATHU_MOST_WORDS], row;
static size_t length, rows, bytes, query_length;
static const uint8_t *query;

/* Two outputs for XML text, as large as the text of the whole bundle. */
static uint8_t *text, *copied;
static size_t text_room, text_length;

/* What the last run answered. */
static noemathu_refusal refusal;
static size_t answer[2];

static void nothing(void) {}

static void check(void)
{
    refusal = noemathu_check(bundle, length);
}

/* The bundle is proposed for itself. */
static void check_proposal(void)
{
    refusal = noemathu_check_proposal(bundle, length, bundle, length);
}

static void keep(noemathu_found found)
{
    refusal = found.refusal;
    answer[0] = found.found;
    answer[1] = found.place.length;
}

static void uri(void) { keep(noemathu_uri_of_prefix(bundle, length, row, query, query_length)); }
static void prefix(void) { keep(noemathu_prefix_of_uri(bundle, length, row, query, query_length)); }
static void default_uri(void) { keep(noemathu_default_uri(bundle, length, row)); }
static void in_scope_uri(void) { keep(noemathu_in_scope_uri(bundle, length, row, query, query_length)); }
static void in_scope_prefix(void) { keep(noemathu_in_scope_prefix(bundle, length, row, query, query_length)); }

static void normalize_into(size_t room)
{
    noemathu_used used = noemathu_normalize(bundle, length, out, room);
    refusal = used.refusal;
    answer[0] = used.bytes ? noemathu_row_count(out) : 0;
    answer[1] = used.bytes;
}

static void normalize(void) { normalize_into(sizeof out); }
static void normalize_small(void) { normalize_into(NOEMATHU_BUNDLE_BYTES(SMALL_ROWS, SMALL_POOL)); }

/* The bytes that a result takes. */
static size_t exact;

static void pack(void)
{
    noemathu_used used = noemathu_pack(bundle, length, out, exact);
    refusal = used.refusal;
    answer[0] = used.bytes;
}

/* The list of dropped rows, and the words that it takes. */
static uint32_t list[NOEMATHU_LIST_MOST];
static size_t listed;

static void salvage(void)
{
    noemathu_salvaged salvaged = noemathu_salvage(bundle, length, out, exact, list, listed);
    refusal = salvaged.refusal;
    answer[0] = salvaged.bytes;
    answer[1] = salvaged.dropped;
}

static void read_bundle(void)
{
    noemathu_sizes sizes = noemathu_read(bundle, length, table, NOEMATHU_MOST_WORDS, pool, sizeof pool);
    refusal = sizes.refusal;
    answer[0] = rows = sizes.rows;
    answer[1] = bytes = sizes.bytes;
}

static void write_bundle(void)
{
    noemathu_used used = noemathu_write(table, NOEMATHU_ROW_WORDS * rows, pool, bytes, out, sizeof out);
    refusal = used.refusal;
    answer[0] = used.bytes;
}

static void write_xml(void)
{
    noemathu_used used = noemathu_write_xml(bundle, length, row, text, text_room);
    refusal = used.refusal;
    answer[0] = text_length = used.bytes;
}

static void checked_copy(void *(*copier)(void *, const void *, size_t))
{
    refusal = noemathu_check(bundle, length);
    copier(copied, text, text_length);
    answer[0] = text_length;
    answer[1] = text_length ? copied[text_length - 1] : 0;
}

/* One byte at a time, as whoever must look at each one does: the compiler may not take several at once. */
__attribute__((optimize("no-tree-vectorize", "no-tree-loop-distribute-patterns", "no-unroll-loops")))
static void *copy_bytes(void *to, const void *from, size_t n)
{
    uint8_t *out = to;
    const uint8_t *in = from;
    for (size_t i = 0; i < n; i++)
        out[i] = in[i];
    return to;
}

static void copy(void) { checked_copy(copy_bytes); }
static void copy_at_once(void) { checked_copy(memcpy); }

/* The operations over a table and a pool. A slice is handed on by a pointer to its address and length. */
typedef struct {
    const void *first;
    size_t length;
} slice;

void counted_check(noemathu_refusal *, const slice *table, const slice *pool);
void counted_uri(noemathu_found *, const slice *table, const slice *pool, uint32_t row, const slice *prefix);
void counted_prefix(noemathu_found *, const slice *table, const slice *pool, uint32_t row, const slice *uri);
void counted_default_uri(noemathu_found *, const slice *table, const slice *pool, uint32_t row);
void counted_in_scope_uri(noemathu_found *, const slice *table, const slice *pool, uint32_t row, const slice *prefix);
void counted_in_scope_prefix(noemathu_found *, const slice *table, const slice *pool, uint32_t row, const slice *uri);
void counted_normalize(noemathu_sizes *, const slice *table, const slice *pool, const slice *out_table, const slice *out_pool);

static slice words, names, asked;

static void table_check(void)
{
    counted_check(&refusal, &words, &names);
}

#define LOOKUP(name)                                                                                                           \
    static void table_##name(void)                                                                                             \
    {                                                                                                                          \
        noemathu_found found;                                                                                                  \
        counted_##name(&found, &words, &names, row, &asked);                                                                   \
        keep(found);                                                                                                           \
    }
LOOKUP(uri)
LOOKUP(prefix)
LOOKUP(in_scope_uri)
LOOKUP(in_scope_prefix)

static void table_default(void)
{
    noemathu_found found;
    counted_default_uri(&found, &words, &names, row);
    keep(found);
}

/* Answers the rows of the result, and the bytes of a bundle that stands for it. */
static void table_normalize_into(size_t rows, size_t bytes)
{
    static uint32_t out_table[NOEMATHU_MOST_WORDS];
    slice table = {out_table, NOEMATHU_ROW_WORDS * rows}, pool = {out, bytes};
    noemathu_sizes sizes;
    counted_normalize(&sizes, &words, &names, &table, &pool);
    refusal = sizes.refusal;
    answer[0] = sizes.rows;
    answer[1] = refusal.number ? 0 : NOEMATHU_BUNDLE_BYTES(sizes.rows, sizes.bytes);
}

static void table_normalize(void) { table_normalize_into(NOEMATHU_MOST_ROWS, NOEMATHU_MOST_POOL); }
static void table_normalize_small(void) { table_normalize_into(SMALL_ROWS, SMALL_POOL); }

static const struct {
    const char *name;
    void (*run)(void);
} operations[] = {{"check", check}, {"check_proposal", check_proposal}, {"uri", uri}, {"prefix", prefix}, {"default", default_uri},
                  {"in_scope_uri", in_scope_uri}, {"in_scope_prefix", in_scope_prefix}, {"normalize", normalize}, {"pack", pack}, {"salvage", salvage},
                  {"read", read_bundle}, {"write", write_bundle}, {"write_xml", write_xml}, {"copy", copy},
                  {"memcpy", copy_at_once}, {"normalize_small", normalize_small}, {"table_check", table_check},
                  {"table_uri", table_uri}, {"table_prefix", table_prefix}, {"table_default", table_default},
                  {"table_in_scope_uri", table_in_scope_uri}, {"table_in_scope_prefix", table_in_scope_prefix},
                  {"table_normalize", table_normalize}, {"table_normalize_small", table_normalize_small}};

static void *run_once(void *operation)
{
    (*(void (**)(void))operation)();
    return NULL;
}

/* How far the stack was written to. */
static size_t stack_of(void (*operation)(void))
{
    enum { SIZE = 4 << 20 };
    uint8_t *stack = aligned_alloc(4096, SIZE);
    pthread_attr_t attributes;
    pthread_t thread;
    size_t untouched = 0;
    memset(stack, 0xa5, SIZE);
    pthread_attr_init(&attributes);
    if (pthread_attr_setstack(&attributes, stack, SIZE) || pthread_create(&thread, &attributes, run_once, &operation))
        exit(2);
    pthread_join(thread, NULL);
    while (stack[untouched] == 0xa5)
        untouched++;
    free(stack);
    return SIZE - untouched;
}

int main(int argc, char **argv)
{
    void (*operation)(void) = NULL;
    FILE *file;
    for (size_t i = 0; argc > 3 && i < sizeof operations / sizeof *operations; i++)
        if (strcmp(argv[1], operations[i].name) == 0)
            operation = operations[i].run;
    if (!operation || (argc != 4 && argc != 6) || !(file = fopen(argv[2], "rb"))) {
        fprintf(stderr, "usage: driver OPERATION FILE TIMES [ROW QUERY]\n");
        return 2;
    }
    length = fread(bundle, 1, sizeof bundle, file);
    fclose(file);
    row = argc == 6 ? (uint32_t)atol(argv[4]) : 0;
    query = (const uint8_t *)(argc == 6 ? argv[5] : "");
    query_length = strlen((const char *)query);
    if (operation == write_bundle || strncmp(argv[1], "table_", 6) == 0)
        read_bundle();
    words = (slice){table, NOEMATHU_ROW_WORDS * rows};
    names = (slice){pool, bytes};
    asked = (slice){query, query_length};
    answer[0] = answer[1] = 0;
    if (operation == write_xml || operation == copy || operation == copy_at_once) {
        text_room = noemathu_xml_room(bundle);
        text = malloc(text_room);
        copied = malloc(text_room);
        if (!text || !copied)
            return 2;
    }
    if (operation == copy || operation == copy_at_once)
        write_xml();
    if (operation == pack)
        exact = noemathu_pack(bundle, length, out, sizeof out).bytes;
    if (operation == salvage) {
        noemathu_salvaged salvaged = noemathu_salvage(bundle, length, out, sizeof out, list, NOEMATHU_LIST_MOST);
        exact = salvaged.bytes;
        listed = 2 * salvaged.dropped;
    }
    if (atol(argv[3]) == 0) {
        printf("%zu\n", stack_of(operation) - stack_of(nothing));
        return 0;
    }
    for (long n = atol(argv[3]); n > 0; n--)
        operation();
    printf("%u, row %u: %zu, %zu\n", refusal.number, refusal.row, answer[0], answer[1]);
    return 0;
}
