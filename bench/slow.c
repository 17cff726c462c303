/* Runs every operation on every bundle that a list names, once each, and prints what it answers; under callgrind it asks for a
   dump of each run alone, named by the operation and the bundle. XML text is asked for into no room at all, into half of what
   it takes and into just as much, or a byte less. A query may be as long as a gigabyte, of which no byte is there until it is read.
   Usage: slow DIR LIST [OPERATION]..., where LIST is a file in DIR; of no operations, all */
#include <noemathu.h>
#include <stdio.h>
#include <stdlib.h>
#include <string.h>
#include <sys/mman.h>
#include <time.h>
#include <valgrind/callgrind.h>

static uint8_t bundle[NOEMATHU_BUNDLE_MOST + 1], out[NOEMATHU_BUNDLE_MOST], pool[NOEMATHU_MOST_POOL];
static uint32_t table[NOEMATHU_MOST_WORDS];
static size_t length, rows, bytes, text_room;
static const uint8_t *query;
static uint8_t *text;

/* What the last run answered: the refusal, and how many bytes of XML text and zeros it wrote. */
static noemathu_refusal refusal;
static size_t written;

static void check(void) { refusal = noemathu_check(bundle, length); }

static void ask(noemathu_found found) { refusal = found.refusal; }

static uint32_t last(void) { return rows ? (uint32_t)rows - 1 : 0; }

static void uri(void) { ask(noemathu_uri_of_prefix(bundle, length, last(), (const uint8_t *)"p", 1)); }
static void prefix(void) { ask(noemathu_prefix_of_uri(bundle, length, last(), (const uint8_t *)"u", 1)); }
static void default_uri(void) { ask(noemathu_default_uri(bundle, length, last())); }
static void in_scope_uri(void) { ask(noemathu_in_scope_uri(bundle, length, last(), (const uint8_t *)"p", 1)); }
static void in_scope_prefix(void) { ask(noemathu_in_scope_prefix(bundle, length, last(), (const uint8_t *)"u", 1)); }

/* The whole pool; a byte more than any pool has; and all there is. */
enum { QUERY = 1 << 30 };
static void query_pool(void) { ask(noemathu_prefix_of_uri(bundle, length, last(), pool, bytes)); }
static void query_long(void) { ask(noemathu_in_scope_uri(bundle, length, last(), query, NOEMATHU_MOST_POOL + 1)); }
static void query_huge(void) { ask(noemathu_prefix_of_uri(bundle, length, last(), query, QUERY)); }

static void normalize(void) { refusal = noemathu_normalize(bundle, length, out, sizeof out).refusal; }

static void pack(void) { refusal = noemathu_pack(bundle, length, out, sizeof out).refusal; }

static void salvage(void)
{
    static uint32_t list[NOEMATHU_LIST_MOST];
    refusal = noemathu_salvage(bundle, length, out, sizeof out, list, NOEMATHU_LIST_MOST).refusal;
}

static void read_bundle(void)
{
    noemathu_sizes sizes = noemathu_read(bundle, length, table, NOEMATHU_MOST_WORDS, pool, sizeof pool);
    refusal = sizes.refusal;
    rows = sizes.rows;
    bytes = sizes.bytes;
}

static void write_bundle(void)
{
    refusal = noemathu_write(table, NOEMATHU_ROW_WORDS * rows, pool, bytes, out, sizeof out).refusal;
}

static void write_into(size_t room)
{
    refusal = noemathu_write_xml(bundle, length, 0, text, room).refusal;
    written = room; /* all of it: the text and zeros, or zeros alone */
}

static void xml_none(void) { write_into(0); }
static void xml_half(void) { write_into(text_room / 2); }
static void xml_less(void) { write_into(text_room ? text_room - 1 : 0); }
static void xml_exact(void) { write_into(text_room); }
static void xml_room(void) { text_room = noemathu_xml_room(bundle); }

static const struct {
    const char *name;
    void (*run)(void);
} operations[] = {{"check", check}, {"uri", uri}, {"prefix", prefix}, {"default", default_uri}, {"in_scope_uri", in_scope_uri},
                  {"in_scope_prefix", in_scope_prefix}, {"query_pool", query_pool}, {"query_long", query_long},
                  {"query_huge", query_huge}, {"normalize", normalize}, {"pack", pack}, {"salvage", salvage}, {"read", read_bundle}, {"write", write_bundle},
                  {"xml_room", xml_room}, {"xml_none", xml_none}, {"xml_half", xml_half}, {"xml_less", xml_less},
                  {"xml_exact", xml_exact}};

static double now(void)
{
    struct timespec time;
    clock_gettime(CLOCK_PROCESS_CPUTIME_ID, &time);
    return (double)time.tv_sec * 1e3 + (double)time.tv_nsec / 1e6;
}

static int load(const char *folder, const char *name)
{
    char path[4096];
    FILE *file;
    snprintf(path, sizeof path, "%s/%s", folder, name);
    if (!(file = fopen(path, "rb")))
        return 1;
    length = fread(bundle, 1, sizeof bundle, file);
    fclose(file);
    rows = noemathu_row_count(bundle);
    read_bundle();
    rows = noemathu_row_count(bundle);
    if (refusal.number == 0)
        xml_room();
    return 0;
}

static int wanted(int argc, char **argv, const char *name)
{
    for (int i = 3; i < argc; i++)
        if (strcmp(argv[i], name) == 0)
            return 1;
    return argc == 3;
}

int main(int argc, char **argv)
{
    char name[256], label[512];
    FILE *list;
    snprintf(label, sizeof label, "%s/%s", argc > 2 ? argv[1] : "", argc > 2 ? argv[2] : "");
    query = mmap(NULL, QUERY, PROT_READ, MAP_PRIVATE | MAP_ANONYMOUS | MAP_NORESERVE, -1, 0);
    text = mmap(NULL, NOEMATHU_XML_MOST, PROT_READ | PROT_WRITE, MAP_PRIVATE | MAP_ANONYMOUS | MAP_NORESERVE, -1, 0);
    if (argc < 3 || query == MAP_FAILED || text == MAP_FAILED || !(list = fopen(label, "r"))) {
        fprintf(stderr, "usage: slow DIR LIST [OPERATION]...\n");
        return 2;
    }
    while (fscanf(list, "%255s", name) == 1) {
        if (load(argv[1], name))
            return 2;
        for (size_t i = 0; i < sizeof operations / sizeof *operations; i++) {
            double began;
            if (!wanted(argc, argv, operations[i].name))
                continue;
            written = 0;
            snprintf(label, sizeof label, "%s %s", operations[i].name, name);
            began = now();
            CALLGRIND_ZERO_STATS;
            operations[i].run();
            CALLGRIND_DUMP_STATS_AT(label);
            printf("%s: %u, row %u, %zu bytes, %.3f ms\n", label, refusal.number, refusal.row, written, now() - began);
        }
    }
    return 0;
}
