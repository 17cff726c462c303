/* The command on damaged files: bundles and XML text with bytes changed, taken away, doubled and put in.

     damage FOLDER COUNT SEED

   FOLDER has the files to begin with. Each is damaged and handed to one command after another, in this process, which is
   built with the sanitizers. Where it is still accepted, the path of every row must lead to that row, and after normalization
   every name must be read as it is meant. A status that is not 0 to 3 or a leak ends it with 1, and the file that shows it
   stays in FOLDER/damaged. At the end each status must have been met. */
#define _POSIX_C_SOURCE 200809L
#include "../../tool/bytes.h"
#include "../../tool/meanings.h"
#include "../../tool/paths.h"
#include "../../tool/run.h"
#include "../../tool/session.h"

#include <dirent.h>
#include <libxml/parser.h>
#include <stdio.h>
#include <stdlib.h>
#include <string.h>
#include <unistd.h>

#if defined(__SANITIZE_ADDRESS__)
#include <sanitizer/common_interface_defs.h>
#include <sanitizer/lsan_interface.h>
#define LEAKS() __lsan_do_recoverable_leak_check()
#define REPORT_ON(number) __sanitizer_set_report_fd((void *)(intptr_t)(number))
#else
#define LEAKS() 0
#define REPORT_ON(number) (void)(number)
#endif

static uint64_t state;

/* A number below another one: xorshift64*. */
static size_t below(size_t bound)
{
    state ^= state >> 12;
    state ^= state << 25;
    state ^= state >> 27;
    return (size_t)((state * UINT64_C(2685821657736338717)) >> 33) % bound;
}

static struct buffer read_whole(const char *path)
{
    struct buffer bytes = {0};
    uint8_t part[4096];
    size_t got;
    FILE *file = fopen(path, "rb");
    while (file && (got = fread(part, 1, sizeof part, file)) > 0)
        append(&bytes, (struct bytes){part, got});
    if (file)
        fclose(file);
    return bytes;
}

static void write_whole(const char *path, struct bytes bytes)
{
    FILE *file = fopen(path, "wb");
    bool good = file && (bytes.length == 0 || fwrite(bytes.at, 1, bytes.length, file) == bytes.length);
    if (!good || fclose(file) != 0)
        exit(1);
}

/* What is put in the place of some bytes: ends of markup, numbers at their bounds, parts of UTF-8. */
static struct bytes odd_bytes(void)
{
    static const char *const odd[] = {"<", ">", "&", "\"", "'", "/>", "</a>", "<!--", "-->", "<![CDATA[", "]]>", "<?x ", "?>",
                                      ":", "xmlns", "xmlns:p=\"\"", "xml:", "&#0;", "&#x10FFFF;", "&nbsp;", "\xff", "\xc3",
                                      "\xed\xa0\x80", "<!DOCTYPE a [", "<!ENTITY e \"x\">", "<!ATTLIST a b CDATA \"c\">",
                                      " a=\"b\""};
    static const uint8_t words[][4] = {{0, 0, 0, 0}, {255, 255, 255, 255}, {1, 0, 0, 0}, {0, 4, 0, 0}, {255, 255, 255, 127},
                                       {13, 0, 0, 0}, {1, 1, 0, 0}, {0, 128, 0, 0}, {2, 0, 0, 0}, {9, 0, 0, 0}};
    size_t which = below(sizeof odd / sizeof *odd + sizeof words / sizeof *words);
    if (which < sizeof words / sizeof *words)
        return (struct bytes){words[which], 4};
    return text_bytes(odd[which - sizeof words / sizeof *words]);
}

/* Replaces a part of some bytes by others. */
static void replace(struct buffer *bytes, size_t at, size_t length, struct bytes by)
{
    struct buffer whole = {0};
    append(&whole, (struct bytes){bytes->at, at});
    append(&whole, by);
    append(&whole, (struct bytes){bytes->at + at + length, bytes->length - at - length});
    free_buffer(bytes);
    *bytes = whole;
}

static void damage(struct buffer *bytes)
{
    size_t at = below(bytes->length + 1), most = bytes->length - at, word = at / 4 * 4;
    uint8_t byte = (uint8_t)below(256);
    switch (below(8)) {
    case 0: replace(bytes, at, most > 0, (struct bytes){&byte, 1}); break;
    case 1: replace(bytes, at, below(most + 1), (struct bytes){NULL, 0}); break;
    case 2: replace(bytes, at, 0, odd_bytes()); break;
    case 3: if (most >= 4) replace(bytes, at, 4, odd_bytes()); break;
    case 4: if (bytes->length >= word + 4) replace(bytes, word, 4, odd_bytes()); break;
    case 5: replace(bytes, at, 0, (struct bytes){bytes->at, most < 300 ? most : 300}); break;
    case 6: if (most > 0) bytes->at[at] ^= (uint8_t)(1u << below(8)); break;
    default: if (bytes->length > 16) bytes->at[12 + below(bytes->length - 12)] = (uint8_t)below(16); break;
    }
}

/* A command line with the damaged file in it, and perhaps what it was before, one of many. */
static enum status run_some(char *file, char *other)
{
    char node[4200];
    snprintf(node, sizeof node, "%s#%zu", file, below(12));
    char *lines[][10] = {
        {"", "check", file},
        {"", "show", file},
        {"", "show", "--json", node},
        {"", "list", file},
        {"", "list", "--uri", "", "--json", file},
        {"", "audit", file},
        {"", "audit", "--uri", "urn:s", "--json", node},
        {"", "scope", node},
        {"", "uri", "p", node},
        {"", "uri", "--browser", "", file},
        {"", "prefix", "urn:s", node},
        {"", "diff", file, node},
        {"", "diff", "--as-read", file, file},
        {"", "diff", "--makers", file, other},
        {"", "check-proposal", file, file},
        {"", "check-proposal", "--json", file, node},
        {"", "check-proposal", other, file},
        {"", "check-proposal", "--json", file, other},
        {"", "from-xml", "--maker", "7", file, "-o", "/dev/null"},
        {"", "from-xml", "--no-blanks", "--no-cdata", file, "-o", "/dev/null"},
        {"", "xml", file},
        {"", "xml", "--json", node},
        {"", "cut", node, "-o", "/dev/null"},
        {"", "cut", "--bare", node, "-o", "/dev/null"},
        {"", "graft", file, node, "--under", "1", "-o", "/dev/null"},
        {"", "graft", "--bare", file, file, "--under", "0", "-o", "/dev/null"},
        {"", "normalize", file, "-o", "/dev/null"},
        {"", "normalize", "--diff", "--no-comments", node},
        {"", "pack", file, "-o", "/dev/null"},
        {"", "pack", "--json", node, "-o", "/dev/null"},
        {"", "salvage", file, "-o", "/dev/null"},
        {"", "salvage", "--list", "--json", file},
        {"", "salvage", "--json", node, "-o", "/dev/null"}};
    char **line = lines[below(sizeof lines / sizeof *lines)];
    int count = 0;
    while (line[count])
        count++;
    return run(count, line);
}

/* Whether every path leads to the row that has it. */
static bool paths_lead_back(const struct tree *tree)
{
    for (uint32_t row = 0; row < tree->count && row < 100; row++) {
        struct buffer path = {0};
        append_path(&path, tree, row);
        struct path_end end = row_of_path(tree, buffer_bytes(&path));
        free_buffer(&path);
        if (end.answer != PATH_FOUND || end.row != row)
            return false;
    }
    return true;
}

/* Whether normalization, if it is not refused, gives every name its meaning. */
static bool names_mean(const struct session *session)
{
    static uint8_t result[NOEMATHU_BUNDLE_MOST];
    noemathu_used used = noemathu_normalize(session->bundle.at, session->bundle.length, result, sizeof result);
    if (used.refusal.number != NOEMATHU_NOT_REFUSED)
        return true;
    struct tree tree = tree_of(result, used.bytes, used.refusal);
    bool good = true;
    for (uint32_t row = 0; row < tree.count && row < 100; row++)
        good &= !has_meaning(&tree, row) || meaning_of(&tree, row).is_same;
    free_tree(&tree);
    return good;
}

static bool is_consistent(const char *file)
{
    struct session session;
    bool accepted = open_session(file, BUNDLE_OR_XML, (struct xml_wishes){0}, &session) == STATUS_DONE;
    bool good = !accepted || (paths_lead_back(&session.tree) && names_mean(&session));
    close_session(&session);
    return good;
}

/* The files of a folder to begin with. */
static size_t read_folder(const char *folder, struct buffer *files, size_t most)
{
    DIR *open = opendir(folder);
    struct dirent *entry;
    size_t count = 0;
    while (open && count < most && (entry = readdir(open)) != NULL) {
        char path[4100];
        snprintf(path, sizeof path, "%s/%s", folder, entry->d_name);
        if (entry->d_name[0] != '.' && strcmp(entry->d_name, "damaged") != 0)
            files[count++] = read_whole(path);
    }
    if (open)
        closedir(open);
    return count;
}

int main(int argc, char **argv)
{
    static struct buffer files[400];
    char damaged[4100], before[4100];
    size_t met[4] = {0}, count = argc == 4 ? strtoul(argv[2], NULL, 10) : 0;
    size_t begun = argc == 4 ? read_folder(argv[1], files, 400) : 0;
    FILE *report = fdopen(dup(2), "w");
    if (begun == 0 || !report || !freopen("/dev/null", "w", stdout) || !freopen("/dev/null", "w", stderr))
        return 1;
    REPORT_ON(fileno(report));
    snprintf(damaged, sizeof damaged, "%s/damaged", argv[1]);
    snprintf(before, sizeof before, "%s/.before", argv[1]);
    state = strtoul(argv[3], NULL, 10) + UINT64_C(0x9e3779b97f4a7c15);
    for (size_t i = 0; i < count; i++) {
        struct buffer bytes = {0};
        append(&bytes, buffer_bytes(&files[below(begun)]));
        write_whole(before, buffer_bytes(&bytes));
        for (size_t k = below(4); k-- > 0;)
            damage(&bytes);
        write_whole(damaged, buffer_bytes(&bytes));
        free_buffer(&bytes);
        if (!is_consistent(damaged)) {
            fprintf(report, "damage: file %zu has a path or a name that leads elsewhere\n", i);
            return 1;
        }
        for (size_t k = 0; k < 3; k++) {
            enum status status = run_some(damaged, before);
            if ((unsigned)status > 3 || (i % 50 == 0 && LEAKS())) {
                fprintf(report, "damage: file %zu ends with %u or leaks\n", i, (unsigned)status);
                return 1;
            }
            met[status]++;
        }
    }
    for (size_t i = 0; i < begun; i++)
        free_buffer(&files[i]);
    xmlCleanupParser();
    fprintf(report, "damage: %zu files, status 0: %zu, 1: %zu, 2: %zu, 3: %zu\n", count, met[0], met[1], met[2], met[3]);
    fclose(report);
    unlink(damaged);
    unlink(before);
    return met[0] && met[1] && met[2] && met[3] ? 0 : 1;
}
