/* The C interface at its edges: no bytes at all, every length up to a whole bundle and some beyond, outputs of every size
   around the exact one, every alignment, inputs that overlap, the largest bundles, and the stack that a call takes; with
   bundles of version 1 and of version 2.

   Everything lent stands between pages that cannot be touched, once with its end at the page behind and once with its
   start at the page before, and inputs cannot be written to. Around it stands a pattern, which must be there afterwards. */
#define _GNU_SOURCE
#include <noemathu.h>
#include <pthread.h>
#include <stdio.h>
#include <stdlib.h>
#include <string.h>
#include <sys/mman.h>

static unsigned long checks;

#define EXPECT(claim) expect((claim), #claim, __LINE__)

static void expect(bool holds, const char *claim, int line)
{
    checks++;
    if (!holds) {
        fprintf(stderr, "tests/boundary.c:%d: this does not hold: %s\n", line, claim);
        exit(1);
    }
}

/* ---- lent memory */

enum { PAGE = 4096, ROOM = 32 * PAGE, PATTERN = 0xa5, EDGE = 64, WORDS = NOEMATHU_ROW_WORDS };

/* Pages between two that cannot be touched, and what is lent of them. */
struct room {
    uint8_t *pages, *lent;
    size_t length;
};

/* Where in a room something stands: so many bytes before the page behind, or behind the page before. */
struct where {
    bool at_start;
    size_t off;
};

static void lend(struct room *room, const void *content, size_t length, struct where where)
{
    if (!room->pages) {
        uint8_t *all = mmap(NULL, ROOM + 2 * PAGE, PROT_NONE, MAP_PRIVATE | MAP_ANONYMOUS, -1, 0);
        EXPECT(all != MAP_FAILED);
        room->pages = all + PAGE;
        EXPECT(mprotect(room->pages, ROOM, PROT_READ | PROT_WRITE) == 0);
        memset(room->pages, PATTERN, ROOM);
    }
    EXPECT(length + where.off <= ROOM);
    room->lent = where.at_start ? room->pages + where.off : room->pages + ROOM - where.off - length;
    room->length = length;
    if (content && length > 0) {
        memcpy(room->lent, content, length);
        EXPECT(mprotect(room->pages, ROOM, PROT_READ) == 0);
    }
}

static bool is_pattern(const uint8_t *from, const uint8_t *to)
{
    while (from < to && *from == PATTERN)
        from++;
    return from >= to;
}

static const uint8_t *before(const struct room *room)
{
    return room->lent - room->pages > EDGE ? room->lent - EDGE : room->pages;
}

static const uint8_t *behind(const struct room *room)
{
    const uint8_t *end = room->lent + room->length, *all = room->pages + ROOM;
    return all - end > EDGE ? end + EDGE : all;
}

/* The pattern around is intact; then the room is whole again. */
static void take_back(struct room *room)
{
    EXPECT(is_pattern(before(room), room->lent));
    EXPECT(is_pattern(room->lent + room->length, behind(room)));
    EXPECT(mprotect(room->pages, ROOM, PROT_READ | PROT_WRITE) == 0);
    memset(room->lent, PATTERN, room->length);
}

static bool is_zero(const uint8_t *bytes, size_t length)
{
    while (length > 0 && bytes[length - 1] == 0)
        length--;
    return length == 0;
}

/* What was written there is these bytes and then zeros. */
static bool holds(const struct room *room, const void *bytes, size_t length)
{
    return length <= room->length && (length == 0 || memcmp(room->lent, bytes, length) == 0) &&
           is_zero(room->lent + length, room->length - length);
}

static struct room bundle_room, query_room, table_room, pool_room, out_room, out_table_room, out_pool_room, list_room;

static const struct where ENDS = {false, 0};

/* ---- the bundles */

#define NONE_BYTES 255, 255, 255, 255
#define W(n) (n), 0, 0, 0
#define BYTES(bundle) bundle, sizeof bundle

#define LARGE_MAKER 254, 255, 255, 255
#define VERSION_2 'N', 'T', 'B', 2, 0, 0
#define VERSION_1 'N', 'T', 'B', 1, 0, 0

/* Examples A and B of the rules, by makers, what normalization makes of them, and what packing makes of B's. */
static const uint8_t bundle_a[] = {VERSION_2, 1, 0, W(2),
    W(1), NONE_BYTES, W(0), W(0), W(0), W(1), W(1), W(1), W(0), W(0), W(7), 'a', 'U'};
static const uint8_t result_a[] = {VERSION_2, 2, 0, W(2),
    W(1), NONE_BYTES, W(0), W(0), W(0), W(1), W(1), W(1), W(0), W(0), W(7),
    W(13), W(0), W(0), W(0), W(0), W(0), W(0), W(0), W(1), W(1), W(7), 'a', 'U'};
static const uint8_t bundle_b[] = {VERSION_2, 2, 0, W(3),
    W(1), NONE_BYTES, W(0), W(0), W(0), W(1), W(0), W(0), W(0), W(0), W(7),
    W(2), W(0), W(0), W(0), W(2), W(1), W(1), W(1), W(0), W(0), LARGE_MAKER, 'a', 'U', 'b'};
static const uint8_t result_b[] = {VERSION_2, 3, 0, W(6),
    W(1), NONE_BYTES, W(0), W(0), W(0), W(1), W(0), W(0), W(0), W(0), W(7),
    W(2), W(0), W(3), W(3), W(2), W(1), W(1), W(1), W(0), W(0), LARGE_MAKER,
    W(13), W(0), W(0), W(0), W(3), W(3), W(0), W(0), W(1), W(1), LARGE_MAKER, 'a', 'U', 'b', 'N', 'S', '1'};
static const uint8_t packed_b[] = {VERSION_2, 2, 0, W(3),
    W(1), NONE_BYTES, W(0), W(0), W(0), W(1), W(0), W(0), W(0), W(0), W(7),
    W(2), W(0), W(0), W(0), W(1), W(1), W(2), W(1), W(0), W(0), LARGE_MAKER, 'a', 'b', 'U'};
static const uint8_t packed_result_b[] = {VERSION_2, 3, 0, W(6),
    W(1), NONE_BYTES, W(0), W(0), W(0), W(1), W(0), W(0), W(0), W(0), W(7),
    W(2), W(0), W(1), W(3), W(4), W(1), W(5), W(1), W(0), W(0), LARGE_MAKER,
    W(13), W(0), W(0), W(0), W(1), W(3), W(0), W(0), W(5), W(1), LARGE_MAKER, 'a', 'N', 'S', '1', 'b', 'U'};
static const uint8_t bundle_none[] = {VERSION_2, 0, 0, W(0)};

/* A with a declaration of its own, by another maker, which is set and stays that maker's. */
static const uint8_t bundle_c[] = {VERSION_2, 2, 0, W(3),
    W(1), NONE_BYTES, W(0), W(0), W(0), W(1), W(1), W(1), W(0), W(0), W(7),
    W(13), W(0), W(0), W(0), W(0), W(0), W(0), W(0), W(2), W(1), W(5), 'a', 'U', 'b'};
static const uint8_t result_c[] = {VERSION_2, 2, 0, W(3),
    W(1), NONE_BYTES, W(0), W(0), W(0), W(1), W(1), W(1), W(0), W(0), W(7),
    W(13), W(0), W(0), W(0), W(0), W(0), W(0), W(0), W(1), W(1), W(5), 'a', 'U', 'b'};

/* A and B of version 1, the same rows of version 2, and what is made of them: the maker is 0. */
static const uint8_t old_a[] = {VERSION_1, 1, 0, W(2),
    W(1), NONE_BYTES, W(0), W(0), W(0), W(1), W(1), W(1), W(0), W(0), 'a', 'U'};
static const uint8_t new_a[] = {VERSION_2, 1, 0, W(2),
    W(1), NONE_BYTES, W(0), W(0), W(0), W(1), W(1), W(1), W(0), W(0), W(0), 'a', 'U'};
static const uint8_t new_result_a[] = {VERSION_2, 2, 0, W(2),
    W(1), NONE_BYTES, W(0), W(0), W(0), W(1), W(1), W(1), W(0), W(0), W(0),
    W(13), W(0), W(0), W(0), W(0), W(0), W(0), W(0), W(1), W(1), W(0), 'a', 'U'};
static const uint8_t old_result_a[] = {VERSION_1, 2, 0, W(2),
    W(1), NONE_BYTES, W(0), W(0), W(0), W(1), W(1), W(1), W(0), W(0),
    W(13), W(0), W(0), W(0), W(0), W(0), W(0), W(0), W(1), W(1), 'a', 'U'};
static const uint8_t old_b[] = {VERSION_1, 2, 0, W(3),
    W(1), NONE_BYTES, W(0), W(0), W(0), W(1), W(0), W(0), W(0), W(0),
    W(2), W(0), W(0), W(0), W(2), W(1), W(1), W(1), W(0), W(0), 'a', 'U', 'b'};
static const uint8_t new_b[] = {VERSION_2, 2, 0, W(3),
    W(1), NONE_BYTES, W(0), W(0), W(0), W(1), W(0), W(0), W(0), W(0), W(0),
    W(2), W(0), W(0), W(0), W(2), W(1), W(1), W(1), W(0), W(0), W(0), 'a', 'U', 'b'};
static const uint8_t new_result_b[] = {VERSION_2, 3, 0, W(6),
    W(1), NONE_BYTES, W(0), W(0), W(0), W(1), W(0), W(0), W(0), W(0), W(0),
    W(2), W(0), W(3), W(3), W(2), W(1), W(1), W(1), W(0), W(0), W(0),
    W(13), W(0), W(0), W(0), W(3), W(3), W(0), W(0), W(1), W(1), W(0), 'a', 'U', 'b', 'N', 'S', '1'};
static const uint8_t new_packed_b[] = {VERSION_2, 2, 0, W(3),
    W(1), NONE_BYTES, W(0), W(0), W(0), W(1), W(0), W(0), W(0), W(0), W(0),
    W(2), W(0), W(0), W(0), W(1), W(1), W(2), W(1), W(0), W(0), W(0), 'a', 'b', 'U'};
static const uint8_t old_none[] = {VERSION_1, 0, 0, W(0)};

/* Each with the bundle of its rows and pool as it is written, what it is normalized and packed to, and what its XML text from row
   0 is, or the refusal that it draws. */
static const struct sample {
    const uint8_t *bundle;
    size_t length;
    const uint8_t *written;
    size_t written_length;
    const uint8_t *result;
    size_t result_length;
    const uint8_t *packed;
    size_t packed_length;
    const char *text;
    noemathu_refusal no_text;
} samples[] = {
    {BYTES(bundle_none), BYTES(bundle_none), BYTES(bundle_none), BYTES(bundle_none), "", {8, 0, 0}},
    {BYTES(bundle_a), BYTES(bundle_a), BYTES(result_a), BYTES(bundle_a), "", {23, 0, 0}},
    {BYTES(bundle_b), BYTES(bundle_b), BYTES(result_b), BYTES(packed_b), "", {23, 1, 0}},
    {BYTES(result_a), BYTES(result_a), BYTES(result_a), BYTES(result_a), "<a xmlns=\"U\"></a>", {0, 0, 0}},
    {BYTES(result_b), BYTES(result_b), BYTES(result_b), BYTES(packed_result_b), "<a NS1:b=\"\" xmlns:NS1=\"U\"></a>", {0, 0, 0}},
    {BYTES(bundle_c), BYTES(bundle_c), BYTES(result_c), BYTES(bundle_c), "", {23, 0, 0}},
    {BYTES(old_none), BYTES(bundle_none), BYTES(bundle_none), BYTES(bundle_none), "", {8, 0, 0}},
    {BYTES(old_a), BYTES(new_a), BYTES(new_result_a), BYTES(new_a), "", {23, 0, 0}},
    {BYTES(old_b), BYTES(new_b), BYTES(new_result_b), BYTES(new_packed_b), "", {23, 1, 0}},
    {BYTES(old_result_a), BYTES(new_result_a), BYTES(new_result_a), BYTES(new_result_a), "<a xmlns=\"U\"></a>", {0, 0, 0}}};

enum { SAMPLES = sizeof samples / sizeof *samples };

/* ---- what every call must say of a bundle */

static bool is_refusal(noemathu_refusal refusal, uint32_t number, uint32_t row)
{
    return refusal.number == number && refusal.row == row && refusal.word == 0;
}

static bool is_field_refusal(noemathu_refusal refusal, uint32_t number, uint32_t row, uint32_t word)
{
    return refusal.number == number && refusal.row == row && refusal.word == word;
}

static bool is_nothing(noemathu_found found, uint32_t number, uint32_t row)
{
    return is_refusal(found.refusal, number, row) && found.found == NOEMATHU_NOTHING && found.place.offset == 0 &&
           found.place.length == 0;
}

/* Whether a URI is the default at a row, by asking and comparing. */
static bool default_is(const uint8_t *bundle, size_t length, uint32_t row, const uint8_t *uri, size_t uri_length)
{
    return noemathu_default_is(bundle, noemathu_default_uri(bundle, length, row), uri, uri_length);
}

/* All that read one bundle refuse it so, and leave their outputs zero. */
static void refused(const uint8_t *bundle, size_t length, uint32_t number, uint32_t row)
{
    const uint8_t *p = (const uint8_t *)"p";
    EXPECT(is_refusal(noemathu_check(bundle, length), number, row));
    EXPECT(is_nothing(noemathu_uri_of_prefix(bundle, length, 0, p, 1), number, row));
    EXPECT(is_nothing(noemathu_prefix_of_uri(bundle, length, 0, p, 1), number, row));
    EXPECT(is_nothing(noemathu_in_scope_uri(bundle, length, 0, p, 1), number, row));
    EXPECT(is_nothing(noemathu_in_scope_prefix(bundle, length, 0, p, 1), number, row));
    noemathu_found default_uri = noemathu_default_uri(bundle, length, 0);
    EXPECT(is_nothing(default_uri, number, row));
    EXPECT(!noemathu_default_is(bundle, default_uri, NULL, 0) && !noemathu_default_is(bundle, default_uri, p, 1));

    lend(&out_room, NULL, 201, ENDS);
    noemathu_used used = noemathu_normalize(bundle, length, out_room.lent, out_room.length);
    EXPECT(is_refusal(used.refusal, number, row) && used.bytes == 0 && holds(&out_room, NULL, 0));
    take_back(&out_room);

    lend(&out_room, NULL, 151, ENDS);
    used = noemathu_pack(bundle, length, out_room.lent, out_room.length);
    EXPECT(is_refusal(used.refusal, number, row) && used.bytes == 0 && holds(&out_room, NULL, 0));
    take_back(&out_room);

    lend(&out_room, NULL, 121, ENDS);
    lend(&list_room, NULL, 4 * 5, ENDS);
    noemathu_salvaged salvaged = noemathu_salvage(bundle, length, out_room.lent, out_room.length, (uint32_t *)list_room.lent, 5);
    EXPECT(is_refusal(salvaged.refusal, number, row) && salvaged.bytes == 0 && salvaged.dropped == 0);
    EXPECT(holds(&out_room, NULL, 0) && holds(&list_room, NULL, 0));
    take_back(&out_room);
    take_back(&list_room);

    lend(&out_room, NULL, 101, ENDS);
    used = noemathu_write_xml(bundle, length, 0, out_room.lent, out_room.length);
    EXPECT(is_refusal(used.refusal, number, row) && used.bytes == 0 && holds(&out_room, NULL, 0));
    take_back(&out_room);

    lend(&out_table_room, NULL, 4 * 35, ENDS);
    lend(&out_pool_room, NULL, 17, ENDS);
    noemathu_sizes sizes = noemathu_read(bundle, length, (uint32_t *)out_table_room.lent, 35, out_pool_room.lent, 17);
    EXPECT(is_refusal(sizes.refusal, number, row) && sizes.rows == 0 && sizes.bytes == 0);
    EXPECT(holds(&out_table_room, NULL, 0) && holds(&out_pool_room, NULL, 0));
    take_back(&out_table_room);
    take_back(&out_pool_room);
}

/* The same bytes in a room, at every alignment and at both ends of it. */
static void refused_everywhere(const uint8_t *bytes, size_t length, uint32_t number, uint32_t row)
{
    for (size_t i = 0; i < 16; i++) {
        lend(&bundle_room, bytes, length, (struct where){i >= 8, i % 8});
        refused(bundle_room.lent, length, number, row);
        take_back(&bundle_room);
    }
}

/* ---- the tests */

static void nothing_lent(void)
{
    EXPECT(is_refusal(noemathu_check(NULL, 0), 30, 0));
    EXPECT(is_nothing(noemathu_uri_of_prefix(NULL, 0, 0, NULL, 0), 30, 0));
    EXPECT(is_nothing(noemathu_prefix_of_uri(NULL, 0, 0, NULL, 0), 30, 0));
    EXPECT(is_nothing(noemathu_in_scope_uri(NULL, 0, 0, NULL, 0), 30, 0));
    EXPECT(is_nothing(noemathu_in_scope_prefix(NULL, 0, 0, NULL, 0), 30, 0));
    EXPECT(is_nothing(noemathu_default_uri(NULL, 0, 0), 30, 0));
    EXPECT(is_refusal(noemathu_normalize(NULL, 0, NULL, 0).refusal, 30, 0));
    EXPECT(is_refusal(noemathu_pack(NULL, 0, NULL, 0).refusal, 30, 0));
    EXPECT(is_refusal(noemathu_salvage(NULL, 0, NULL, 0, NULL, 0).refusal, 30, 0));
    EXPECT(is_refusal(noemathu_read(NULL, 0, NULL, 0, NULL, 0).refusal, 30, 0));
    EXPECT(is_refusal(noemathu_write(NULL, 0, NULL, 0, NULL, 0).refusal, 33, 0));
    EXPECT(is_refusal(noemathu_write_xml(NULL, 0, 0, NULL, 0).refusal, 30, 0));
    refused(NULL, 0, 30, 0);

    /* A table of no rows is a table, and its bundle has 12 bytes. */
    lend(&out_room, NULL, 12, ENDS);
    noemathu_used used = noemathu_write(NULL, 0, NULL, 0, out_room.lent, 12);
    EXPECT(is_refusal(used.refusal, 0, 0) && used.bytes == 12 && holds(&out_room, bundle_none, 12));
    take_back(&out_room);
    noemathu_sizes sizes = noemathu_read(bundle_none, 12, NULL, 0, NULL, 0);
    EXPECT(is_refusal(sizes.refusal, 0, 0) && sizes.rows == 0 && sizes.bytes == 0);
    sizes = noemathu_read(old_none, 12, NULL, 0, NULL, 0);
    EXPECT(is_refusal(sizes.refusal, 0, 0) && sizes.rows == 0 && sizes.bytes == 0);
    EXPECT(is_nothing(noemathu_uri_of_prefix(bundle_none, 12, 0, NULL, 0), 8, 0));

    /* An empty query, and outputs that are not there. */
    noemathu_found found = noemathu_uri_of_prefix(bundle_a, sizeof bundle_a, 0, NULL, 0);
    EXPECT(found.found == NOEMATHU_PLACE && found.place.offset == 1 && found.place.length == 1);
    EXPECT(is_nothing(noemathu_prefix_of_uri(bundle_a, sizeof bundle_a, 0, NULL, 0), 0, 0));
    EXPECT(!default_is(bundle_a, sizeof bundle_a, 0, NULL, 0));
    EXPECT(default_is(bundle_b, sizeof bundle_b, 0, NULL, 0));
    EXPECT(is_refusal(noemathu_normalize(bundle_a, sizeof bundle_a, NULL, 0).refusal, 33, 0));
    EXPECT(is_refusal(noemathu_pack(bundle_a, sizeof bundle_a, NULL, 0).refusal, 33, 0));
    EXPECT(is_refusal(noemathu_pack(bundle_none, sizeof bundle_none, NULL, 0).refusal, 33, 0));
    EXPECT(is_refusal(noemathu_salvage(bundle_a, sizeof bundle_a, NULL, 0, NULL, 0).refusal, 33, 0));
    EXPECT(is_refusal(noemathu_read(bundle_a, sizeof bundle_a, NULL, 0, NULL, 0).refusal, 10, 0));
    EXPECT(is_refusal(noemathu_write_xml(result_a, sizeof result_a, 0, NULL, 0).refusal, 22, 0));
    EXPECT(is_refusal(noemathu_write_xml(result_a, sizeof result_a, 1, NULL, 0).refusal, 20, 1));
}

/* Bytes that end early, and bytes that go on. */
static void every_length(void)
{
    for (size_t s = 0; s < SAMPLES; s++) {
        uint8_t bytes[300];
        memset(bytes, 'a', sizeof bytes);
        memcpy(bytes, samples[s].bundle, samples[s].length);
        for (size_t length = 0; length < samples[s].length + 50; length++)
            if (length != samples[s].length)
                refused_everywhere(bytes, length, length < 3 ? 30 : length < 5 ? 31 : 32, 0);
    }
}

/* Every byte of the header with every value: what it draws is told by its place. The other version has rows of another
   length. */
static void every_header_byte(void)
{
    for (size_t s = 1; s < SAMPLES; s++)
        for (size_t at = 0; at < 12; at++)
            for (unsigned value = 0; value < 256; value++) {
                uint8_t bytes[300];
                size_t length = samples[s].length;
                bool other_version = at == 3 && (value == 1 || value == 2);
                memcpy(bytes, samples[s].bundle, length);
                bytes[at] = (uint8_t)value;
                if (bytes[at] == samples[s].bundle[at] || (other_version && noemathu_row_count(bytes) == 0))
                    EXPECT(is_refusal(noemathu_check(bytes, length), 0, 0));
                else
                    refused(bytes, length, at < 3 ? 30 : at < 5 && !other_version ? 31 : 32, 0);
            }
}

/* Every version: no other than 1 and 2 is read, whatever length it has. */
static void every_version(void)
{
    for (size_t s = 0; s < SAMPLES; s++)
        for (uint32_t version = 0; version < 65536; version++) {
            uint8_t bytes[300];
            memcpy(bytes, samples[s].bundle, samples[s].length);
            bytes[3] = (uint8_t)version;
            bytes[4] = (uint8_t)(version >> 8);
            uint32_t number = version != 1 && version != 2 ? 31 : version == samples[s].bundle[3] || samples[s].length == 12 ? 0 : 32;
            EXPECT(is_refusal(noemathu_check(bytes, samples[s].length), number, 0));
        }
}

/* A call from a bundle into a bundle, which makes this of a sample. */
static void made_at(noemathu_used (*call)(const uint8_t *, size_t, uint8_t *, size_t), const struct sample *sample,
                    const uint8_t *result, size_t length, struct where where, size_t size)
{
    lend(&bundle_room, sample->bundle, sample->length, where);
    lend(&out_room, NULL, size, where);
    noemathu_used used = call(bundle_room.lent, sample->length, size ? out_room.lent : NULL, size);
    if (size < length)
        EXPECT(is_refusal(used.refusal, 33, 0) && used.bytes == 0 && holds(&out_room, NULL, 0));
    else
        EXPECT(is_refusal(used.refusal, 0, 0) && used.bytes == length && holds(&out_room, result, length));
    take_back(&bundle_room);
    take_back(&out_room);
}

/* Salvages a bundle into an output of this size and a list of so many words, where this comes of it, with so many pairs in the
   list. */
static void salvage_at(const uint8_t *bundle, size_t length, struct where where, size_t size, size_t words,
                       const uint8_t *result, size_t result_length, const uint32_t *list, size_t dropped)
{
    lend(&bundle_room, bundle, length, where);
    lend(&out_room, NULL, size, where);
    lend(&list_room, NULL, 4 * words, (struct where){where.at_start, 4 * where.off});
    noemathu_salvaged salvaged = noemathu_salvage(bundle_room.lent, length, size ? out_room.lent : NULL, size,
                                                  words ? (uint32_t *)list_room.lent : NULL, words);
    if (words / 2 < dropped || size < result_length) {
        EXPECT(is_refusal(salvaged.refusal, words / 2 < dropped ? 10 : 33, 0) && salvaged.bytes == 0 && salvaged.dropped == 0);
        EXPECT(holds(&out_room, NULL, 0) && holds(&list_room, NULL, 0));
    } else {
        EXPECT(is_refusal(salvaged.refusal, 0, 0) && salvaged.bytes == result_length && salvaged.dropped == dropped);
        EXPECT(holds(&out_room, result, result_length) && holds(&list_room, list, 8 * dropped));
    }
    take_back(&bundle_room);
    take_back(&out_room);
    take_back(&list_room);
}

/* Reads a sample into outputs of these sizes, and writes what it holds. */
static void read_at(const struct sample *sample, struct where where, size_t words, size_t size)
{
    size_t rows = noemathu_row_count(sample->bundle), bytes = noemathu_pool_length(sample->bundle);
    lend(&bundle_room, sample->bundle, sample->length, where);
    lend(&out_table_room, NULL, 4 * words, (struct where){where.at_start, 4 * where.off});
    lend(&out_pool_room, NULL, size, where);
    noemathu_sizes sizes = noemathu_read(bundle_room.lent, sample->length, (uint32_t *)out_table_room.lent, words,
                                         size ? out_pool_room.lent : NULL, size);
    if (words / WORDS < rows || size < bytes) {
        EXPECT(is_refusal(sizes.refusal, words / WORDS < rows ? 10 : 11, 0) && sizes.rows == 0 && sizes.bytes == 0);
        EXPECT(holds(&out_table_room, NULL, 0) && holds(&out_pool_room, NULL, 0));
    } else {
        EXPECT(is_refusal(sizes.refusal, 0, 0) && sizes.rows == rows && sizes.bytes == bytes);
        EXPECT(holds(&out_pool_room, noemathu_pool(sample->bundle), bytes));
        EXPECT(is_zero(out_table_room.lent + 4 * WORDS * rows, 4 * words - 4 * WORDS * rows));
        for (size_t i = 0; i < WORDS * rows; i++) {
            uint32_t word = noemathu_number(sample->written + 12 + 4 * i, 4);
            EXPECT(((uint32_t *)out_table_room.lent)[i] == word && noemathu_word(sample->bundle, i / WORDS, i % WORDS) == word);
        }
    }
    take_back(&bundle_room);
    take_back(&out_table_room);
    take_back(&out_pool_room);
}

static void write_at(const struct sample *sample, struct where where, size_t size)
{
    uint32_t table[200];
    size_t rows = noemathu_row_count(sample->bundle), bytes = noemathu_pool_length(sample->bundle);
    for (size_t i = 0; i < rows; i++)
        noemathu_put_row(table, i, noemathu_row_of(sample->bundle, i));
    lend(&table_room, table, 4 * WORDS * rows, (struct where){where.at_start, 4 * where.off});
    lend(&pool_room, noemathu_pool(sample->bundle), bytes, where);
    lend(&out_room, NULL, size, where);
    noemathu_used used = noemathu_write((uint32_t *)table_room.lent, WORDS * rows, pool_room.lent, bytes,
                                        size ? out_room.lent : NULL, size);
    if (size < sample->written_length) {
        EXPECT(is_refusal(used.refusal, 33, 0) && used.bytes == 0 && holds(&out_room, NULL, 0));
    } else {
        EXPECT(is_refusal(used.refusal, 0, 0) && used.bytes == sample->written_length);
        EXPECT(holds(&out_room, sample->written, sample->written_length));
    }
    take_back(&table_room);
    take_back(&pool_room);
    take_back(&out_room);
}

static void write_xml_at(const struct sample *sample, struct where where, size_t size)
{
    size_t length = strlen(sample->text);
    lend(&bundle_room, sample->bundle, sample->length, where);
    lend(&out_room, NULL, size, where);
    noemathu_used used = noemathu_write_xml(bundle_room.lent, sample->length, 0, size ? out_room.lent : NULL, size);
    if (sample->no_text.number != 0) {
        EXPECT(is_refusal(used.refusal, sample->no_text.number, sample->no_text.row) && used.bytes == 0);
        EXPECT(holds(&out_room, NULL, 0));
    } else if (size < length) {
        EXPECT(is_refusal(used.refusal, 22, 0) && used.bytes == 0 && holds(&out_room, NULL, 0));
    } else {
        EXPECT(is_refusal(used.refusal, 0, 0) && used.bytes == length && holds(&out_room, sample->text, length));
    }
    take_back(&bundle_room);
    take_back(&out_room);
}

static void every_output_size(void)
{
    for (size_t s = 0; s < SAMPLES; s++)
        for (size_t i = 0; i < 16; i++) {
            const struct sample *sample = &samples[s];
            struct where where = {i >= 8, i % 8};
            for (size_t size = 0; size < sample->result_length + 45; size++)
                made_at(noemathu_normalize, sample, sample->result, sample->result_length, where, size);
            for (size_t size = 0; size < sample->packed_length + 45; size++)
                made_at(noemathu_pack, sample, sample->packed, sample->packed_length, where, size);
            for (size_t size = 0; size < sample->written_length + 45; size++)
                write_at(sample, where, size);
            for (size_t size = 0; size < sample->written_length + 45; size++) /* what passes comes back */
                salvage_at(sample->bundle, sample->length, where, size, size % 4, sample->written, sample->written_length, NULL, 0);
            for (size_t size = 0; size < strlen(sample->text) + 45; size++)
                write_xml_at(sample, where, size);
            for (size_t words = 0; words < WORDS * noemathu_row_count(sample->bundle) + 13; words++)
                for (size_t size = 0; size < noemathu_pool_length(sample->bundle) + 3; size++)
                    read_at(sample, where, words, size);
        }
}

/* All questions at every alignment, of a query that stands apart and of one that stands in the bundle. */
static void every_question(void)
{
    for (size_t i = 0; i < 16; i++) {
        struct where where = {i >= 8, i % 8};
        lend(&bundle_room, result_b, sizeof result_b, where);
        for (int inside = 0; inside < 2; inside++) {
            const uint8_t *bundle = bundle_room.lent, *prefix = noemathu_pool(bundle) + 3, *uri = noemathu_pool(bundle) + 1;
            size_t length = sizeof result_b;
            lend(&query_room, "NS1", 3, where);
            prefix = inside ? prefix : query_room.lent;
            for (uint32_t row = 0; row < 3; row++) {
                noemathu_found found = noemathu_uri_of_prefix(bundle, length, row, prefix, 3);
                EXPECT(found.found == NOEMATHU_PLACE && found.place.offset == 1 && found.place.length == 1);
                EXPECT(noemathu_bytes(bundle, found.place)[0] == 'U');
                found = noemathu_in_scope_uri(bundle, length, row, prefix, 3);
                EXPECT(found.found == NOEMATHU_PLACE && found.place.offset == 1 && found.place.length == 1);
            }
            EXPECT(is_nothing(noemathu_uri_of_prefix(bundle, length, 0, prefix, 2), 0, 0));
            EXPECT(is_nothing(noemathu_uri_of_prefix(bundle, length, 3, prefix, 3), 8, 0));
            EXPECT(is_nothing(noemathu_in_scope_uri(bundle, length, NOEMATHU_NONE, prefix, 3), 8, 0));
            take_back(&query_room);
            lend(&query_room, "U", 1, where);
            uri = inside ? uri : query_room.lent;
            noemathu_found found = noemathu_prefix_of_uri(bundle, length, 1, uri, 1);
            EXPECT(found.found == NOEMATHU_PLACE && found.place.offset == 3 && found.place.length == 3);
            found = noemathu_in_scope_prefix(bundle, length, 1, uri, 1);
            EXPECT(found.found == NOEMATHU_PLACE && found.place.offset == 3 && found.place.length == 3);
            EXPECT(is_nothing(noemathu_default_uri(bundle, length, 1), 0, 0) && !default_is(bundle, length, 1, uri, 1));
            EXPECT(is_nothing(noemathu_default_uri(bundle, length, 3), 8, 0) && !default_is(bundle, length, 3, uri, 1));
            take_back(&query_room);
        }
        EXPECT(noemathu_in_scope_uri(bundle_room.lent, sizeof result_b, 0, (const uint8_t *)"xml", 3).found ==
               NOEMATHU_BUILT_IN_XML);
        EXPECT(noemathu_in_scope_uri(bundle_room.lent, sizeof result_b, 0, (const uint8_t *)"xmlns", 5).found ==
               NOEMATHU_BUILT_IN_XMLNS);
        EXPECT(noemathu_in_scope_prefix(bundle_room.lent, sizeof result_b, 0, (const uint8_t *)NOEMATHU_XML_URI, 36).found ==
               NOEMATHU_BUILT_IN_XML);
        EXPECT(noemathu_in_scope_prefix(bundle_room.lent, sizeof result_b, 0, (const uint8_t *)NOEMATHU_XMLNS_URI, 29)
                   .found == NOEMATHU_BUILT_IN_XMLNS);
        take_back(&bundle_room);
    }
}

/* Inputs may overlap: a table whose pool is its own bytes, a bundle that is its own query. */
static void overlapping_inputs(void)
{
    uint32_t table[WORDS] = {3, NOEMATHU_NONE, 0, 0, 0, 0, 0, 0, 8, 8, 1};
    uint8_t out[NOEMATHU_BUNDLE_BYTES(1, sizeof table)];
    noemathu_used used = noemathu_write(table, WORDS, (const uint8_t *)table, sizeof table, out, sizeof out);
    EXPECT(is_refusal(used.refusal, 0, 0) && used.bytes == sizeof out);
    EXPECT(memcmp(out + NOEMATHU_BUNDLE_BYTES(1, 0), table, sizeof table) == 0);
    EXPECT(is_nothing(noemathu_uri_of_prefix(bundle_a, sizeof bundle_a, 0, bundle_a, sizeof bundle_a), 0, 0));
    EXPECT(is_nothing(noemathu_in_scope_prefix(bundle_a, sizeof bundle_a, 0, bundle_a, sizeof bundle_a), 0, 0));
}

/* Words that are no whole rows; a row with something wrong in it. */
static void refused_tables(void)
{
    const uint32_t row[WORDS] = {1, NOEMATHU_NONE, 0, 0, 0, 1, 1, 1, 0, 0, NOEMATHU_NONE};
    uint32_t table[2 * WORDS] = {0};
    uint8_t out[300];
    memcpy(table, row, sizeof row);
    for (size_t words = 0; words <= 2 * WORDS; words++) {
        uint32_t number = words % WORDS ? 1 : words == 2 * WORDS ? 2 : 0;
        noemathu_used used;
        memset(out, PATTERN, sizeof out);
        used = noemathu_write(table, words, (const uint8_t *)"aU", 2, out, sizeof out);
        EXPECT(is_refusal(used.refusal, number, words == 2 * WORDS) && used.bytes == (number ? 0 : 12 + 4 * words + 2));
        EXPECT(is_zero(out + used.bytes, sizeof out - used.bytes));
    }
    for (size_t bytes = 0; bytes <= 2; bytes++)
        EXPECT(is_field_refusal(noemathu_write(row, WORDS, (const uint8_t *)"aU", bytes, out, sizeof out).refusal, bytes < 2 ? 3 : 0,
                                0, bytes == 0 ? 4 : bytes == 1 ? 6 : 0));
}

/* ---- which field: a table of an element and one more row */

static void set_number(uint8_t *bytes, size_t count, size_t number)
{
    for (size_t k = 0; k < count; k++)
        bytes[k] = (uint8_t)(number >> 8 * k);
}

/* A table and its pool as a bundle of a version, whatever the check says of it; answers its length. Version 1 has no makers. */
static size_t put_bundle(uint8_t *bundle, uint32_t version, const uint32_t *table, size_t rows, const uint8_t *pool, size_t bytes)
{
    size_t words = version == 1 ? 10 : 11, at = 12;
    memcpy(bundle, "NTB", 3);
    set_number(bundle + 3, 3, version);
    set_number(bundle + 6, 2, rows);
    set_number(bundle + 8, 4, bytes);
    for (size_t i = 0; i < rows; i++)
        for (size_t word = 0; word < words; word++, at += 4)
            set_number(bundle + at, 4, table[WORDS * i + word]);
    memcpy(bundle + at, pool, bytes);
    return at + bytes;
}

/* What every call says of a bundle of two rows, which is lent with its end at the page behind; salvage, where it is not refused,
   gives it back as it is written. */
static void expect_judged_bundle(const uint8_t *bundle, size_t length, const uint8_t *written, size_t written_length,
                                 uint32_t number, uint32_t word)
{
    uint8_t out[400];
    uint32_t out_table[2 * WORDS], row = number != 0;
    noemathu_used used;
    lend(&bundle_room, bundle, length, ENDS);
    EXPECT(is_field_refusal(noemathu_check(bundle_room.lent, length), number, row, word));
    EXPECT(is_field_refusal(noemathu_uri_of_prefix(bundle_room.lent, length, 0, NULL, 0).refusal, number, row, word));
    EXPECT(is_field_refusal(noemathu_prefix_of_uri(bundle_room.lent, length, 0, NULL, 0).refusal, number, row, word));
    EXPECT(is_field_refusal(noemathu_default_uri(bundle_room.lent, length, 0).refusal, number, row, word));
    EXPECT(is_field_refusal(noemathu_in_scope_uri(bundle_room.lent, length, 0, NULL, 0).refusal, number, row, word));
    EXPECT(is_field_refusal(noemathu_in_scope_prefix(bundle_room.lent, length, 0, NULL, 0).refusal, number, row, word));
    used = noemathu_normalize(bundle_room.lent, length, out, sizeof out);
    EXPECT(is_field_refusal(used.refusal, number, row, word));
    EXPECT(number ? is_zero(out, sizeof out) : is_refusal(noemathu_check(out, used.bytes), 0, 0));
    used = noemathu_pack(bundle_room.lent, length, out, sizeof out);
    EXPECT(is_field_refusal(used.refusal, number, row, word));
    EXPECT(number ? is_zero(out, sizeof out) : is_refusal(noemathu_check(out, used.bytes), 0, 0));
    noemathu_salvaged salvaged = noemathu_salvage(bundle_room.lent, length, out, sizeof out, out_table, 2 * WORDS);
    EXPECT(is_field_refusal(salvaged.refusal, number, row, word) && salvaged.dropped == 0);
    EXPECT(number ? is_zero(out, sizeof out) : salvaged.bytes == written_length && memcmp(out, written, written_length) == 0);
    EXPECT(is_zero((uint8_t *)out_table, sizeof out_table));
    EXPECT(is_field_refusal(noemathu_read(bundle_room.lent, length, out_table, 2 * WORDS, out, sizeof out).refusal, number, row, word));
    /* the first element's URI is not declared; the value of the second row may be no text */
    used = noemathu_write_xml(bundle_room.lent, length, 0, out, sizeof out);
    EXPECT(number ? is_field_refusal(used.refusal, number, row, word)
                  : is_refusal(used.refusal, 23, 0) || is_refusal(used.refusal, 21, 1));
    EXPECT(used.bytes == 0 && is_zero(out, sizeof out));
    take_back(&bundle_room);
}

/* What every call says of the table and pool, and of their bundles of both versions. The maker of the second row is any number. */
static void expect_judged(const uint32_t *table, const uint8_t *pool, size_t bytes, uint32_t number, uint32_t word)
{
    uint8_t bundle[NOEMATHU_BUNDLE_BYTES(2, 100)], written[NOEMATHU_BUNDLE_BYTES(2, 100)], out[400];
    uint32_t made[2 * WORDS];
    memcpy(made, table, sizeof made);
    made[2 * WORDS - 1] = (uint32_t)(bytes * UINT32_C(2654435761));
    lend(&pool_room, pool, bytes, ENDS);
    EXPECT(is_field_refusal(noemathu_write(made, 2 * WORDS, pool_room.lent, bytes, out, sizeof out).refusal, number, number != 0, word));
    take_back(&pool_room);
    size_t length = put_bundle(bundle, 2, made, 2, pool, bytes);
    expect_judged_bundle(bundle, length, bundle, length, number, word);
    made[2 * WORDS - 1] = 0;
    expect_judged_bundle(bundle, put_bundle(bundle, 1, made, 2, pool, bytes), written, put_bundle(written, 2, made, 2, pool, bytes),
                         number, word);
}

/* The second row is of this type, and some of its words are set. */
static void expect_field(uint32_t type, const uint32_t *set, size_t pairs, uint32_t number, uint32_t word)
{
    uint32_t table[2 * WORDS] = {1, NOEMATHU_NONE, 0, 0, 0, 1, 1, 1, 0, 0, 0, type, 0, 0, 0, 0, type == 3 ? 0 : 1, 0, 0, 0, 0, 0};
    for (size_t i = 0; i < pairs; i++)
        table[WORDS + set[2 * i]] = set[2 * i + 1];
    expect_judged(table, (const uint8_t *)"aU", 2, number, word);
}

static void fields(void)
{
    static const uint32_t words[] = {2, 4, 6, 8};
    for (size_t i = 0; i < 4; i++) {
        uint32_t w = words[i];
        expect_field(NOEMATHU_ATTRIBUTE, (const uint32_t[]){w, 1, w + 1, 2}, 2, 3, w);
        expect_field(NOEMATHU_ATTRIBUTE, (const uint32_t[]){w, NOEMATHU_NONE, w + 1, NOEMATHU_NONE}, 2, 3, w);
        expect_field(NOEMATHU_ATTRIBUTE, (const uint32_t[]){w, 3, w + 1, 0}, 2, 3, w); /* past the pool, and no length */
        expect_field(NOEMATHU_ATTRIBUTE, (const uint32_t[]){w, 1, w + 1, 0}, 2, 12, w);
        for (size_t k = i + 1; k < 4; k++) {
            uint32_t later = words[k];
            /* two faulty fields, in both orders */
            expect_field(NOEMATHU_ATTRIBUTE, (const uint32_t[]){w, 1, w + 1, 2, later, 1, later + 1, 0}, 4, 3, w);
            expect_field(NOEMATHU_ATTRIBUTE, (const uint32_t[]){w, 1, w + 1, 0, later, 1, later + 1, 2}, 4, 12, w);
        }
    }
    /* an element has no value, a declaration no prefix and no URI, a text neither of the three names */
    expect_field(NOEMATHU_ELEMENT, (const uint32_t[]){8, 0, 9, 1}, 2, 13, 8);
    expect_field(NOEMATHU_DECLARATION, (const uint32_t[]){2, 0, 3, 1}, 2, 13, 2);
    expect_field(NOEMATHU_DECLARATION, (const uint32_t[]){6, 0, 7, 1}, 2, 13, 6);
    expect_field(NOEMATHU_TEXT, (const uint32_t[]){4, 0, 5, 1}, 2, 13, 4);
    /* 3 and 12 of a later field come before 13 of an earlier one; of two 13s the earlier */
    expect_field(NOEMATHU_TEXT, (const uint32_t[]){2, 0, 3, 1, 8, 1, 9, 2}, 4, 3, 8);
    expect_field(NOEMATHU_TEXT, (const uint32_t[]){2, 0, 3, 1, 8, 1, 9, 0}, 4, 12, 8);
    expect_field(NOEMATHU_TEXT, (const uint32_t[]){4, 0, 5, 1, 6, 0, 7, 1}, 4, 13, 4);
    EXPECT(strcmp(noemathu_field(6), "namespace URI") == 0 && strcmp(noemathu_field(0), noemathu_field(5)) == 0);
}

/* ---- UTF-8 */

/* The bytes as each of an attribute's fields, behind up to nine letters, with the pool ending there and going on with bytes
   that would complete a sequence. A byte below 128 that is no letter is well-formed, but no name may hold it. */
static void expect_utf8(const uint8_t *bytes, size_t length, bool well_formed)
{
    static const uint32_t words[] = {2, 4, 6, 8};
    for (size_t i = 0; i < 4; i++)
        for (size_t letters = 0; letters < 10; letters++)
            for (size_t more = 0; more <= 3; more += 3) {
                uint8_t pool[40] = "aUabcdefghi";
                uint32_t w = words[i];
                uint32_t table[2 * WORDS] = {1, NOEMATHU_NONE, 0, 0, 0, 1, 1, 1, 0, 0, 0, 2, 0, 0, 0, 0, 1, 1, 1, 0, 0, 0};
                bool bad_name = w <= 4 && bytes[0] < 128;
                memcpy(pool + 2 + letters, bytes, length);
                memset(pool + 2 + letters + length, 0x80, more);
                table[WORDS + w] = 2;
                table[WORDS + 1 + w] = (uint32_t)(letters + length);
                expect_judged(table, pool, 2 + letters + length + more, well_formed ? bad_name ? 4 : 0 : 14, well_formed ? 0 : w);
            }
}

struct bytes {
    uint8_t length, bytes[4];
};

/* The first and the last sequence of each line of RFC 3629's table. */
static const struct bytes lines[] = {
    {1, {0x00}}, {1, {0x7f}}, {2, {0xc2, 0x80}}, {2, {0xdf, 0xbf}},
    {3, {0xe0, 0xa0, 0x80}}, {3, {0xe0, 0xbf, 0xbf}}, {3, {0xe1, 0x80, 0x80}}, {3, {0xec, 0xbf, 0xbf}},
    {3, {0xed, 0x80, 0x80}}, {3, {0xed, 0x9f, 0xbf}}, {3, {0xee, 0x80, 0x80}}, {3, {0xef, 0xbf, 0xbf}},
    {4, {0xf0, 0x90, 0x80, 0x80}}, {4, {0xf0, 0xbf, 0xbf, 0xbf}}, {4, {0xf1, 0x80, 0x80, 0x80}},
    {4, {0xf3, 0xbf, 0xbf, 0xbf}}, {4, {0xf4, 0x80, 0x80, 0x80}}, {4, {0xf4, 0x8f, 0xbf, 0xbf}}};

/* Just outside of a line: forms of two, three and four bytes that are too long, surrogates, above U+10FFFF. */
static const struct bytes outside[] = {
    {2, {0xc0, 0x80}}, {2, {0xc1, 0xbf}}, {3, {0xe0, 0x80, 0x80}}, {3, {0xe0, 0x9f, 0xbf}},
    {4, {0xf0, 0x80, 0x80, 0x80}}, {4, {0xf0, 0x8f, 0xbf, 0xbf}}, {3, {0xed, 0xa0, 0x80}}, {3, {0xed, 0xbf, 0xbf}},
    {4, {0xf4, 0x90, 0x80, 0x80}}, {4, {0xf4, 0xbf, 0xbf, 0xbf}}};

static void utf8(void)
{
    for (size_t i = 0; i < sizeof lines / sizeof *lines; i++) {
        uint8_t bytes[5] = {0};
        memcpy(bytes, lines[i].bytes, 4);
        expect_utf8(bytes, lines[i].length, true);
        /* cut short, at the end and before a letter; a letter or nothing that follows in the place of each byte but the first */
        for (size_t length = 1; length < lines[i].length; length++) {
            expect_utf8(bytes, length, false);
            bytes[length] = 'a';
            expect_utf8(bytes, lines[i].length, false);
            bytes[length] = 0xc2;
            expect_utf8(bytes, lines[i].length, false);
            bytes[length] = lines[i].bytes[length];
        }
        /* one that follows too many */
        bytes[lines[i].length] = 0x80;
        if (lines[i].length > 1)
            expect_utf8(bytes, lines[i].length + 1u, false);
    }
    for (size_t i = 0; i < sizeof outside / sizeof *outside; i++)
        expect_utf8(outside[i].bytes, outside[i].length, false);
    /* the bytes that start nothing, alone and before what could follow */
    for (unsigned first = 0x80; first < 256; first++)
        if (first < 0xc2 || first > 0xf4) {
            const uint8_t bytes[4] = {(uint8_t)first, 0x80, 0x80, 0x80};
            for (size_t length = 1; length <= 4; length += 3)
                expect_utf8(bytes, length, false);
        }
}

/* The form that the bits of a code point ask for, and its length. */
static uint32_t put_code_point(uint8_t *bytes, uint32_t c)
{
    uint32_t length = c < 0x80 ? 1 : c < 0x800 ? 2 : c < 0x10000 ? 3 : 4;
    for (uint32_t k = 0; k < length; k++)
        bytes[k] = (uint8_t)(0x80 | (c >> 6 * (length - 1 - k) & 0x3f));
    bytes[0] = (uint8_t)(length == 1 ? c : bytes[0] | 0xf0u << (4 - length));
    return length;
}

/* Every code point by itself, in the form that its number of bits asks for: a text of it is accepted exactly if it is no
   surrogate. */
static void every_code_point(void)
{
    for (uint32_t c = 0; c < 0x110000; c++) {
        uint8_t bytes[4], out[60];
        uint32_t length = put_code_point(bytes, c);
        const uint32_t table[WORDS] = {3, NOEMATHU_NONE, 0, 0, 0, 0, 0, 0, 0, length, c};
        bool surrogate = c >= 0xd800 && c < 0xe000;
        EXPECT(is_field_refusal(noemathu_write(table, WORDS, bytes, length, out, sizeof out).refusal, surrogate ? 14 : 0, 0,
                                surrogate ? 8 : 0));
    }
}

/* ---- XML text */

/* A table that is made row by row, and its bundle. */
static uint32_t made_table[10 * WORDS];
static uint8_t made_pool[1000], made[NOEMATHU_BUNDLE_BYTES(10, 1000)];
static size_t made_rows, made_held;

static noemathu_place put(const char *text)
{
    return noemathu_put_bytes(made_pool, sizeof made_pool, &made_held, text, strlen(text));
}

/* A row with a name as `prefix:local`, or less of it, and a maker of its own. */
static void set_row(size_t at, uint32_t type, uint32_t parent, const char *name, const char *uri, const char *value)
{
    const char *colon = strchr(name, ':');
    noemathu_row row = {type, parent, {0, 0}, {0, 0}, {0, 0}, {0, 0}, 100 + (uint32_t)at};
    row.local_name = put(colon ? colon + 1 : name);
    row.prefix = noemathu_put_bytes(made_pool, sizeof made_pool, &made_held, name, colon ? (size_t)(colon - name) : 0);
    row.uri = put(uri);
    row.value = put(value);
    noemathu_put_row(made_table, at, row);
    made_rows = at < made_rows ? made_rows : at + 1;
}

static size_t made_bundle(void)
{
    noemathu_used used = noemathu_write(made_table, WORDS * made_rows, made_pool, made_held, made, sizeof made);
    EXPECT(is_refusal(used.refusal, 0, 0));
    return used.bytes;
}

/* The text of the table from a row, with every size of the output around the exact one. */
static void expect_text(uint32_t row, const char *text)
{
    size_t length = made_bundle(), exact = strlen(text);
    for (size_t size = exact > 3 ? exact - 3 : 0; size < exact + 9; size++) {
        lend(&out_room, NULL, size, ENDS);
        noemathu_used used = noemathu_write_xml(made, length, row, out_room.lent, size);
        EXPECT(is_refusal(used.refusal, size < exact ? 22 : 0, 0) && used.bytes == (size < exact ? 0 : exact));
        EXPECT(holds(&out_room, text, used.bytes));
        take_back(&out_room);
    }
    EXPECT(noemathu_xml_room(made) >= exact);
}

/* The refusal that it draws, with no room, with little and with more than enough. */
static void expect_no_text(uint32_t start, uint32_t number, uint32_t row)
{
    size_t length = made_bundle();
    for (size_t size = 0; size < 400; size += 19) {
        lend(&out_room, NULL, size, ENDS);
        noemathu_used used = noemathu_write_xml(made, length, start, out_room.lent, size);
        EXPECT(is_refusal(used.refusal, number, row) && used.bytes == 0 && holds(&out_room, NULL, 0));
        take_back(&out_room);
    }
}

/* A table that draws every refusal, of which one after the other is mended. */
static void refusals_of_text(void)
{
    made_rows = made_held = 0;
    set_row(0, NOEMATHU_ELEMENT, NOEMATHU_NONE, "outer", "", "");
    set_row(1, NOEMATHU_DECLARATION, 0, "o", "", "O");
    set_row(2, NOEMATHU_ELEMENT, 0, "a", "", "");
    set_row(3, NOEMATHU_ATTRIBUTE, 2, "q:x", "Q", "v");
    set_row(4, NOEMATHU_TEXT, 2, "", "", "\1");
    set_row(5, NOEMATHU_COMMENT, 2, "", "", "c");
    set_row(6, NOEMATHU_LEVEL1_ATTRIBUTE, NOEMATHU_NONE, "old", "", "");
    expect_no_text(7, 8, 0);
    expect_no_text(NOEMATHU_NONE, 8, 0);
    expect_no_text(5, 9, 6);
    set_row(6, NOEMATHU_TEXT, NOEMATHU_NONE, "", "", "\2");
    for (uint32_t row = 0; row < 7; row++)
        expect_no_text(row, 20, row == 0 || row == 2 ? 5 : row);
    set_row(5, NOEMATHU_ELEMENT, 2, "b", "", "");
    expect_no_text(2, 21, 4);
    set_row(4, NOEMATHU_TEXT, 2, "", "", "t");
    expect_no_text(2, 23, 3);
    set_row(3, NOEMATHU_ATTRIBUTE, 2, "x", "Q", "v");
    expect_no_text(2, 23, 3);
    set_row(3, NOEMATHU_ATTRIBUTE, 2, "x", "", "v");
    expect_no_text(2, 24, 1);
    expect_no_text(5, 24, 1);
    expect_text(0, "<outer xmlns:o=\"O\"><a x=\"v\">t<b></b></a></outer>");

    /* `xml` is in scope anyhow, and draws 24 as any other; an empty value does not */
    set_row(1, NOEMATHU_DECLARATION, 0, "xml", "", NOEMATHU_XML_URI);
    expect_no_text(2, 24, 1);
    expect_text(0, "<outer xmlns:xml=\"" NOEMATHU_XML_URI "\"><a x=\"v\">t<b></b></a></outer>");
    set_row(1, NOEMATHU_DECLARATION, 0, "", "", "");
    expect_text(0, "<outer xmlns=\"\"><a x=\"v\">t<b></b></a></outer>");
    expect_text(2, "<a x=\"v\">t<b></b></a>");
    expect_text(5, "<b></b>");

    /* declared again at the element itself; from further in, that one is lost */
    set_row(1, NOEMATHU_DECLARATION, 0, "o", "", "O");
    set_row(6, NOEMATHU_DECLARATION, 2, "o", "", "P");
    expect_text(2, "<a x=\"v\" xmlns:o=\"P\">t<b></b></a>");
    expect_no_text(5, 24, 6);
}

/* From a document its element is written, and what stands beside that does not count. */
static void text_of_document(void)
{
    made_rows = made_held = 0;
    set_row(0, NOEMATHU_DOCUMENT, NOEMATHU_NONE, "", "", "\1");
    expect_no_text(0, 20, 0);
    set_row(1, NOEMATHU_COMMENT, 0, "", "", "\2");
    expect_no_text(0, 20, 0);
    set_row(2, NOEMATHU_ELEMENT, 0, "a", "", "");
    set_row(3, NOEMATHU_INSTRUCTION, 0, "", "", "");
    expect_text(0, "<a></a>");
    expect_text(2, "<a></a>");
    expect_no_text(1, 20, 1);
    /* what an element owns and holds, in row order, with rows of others between */
    set_row(4, NOEMATHU_TEXT, 2, "", "", "one");
    set_row(5, NOEMATHU_ELEMENT, 2, "p:b", "U", "");
    set_row(6, NOEMATHU_ATTRIBUTE, 2, "c", "", "d");
    set_row(7, NOEMATHU_DECLARATION, 5, "p", "", "U");
    set_row(8, NOEMATHU_TEXT, 2, "", "", "two");
    set_row(9, NOEMATHU_ATTRIBUTE, 5, "xml:id", NOEMATHU_XML_URI, "i");
    expect_text(0, "<a c=\"d\">one<p:b xmlns:p=\"U\" xml:id=\"i\"></p:b>two</a>");
    expect_text(5, "<p:b xmlns:p=\"U\" xml:id=\"i\"></p:b>");
}

/* What a character is written as; NULL for itself. */
static const char *escape(uint32_t c, bool in_tag)
{
    switch (c) {
    case '&': return "&amp;";
    case '<': return "&lt;";
    case '>': return "&gt;";
    case '"': return "&quot;";
    case '\r': return "&#13;";
    case '\t': return in_tag ? "&#9;" : NULL;
    case '\n': return in_tag ? "&#10;" : NULL;
    default: return NULL;
    }
}

/* Every character as the value of an attribute, a declaration and a text, between two letters. */
static void every_character(void)
{
    for (uint32_t c = 0; c < 0x110000; c++) {
        uint8_t bytes[4], out[100];
        char text[100];
        uint32_t length = put_code_point(bytes, c), value[2] = {3, length + 2};
        if (c >= 0xd800 && c < 0xe000)
            continue;
        if (c == 0 || c == 0x80 || c == 0x800 || c == 0x10000) {
            const uint32_t table[4 * WORDS] = {1, NOEMATHU_NONE, 0, 0, 0, 1, 0, 0, 0, 0, c,
                                               2, 0, 0, 0, 1, 1, 0, 0, value[0], value[1], c,
                                               13, 0, 0, 0, 2, 1, 0, 0, value[0], value[1], c,
                                               3, 0, 0, 0, 0, 0, 0, 0, value[0], value[1], c};
            EXPECT(noemathu_write(table, 4 * WORDS, (const uint8_t *)"abpx....x", length + 5, made, sizeof made).refusal.number == 0);
        }
        memcpy(made + NOEMATHU_BUNDLE_BYTES(4, 4), bytes, length);
        made[NOEMATHU_BUNDLE_BYTES(4, 4) + length] = 'x';
        noemathu_used used = noemathu_write_xml(made, NOEMATHU_BUNDLE_BYTES(4, length + 5), 0, out, sizeof out);
        if ((c < 32 && c != '\t' && c != '\n' && c != '\r') || c == 0xfffe || c == 0xffff) {
            EXPECT(is_refusal(used.refusal, 21, 1) && used.bytes == 0 && is_zero(out, sizeof out));
            continue;
        }
        char itself[5] = {0};
        memcpy(itself, bytes, length);
        const char *in_tag = escape(c, true) ? escape(c, true) : itself, *in_text = escape(c, false) ? escape(c, false) : itself;
        int exact = snprintf(text, sizeof text, "<a b=\"x%sx\" xmlns:p=\"x%sx\">x%sx</a>", in_tag, in_tag, in_text);
        EXPECT(is_refusal(used.refusal, 0, 0) && used.bytes == (size_t)exact && memcmp(out, text, used.bytes) == 0);
        EXPECT(noemathu_xml_room(made) == used.bytes);
    }
}

/* ---- the largest */

/* A bundle of this version, which large ones are made of, and what it is as it is written. */
static uint32_t large_version = 2;
static uint8_t large[NOEMATHU_BUNDLE_BYTES(1200, 40000)], large_out[NOEMATHU_BUNDLE_MOST + 100];
static uint8_t large_written[NOEMATHU_BUNDLE_BYTES(1200, 40000)];
static uint32_t large_table[1200 * WORDS];

/* Where a word of a row of it stands, and a byte of its pool. */
static uint8_t *large_word(size_t row, size_t word)
{
    return large + 12 + (large_version == 1 ? 40 : 44) * row + 4 * word;
}

static uint8_t *large_pool(size_t at)
{
    return large_word(noemathu_row_count(large), 0) + at;
}

static void set_word(size_t row, size_t word, uint32_t value)
{
    set_number(large_word(row, word), 4, value);
}

/* An element `a` without a URI, and rows of a type below it, each in the one before or all in the first; and a pool of so
   many `a`. Where rows have makers, each has one of its own. */
static size_t make_large(size_t rows, size_t bytes, uint32_t type, bool nested)
{
    static uint8_t pool[40000];
    memset(large_table, 0, sizeof large_table);
    for (size_t i = 0; i < rows; i++) {
        large_table[WORDS * i] = i == 0 ? NOEMATHU_ELEMENT : type;
        large_table[WORDS * i + 1] = i == 0 ? NOEMATHU_NONE : nested ? (uint32_t)i - 1 : 0;
        large_table[WORDS * i + 5] = large_table[WORDS * i] == NOEMATHU_ELEMENT;
        large_table[WORDS * i + 10] = large_version == 1 ? 0 : (uint32_t)(i * UINT32_C(2654435761));
    }
    memset(pool, 'a', bytes);
    return put_bundle(large, large_version, large_table, rows, pool, bytes);
}

/* The large bundle with its rows as they are now, as it is written; answers the length. */
static size_t write_large(void)
{
    size_t rows = noemathu_row_count(large);
    for (size_t i = 0; i < rows; i++)
        for (size_t word = 0; word < WORDS; word++)
            large_table[WORDS * i + word] = word == 10 && large_version == 1 ? 0 : noemathu_number(large_word(i, word), 4);
    return put_bundle(large_written, 2, large_table, rows, large_pool(0), noemathu_pool_length(large));
}

static void largest(void)
{
    size_t length = make_large(1024, 32768, NOEMATHU_TEXT, false), exact = write_large();
    EXPECT(exact == NOEMATHU_BUNDLE_MOST && exact == 77836 && length == (large_version == 1 ? 73740 : 77836));
    lend(&bundle_room, large, length, ENDS);
    EXPECT(is_refusal(noemathu_check(bundle_room.lent, length), 0, 0));
    EXPECT(is_nothing(noemathu_uri_of_prefix(bundle_room.lent, length, 1023, NULL, 0), 0, 0));
    lend(&out_room, NULL, exact, ENDS);
    noemathu_used used = noemathu_normalize(bundle_room.lent, length, out_room.lent, exact);
    EXPECT(is_refusal(used.refusal, 0, 0) && used.bytes == exact && holds(&out_room, large_written, exact));
    used = noemathu_normalize(bundle_room.lent, length, out_room.lent, exact - 1);
    EXPECT(is_refusal(used.refusal, 33, 0) && used.bytes == 0 && is_zero(out_room.lent, exact - 1));
    take_back(&out_room);
    take_back(&bundle_room);

    lend(&table_room, large_table, 4 * NOEMATHU_MOST_WORDS, ENDS);
    lend(&pool_room, large_pool(0), 32768, ENDS);
    lend(&out_room, NULL, exact, ENDS);
    used = noemathu_write((uint32_t *)table_room.lent, 11264, pool_room.lent, 32768, out_room.lent, exact);
    EXPECT(is_refusal(used.refusal, 0, 0) && used.bytes == exact && holds(&out_room, large_written, exact));
    take_back(&table_room);
    take_back(&pool_room);
    take_back(&out_room);

    refused_everywhere(large, make_large(1025, 0, NOEMATHU_TEXT, false), 1, 0);
    refused_everywhere(large, make_large(1, 32769, NOEMATHU_TEXT, false), 1, 0);
    EXPECT(is_refusal(noemathu_write(large_table, 11275, NULL, 0, large_out, sizeof large_out).refusal, 1, 0));
    EXPECT(is_refusal(noemathu_write(large_table, WORDS, large, 32769, large_out, sizeof large_out).refusal, 1, 0));
}

/* The longest text: a pool of `a` and quotes, which is every value and URI, and as many attributes and declarations as can be
   of that name. With more letters there could be more of those, but each takes five bytes from each of 1,023 values; a second
   element takes a whole value. */
static void longest_text(void)
{
    static const char *const tags[] = {" xmlns:a=\"", "\" xmlns=\"", "\" a=\"", "\" a:a=\""};
    size_t length = make_large(1024, 32768, NOEMATHU_TEXT, false), exact = NOEMATHU_XML_MOST;
    memset(large_pool(1), '"', 32767);
    for (size_t i = 0; i < 1024; i++) {
        if (i == 1 || i == 2)
            set_word(i, 0, NOEMATHU_DECLARATION);
        if (i == 3 || i == 4)
            set_word(i, 0, NOEMATHU_ATTRIBUTE);
        set_word(i, 3, i == 0 || i == 4);
        set_word(i, 5, i == 0 || i == 1 || i == 3 || i == 4);
        set_word(i, 7, i == 0 || i == 4 ? 32768 : 0);
        set_word(i, 9, i > 0 ? 32768 : 0);
    }
    EXPECT(is_refusal(noemathu_check(large, length), 0, 0));
    EXPECT(noemathu_xml_room(large) == exact);

    size_t pages = (exact + PAGE - 1) / PAGE * PAGE;
    uint8_t *all = mmap(NULL, pages + 2 * PAGE, PROT_NONE, MAP_PRIVATE | MAP_ANONYMOUS, -1, 0);
    EXPECT(all != MAP_FAILED && mprotect(all + PAGE, pages, PROT_READ | PROT_WRITE) == 0);
    uint8_t *out = all + PAGE + pages - exact;
    noemathu_used used = noemathu_write_xml(large, length, 0, out, exact);
    EXPECT(is_refusal(used.refusal, 0, 0) && used.bytes == exact);
    const uint8_t *at = out;
    bool same = memcmp(at, "<a:a", 4) == 0;
    at += 4;
    for (size_t i = 1; i < 1024 && same; i++) {
        size_t tag = i <= 4 ? strlen(tags[i - 1]) : i == 5 ? 2 : 0;
        same = memcmp(at, i <= 4 ? tags[i - 1] : "\">", tag) == 0 && at[tag] == 'a';
        at += tag + 1;
        for (size_t k = 0; k < 32767 && same; k++, at += 6)
            same = memcmp(at, "&quot;", 6) == 0;
    }
    EXPECT(same && memcmp(at, "</a:a>", 6) == 0 && at + 6 == out + exact);
    used = noemathu_write_xml(large, length, 0, out + 1, exact - 1);
    EXPECT(is_refusal(used.refusal, 22, 0) && used.bytes == 0 && out[0] == '<' && is_zero(out + 1, exact - 1));
    munmap(all, pages + 2 * PAGE);
}

/* Texts and attributes that share their bytes, wherever they start and end: what noemathu_xml_room says is enough is what they
   take. */
static void shared_values(void)
{
    static const char bytes[] = "a&b<c>d\"e\rf\ng\th....";
    size_t length = make_large(1024, 32768, NOEMATHU_TEXT, false);
    for (size_t k = 1; k < 32768; k++)
        *large_pool(k) = (uint8_t)bytes[k * k / 7 % (sizeof bytes - 1)];
    for (size_t i = 1; i < 1024; i++) {
        set_word(i, 8, (uint32_t)(i * i * 31 % 30000));
        set_word(i, 9, (uint32_t)(1 + i * 29 % (i % 3 ? 150 : 2700)));
    }
    set_word(7, 0, NOEMATHU_ATTRIBUTE);
    set_word(7, 5, 1);
    EXPECT(is_refusal(noemathu_check(large, length), 0, 0));
    size_t exact = noemathu_xml_room(large);
    uint8_t *out = malloc(exact);
    EXPECT(out != NULL);
    EXPECT(noemathu_write_xml(large, length, 0, out, exact).bytes == exact);
    EXPECT(is_refusal(noemathu_write_xml(large, length, 0, out, exact - 1).refusal, 22, 0));
    free(out);
}

/* Elements in each other, as deep as can be. */
static void deepest_text(void)
{
    size_t length = make_large(1024, 1, NOEMATHU_ELEMENT, true), exact = 7 * 1024;
    for (uint32_t row = 0; row < 1024; row += 341) {
        size_t elements = 1024 - row;
        lend(&out_room, NULL, exact, ENDS);
        noemathu_used used = noemathu_write_xml(large, length, row, out_room.lent, exact);
        EXPECT(is_refusal(used.refusal, 0, 0) && used.bytes == 7 * elements);
        for (size_t i = 0; i < elements; i++)
            EXPECT(memcmp(out_room.lent + 3 * i, "<a>", 3) == 0 && memcmp(out_room.lent + 3 * elements + 4 * i, "</a>", 4) == 0);
        EXPECT(is_zero(out_room.lent + 7 * elements, exact - 7 * elements));
        take_back(&out_room);
    }
    EXPECT(noemathu_xml_room(large) == exact);
}

/* A result beyond the limits draws 10 or 11 however much room there is, and 33 does not come before. */
static void result_refused(noemathu_used (*call)(const uint8_t *, size_t, uint8_t *, size_t), size_t length, uint32_t number)
{
    EXPECT(is_refusal(noemathu_check(large, length), 0, 0));
    for (size_t size = 0; size <= sizeof large_out; size += sizeof large_out / 4) {
        memset(large_out, PATTERN, sizeof large_out);
        noemathu_used used = call(large, length, large_out, size);
        EXPECT(is_refusal(used.refusal, number, 0) && used.bytes == 0 && is_zero(large_out, size));
        EXPECT(is_pattern(large_out + size, large_out + sizeof large_out));
    }
}

static void beyond_the_limits(void)
{
    /* The first element has a URI that nothing declares: a row more. */
    size_t length = make_large(1024, 32768, NOEMATHU_TEXT, false);
    set_word(0, 7, 1);
    EXPECT(noemathu_room(large) == NOEMATHU_BUNDLE_MOST);
    result_refused(noemathu_normalize, length, 10);
    /* An attribute with a URI and no prefix: a row and three bytes more. */
    length = make_large(2, 32768, NOEMATHU_ATTRIBUTE, false);
    set_word(1, 5, 1);
    set_word(1, 7, 1);
    result_refused(noemathu_normalize, length, 11);
}

/* ---- packing */

static uint8_t slowly[NOEMATHU_BUNDLE_BYTES(1024, 5 * 32768)];
static size_t starts[4096], ends[4096];

/* Packs the large bundle field by field, each held against all entries before it. Answers how many bytes that takes, as long as
   the pool has not many more than it may. */
static size_t pack_slowly(void)
{
    size_t rows = noemathu_row_count(large), held = 0, entries = 0;
    uint8_t *pool = slowly + NOEMATHU_BUNDLE_BYTES(rows, 0);
    write_large();
    memcpy(slowly, large_written, NOEMATHU_BUNDLE_BYTES(rows, 0));
    for (size_t i = 0; i < rows; i++)
        for (size_t word = 2; word < 10; word += 2) {
            noemathu_place place = {noemathu_word(large, i, word), noemathu_word(large, i, word + 1)};
            const uint8_t *bytes = noemathu_bytes(large, place);
            size_t entry = 0;
            if (place.length == 0)
                continue;
            while (entry < entries && (ends[entry] - starts[entry] != place.length ||
                                       memcmp(pool + starts[entry], bytes, place.length) != 0))
                entry++;
            if (entry == entries) {
                starts[entries] = held;
                memcpy(pool + held, bytes, place.length);
                ends[entries++] = held += place.length;
            }
            set_number(slowly + NOEMATHU_BUNDLE_BYTES(i, 4 * word), 4, starts[entry]);
            if (held > NOEMATHU_MOST_POOL)
                return NOEMATHU_BUNDLE_BYTES(rows, held);
        }
    set_number(slowly + 8, 4, held);
    return NOEMATHU_BUNDLE_BYTES(rows, held);
}

/* The large bundle is packed as it is slowly, into just as much room, a byte more and a byte less; packed again it stays as it
   is. */
static void expect_packed(size_t length)
{
    size_t exact = pack_slowly();
    for (size_t size = exact - 1; size <= exact + 1; size++) {
        lend(&bundle_room, large, length, ENDS);
        lend(&out_room, NULL, size, ENDS);
        noemathu_used used = noemathu_pack(bundle_room.lent, length, out_room.lent, size);
        EXPECT(is_refusal(used.refusal, size < exact ? 33 : 0, 0) && used.bytes == (size < exact ? 0 : exact));
        EXPECT(holds(&out_room, slowly, used.bytes));
        take_back(&bundle_room);
        take_back(&out_room);
    }
    EXPECT(is_refusal(noemathu_check(slowly, exact), 0, 0));
    noemathu_used used = noemathu_pack(slowly, exact, large_out, exact);
    EXPECT(is_refusal(used.refusal, 0, 0) && used.bytes == exact && memcmp(large_out, slowly, exact) == 0);
}

/* Attributes without owners, whose four fields stand at places of a pool of some letters. */
static size_t make_fields(size_t rows, size_t bytes, size_t letters, noemathu_place (*place)(size_t))
{
    size_t length = make_large(rows, bytes, NOEMATHU_ATTRIBUTE, false), number = 1;
    for (size_t k = 0; k < bytes; k++) {
        number = (number * 1103515245 + 12345) % 2147483648;
        *large_pool(k) = (uint8_t)('a' + number / 65536 % letters);
    }
    for (size_t i = 0; i < 4 * rows; i++) {
        set_word(i / 4, 0, NOEMATHU_ATTRIBUTE);
        set_word(i / 4, 1, NOEMATHU_NONE);
        set_word(i / 4, 2 + 2 * (i % 4), place(i).offset);
        set_word(i / 4, 3 + 2 * (i % 4), place(i).length);
    }
    return length;
}

static noemathu_place eights(size_t i) { return (noemathu_place){(uint32_t)(8 * i), 8}; }
static noemathu_place backwards(size_t i) { return (noemathu_place){(uint32_t)(32768 - 8 * (i + 1)), 8}; }
static noemathu_place shorts(size_t i) { return (noemathu_place){(uint32_t)(i * i % 4000), (uint32_t)(1 + i % 3)}; }
static noemathu_place overlaps(size_t i) { return (noemathu_place){(uint32_t)i, 40}; }
static noemathu_place at_two(size_t i) { return (noemathu_place){(uint32_t)(1024 * (i % 2)), 3072}; }
static noemathu_place halves(size_t i) { return (noemathu_place){(uint32_t)(i % 2), 16384}; }
static noemathu_place halves_and_more(size_t i) { return (noemathu_place){(uint32_t)(i % 2), i == 5 ? 1 : 16384}; }

/* Fields of every kind of sharing, in large tables and in small ones. */
static void packing(void)
{
    expect_packed(make_large(0, 0, NOEMATHU_TEXT, false));
    expect_packed(make_large(0, 32768, NOEMATHU_TEXT, false)); /* dead bytes alone */
    expect_packed(make_large(1024, 32768, NOEMATHU_TEXT, false));
    EXPECT(noemathu_pool_length(slowly) == 1);
    for (size_t rows = 1; rows <= 1024; rows += rows < 66 ? 1 : 479) {
        expect_packed(make_fields(rows, 32768, 26, eights));
        expect_packed(make_fields(rows, 32768, 26, backwards));
        expect_packed(make_fields(rows, 4096, 3, shorts));
        expect_packed(make_fields(rows < 200 ? rows : 200, 4096, 26, overlaps)); /* longer than it was */
        expect_packed(make_fields(rows, 4096, 1, at_two));
    }
    /* as long as may be, and by one byte too long: 11 with any room */
    expect_packed(make_fields(1024, 32768, 26, eights));
    EXPECT(noemathu_pool_length(slowly) == 32768);
    expect_packed(make_fields(3, 16385, 26, halves));
    EXPECT(noemathu_pool_length(slowly) == 32768);
    result_refused(noemathu_pack, make_fields(3, 16385, 26, halves_and_more), 11);
    result_refused(noemathu_pack, make_fields(1024, 4136, 26, overlaps), 11);
    result_refused(noemathu_pack, make_fields(205, 860, 26, overlaps), 11);

    /* rows of DOM Level 1, an empty field between others, one field a part of another */
    made_rows = made_held = 0;
    set_row(0, NOEMATHU_LEVEL1_ELEMENT, NOEMATHU_NONE, "", "", "");
    made_table[4] = put("ab:cd").offset;
    made_table[5] = 5;
    set_row(1, NOEMATHU_LEVEL1_ATTRIBUTE, 0, "cd", "", "d");
    set_row(2, NOEMATHU_ELEMENT, 0, "cd", "d", "");
    set_row(3, NOEMATHU_TEXT, 2, "", "", "ab:cd");
    size_t length = made_bundle();
    uint8_t out[sizeof made];
    noemathu_used used = noemathu_pack(made, length, out, sizeof out);
    EXPECT(is_refusal(used.refusal, 0, 0) && used.bytes == NOEMATHU_BUNDLE_BYTES(4, 8));
    EXPECT(memcmp(noemathu_pool(out), "ab:cdcdd", 8) == 0 && is_zero(out + used.bytes, sizeof out - used.bytes));
    static const uint32_t places[4][4] = {{0, 0, 0, 0}, {0, 5, 0, 7}, {0, 5, 7, 0}, {0, 0, 0, 0}};
    for (size_t i = 0; i < 4; i++)
        for (size_t word = 0; word < WORDS; word++)
            EXPECT(noemathu_word(out, i, word) ==
                   (word % 2 || word == 0 || word == 10 ? noemathu_word(made, i, word) : places[i][word / 2 - 1]));
}

/* ---- salvage */

/* The bundle of the made table, whatever the check says of it. */
static size_t unchecked_bundle(uint8_t *bytes)
{
    return put_bundle(bytes, 2, made_table, made_rows, made_pool, made_held);
}

/* The made table, without the listed rows and with these parents, is what salvage gives, for every size of both outputs around
   the exact one and at every alignment; and it passes the check. Of version 1 its makers are 0. */
static void expect_salvaged(const uint32_t *list, size_t dropped, const uint32_t *parents)
{
    static uint8_t bytes[NOEMATHU_BUNDLE_BYTES(10, 1000)], result[NOEMATHU_BUNDLE_BYTES(10, 1000)];
    for (size_t i = 0; i < made_rows && large_version == 1; i++)
        made_table[WORDS * i + 10] = 0;
    size_t length = put_bundle(bytes, large_version, made_table, made_rows, made_pool, made_held), kept = 0;
    for (size_t i = 0, k = 0; i < made_rows; i++) {
        if (k < dropped && list[2 * k] == i) {
            k++;
            continue;
        }
        memmove(made_table + WORDS * kept, made_table + WORDS * i, 4 * WORDS);
        made_table[WORDS * kept + 1] = parents[kept];
        kept++;
    }
    made_rows = kept;
    size_t exact = unchecked_bundle(result);
    EXPECT(is_refusal(noemathu_check(result, exact), 0, 0));
    for (size_t i = 0; i < 16; i++)
        for (size_t words = 0; words < 2 * dropped + 5; words++)
            for (size_t size = exact - 3; size < exact + 9; size++)
                salvage_at(bytes, length, (struct where){i >= 8, i % 8}, size, words, result, exact, list, dropped);
    for (size_t size = 0; size < exact; size += 7)
        salvage_at(bytes, length, ENDS, size, 2 * dropped, result, exact, list, dropped);
}

/* An element with the same prefix four times: 6 drops the first and the last, so that 7 counts against the second; below it an
   element with an attribute twice. */
static void make_old(void)
{
    made_rows = made_held = 0;
    set_row(0, NOEMATHU_ELEMENT, NOEMATHU_NONE, "a", "", "");
    set_row(1, NOEMATHU_DECLARATION, 0, "p", "", "");
    set_row(2, NOEMATHU_DECLARATION, 0, "p", "", "U");
    set_row(3, NOEMATHU_DECLARATION, 0, "p", "", "V");
    set_row(4, NOEMATHU_DECLARATION, 0, "p", "", "");
    set_row(5, NOEMATHU_ELEMENT, 0, "p:b", "V", "");
    set_row(6, NOEMATHU_ATTRIBUTE, 5, "q:c", "W", "1");
    set_row(7, NOEMATHU_ATTRIBUTE, 5, "c", "W", "2");
    set_row(8, NOEMATHU_TEXT, 5, "", "", "t");
}

/* Rows that draw 6 or 7, and faults among them. */
static void salvage(void)
{
    static uint8_t bytes[sizeof made], out[sizeof made];
    uint32_t list[20];
    make_old();
    expect_salvaged((const uint32_t[]){1, 6, 3, 7, 4, 6, 7, 7}, 4, (const uint32_t[]){NOEMATHU_NONE, 0, 0, 2, 2});

    /* a fault in each row, behind rows that are dropped or not: it refuses, and nothing is listed */
    for (size_t row = 0; row < 9; row++) {
        make_old();
        made_table[WORDS * row + 9] = 1000;
        size_t length = unchecked_bundle(bytes);
        memset(out, PATTERN, sizeof out);
        memset(list, PATTERN, sizeof list);
        noemathu_salvaged salvaged = noemathu_salvage(bytes, length, out, sizeof out, list, 20);
        EXPECT(is_field_refusal(salvaged.refusal, 3, (uint32_t)row, 8) && salvaged.bytes == 0 && salvaged.dropped == 0);
        EXPECT(is_zero(out, sizeof out) && is_zero((uint8_t *)list, sizeof list));
    }

    /* what no element owns is no double; a declaration without an owner is 2 */
    made_rows = made_held = 0;
    set_row(0, NOEMATHU_ATTRIBUTE, NOEMATHU_NONE, "a", "", "");
    set_row(1, NOEMATHU_ATTRIBUTE, NOEMATHU_NONE, "a", "", "");
    expect_salvaged(NULL, 0, (const uint32_t[]){NOEMATHU_NONE, NOEMATHU_NONE});
    made_table[WORDS] = NOEMATHU_DECLARATION;
    EXPECT(is_refusal(noemathu_salvage(bytes, unchecked_bundle(bytes), out, sizeof out, list, 20).refusal, 2, 1));

    /* Level 1: a second attribute of the same name is dropped, one of type 2 is not */
    made_rows = made_held = 0;
    set_row(0, NOEMATHU_LEVEL1_ELEMENT, NOEMATHU_NONE, "a", "", "");
    set_row(1, NOEMATHU_LEVEL1_ATTRIBUTE, 0, "a", "", "");
    set_row(2, NOEMATHU_ATTRIBUTE, 0, "a", "", "");
    set_row(3, NOEMATHU_LEVEL1_ATTRIBUTE, 0, "a", "", "v");
    set_row(4, NOEMATHU_LEVEL1_ELEMENT, 0, "a", "", "");
    expect_salvaged((const uint32_t[]){3, 7}, 1, (const uint32_t[]){NOEMATHU_NONE, 0, 0, 0});

    /* 1,023 rows that are dropped, and 1,022: the longest lists */
    for (uint32_t value = 0; value < 2; value++) {
        size_t length = make_large(1024, 32768, NOEMATHU_DECLARATION, false), kept = 1 + value;
        static uint32_t most[NOEMATHU_LIST_MOST + 3];
        for (uint32_t i = 1; i < 1024; i++) {
            set_word(i, 5, 1);
            set_word(i, 9, value);
            most[2 * (i - 1)] = i + value;
            most[2 * (i - 1) + 1] = 6 + value;
        }
        size_t exact = NOEMATHU_BUNDLE_BYTES(kept, 32768), dropped = 1024 - kept;
        write_large();
        put_bundle(slowly, 2, large_table, kept, noemathu_pool(large), 32768);
        for (size_t words = 2 * dropped - 1; words < 2 * dropped + 3; words++)
            for (size_t size = exact - 1; size < exact + 2; size++)
                salvage_at(large, length, ENDS, size, words, slowly, exact, most, dropped);
        EXPECT(2 * dropped <= NOEMATHU_LIST_MOST);
    }
    /* the largest that passes comes back */
    size_t length = make_large(1024, 32768, NOEMATHU_TEXT, false), exact = write_large();
    salvage_at(large, length, ENDS, exact, 0, large_written, exact, NULL, 0);
    salvage_at(large, length, ENDS, exact - 1, 0, large_written, exact, NULL, 0);
    EXPECT(is_refusal(noemathu_salvage(large, length, large_out, length, NULL, 0).refusal, large_version == 1 ? 33 : 0, 0));
}

/* ---- the helpers of the header */

/* A lookup of a URI found it so. */
static bool is_uri(const uint8_t *bundle, noemathu_found found, uint32_t kind, const char *uri)
{
    size_t length = 1;
    const uint8_t *bytes = noemathu_uri(bundle, found, &length);
    bool placed = kind == NOEMATHU_PLACE || (found.place.offset == 0 && found.place.length == 0);
    return is_refusal(found.refusal, 0, 0) && found.found == kind && placed && length == strlen(uri) &&
           (uri[0] ? memcmp(bytes, uri, length) == 0 : bytes == NULL);
}

/* The built-ins at an element that declares xml, and at a fragment, which has no start element. */
static void built_ins(void)
{
    uint32_t table[3 * WORDS];
    uint8_t pool[64], bundle[NOEMATHU_BUNDLE_BYTES(3, 64)];
    size_t held = 0;
    noemathu_row row = {.type = NOEMATHU_ELEMENT, .parent = NOEMATHU_NONE};
    row.local_name = noemathu_put_bytes(pool, sizeof pool, &held, "a", 1);
    noemathu_put_row(table, 0, row);
    row = (noemathu_row){.type = NOEMATHU_DECLARATION, .parent = 0};
    row.local_name = noemathu_put_bytes(pool, sizeof pool, &held, "xml", 3);
    row.value = noemathu_put_bytes(pool, sizeof pool, &held, NOEMATHU_XML_URI, strlen(NOEMATHU_XML_URI));
    noemathu_put_row(table, 1, row);
    noemathu_put_row(table, 2, (noemathu_row){.type = NOEMATHU_FRAGMENT, .parent = NOEMATHU_NONE});
    noemathu_used used = noemathu_write(table, 3 * WORDS, pool, held, bundle, sizeof bundle);
    EXPECT(is_refusal(used.refusal, 0, 0));

    const uint8_t *xml = (const uint8_t *)"xml", *xmlns = (const uint8_t *)"xmlns", *u = (const uint8_t *)"U";
    const uint8_t *xml_uri = (const uint8_t *)NOEMATHU_XML_URI, *xmlns_uri = (const uint8_t *)NOEMATHU_XMLNS_URI;
    for (uint32_t asked = 0; asked < 2; asked++) {
        EXPECT(is_uri(bundle, noemathu_uri_of_prefix(bundle, used.bytes, asked, xml, 3), NOEMATHU_BUILT_IN_XML, NOEMATHU_XML_URI));
        EXPECT(is_uri(bundle, noemathu_uri_of_prefix(bundle, used.bytes, asked, xmlns, 5), NOEMATHU_BUILT_IN_XMLNS, NOEMATHU_XMLNS_URI));
        EXPECT(is_uri(bundle, noemathu_uri_of_prefix(bundle, used.bytes, asked, xmlns, 4), NOEMATHU_NOTHING, ""));
        EXPECT(is_uri(bundle, noemathu_prefix_of_uri(bundle, used.bytes, asked, xml_uri, 36), NOEMATHU_PLACE, "xml"));
        EXPECT(is_nothing(noemathu_prefix_of_uri(bundle, used.bytes, asked, xmlns_uri, 29), 0, 0));
        EXPECT(default_is(bundle, used.bytes, asked, NULL, 0));
        EXPECT(!default_is(bundle, used.bytes, asked, xml_uri, 36));
    }
    EXPECT(is_uri(bundle, noemathu_uri_of_prefix(bundle, used.bytes, 2, xml, 3), NOEMATHU_NOTHING, ""));
    EXPECT(is_uri(bundle, noemathu_uri_of_prefix(bundle, used.bytes, 2, xmlns, 5), NOEMATHU_NOTHING, ""));
    EXPECT(is_nothing(noemathu_prefix_of_uri(bundle, used.bytes, 2, xml_uri, 36), 0, 0));
    EXPECT(default_is(bundle, used.bytes, 2, NULL, 0));
    EXPECT(!default_is(bundle, used.bytes, 2, u, 1));
    EXPECT(is_nothing(noemathu_default_uri(bundle, used.bytes, 3), 8, 0) && !default_is(bundle, used.bytes, 3, NULL, 0));
}

static void helpers(void)
{
    const uint32_t numbers[] = {0, 1, 2, 3, 4, 5, 6, 7, 8, 9, 10, 11, 12, 13, 14, 20, 21, 22, 23, 24, 30, 31, 32, 33, 15};
    for (size_t i = 0; i < sizeof numbers / sizeof *numbers; i++)
        for (size_t k = 0; k < i; k++)
            EXPECT(strcmp(noemathu_text(numbers[i]), noemathu_text(numbers[k])) != 0);
    for (size_t s = 0; s < SAMPLES; s++) {
        const uint8_t *bundle = samples[s].bundle;
        size_t rows = noemathu_row_count(bundle), bytes = noemathu_pool_length(bundle);
        EXPECT(noemathu_version(bundle) == bundle[3] && noemathu_version(samples[s].result) == NOEMATHU_BUNDLE_VERSION);
        EXPECT(noemathu_row_bytes(bundle) == (bundle[3] == 1 ? 40 : 44));
        EXPECT(NOEMATHU_BUNDLE_HEADER + noemathu_row_bytes(bundle) * rows + bytes == samples[s].length);
        EXPECT(NOEMATHU_BUNDLE_BYTES(rows, bytes) == samples[s].written_length);
        EXPECT(noemathu_pool(bundle) == bundle + samples[s].length - bytes);
        EXPECT(noemathu_room(bundle) == NOEMATHU_BUNDLE_BYTES(2 * rows, bytes + 6 * rows));
        EXPECT(noemathu_room(bundle) >= samples[s].result_length && noemathu_room(bundle) == noemathu_room(samples[s].written));
        for (size_t i = 0; i < rows; i++)
            EXPECT(noemathu_row_of(bundle, i).maker == (bundle[3] == 1 ? 0 : noemathu_number(bundle + 12 + 44 * i + 40, 4)));
        EXPECT(samples[s].no_text.number || noemathu_xml_room(samples[s].bundle) == strlen(samples[s].text));
    }
    EXPECT(noemathu_escaped_length((const uint8_t *)"&<>\"\r\t\n'a", 9, false) == 5 + 4 + 4 + 6 + 5 + 1 + 1 + 1 + 1);
    EXPECT(noemathu_escaped_length((const uint8_t *)"&<>\"\r\t\n'a", 9, true) == 5 + 4 + 4 + 6 + 5 + 4 + 5 + 1 + 1);
    EXPECT(noemathu_escaped_length(NULL, 0, true) == 0);
    EXPECT(strlen(NOEMATHU_XML_URI) == 36 && strlen(NOEMATHU_XMLNS_URI) == 29);

    uint8_t pool[8];
    size_t held = 0;
    memset(pool, PATTERN, sizeof pool);
    noemathu_place place = noemathu_put_bytes(pool, 6, &held, "abcd", 4);
    EXPECT(place.offset == 0 && place.length == 4 && held == 4);
    place = noemathu_put_bytes(pool, 6, &held, NULL, 0);
    EXPECT(place.offset == 0 && place.length == 0 && held == 4);
    place = noemathu_put_bytes(pool, 6, &held, "efg", 3);
    EXPECT(held == 4 && (size_t)place.offset + place.length > 6);
    place = noemathu_put_bytes(pool, 6, &held, "ef", 2);
    EXPECT(place.offset == 4 && place.length == 2 && held == 6 && memcmp(pool, "abcdef", 6) == 0);
    place = noemathu_put_bytes(pool, 6, &held, "g", 1);
    EXPECT(held == 6 && (size_t)place.offset + place.length > 6 && is_pattern(pool + 6, pool + 8));
}

/* ---- proposals */

/* A proposal of so many bytes for a sample, both lent at such places. */
static void proposed(const struct sample *sample, const uint8_t *proposal, size_t length, struct where where, uint32_t number, uint32_t row)
{
    lend(&bundle_room, sample->bundle, sample->length, where);
    lend(&out_room, proposal, length, where);
    EXPECT(is_refusal(noemathu_check_proposal(bundle_room.lent, sample->length, out_room.lent, length), number, row));
    EXPECT(holds(&out_room, proposal, length));
    take_back(&bundle_room);
    take_back(&out_room);
}

/* What is normalized, what is not, and what is no bundle: of every length, at every alignment. */
static void proposals(void)
{
    EXPECT(is_refusal(noemathu_check_proposal(NULL, 0, NULL, 0), 40, 0));
    EXPECT(is_refusal(noemathu_check_proposal(NULL, 0, bundle_a, sizeof bundle_a), 40, 0));
    EXPECT(is_refusal(noemathu_check_proposal(bundle_a, sizeof bundle_a, NULL, 0), 41, 0));
    EXPECT(is_refusal(noemathu_check_proposal(bundle_none, sizeof bundle_none, bundle_none, sizeof bundle_none), 0, 0));
    EXPECT(is_refusal(noemathu_check_proposal(bundle_none, sizeof bundle_none, bundle_a, sizeof bundle_a), 43, 0));
    EXPECT(is_refusal(noemathu_check_proposal(bundle_a, sizeof bundle_a, bundle_none, sizeof bundle_none), 43, 0));
    EXPECT(is_refusal(noemathu_check_proposal(result_a, sizeof result_a, bundle_a, sizeof bundle_a), 43, 1));
    EXPECT(is_refusal(noemathu_check_proposal(bundle_a, sizeof bundle_a, result_b, sizeof result_b), 43, 0));
    for (size_t i = 0; i < 16; i++)
        for (size_t s = 0; s < SAMPLES; s++) {
            const struct sample *sample = &samples[s];
            struct where where = {i >= 8, i % 8};
            for (size_t length = 0; length < sample->result_length; length++)
                proposed(sample, sample->result, length, where, 41, 0);
            proposed(sample, sample->result, sample->result_length, where, 0, 0);
        }
    /* The samples themselves: a name of each that does not resolve. */
    proposed(&samples[1], bundle_a, sizeof bundle_a, ENDS, 44, 0);
    proposed(&samples[2], bundle_b, sizeof bundle_b, ENDS, 44, 1);
    /* Both may be the same bytes. */
    EXPECT(is_refusal(noemathu_check_proposal(result_a, sizeof result_a, result_a, sizeof result_a), 0, 0));
    /* Another maker, in any byte of it: in a row that is kept 43, in a further row nothing. */
    for (size_t row = 0; row < 3; row++)
        for (size_t at = 0; at < 4; at++) {
            uint8_t changed[sizeof result_b];
            memcpy(changed, result_b, sizeof changed);
            changed[12 + 44 * row + 40 + at] ^= 1;
            proposed(&samples[2], changed, sizeof changed, ENDS, row < 2 ? 43 : 0, row < 2 ? (uint32_t)row : 0);
            proposed(&samples[4], changed, sizeof changed, ENDS, 43, (uint32_t)row);
        }
    /* The version may be another: rows of version 1 have maker 0. */
    EXPECT(is_refusal(noemathu_check_proposal(old_a, sizeof old_a, old_result_a, sizeof old_result_a), 0, 0));
    EXPECT(is_refusal(noemathu_check_proposal(new_a, sizeof new_a, old_result_a, sizeof old_result_a), 0, 0));
    EXPECT(is_refusal(noemathu_check_proposal(old_a, sizeof old_a, result_a, sizeof result_a), 43, 0));
    EXPECT(is_refusal(noemathu_check_proposal(bundle_a, sizeof bundle_a, old_result_a, sizeof old_result_a), 43, 0));
}

/* ---- the stack */

static size_t large_length;
static uint32_t large_rows;

static void run_nothing(void) {}
static void run_check(void) { EXPECT(noemathu_check(large, large_length).number == 0); }
static void run_uri(void) { noemathu_uri_of_prefix(large, large_length, large_rows - 1, (const uint8_t *)"p", 1); }
static void run_prefix(void) { noemathu_prefix_of_uri(large, large_length, large_rows - 1, (const uint8_t *)"U", 1); }
static void run_default(void) { noemathu_default_uri(large, large_length, large_rows - 1); }
static void run_in_scope_uri(void) { noemathu_in_scope_uri(large, large_length, large_rows - 1, (const uint8_t *)"p", 1); }
static void run_in_scope_prefix(void)
{
    noemathu_in_scope_prefix(large, large_length, large_rows - 1, (const uint8_t *)"U", 1);
}

static void run_normalize(void) { noemathu_normalize(large, large_length, large_out, sizeof large_out); }
static void run_pack(void) { noemathu_pack(large, large_length, large_out, sizeof large_out); }
static void run_salvage(void)
{
    static uint32_t list[NOEMATHU_LIST_MOST];
    noemathu_salvage(large, large_length, large_out, sizeof large_out, list, NOEMATHU_LIST_MOST);
}

static void run_read(void) { noemathu_read(large, large_length, large_table, 1200 * WORDS, large_out, sizeof large_out); }
static void run_write(void)
{
    noemathu_write(large_table, WORDS * large_rows, noemathu_pool(large), noemathu_pool_length(large), large_out, sizeof large_out);
}

static void run_write_xml(void) { noemathu_write_xml(large, large_length, 0, large_out, sizeof large_out); }

static void run_check_proposal(void) { noemathu_check_proposal(large, large_length, large, large_length); }

static void *run(void *call)
{
    (*(void (**)(void))call)();
    return NULL;
}

/* How far a call wrote into a stack of its own. */
static size_t stack_of(void (*call)(void))
{
    enum { SIZE = 2 << 20 };
    uint8_t *stack = mmap(NULL, SIZE, PROT_READ | PROT_WRITE, MAP_PRIVATE | MAP_ANONYMOUS, -1, 0);
    size_t untouched = 0;
    pthread_attr_t attributes;
    pthread_t thread;
    EXPECT(stack != MAP_FAILED);
    memset(stack, PATTERN, SIZE);
    pthread_attr_init(&attributes);
    EXPECT(pthread_attr_setstack(&attributes, stack, SIZE) == 0);
    EXPECT(pthread_create(&thread, &attributes, run, &call) == 0);
    EXPECT(pthread_join(thread, NULL) == 0);
    while (untouched < SIZE && stack[untouched] == PATTERN)
        untouched++;
    munmap(stack, SIZE);
    return SIZE - untouched;
}

static void (*const calls[])(void) = {run_check, run_uri, run_prefix, run_default, run_in_scope_uri, run_in_scope_prefix,
                                      run_normalize, run_pack, run_salvage, run_read, run_write, run_write_xml,
                                      run_check_proposal};

enum { CALLS = sizeof calls / sizeof *calls };

static const uint32_t nested[] = {NOEMATHU_ELEMENT, NOEMATHU_ENTITY_REFERENCE};

static void make_deep(uint32_t rows, size_t bytes, uint32_t type)
{
    large_rows = rows;
    large_length = make_large(rows, bytes, type, true);
}

/* On the deepest trees there are: rows in each other. */
static void stack_as_told(void)
{
    for (size_t t = 0; t < 2; t++) {
        make_deep(1024, 32768, nested[t]);
        for (size_t i = 0; i < CALLS; i++)
            EXPECT(stack_of(calls[i]) <= stack_of(run_nothing) + NOEMATHU_STACK);
    }
}

/* On the deepest small trees, and on threads that have 64 KB. */
static void small_stack_as_told(void)
{
    for (size_t t = 0; t < 2; t++) {
        make_deep(NOEMATHU_FEW_ROWS, NOEMATHU_SHORT_POOL, nested[t]);
        for (size_t i = 0; i < CALLS; i++) {
            void (*call)(void) = calls[i];
            pthread_attr_t attributes;
            pthread_t thread;
            EXPECT(stack_of(call) <= stack_of(run_nothing) + NOEMATHU_SMALL_STACK);
            pthread_attr_init(&attributes);
            EXPECT(pthread_attr_setstacksize(&attributes, 65536) == 0);
            EXPECT(pthread_create(&thread, &attributes, run, &call) == 0);
            EXPECT(pthread_join(thread, NULL) == 0);
        }
    }
}

/* ---- calls at once, on bundles that are shared */

static void *many_calls(void *given)
{
    const struct sample *sample = given;
    uint8_t out[200];
    for (int i = 0; i < 2000; i++) {
        noemathu_used used = noemathu_normalize(sample->bundle, sample->length, out, sizeof out);
        if (used.bytes != sample->result_length || memcmp(out, sample->result, used.bytes) != 0)
            return given;
        used = noemathu_pack(sample->bundle, sample->length, out, sizeof out);
        if (used.bytes != sample->packed_length || memcmp(out, sample->packed, used.bytes) != 0)
            return given;
        used = noemathu_write_xml(sample->result, sample->result_length, 0, out, sizeof out);
        if (used.bytes != strlen(sample[2].text) || memcmp(out, sample[2].text, used.bytes) != 0)
            return given;
    }
    return NULL;
}

static void calls_at_once(void)
{
    pthread_t threads[4];
    for (size_t i = 0; i < 4; i++)
        EXPECT(pthread_create(&threads[i], NULL, many_calls, (void *)&samples[1 + i % 2]) == 0);
    for (size_t i = 0; i < 4; i++) {
        void *wrong;
        EXPECT(pthread_join(threads[i], &wrong) == 0 && wrong == NULL);
    }
}

int main(void)
{
    nothing_lent();
    every_length();
    every_header_byte();
    every_version();
    every_output_size();
    every_question();
    built_ins();
    overlapping_inputs();
    refused_tables();
    fields();
    utf8();
    every_code_point();
    refusals_of_text();
    text_of_document();
    every_character();
    helpers();
    proposals();
    calls_at_once();
    for (large_version = 1; large_version <= 2; large_version++) {
        largest();
        longest_text();
        shared_values();
        deepest_text();
        beyond_the_limits();
        packing();
        salvage();
        stack_as_told();
        small_stack_as_told();
    }
    printf("boundary: %lu checks hold\n", checks);
    return 0;
}
