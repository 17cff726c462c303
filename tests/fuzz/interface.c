/* libFuzzer on the C interface: any bytes as a bundle, and what must hold of the answers.

   The first byte chooses a row, the second how many of the bytes behind it are a query; the rest is the bundle. The library
   is not built for libFuzzer, which so cannot see which inputs lead further in it; seven of eight inputs therefore get a
   header that agrees with their length, two of these of version 1. */
#include <noemathu.h>
#include <stdlib.h>

#define HOLDS(claim) do { if (!(claim)) abort(); } while (0)

static uint8_t normalized[NOEMATHU_BUNDLE_MOST], packed[NOEMATHU_BUNDLE_MOST], again[NOEMATHU_BUNDLE_MOST], pool[NOEMATHU_MOST_POOL];
static uint8_t written[NOEMATHU_BUNDLE_MOST];
static size_t written_length;
static uint32_t table[NOEMATHU_MOST_WORDS];

/* A bundle that is read and written again is the same bytes if it is of version 2; of version 1 it is as much longer as its rows
   have makers, and the helpers see the same rows in both. */
static void read_and_write(const uint8_t *bundle, size_t length)
{
    noemathu_sizes sizes = noemathu_read(bundle, length, table, NOEMATHU_MOST_WORDS, pool, sizeof pool);
    HOLDS(sizes.refusal.number == 0);
    noemathu_used used = noemathu_write(table, NOEMATHU_ROW_WORDS * sizes.rows, pool, sizes.bytes, written, sizeof written);
    HOLDS(used.refusal.number == 0 && noemathu_version(written) == NOEMATHU_BUNDLE_VERSION);
    if (noemathu_version(bundle) == NOEMATHU_BUNDLE_VERSION)
        HOLDS(used.bytes == length && memcmp(written, bundle, length) == 0);
    else
        HOLDS(noemathu_version(bundle) == 1 && used.bytes == length + 4 * sizes.rows);
    for (size_t i = 0; i < sizes.rows; i++) {
        noemathu_row row = noemathu_row_of(bundle, i), other = noemathu_row_of(written, i);
        HOLDS(memcmp(&row, &other, sizeof row) == 0);
    }
    HOLDS(sizes.bytes == 0 || memcmp(noemathu_pool(bundle), noemathu_pool(written), sizes.bytes) == 0);
    written_length = used.bytes;
}

/* A text that fits where it was said to fit. */
static void write_text(const uint8_t *bundle, size_t length, uint32_t row)
{
    size_t room = noemathu_xml_room(bundle);
    if (room > 1 << 24)
        return;
    uint8_t *text = malloc(room + 1);
    noemathu_used used = noemathu_write_xml(bundle, length, row, text, room);
    HOLDS(used.refusal.number != NOEMATHU_REFUSED_TEXT_ROOM && used.bytes <= room);
    free(text);
}

/* What normalization gives passes, may stand for what it was made of, and means in scope what it says. */
static void normalize(const uint8_t *bundle, size_t length)
{
    noemathu_used used = noemathu_normalize(bundle, length, normalized, sizeof normalized);
    if (used.refusal.number != 0)
        return;
    HOLDS(used.bytes <= noemathu_room(bundle));
    HOLDS(noemathu_check(normalized, used.bytes).number == 0);
    HOLDS(noemathu_check_proposal(bundle, length, normalized, used.bytes).number == 0);
    for (size_t i = 0; i < noemathu_row_count(bundle); i++) {
        noemathu_row row = noemathu_row_of(normalized, i);
        HOLDS(row.maker == noemathu_row_of(bundle, i).maker);
        if (row.type != NOEMATHU_ELEMENT)
            continue;
        size_t uri_length;
        noemathu_found found = noemathu_in_scope_uri(normalized, used.bytes, (uint32_t)i,
                                                     noemathu_bytes(normalized, row.prefix), row.prefix.length);
        const uint8_t *uri = noemathu_uri(normalized, found, &uri_length);
        HOLDS(uri_length == row.uri.length);
        HOLDS(uri_length == 0 || memcmp(uri, noemathu_bytes(normalized, row.uri), uri_length) == 0);
    }
}

/* A packed bundle passes, has every field, and packed again it is the same bytes. */
static void pack(const uint8_t *bundle, size_t length)
{
    noemathu_used used = noemathu_pack(bundle, length, packed, sizeof packed);
    if (used.refusal.number != 0)
        return;
    HOLDS(noemathu_check(packed, used.bytes).number == 0);
    for (size_t i = 0; i < noemathu_row_count(bundle); i++) {
        noemathu_row before = noemathu_row_of(bundle, i), after = noemathu_row_of(packed, i);
        HOLDS(before.value.length == after.value.length && before.maker == after.maker);
        HOLDS(before.value.length == 0 ||
              memcmp(noemathu_bytes(bundle, before.value), noemathu_bytes(packed, after.value), after.value.length) == 0);
    }
    noemathu_used twice = noemathu_pack(packed, used.bytes, again, sizeof again);
    HOLDS(twice.refusal.number == 0 && twice.bytes == used.bytes && memcmp(again, packed, used.bytes) == 0);
}

/* What is salvaged passes, and is the bundle itself, as it is written, exactly if that passes. */
static void salvage(const uint8_t *bundle, size_t length, noemathu_refusal refusal)
{
    static uint32_t list[NOEMATHU_LIST_MOST];
    noemathu_salvaged saved = noemathu_salvage(bundle, length, again, sizeof again, list, NOEMATHU_LIST_MOST);
    bool spoilt = refusal.number == NOEMATHU_REFUSED_DECLARATION || refusal.number == NOEMATHU_REFUSED_DOUBLE;
    HOLDS(refusal.number == 0 || spoilt || saved.refusal.number == refusal.number);
    if (saved.refusal.number != 0)
        return;
    HOLDS(noemathu_check(again, saved.bytes).number == 0);
    HOLDS((saved.dropped == 0) == (refusal.number == 0));
    HOLDS(saved.dropped > 0 || (saved.bytes == written_length && memcmp(again, written, written_length) == 0));
    HOLDS(saved.dropped == 0 || (list[0] == refusal.row && list[1] == refusal.number));
}

/* Where the bundle begins in an input of two bytes at least. */
static size_t bundle_start(const uint8_t *data, size_t size)
{
    return 2 + (data[1] < size - 2 ? data[1] : size - 2);
}

/* Gives bytes the header of a bundle of their length, of a version, with their own row count if that fits. */
static void mend_header(uint8_t *bundle, size_t length, uint8_t version)
{
    if (length < NOEMATHU_BUNDLE_HEADER)
        return;
    memcpy(bundle, "NTB\0\0\0", 6);
    bundle[3] = version;
    size_t most = (length - NOEMATHU_BUNDLE_HEADER) / noemathu_row_bytes(bundle), rows = noemathu_number(bundle + 6, 2);
    rows = rows < most ? rows : most;
    size_t pool_length = length - NOEMATHU_BUNDLE_HEADER - noemathu_row_bytes(bundle) * rows;
    for (size_t k = 0; k < 2; k++)
        bundle[6 + k] = (uint8_t)(rows >> 8 * k);
    for (size_t k = 0; k < 4; k++)
        bundle[8 + k] = (uint8_t)(pool_length >> 8 * k);
}

size_t LLVMFuzzerMutate(uint8_t *data, size_t size, size_t most);
size_t LLVMFuzzerCustomMutator(uint8_t *data, size_t size, size_t most, unsigned seed);
int LLVMFuzzerTestOneInput(const uint8_t *data, size_t size);

size_t LLVMFuzzerCustomMutator(uint8_t *data, size_t size, size_t most, unsigned seed)
{
    size = LLVMFuzzerMutate(data, size, most);
    if (seed % 8 > 0 && size >= 2)
        mend_header(data + bundle_start(data, size), size - bundle_start(data, size), seed % 8 < 3 ? 1 : NOEMATHU_BUNDLE_VERSION);
    return size;
}

int LLVMFuzzerTestOneInput(const uint8_t *data, size_t size)
{
    if (size < 2)
        return 0;
    uint32_t row = data[0] == 255 ? NOEMATHU_NONE : data[0];
    const uint8_t *query = data + 2, *bundle = data + bundle_start(data, size);
    size_t query_length = bundle_start(data, size) - 2, length = size - bundle_start(data, size);
    noemathu_refusal refusal = noemathu_check(bundle, length);
    noemathu_found found[] = {noemathu_uri_of_prefix(bundle, length, row, query, query_length),
                              noemathu_prefix_of_uri(bundle, length, row, query, query_length),
                              noemathu_default_uri(bundle, length, row),
                              noemathu_in_scope_uri(bundle, length, row, query, query_length),
                              noemathu_in_scope_prefix(bundle, length, row, query, query_length)};
    for (size_t i = 0; i < sizeof found / sizeof *found; i++) {
        HOLDS(refusal.number == 0 || memcmp(&found[i].refusal, &refusal, sizeof refusal) == 0);
        HOLDS(found[i].found == NOEMATHU_PLACE || found[i].place.length == 0);
    }
    if (refusal.number == 0)
        read_and_write(bundle, length);
    salvage(bundle, length, refusal);
    noemathu_refusal proposed = noemathu_check_proposal(bundle, length, query, query_length);
    HOLDS((proposed.number == NOEMATHU_REFUSED_ORIGINAL) == (refusal.number != 0));
    HOLDS(refusal.number == 0 || (proposed.row == refusal.row && proposed.word == refusal.word));
    if (refusal.number != 0) {
        HOLDS(noemathu_normalize(bundle, length, normalized, sizeof normalized).refusal.number == refusal.number);
        return 0;
    }
    for (size_t i = 0; i < sizeof found / sizeof *found; i++)
        HOLDS(found[i].place.offset + found[i].place.length <= noemathu_pool_length(bundle));
    write_text(bundle, length, row);
    normalize(bundle, length);
    pack(bundle, length);
    return 0;
}
