/* libFuzzer on the command's reader of XML: any bytes as a text. What is read without a fault is a bundle that the library
   accepts, or one that is too large; every name in it is read as it is meant, as in any text; and where the bundle has an XML
   text, reading that gives the same text again. */
#include "../../tool/meanings.h"
#include "../../tool/read_xml.h"

#include <stdlib.h>
#include <string.h>

#define HOLDS(claim) do { if (!(claim)) abort(); } while (0)

/* The XML text of a bundle, from its document; empty if it has none. */
static struct buffer text_of(const struct buffer *bundle)
{
    size_t room = noemathu_xml_room(bundle->at);
    struct buffer text = {held(NULL, room, 1), 0, room};
    text.length = noemathu_write_xml(bundle->at, bundle->length, 0, text.at, room).bytes;
    return text;
}

static void names_hold(const struct buffer *bundle)
{
    struct tree tree = tree_of(bundle->at, bundle->length, (noemathu_refusal){0, 0, 0});
    for (uint32_t row = 0; row < tree.count && row < 40; row++)
        HOLDS(!has_meaning(&tree, row) || meaning_of(&tree, row).is_same);
    free_tree(&tree);
}

/* The text of what is read in a text. */
static struct buffer read_and_written(struct bytes text, struct xml_wishes wishes, bool must_be_read)
{
    struct xml_rows rows;
    struct buffer bundle = {0}, written = {0};
    bool read = read_xml(text, wishes, &rows);
    HOLDS(read || !must_be_read);
    HOLDS(read == (rows.fault.length == 0));
    if (read) {
        noemathu_refusal refusal = write_nodes(&rows.nodes, &bundle);
        HOLDS(refusal.number == 0 || refusal.number == NOEMATHU_REFUSED_SIZE);
        if (refusal.number == 0) {
            names_hold(&bundle);
            written = text_of(&bundle);
        }
    }
    free_buffer(&bundle);
    free_xml_rows(&rows);
    return written;
}

int LLVMFuzzerTestOneInput(const uint8_t *data, size_t size);

int LLVMFuzzerTestOneInput(const uint8_t *data, size_t size)
{
    struct xml_wishes wishes = {size % 2 == 0, size % 4 < 2, size % 8 < 4, size % 16 < 8, (uint32_t)size};
    struct buffer first = read_and_written((struct bytes){data, size}, wishes, false);
    if (first.length > 0) {
        struct buffer second = read_and_written(buffer_bytes(&first), wishes, true);
        HOLDS(wishes.no_blanks || same_bytes(buffer_bytes(&first), buffer_bytes(&second)));
        free_buffer(&second);
    }
    free_buffer(&first);
    return 0;
}
