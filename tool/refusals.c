#include "refusals.h"
#include "escape.h"
#include "json.h"
#include "meanings.h"
#include "messages.h"
#include "paths.h"

#include <stdlib.h>
#include <string.h>

/* Whether a refusal of this number is of a row. */
static bool names_row(uint32_t number)
{
    switch (number) {
    case NOEMATHU_REFUSED_SIZE:
    case NOEMATHU_REFUSED_NO_SUCH_ROW:
    case NOEMATHU_REFUSED_ROW_ROOM:
    case NOEMATHU_REFUSED_POOL_ROOM:
    case NOEMATHU_REFUSED_TEXT_ROOM: return false;
    default: return number < NOEMATHU_REFUSED_MARK || number > NOEMATHU_REFUSED_PROPOSAL;
    }
}

/* What to do where a row has no XML text. */
static const char *instead_of_markup(uint32_t type)
{
    switch (type) {
    case NOEMATHU_COMMENT: return "read it without comments: noemathu from-xml --no-comments";
    case NOEMATHU_INSTRUCTION: return "read it without instructions: noemathu from-xml --no-instructions";
    case NOEMATHU_CDATA: return "read its CDATA sections as text: noemathu from-xml --no-cdata";
    case NOEMATHU_ENTITY_REFERENCE: return "put what the entity stands for in its place";
    default: return "name an element, or a document that has one";
    }
}

/* What to do about a refusal; @ is the file, and the node if one was named. */
static const char *remedy(uint32_t number, uint32_t type)
{
    switch (number) {
    case NOEMATHU_REFUSED_SIZE: return "split the tree: a bundle has at most 1,024 rows and 32,768 pool bytes";
    case NOEMATHU_REFUSED_STRUCTURE: return "put parents before their children; graft under an element or a fragment";
    case NOEMATHU_REFUSED_PAST_POOL: return "mend the field's offset or length, or get the bundle anew";
    case NOEMATHU_REFUSED_NAMES: return "mend the name; a whole name with a colon belongs to types 257 and 258";
    case NOEMATHU_REFUSED_NAMESPACE: return "give it its URI; what declares a namespace is a row of type 13";
    case NOEMATHU_REFUSED_DECLARATION: return "remove the declaration; of a file, noemathu salvage does";
    case NOEMATHU_REFUSED_DOUBLE: return "remove one of the two; of a file, noemathu salvage keeps the first";
    case NOEMATHU_REFUSED_NO_SUCH_ROW: return "name a node that is there: noemathu show prints rows, noemathu list paths";
    case NOEMATHU_REFUSED_LEVEL1: return "make it a row of type 1 or 2, with its URI";
    case NOEMATHU_REFUSED_ROW_ROOM: return "split the tree: the result has more than 1,024 rows";
    case NOEMATHU_REFUSED_POOL_ROOM: return "split the tree: the result has more than 32,768 pool bytes";
    case NOEMATHU_REFUSED_OFFSET: return "write 0 for the offset, or give the field its length";
    case NOEMATHU_REFUSED_MUST_BE_EMPTY: return "write 0 for offset and length, or mend the row's type";
    case NOEMATHU_REFUSED_MALFORMED_UTF8: return "encode the text as UTF-8; let offset and length fall between characters";
    case NOEMATHU_REFUSED_NOT_MARKUP: return instead_of_markup(type);
    case NOEMATHU_REFUSED_CHARACTER: return "encode what is no text, as base64 does";
    case NOEMATHU_REFUSED_TEXT_ROOM: return "lend more room for the text";
    case NOEMATHU_REFUSED_UNDECLARED: return "normalize first: noemathu normalize @ | noemathu xml";
    case NOEMATHU_REFUSED_INHERITED: return "cut the node out, which declares it there: noemathu cut @ | noemathu xml";
    case NOEMATHU_REFUSED_MARK: return "this is no bundle, and no XML either: that begins with <";
    case NOEMATHU_REFUSED_VERSION: return "get a newer noemathu, or the bundle anew";
    case NOEMATHU_REFUSED_LENGTHS: return "get the bundle anew";
    case NOEMATHU_REFUSED_BUNDLE_ROOM: return "lend more room for the bundle";
    case NOEMATHU_REFUSED_ORIGINAL: return "mend the original first: noemathu check @";
    case NOEMATHU_REFUSED_PROPOSAL:
    case NOEMATHU_REFUSED_CHANGED: return "do without the proposal: noemathu normalize @";
    case NOEMATHU_REFUSED_PROPOSAL_LEVEL1: return "make it a row of type 1 or 2, with its URI";
    case NOEMATHU_REFUSED_UNRESOLVED: return "do without the proposal, or normalize it: noemathu normalize @";
    default: return "see what include/noemathu.h says of it";
    }
}

/* The type of the row that a refusal names, 0 if there is none to look at. */
static uint32_t refused_type(const struct session *session, noemathu_refusal refusal)
{
    bool known = names_row(refusal.number) && refusal.row < session->tree.count;
    return known ? session->tree.rows[refusal.row].type : 0;
}

/* The file, and the node if one was named, as a word for the shell; FILE and FILE#NODE where that has to be escaped. */
static void append_argument(struct buffer *line, const struct session *session)
{
    struct buffer word = {0};
    append_shown(&word, text_bytes(session->file));
    bool shown = same_bytes(buffer_bytes(&word), text_bytes(session->file));
    if (session->node != NOEMATHU_NONE && session->node < session->tree.count) {
        append_text(&word, "#");
        append_path(&word, &session->tree, session->node);
    }
    char *text = taken_string(&word);
    bool plain = strspn(text, "abcdefghijklmnopqrstuvwxyzABCDEFGHIJKLMNOPQRSTUVWXYZ0123456789._-/:@") == strlen(text);
    bool known = shown && strchr(text, '\'') == NULL && strcmp(session->file, "standard input") != 0;
    append_text(line, known && !plain ? "'" : "");
    append_text(line, known ? text : session->node != NOEMATHU_NONE ? "FILE#NODE" : "FILE");
    append_text(line, known && !plain ? "'" : "");
    free(text);
}

void append_remedy(struct buffer *line, const struct session *session, noemathu_refusal refusal)
{
    const char *text = remedy(refusal.number, refused_type(session, refusal)), *place = strchr(text, '@');
    if (place) {
        append(line, (struct bytes){(const uint8_t *)text, (size_t)(place - text)});
        append_argument(line, session);
    }
    append_text(line, place ? place + 1 : text);
}

void append_place(struct buffer *line, const struct session *session, noemathu_refusal refusal)
{
    if (names_row(refusal.number)) {
        append_text(line, ", row ");
        append_number(line, refusal.row);
        if (refusal.row < session->tree.count) {
            append_text(line, ", ");
            append_path(line, &session->tree, refusal.row);
        }
        if (session->lines && refusal.row < session->tree.count) {
            append_text(line, ", line ");
            append_number(line, session->lines[refusal.row]);
        }
    }
    if (refusal.word != 0) {
        append_text(line, ", field ");
        append_text(line, noemathu_field(refusal.word));
    }
}

static void append_refusal(struct buffer *line, const struct session *session, noemathu_refusal refusal, const char *about)
{
    append_shown(line, text_bytes(session->file));
    append_text(line, ": refusal ");
    append_number(line, refusal.number);
    append_place(line, session, refusal);
    append_text(line, ": ");
    append_text(line, noemathu_text(refusal.number));
    if (about) {
        append_text(line, "\n  ");
        append_text(line, about);
    }
    if (refusal.number == NOEMATHU_REFUSED_UNDECLARED && refusal.row < session->tree.count) {
        append_text(line, "\n  ");
        append_meaning(line, &session->tree, refusal.row, meaning_of(&session->tree, refusal.row));
    }
    append_text(line, "\n  to do: ");
    append_remedy(line, session, refusal);
}

void json_place(struct buffer *line, const struct session *session, noemathu_refusal refusal)
{
    struct buffer path = {0};
    if (names_row(refusal.number))
        json_number(line, "row", refusal.row);
    if (names_row(refusal.number) && refusal.row < session->tree.count) {
        append_path(&path, &session->tree, refusal.row);
        json_string(line, "path", buffer_bytes(&path));
        if (session->lines)
            json_number(line, "line", session->lines[refusal.row]);
    }
    if (refusal.word != 0)
        json_text(line, "field", noemathu_field(refusal.word));
    free_buffer(&path);
}

static void json_refusal(struct buffer *line, const struct session *session, noemathu_refusal refusal, const char *about)
{
    struct buffer what = {0};
    json_begin(line);
    json_text(line, "file", session->file);
    json_number(line, "refusal", refusal.number);
    json_place(line, session, refusal);
    json_text(line, "sentence", noemathu_text(refusal.number));
    if (about)
        json_text(line, "about", about);
    if (refusal.number == NOEMATHU_REFUSED_UNDECLARED && refusal.row < session->tree.count)
        json_meaning(line, meaning_of(&session->tree, refusal.row));
    append_remedy(&what, session, refusal);
    json_string(line, "do", buffer_bytes(&what));
    json_close(line);
    free_buffer(&what);
}

enum status refused(const struct session *session, noemathu_refusal refusal, const char *about)
{
    struct buffer line = {0};
    if (are_messages_in_json())
        json_refusal(&line, session, refusal, about);
    else
        append_refusal(&line, session, refusal, about);
    say(&line);
    free_buffer(&line);
    return STATUS_REFUSED;
}
