/* check-proposal: whether a bundle that somebody else made of another may stand for it. */
#include "commands.h"
#include "escape.h"
#include "json.h"
#include "meanings.h"
#include "messages.h"
#include "output.h"
#include "refusals.h"

/* Two files, and what the library says of them. */
struct pair {
    const struct session *original, *proposal;
    noemathu_refusal refusal;
};

static bool is_of_check(const struct pair *pair)
{
    return pair->refusal.number == NOEMATHU_REFUSED_ORIGINAL || pair->refusal.number == NOEMATHU_REFUSED_PROPOSAL;
}

/* The file that the row at fault is of: the original, if it has the row and that is at fault there. */
static const struct session *at_fault(const struct pair *pair)
{
    const struct tree *tree = &pair->original->tree;
    uint32_t row = pair->refusal.row;
    bool of_original = false;
    switch (pair->refusal.number) {
    case NOEMATHU_REFUSED_ORIGINAL: of_original = true; break;
    case NOEMATHU_REFUSED_PROPOSAL_LEVEL1: of_original = row < tree->count && is_level1(tree->rows[row]); break;
    case NOEMATHU_REFUSED_CHANGED: of_original = row < tree->count; break;
    default: break;
    }
    return of_original ? pair->original : pair->proposal;
}

/* The refusal with its place: for 40 and 41 that of the check, which has the same row and field. */
static noemathu_refusal placed(const struct pair *pair)
{
    return is_of_check(pair) ? at_fault(pair)->refusal : pair->refusal;
}

/* What to do. Whoever has an original can always do without the proposal. */
static void append_advice(struct buffer *line, const struct pair *pair)
{
    bool normalizes = pair->refusal.number == NOEMATHU_REFUSED_PROPOSAL || pair->refusal.number == NOEMATHU_REFUSED_CHANGED;
    if (pair->refusal.number == NOEMATHU_REFUSED_ORIGINAL)
        append_remedy(line, pair->original, pair->original->refusal);
    else
        append_remedy(line, normalizes ? pair->original : pair->proposal, pair->refusal);
}

/* What one of the files has at the row that was changed, lost or added. */
static void append_version(struct buffer *line, const struct session *session, uint32_t row)
{
    append_text(line, "\n  ");
    append_shown(line, text_bytes(session->file));
    append_text(line, row < session->tree.count ? " has row " : " has no row ");
    append_number(line, row);
    if (row >= session->tree.count)
        return;
    uint32_t parent = session->tree.rows[row].parent;
    append_text(line, parent == NOEMATHU_NONE ? " under nothing" : " under row ");
    if (parent != NOEMATHU_NONE)
        append_number(line, parent);
    append_text(line, ": ");
    append_node(line, &session->tree, row);
}

/* The lines behind the sentence: what the check says, what both files have, what a name means. */
static void append_reasons(struct buffer *line, const struct pair *pair)
{
    uint32_t row = pair->refusal.row;
    const struct session *session = at_fault(pair);
    if (is_of_check(pair)) {
        append_text(line, "\n  ");
        append_shown(line, text_bytes(session->file));
        append_text(line, ": refusal ");
        append_number(line, session->refusal.number);
        append_text(line, ": ");
        append_text(line, noemathu_text(session->refusal.number));
    } else if (pair->refusal.number == NOEMATHU_REFUSED_CHANGED) {
        append_version(line, pair->original, row);
        append_version(line, pair->proposal, row);
    } else if (pair->refusal.number == NOEMATHU_REFUSED_UNRESOLVED) {
        append_text(line, "\n  ");
        append_meaning(line, &session->tree, row, meaning_of(&session->tree, row));
    } else {
        append_version(line, session, row);
    }
}

static void append_pair(struct buffer *line, const struct pair *pair)
{
    append_shown(line, text_bytes(pair->proposal->file));
    append_text(line, " for ");
    append_shown(line, text_bytes(pair->original->file));
    append_text(line, ": refusal ");
    append_number(line, pair->refusal.number);
    append_place(line, at_fault(pair), placed(pair));
    append_text(line, ": ");
    append_text(line, noemathu_text(pair->refusal.number));
    append_reasons(line, pair);
    append_text(line, "\n  to do: ");
    append_advice(line, pair);
}

/* A row of one of the files as a member; null if it has none. */
static void json_version(struct buffer *line, const char *name, const struct session *session, uint32_t row)
{
    if (row >= session->tree.count) {
        json_null(line, name);
        return;
    }
    json_open(line, name);
    json_node(line, &session->tree, row);
    json_close(line);
}

static void json_pair(struct buffer *line, const struct pair *pair)
{
    const struct session *session = at_fault(pair);
    struct buffer advice = {0};
    json_begin(line);
    json_text(line, "original", pair->original->file);
    json_text(line, "proposal", pair->proposal->file);
    json_number(line, "refusal", pair->refusal.number);
    json_text(line, "of", session == pair->original ? "original" : "proposal");
    json_place(line, session, placed(pair));
    json_text(line, "sentence", noemathu_text(pair->refusal.number));
    if (is_of_check(pair)) {
        json_number(line, "check", session->refusal.number);
        json_text(line, "check_sentence", noemathu_text(session->refusal.number));
    } else {
        json_version(line, "original_row", pair->original, pair->refusal.row);
        json_version(line, "proposal_row", pair->proposal, pair->refusal.row);
    }
    append_advice(&advice, pair);
    json_string(line, "do", buffer_bytes(&advice));
    json_close(line);
    free_buffer(&advice);
}

static enum status pair_refused(const struct pair *pair)
{
    struct buffer line = {0};
    if (are_messages_in_json())
        json_pair(&line, pair);
    else
        append_pair(&line, pair);
    say(&line);
    free_buffer(&line);
    return STATUS_REFUSED;
}

static enum status pair_accepted(const struct options *options, const struct pair *pair)
{
    struct buffer line = {0};
    size_t added = pair->proposal->tree.count - pair->original->tree.count;
    if (has_option(options, OPTION_JSON)) {
        json_begin(&line);
        json_text(&line, "original", pair->original->file);
        json_text(&line, "proposal", pair->proposal->file);
        json_number(&line, "refusal", NOEMATHU_NOT_REFUSED);
        json_number(&line, "rows_added", added);
        json_close(&line);
    } else {
        append_shown(&line, text_bytes(pair->proposal->file));
        append_text(&line, ": accepted for ");
        append_shown(&line, text_bytes(pair->original->file));
        append_text(&line, ", ");
        append_number(&line, added);
        append_text(&line, added == 1 ? " row more" : " rows more");
    }
    print_line(&line, '\n');
    free_buffer(&line);
    return STATUS_DONE;
}

/* Opens one of the two; of a file of which a node is named, that node stands for it. */
static enum status open_one(const struct options *options, size_t number, struct session *session)
{
    enum status status = open_session(options->operands[number], EVEN_REFUSED, options->wishes, session);
    if (status == STATUS_DONE && session->node != NOEMATHU_NONE)
        status = cut_out(session, false);
    return status;
}

enum status command_check_proposal(const struct options *options)
{
    struct session original, proposal;
    set_color("never");
    enum status status = open_one(options, 0, &original);
    enum status second = open_one(options, 1, &proposal);
    status = second > status ? second : status;
    if (status == STATUS_DONE) {
        struct pair pair = {&original, &proposal,
                            noemathu_check_proposal(original.bundle.at, original.bundle.length, proposal.bundle.at,
                                                    proposal.bundle.length)};
        bool accepted = pair.refusal.number == NOEMATHU_NOT_REFUSED;
        status = accepted ? pair_accepted(options, &pair) : pair_refused(&pair);
    }
    close_session(&original);
    close_session(&proposal);
    return status;
}
