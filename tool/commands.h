/* The commands. */
#ifndef TOOL_COMMANDS_H
#define TOOL_COMMANDS_H

#include "options.h"
#include "session.h"

struct command {
    const char *name;
    bool changes;          /* it writes a bundle or a text, and does not only look */
    enum status (*run)(const struct options *options);
    unsigned options;
    size_t least, most;    /* how many operands */
    const char *operands;  /* as usage has them */
    const char *summary, *help;
};

extern const struct command commands[];
extern const size_t command_count;

/* How commands look at sessions. */
enum status command_check(const struct options *options);
enum status command_show(const struct options *options);
enum status command_uri(const struct options *options);
enum status command_prefix(const struct options *options);
enum status command_scope(const struct options *options);
enum status command_list(const struct options *options);
enum status command_audit(const struct options *options);
enum status command_diff(const struct options *options);
enum status command_check_proposal(const struct options *options);

/* How commands change them. */
enum status command_from_xml(const struct options *options);
enum status command_xml(const struct options *options);
enum status command_cut(const struct options *options);
enum status command_graft(const struct options *options);
enum status command_normalize(const struct options *options);
enum status command_pack(const struct options *options);
enum status command_salvage(const struct options *options);

/* Puts the node of a session that was named, with the declarations in scope there or bare, in the session's place. */
enum status cut_out(struct session *session, bool bare);

/* Opens an operand, or standard input if there are not so many. */
enum status open_operand(const struct options *options, size_t number, struct session *session);

/* Does something with each FILE operand, or with standard input; answers the worst status. */
enum status for_each_file(const struct options *options,
                          enum status (*act)(const struct options *options, const struct session *session));

/* Behind a line: a row as `show` has it, without its number, and as members of an object. */
void append_node(struct buffer *line, const struct tree *tree, uint32_t row);
void json_node(struct buffer *line, const struct tree *tree, uint32_t row);

/* Behind a line, if a row's maker is not 0: who that is, behind some text, and as a member. */
void append_maker(struct buffer *line, const char *before, noemathu_row row);
void json_maker(struct buffer *line, noemathu_row row);

/* Behind a line: a path, and before it the file and # if there are several. */
void append_file_path(struct buffer *line, const struct options *options, const struct session *session, uint32_t row);

#endif
