/* Files, and the standard streams. */
#ifndef TOOL_FILES_H
#define TOOL_FILES_H

#include "bytes.h"
#include "status.h"

/* A file of more bytes than this is not read. */
#define MOST_FILE_BYTES (64u << 20)

/* Makes sure that no file is ever opened as a standard stream. */
void hold_standard_streams(void);

/* Whether an argument means a standard stream: NULL or -. */
bool is_standard(const char *file);

/* How a file to read is named in messages. */
const char *input_name(const char *file);

/* Reads a file, or standard input, which can be read once. */
enum status read_file(const char *file, struct buffer *bytes);

/* Writes a file whole or not at all, or standard output. A bundle is not written to a terminal. */
enum status write_file(const char *file, struct bytes bytes, bool is_bundle);

/* After all that was printed: whether it was written. */
enum status finish_output(enum status status);

#endif
