/* Bytes that stand somewhere, and bytes that grow. */
#ifndef TOOL_BYTES_H
#define TOOL_BYTES_H

#include <stdbool.h>
#include <stddef.h>
#include <stdint.h>

/* A run of bytes that something else holds. */
struct bytes {
    const uint8_t *at;
    size_t length;
};

/* Bytes that are held here; all zero is an empty one. */
struct buffer {
    uint8_t *at;
    size_t length, room;
};

/* The bytes of a string. */
struct bytes text_bytes(const char *text);

bool same_bytes(struct bytes one, struct bytes other);

/* Whether all of them are white space of XML. */
bool is_blank(struct bytes bytes);

/* Memory for so many things of a size, from what was held before or NULL. There is always an answer: where there is no
   memory, the program ends with status 3. */
void *held(void *before, size_t count, size_t size);

/* Puts bytes behind those that a buffer holds. */
void append(struct buffer *buffer, struct bytes bytes);
void append_text(struct buffer *buffer, const char *text);
void append_number(struct buffer *buffer, size_t number);

/* What a buffer holds. */
struct bytes buffer_bytes(const struct buffer *buffer);

/* What a buffer holds, as a string that the caller frees; the buffer is empty afterwards. */
char *taken_string(struct buffer *buffer);

void free_buffer(struct buffer *buffer);

#endif
