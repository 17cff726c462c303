#include "bytes.h"
#include "status.h"

#include <stdio.h>
#include <stdlib.h>
#include <string.h>

struct bytes text_bytes(const char *text)
{
    return (struct bytes){(const uint8_t *)text, strlen(text)};
}

bool same_bytes(struct bytes one, struct bytes other)
{
    return one.length == other.length && (one.length == 0 || memcmp(one.at, other.at, one.length) == 0);
}

bool is_blank(struct bytes bytes)
{
    for (size_t i = 0; i < bytes.length; i++)
        if (bytes.at[i] != ' ' && bytes.at[i] != '\t' && bytes.at[i] != '\n' && bytes.at[i] != '\r')
            return false;
    return true;
}

void *held(void *before, size_t count, size_t size)
{
    void *memory = count <= SIZE_MAX / size ? realloc(before, count > 0 ? count * size : 1) : NULL;
    if (!memory) {
        fputs("noemathu: there is no more memory\n", stderr);
        exit(STATUS_TROUBLE);
    }
    return memory;
}

void append(struct buffer *buffer, struct bytes bytes)
{
    if (bytes.length > buffer->room - buffer->length) {
        buffer->room = 2 * buffer->room + bytes.length + 64;
        buffer->at = held(buffer->at, buffer->room, 1);
    }
    if (bytes.length > 0)
        memcpy(buffer->at + buffer->length, bytes.at, bytes.length);
    buffer->length += bytes.length;
}

void append_text(struct buffer *buffer, const char *text)
{
    append(buffer, text_bytes(text));
}

void append_number(struct buffer *buffer, size_t number)
{
    char digits[32];
    snprintf(digits, sizeof digits, "%zu", number);
    append_text(buffer, digits);
}

struct bytes buffer_bytes(const struct buffer *buffer)
{
    return (struct bytes){buffer->at, buffer->length};
}

char *taken_string(struct buffer *buffer)
{
    append(buffer, (struct bytes){(const uint8_t *)"", 1});
    char *string = (char *)buffer->at;
    *buffer = (struct buffer){0};
    return string;
}

void free_buffer(struct buffer *buffer)
{
    free(buffer->at);
    *buffer = (struct buffer){0};
}
