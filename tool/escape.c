#include "escape.h"

#include <stdio.h>

/* One character at the start of some bytes: its code and how many bytes it has, 0 if they are no UTF-8. */
static size_t decoded(struct bytes bytes, uint32_t *code)
{
    static const struct { uint8_t mask, mark; uint32_t least; } forms[] = {
        {0x80, 0x00, 0}, {0xe0, 0xc0, 0x80}, {0xf0, 0xe0, 0x800}, {0xf8, 0xf0, 0x10000}};
    for (size_t length = 1; length <= 4; length++) {
        if ((bytes.at[0] & forms[length - 1].mask) != forms[length - 1].mark)
            continue;
        if (bytes.length < length)
            return 0;
        uint32_t value = bytes.at[0] & (uint8_t)~forms[length - 1].mask;
        for (size_t k = 1; k < length; k++) {
            if ((bytes.at[k] & 0xc0) != 0x80)
                return 0;
            value = value << 6 | (bytes.at[k] & 0x3f);
        }
        *code = value;
        bool surrogate = value >= 0xd800 && value <= 0xdfff;
        return value < forms[length - 1].least || surrogate || value > 0x10ffff ? 0 : length;
    }
    return 0;
}

/* Whether a character is not to be shown as it is: controls, and what has no width or turns the direction of writing. */
static bool is_hidden(uint32_t code)
{
    static const uint32_t ranges[][2] = {
        {0, 0x1f}, {0x7f, 0x9f}, {0xad, 0xad}, {0x61c, 0x61c}, {0x180e, 0x180e}, {0x200b, 0x200f}, {0x2028, 0x202e},
        {0x2060, 0x206f}, {0xfe00, 0xfe0f}, {0xfeff, 0xfeff}, {0xfff9, 0xfffb}, {0xfffe, 0xffff}, {0xe0000, 0xe0fff}};
    for (size_t i = 0; i < sizeof ranges / sizeof *ranges; i++)
        if (code >= ranges[i][0] && code <= ranges[i][1])
            return true;
    return false;
}

static void append_code(struct buffer *line, const char *format, uint32_t code)
{
    char escape[16];
    snprintf(escape, sizeof escape, format, (unsigned)code);
    append_text(line, escape);
}

/* The escape of a character that has a letter; NULL if it has none. */
static const char *letter(uint32_t code, bool quoted)
{
    switch (code) {
    case '\n': return "\\n";
    case '\t': return "\\t";
    case '\r': return "\\r";
    case '\\': return "\\\\";
    case '"': return quoted ? "\\\"" : NULL;
    default: return NULL;
    }
}

static void append_escaped(struct buffer *line, struct bytes bytes, bool quoted)
{
    while (bytes.length > 0) {
        uint32_t code = bytes.at[0];
        size_t length = decoded(bytes, &code);
        size_t taken = length > 0 ? length : 1;
        const char *escape = length > 0 ? letter(code, quoted) : NULL;
        if (length == 0)
            append_code(line, "\\x{%02x}", bytes.at[0]);
        else if (escape)
            append_text(line, escape);
        else if (is_hidden(code))
            append_code(line, "\\u{%x}", code);
        else
            append(line, (struct bytes){bytes.at, length});
        bytes.at += taken;
        bytes.length -= taken;
    }
}

void append_shown(struct buffer *line, struct bytes bytes)
{
    append_escaped(line, bytes, false);
}

void append_quoted(struct buffer *line, struct bytes bytes)
{
    append_text(line, "\"");
    append_escaped(line, bytes, true);
    append_text(line, "\"");
}

void append_json_string(struct buffer *line, struct bytes bytes)
{
    append_text(line, "\"");
    while (bytes.length > 0) {
        uint32_t code = 0;
        size_t length = decoded(bytes, &code);
        size_t taken = length > 0 ? length : 1;
        if (length == 0)
            append_text(line, "\\ufffd");
        else if (code == '"' || code == '\\' || code == '\n' || code == '\t' || code == '\r')
            append_text(line, letter(code, true));
        else if (is_hidden(code) && code <= 0xffff)
            append_code(line, "\\u%04x", code);
        else if (is_hidden(code)) {
            append_code(line, "\\u%04x", 0xd800 + ((code - 0x10000) >> 10));
            append_code(line, "\\u%04x", 0xdc00 + ((code - 0x10000) & 0x3ff));
        } else
            append(line, (struct bytes){bytes.at, length});
        bytes.at += taken;
        bytes.length -= taken;
    }
    append_text(line, "\"");
}

/* A character as UTF-8. */
static void append_character(struct buffer *out, uint32_t code)
{
    uint8_t bytes[4];
    size_t length = code < 0x80 ? 1 : code < 0x800 ? 2 : code < 0x10000 ? 3 : 4;
    static const uint8_t marks[] = {0x00, 0xc0, 0xe0, 0xf0};
    for (size_t k = length; k-- > 1; code >>= 6)
        bytes[k] = (uint8_t)(0x80 | (code & 0x3f));
    bytes[0] = (uint8_t)(marks[length - 1] | code);
    append(out, (struct bytes){bytes, length});
}

/* The number in an escape \u{85} at the start of some bytes, and how many bytes the escape has; 0 if it is none. */
static size_t escape_length(struct bytes bytes, uint32_t *code)
{
    size_t at = 3;
    *code = 0;
    if (bytes.length < 5 || bytes.at[1] != 'u' || bytes.at[2] != '{')
        return 0;
    for (; at < bytes.length && at < 9 && bytes.at[at] != '}'; at++) {
        uint8_t digit = bytes.at[at];
        if (digit >= '0' && digit <= '9')
            *code = *code * 16 + (uint32_t)(digit - '0');
        else if ((digit | 32) >= 'a' && (digit | 32) <= 'f')
            *code = *code * 16 + (uint32_t)((digit | 32) - 'a' + 10);
        else
            return 0;
    }
    return at > 3 && at < bytes.length && bytes.at[at] == '}' && *code <= 0x10ffff ? at + 1 : 0;
}

bool append_unescaped(struct buffer *out, struct bytes bytes)
{
    while (bytes.length > 0) {
        uint32_t code = 0;
        size_t taken = 1;
        if (bytes.at[0] != '\\') {
            append(out, (struct bytes){bytes.at, 1});
        } else {
            taken = escape_length(bytes, &code);
            if (taken == 0)
                return false;
            append_character(out, code);
        }
        bytes.at += taken;
        bytes.length -= taken;
    }
    return true;
}
