#include "sniff.h"

#include <string.h>

bool begins_as_bundle(struct bytes bytes)
{
    return bytes.length == 0 || memcmp(bytes.at, "NTB", bytes.length < 3 ? bytes.length : 3) == 0;
}

/* Whether bytes begin without a control character other than white space: as text, and not as a damaged bundle, does. */
static bool begins_as_text(struct bytes bytes)
{
    for (size_t i = 0; i < bytes.length && i < 64; i++)
        if ((bytes.at[i] < 32 && !is_blank((struct bytes){bytes.at + i, 1})) || bytes.at[i] == 127)
            return false;
    return true;
}

bool begins_as_xml(struct bytes bytes)
{
    static const struct { uint8_t length, bytes[4]; } starts[] = {
        {2, {0xfe, 0xff, 0, 0}}, {2, {0xff, 0xfe, 0, 0}}, {4, {0, 0, 0xfe, 0xff}}, {2, {0, '<', 0, 0}}, {2, {'<', 0, 0, 0}},
        {4, {0, 0, 0, '<'}}, {4, {0x4c, 0x6f, 0xa7, 0x94}}};
    for (size_t i = 0; i < sizeof starts / sizeof *starts; i++)
        if (bytes.length >= starts[i].length && memcmp(bytes.at, starts[i].bytes, starts[i].length) == 0)
            return true;
    size_t at = bytes.length >= 3 && memcmp(bytes.at, "\xef\xbb\xbf", 3) == 0 ? 3 : 0;
    while (at < bytes.length && is_blank((struct bytes){bytes.at + at, 1}))
        at++;
    bool begins = at < bytes.length && bytes.at[at] == '<';
    return begins || (!begins_as_bundle(bytes) && begins_as_text(bytes));
}

/* The bytes of a character in a text that begins so, by appendix F of XML 1.0. */
static size_t character_width(struct bytes text)
{
    if (text.length < 4)
        return 1;
    bool zero[4] = {!text.at[0], !text.at[1], !text.at[2], !text.at[3]};
    bool mark = (text.at[0] == 0xfe && text.at[1] == 0xff) || (text.at[0] == 0xff && text.at[1] == 0xfe);
    if ((zero[0] && zero[1]) || (zero[2] && zero[3]))
        return 4;
    return mark || zero[0] || zero[1] ? 2 : 1;
}

size_t line_of_zero(struct bytes text)
{
    size_t width = character_width(text), line = 1;
    for (size_t i = 0; i + width <= text.length; i += width) {
        size_t zeros = 0;
        while (zeros < width && text.at[i + zeros] == 0)
            zeros++;
        if (zeros == width)
            return line;
        line += text.at[i] == '\n' || text.at[i + width - 1] == '\n';
    }
    return 0;
}
