#include "raw_tag.h"

#include <string.h>

/* How many of the first bytes are white space, and how many are of a name. */
static size_t blanks(struct bytes text)
{
    size_t count = 0;
    while (count < text.length && is_blank((struct bytes){text.at + count, 1}))
        count++;
    return count;
}

static size_t name_bytes(struct bytes text)
{
    size_t count = 0;
    while (count < text.length && text.at[count] != '=' && !is_blank((struct bytes){text.at + count, 1}))
        count++;
    return count;
}

static struct bytes behind(struct bytes text, size_t count)
{
    return count < text.length ? (struct bytes){text.at + count, text.length - count} : (struct bytes){NULL, 0};
}

/* What stands behind = and a value in quotes. */
static struct bytes behind_value(struct bytes text)
{
    text = behind(text, blanks(text) + 1);
    text = behind(text, blanks(text));
    const uint8_t *end = text.length > 1 ? memchr(text.at + 1, text.at[0], text.length - 1) : NULL;
    return end ? behind(text, (size_t)(end - text.at) + 1) : (struct bytes){NULL, 0};
}

size_t count_in_last_tag(struct bytes text, const char *name)
{
    size_t start = text.length, count = 0;
    while (start > 0 && text.at[start - 1] != '<')
        start--;
    text = behind(text, start);
    text = behind(text, name_bytes(text));
    while ((text = behind(text, blanks(text))).length > 0) {
        size_t length = name_bytes(text);
        count += same_bytes((struct bytes){text.at, length}, text_bytes(name));
        text = behind_value(behind(text, length));
    }
    return count;
}
