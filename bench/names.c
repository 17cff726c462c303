/* Compares two names, so many times, and prints whether they were found equal.
   Usage: names CALL NAMES LENGTH TIMES
     CALL   same: by the comparison alone, names::same, which bench/compile has compiled;
            prefix: the URI of an element and the one that a lookup asks about;
            check: the URIs of two attributes of one element, which have the same local name
     NAMES  equal, or which byte is the only one that differs: last or first; or shorter: the second is without its last
            byte */
#include <noemathu.h>
#include <stdbool.h>
#include <stdio.h>
#include <stdlib.h>
#include <string.h>

enum { MOST = 16000 };

/* A slice as Rattle hands it on. */
typedef struct {
    const uint8_t *bytes;
    size_t length;
} slice;

bool counted_same(const slice *a, const slice *b);

static uint8_t name[MOST], other[MOST], bundle[NOEMATHU_BUNDLE_MOST];
static size_t length, other_length, bundle_length;

static void put(uint32_t number, size_t bytes)
{
    for (; bytes > 0; bytes--, number >>= 8)
        bundle[bundle_length++] = (uint8_t)number;
}

/* A row without a value; the pool begins with `pa`, and behind that stand the URIs. */
static void put_row(uint32_t type, uint32_t parent, uint32_t prefix_length, size_t uri, size_t bytes)
{
    uint32_t words[NOEMATHU_ROW_WORDS] = {type, parent, 0, prefix_length, 1, 1, (uint32_t)uri, (uint32_t)bytes};
    for (size_t i = 0; i < NOEMATHU_ROW_WORDS; i++)
        put(words[i], 4);
}

static void put_bytes(const uint8_t *bytes, size_t count)
{
    memcpy(bundle + bundle_length, bytes, count);
    bundle_length += count;
}

static void make_names(const char *names)
{
    static const char head[] = "http://www.example.org/";
    memset(name, 'x', length);
    memcpy(name, head, length < sizeof head - 1 ? length : sizeof head - 1);
    memcpy(other, name, length);
    other_length = length - (strcmp(names, "shorter") == 0);
    if (strcmp(names, "last") == 0)
        other[length - 1] ^= 1;
    if (strcmp(names, "first") == 0)
        other[0] ^= 1;
}

/* The bundle that a call is about: one element with the name, or one with two attributes that have a name each. */
static void make_bundle(bool attributes)
{
    put('N' | 'T' << 8 | 'B' << 16 | NOEMATHU_BUNDLE_VERSION << 24, 4);
    put(0, 2);
    put(attributes ? 3 : 1, 2);
    put((uint32_t)(2 + length + (attributes ? other_length : 0)), 4);
    if (attributes) {
        put_row(NOEMATHU_ELEMENT, NOEMATHU_NONE, 0, 0, 0);
        put_row(NOEMATHU_ATTRIBUTE, 0, 0, 2, length);
        put_row(NOEMATHU_ATTRIBUTE, 0, 0, 2 + length, other_length);
    } else {
        put_row(NOEMATHU_ELEMENT, NOEMATHU_NONE, 1, 2, length);
    }
    put_bytes((const uint8_t *)"pa", 2);
    put_bytes(name, length);
    if (attributes)
        put_bytes(other, other_length);
}

/* Whether the names were found equal; -1 for a refusal that should not be. */
static int same(void)
{
    slice a = {name, length}, b = {other, other_length};
    return counted_same(&a, &b);
}

static int prefix(void)
{
    noemathu_found found = noemathu_prefix_of_uri(bundle, bundle_length, 0, other, other_length);
    return found.refusal.number ? -1 : found.found == NOEMATHU_PLACE;
}

static int check(void)
{
    noemathu_refusal refusal = noemathu_check(bundle, bundle_length);
    if (refusal.number == NOEMATHU_REFUSED_DOUBLE)
        return refusal.row == 2 ? 1 : -1;
    return refusal.number ? -1 : 0;
}

static const struct {
    const char *name;
    int (*run)(void);
} calls[] = {{"same", same}, {"prefix", prefix}, {"check", check}};

int main(int argc, char **argv)
{
    int (*run)(void) = NULL, answer = -1;
    for (size_t c = 0; argc == 5 && c < sizeof calls / sizeof *calls; c++)
        if (strcmp(argv[1], calls[c].name) == 0)
            run = calls[c].run;
    length = run ? (size_t)atol(argv[3]) : 0;
    if (length < 1 || length > MOST) {
        fprintf(stderr, "usage: names CALL NAMES LENGTH TIMES\n");
        return 2;
    }
    make_names(argv[2]);
    make_bundle(run == check);
    for (long n = atol(argv[4]); n > 0; n--)
        answer = run();
    printf("%d\n", answer);
    return 0;
}
