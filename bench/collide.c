/* Finds names that share a hash, by the hash of the sources as they stand (crates/hash, compiled by bench/compile), and says
   how many of the names that it made do.
   Usage: collide short COUNT HOW   writes COUNT names of seven letters, a line each, that share a hash (HOW is 65536) or a
                                    bucket (HOW is the number of buckets)
          collide long COUNT LENGTH writes a pool in which COUNT names of LENGTH bytes, that start three bytes apart, share a
                                    hash; all its bytes behind the last start and seven more are one letter
          collide doubles COUNT NAMES writes COUNT pairs of numbers of names up to NAMES, a line each, that share a bucket of
                                    doubles (crates/doubles) as local name and URI of attributes of one element */
#include <stdint.h>
#include <stdio.h>
#include <stdlib.h>
#include <string.h>

typedef struct {
    const void *first;
    size_t length;
} slice;

uint16_t counted_hash(const slice *name);
size_t counted_bucket(const slice *table, const slice *notes, uint16_t local, uint16_t uri);

static uint16_t hash_of(const uint8_t *name, size_t length)
{
    slice given = {name, length};
    return counted_hash(&given);
}

static int short_names(long count, unsigned how)
{
    uint8_t name[] = "aaaaaaa";
    unsigned wanted = hash_of(name, 7) % how;
    while (count > 0) {
        size_t k = 6;
        if (hash_of(name, 7) % how == wanted) {
            puts((char *)name);
            count--;
        }
        while (name[k] == 'z')
            name[k--] = 'a';
        name[k]++;
    }
    return 0;
}

/* The hash goes through a name from its end by eights and mixes the first eight bytes in last, so that of a long name it has
   to be gone through once for all letters that are tried at its start. What is found is tried by the hash itself. */
static uint32_t four(const uint8_t *at)
{
    return at[0] | (uint32_t)at[1] << 8 | (uint32_t)at[2] << 16 | (uint32_t)at[3] << 24;
}

static uint32_t mixed(uint32_t h, const uint8_t *at)
{
    uint64_t product = ((uint64_t)h + four(at)) * 668265263 + (uint64_t)four(at + 4) * 374761393;
    return (uint32_t)(product + (product >> 32));
}

static uint32_t before_last(const uint8_t *name, size_t length)
{
    uint32_t h = (uint32_t)length;
    size_t k;
    for (k = length; k > 8; k -= 8)
        h = mixed(h, name + k - 8);
    return h;
}

static const char letters[] = "abcdefghijklmnopqrstuvwxyzABCDEFGHIJKLMNOPQRSTUVWXYZ_-.0123456789";

enum { FIRST = 53, ALL = 65, TRIES = FIRST * ALL * ALL };

/* Steers the three letters at the start of a name to a hash, from a try on. Answers the try that did it, or TRIES. */
static int steer(uint8_t *name, size_t length, uint16_t wanted, int from)
{
    uint32_t h = before_last(name, length);
    for (; from < TRIES; from++) {
        name[0] = (uint8_t)letters[from % FIRST];
        name[1] = (uint8_t)letters[from / FIRST % ALL];
        name[2] = (uint8_t)letters[from / FIRST / ALL];
        if (mixed(h, name) >> 16 == wanted)
            return from;
    }
    return TRIES;
}

static int long_names(long count, size_t length)
{
    size_t bytes = 3 * (size_t)(count - 1) + length;
    uint8_t *pool = malloc(bytes);
    int *tried = calloc((size_t)count, sizeof *tried);
    uint16_t wanted;
    long i = count - 2, same = 0;
    if (!pool || !tried)
        return 2;
    memset(pool, 'a', bytes);
    wanted = hash_of(pool + 3 * (count - 1), length);
    while (i >= 0) {
        tried[i] = steer(pool + 3 * i, length, wanted, tried[i]);
        if (tried[i] < TRIES) {
            i--;
        } else if (i == count - 2) {
            return 1;
        } else { /* none: another one behind it */
            tried[i++] = 0;
            tried[i]++;
        }
    }
    for (i = 0; i < count; i++)
        same += hash_of(pool + 3 * i, length) == wanted;
    fwrite(pool, 1, bytes, stdout);
    fprintf(stderr, "%ld of %ld\n", same, count);
    return 0;
}

/* The pairs of the bucket that most pairs fall into, by the numbers of the local name and the URI. */
static int doubles(long count, unsigned names)
{
    enum { BUCKETS = 1024, WORDS = 11 };
    static const uint32_t table[2 * WORDS] = {[0] = 1, [1] = UINT32_MAX, [WORDS] = 2};
    static uint16_t notes[64];
    static long found[BUCKETS + 1];
    slice words = {table, 2 * WORDS}, noted = {notes, 64};
    size_t most = 0, bucket;
    for (int pass = 0; pass < 2; pass++)
        for (unsigned local = 1; local <= names; local++)
            for (unsigned uri = 1; uri <= names; uri++) {
                bucket = counted_bucket(&words, &noted, (uint16_t)local, (uint16_t)uri);
                if (pass == 0 && bucket < BUCKETS && ++found[bucket] > found[most])
                    most = bucket;
                if (pass == 1 && bucket == most && count-- > 0)
                    printf("%u %u\n", local, uri);
            }
    return 0;
}

int main(int argc, char **argv)
{
    if (argc == 4 && strcmp(argv[1], "short") == 0)
        return short_names(atol(argv[2]), (unsigned)atol(argv[3]));
    if (argc == 4 && strcmp(argv[1], "long") == 0)
        return long_names(atol(argv[2]), (size_t)atol(argv[3]));
    if (argc == 4 && strcmp(argv[1], "doubles") == 0)
        return doubles(atol(argv[2]), (unsigned)atol(argv[3]));
    fprintf(stderr, "usage: collide short COUNT HOW | long COUNT LENGTH | doubles COUNT NAMES\n");
    return 2;
}
