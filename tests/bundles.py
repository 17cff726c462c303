"""A second reading of session bundles, over the second reading of the rules: what a bundle is, and what each function of
the C interface answers and leaves in its outputs. It is written from the rules, without a look at the library, but for
packing, salvage and XML text (reading.py).

A bundle, a pool and a query are strings of bytes, a table is a sequence of words, a row a number.

    check(bundle) -> (number, row, word)
    check_proposal(bundle, proposal) -> (number, row, word)
    uri_of_prefix(bundle, row, query) -> (number, row, word, found, offset, length)
    prefix_of_uri(bundle, row, query) -> (number, row, word, found, offset, length)
    default_uri(bundle, row) -> (number, row, word, found, offset, length)
    default_is(bundle, row, query) -> (number, row, word, yes): by asking for the default URI and comparing
    in_scope_uri(bundle, row, query) -> (number, row, word, found, offset, length)
    in_scope_prefix(bundle, row, query) -> (number, row, word, found, offset, length)
    normalize(bundle, out_size) -> (number, row, word, bytes, out)
    pack(bundle, out_size) -> (number, row, word, bytes, out)
    salvage(bundle, out_size, list_words) -> (number, row, word, bytes, dropped, out, list)
    read(bundle, out_words, out_bytes) -> (number, row, word, rows, bytes, out_table, out_pool)
    write(table, pool, out_size) -> (number, row, word, bytes, out)
    write_xml(bundle, row, out_size) -> (number, row, word, bytes, out)
"""
import struct
from functools import lru_cache

import reading

# Little-endian throughout. Version 2 is written; version 1, whose rows have no maker, is read too.
MARK = b"NTB"
VERSION = 2
ROW_WORDS = {1: 10, 2: reading.WIDTH}
ORDER = "<"

# What was found.
FOUND = {"none": 0, "place": 1, "xml": 2, "xmlns": 3}


class Refused(Exception):
    """A refusal, with its number, row and word."""

    def __init__(self, number, row=0, word=0):
        self.refusal = reading.Refusal(number, row, word)


class Bytes:
    """Bytes that are read from the front. Where they end too early, they draw a refusal."""

    def __init__(self, all):
        self.all, self.at = all, 0

    def take(self, count, refusal):
        if len(self.all) - self.at < count:
            raise Refused(refusal)
        self.at += count
        return self.all[self.at - count:self.at]

    def number(self, kind, refusal):
        """A number of one (B), two (H) or four (I) bytes."""
        return struct.unpack(ORDER + kind, self.take(struct.calcsize(ORDER + kind), refusal))[0]


def mark_and_version(bytes):
    """30: wrong mark. 31: other version. Bytes that end before the mark is whole draw 30, before the version is whole 31,
    later 32."""
    if bytes.take(len(MARK), 30) != MARK:
        raise Refused(30)
    version = bytes.number("H", 31)
    if version not in ROW_WORDS:
        raise Refused(31)
    return version


def zero_byte(bytes):
    """32: a zero byte that isn't zero."""
    if bytes.number("B", 32) != 0:
        raise Refused(32)


def nothing_after(bytes):
    """32: lengths that disagree."""
    if bytes.at != len(bytes.all):
        raise Refused(32)


@lru_cache(maxsize=1)
def split(bundle):
    """The table and the pool that the bytes stand for: the mark, the version of two bytes, a zero byte, the row count of
    two bytes, the pool length of four, the rows, each as long as the version has them, the pool, and nothing after."""
    bytes = Bytes(bundle)
    version = mark_and_version(bytes)
    zero_byte(bytes)
    rows = bytes.number("H", 32)
    length = bytes.number("I", 32)
    words = bytes.take(4 * ROW_WORDS[version] * rows, 32)
    pool = bytes.take(length, 32)
    nothing_after(bytes)
    return with_makers(struct.unpack("%s%dI" % (ORDER, ROW_WORDS[version] * rows), words), version), pool


def with_makers(words, version):
    """A table of the words that a version has: rows of version 1 get maker 0."""
    if version != 1:
        return words
    return tuple(word for at in range(0, len(words), ROW_WORDS[1]) for word in (*words[at:at + ROW_WORDS[1]], 0))


def join(table, pool):
    """The bytes of a bundle: the writer writes only version 2."""
    return MARK + struct.pack("%sHBHI%dI" % (ORDER, len(table)), VERSION, 0, len(table) // reading.WIDTH, len(pool),
                              *table) + pool


# The check and the lookups.

def check(bundle):
    """30 to 32 come before the numbers of a table."""
    try:
        return reading.check(*split(bundle))
    except Refused as refused:
        return refused.refusal


def check_proposal(bundle, proposal):
    """What is no bundle fails the check."""
    return reading.judge_proposal(reading.Refusal(*check(bundle)), *opened(bundle), reading.Refusal(*check(proposal)), *opened(proposal))


def opened(bundle):
    """The table and the pool, or nothing of what is no bundle."""
    try:
        return split(bundle)
    except Refused:
        return (), b""


def found(bundle, lookup, *asked):
    """What a lookup finds that answers no built-in."""
    try:
        *refusal, offset, length = lookup(*split(bundle), *asked)
    except Refused as refused:
        return (*refused.refusal, FOUND["none"], 0, 0)
    return (*refusal, FOUND["place" if length else "none"], offset, length)


def prefix_of_uri(bundle, row, query):
    return found(bundle, reading.prefix_of_uri, row, query)


def default_uri(bundle, row):
    return found(bundle, reading.default_uri, row)


def default_is(bundle, row, query):
    try:
        return reading.default_is(*split(bundle), row, query)
    except Refused as refused:
        return (*refused.refusal, False)


def found_or_built_in(bundle, lookup, row, query):
    """What a lookup finds that answers a place, a built-in or none; the place is 0, 0 for the last two."""
    try:
        *refusal, kind, offset, length = lookup(*split(bundle), row, query)
    except Refused as refused:
        return (*refused.refusal, FOUND["none"], 0, 0)
    return (*refusal, FOUND[kind], offset, length)


def uri_of_prefix(bundle, row, query):
    return found_or_built_in(bundle, reading.uri_of_prefix, row, query)


def in_scope_uri(bundle, row, query):
    return found_or_built_in(bundle, reading.in_scope_uri, row, query)


def in_scope_prefix(bundle, row, query):
    return found_or_built_in(bundle, reading.in_scope_prefix, row, query)


# Outputs. Success answers how much of each output is used, tables in rows, a refusal 0. Refused outputs and room left over
# are all zero.

def refuse_if(refusal):
    if refusal.number != 0:
        raise Refused(*refusal)


def written(bundle, out_size):
    """33, last of all, says that the output bytes are too few."""
    if len(bundle) > out_size:
        raise Refused(33)
    return (*reading.NOT_REFUSED, len(bundle), bundle + bytes(out_size - len(bundle)))


def normalize(bundle, out_size):
    """Normalization, into a bundle."""
    return result_written(reading.normalized, bundle, out_size)


def pack(bundle, out_size):
    """Packing, into a bundle."""
    return result_written(reading.packed, bundle, out_size)


def result_written(making, bundle, out_size):
    """For a written bundle 10 and 11 speak only of 1,024 and 32,768."""
    try:
        refusal, tree = making(*split(bundle))
        refuse_if(refusal)
        refuse_if(reading.too_much(tree, reading.WIDTH * reading.MOST_ROWS, reading.MOST_BYTES))
        return written(join(reading.words_of(tree), tree.pool), out_size)
    except Refused as refused:
        return (*refused.refusal, 0, bytes(out_size))


def salvage(bundle, out_size, list_words):
    """A bundle with the whole pool. 10, which speaks of the list, comes before 33."""
    try:
        table, pool = split(bundle)
        refusal, tree, drops = reading.salvaged(table, pool)
        refuse_if(refusal)
        refuse_if(reading.Refusal(10 if reading.short_list(drops, list_words) else 0))
        *used, out = written(join(reading.words_of(tree), tree.pool), out_size)
    except Refused as refused:
        return (*refused.refusal, 0, 0, bytes(out_size), (0,) * list_words)
    return (*used, len(drops), out, reading.listed(drops, list_words))


def write(table, pool, out_size):
    try:
        refuse_if(reading.check(table, pool))
        return written(join(table, pool), out_size)
    except Refused as refused:
        return (*refused.refusal, 0, bytes(out_size))


def too_short(table, pool, out_words, out_bytes):
    """The reader's outputs draw 10 and 11 when short; a table counts its whole rows."""
    if len(table) // reading.WIDTH > out_words // reading.WIDTH:
        raise Refused(10)
    if len(pool) > out_bytes:
        raise Refused(11)


def read(bundle, out_words, out_bytes):
    try:
        table, pool = split(bundle)
        refuse_if(reading.check(table, pool))
        too_short(table, pool, out_words, out_bytes)
    except Refused as refused:
        return (*refused.refusal, 0, 0, (0,) * out_words, bytes(out_bytes))
    return (*reading.NOT_REFUSED, len(table) // reading.WIDTH, len(pool), table + (0,) * (out_words - len(table)),
            pool + bytes(out_bytes - len(pool)))


def write_xml(bundle, row, out_size):
    """30 to 32, and then what is answered of the table and pool."""
    try:
        return reading.write_xml(*split(bundle), row, out_size)
    except Refused as refused:
        return (*refused.refusal, 0, bytes(out_size))
