#!/usr/bin/env python3
"""Writes pairs of bundles, an original and what is proposed for it, which bench/measure counts instructions on.

Usage: bench/proposals.py DIR, which has the bundles of bench/tables.py

Of NAME the original is DIR/NAME.original and the proposal DIR/NAME.proposal; all are accepted. DIR/ordinary_pairs lists those for
`ordinary` of 1,000 rows, DIR/hostile_pairs those that are made to be slow.
"""
import struct
import sys
from pathlib import Path

sys.dont_write_bytecode = True
sys.path.insert(0, str(Path(__file__).resolve().parent))

from tables import NONE, Numbers, Table

ROWS, POOL = 1024, 32768


def split(bundle):
    """The rows of a bundle, each a list of words without its maker, and its pool."""
    count = struct.unpack_from("<H", bundle, 6)[0]
    return [list(struct.unpack_from("<10I", bundle, 12 + 44 * row)) for row in range(count)], bundle[12 + 44 * count:]


def table_of(rows, pool):
    table = Table()
    table.rows += [tuple(row) for row in rows]
    table.pool += pool
    assert len(table.rows) <= ROWS and len(table.pool) <= POOL
    return table


def anew(rows, pool, once):
    """The same rows over a pool that is made anew: each text once, or each field by itself."""
    made, places, moved = bytearray(), {}, []
    for row in rows:
        words = list(row)
        for at in (2, 4, 6, 8):
            text = bytes(pool[words[at]:words[at] + words[at + 1]])
            if text and not (once and text in places):
                places[text] = len(made)
                made += text
            words[at] = places[text] if text else 0
        moved.append(words)
    return table_of(moved, made)


def texts(place):
    """An element and texts under it, each with a value at a place."""
    return [(1, NONE, 0, 0, 0, 1, 0, 0, 0, 0)] + [(3, 0, 0, 0, 0, 0, 0, 0, *place(row)) for row in range(1, ROWS)]


def ownerless(place):
    """Attributes without owners, whose four fields stand at four places."""
    return [(2, NONE, *(word for field in range(4) for word in place(4 * row + field))) for row in range(ROWS)]


def value_elsewhere():
    """1,023 texts share a value of 30,000 bytes, which stands at another place in the proposal."""
    pool = b"a" * POOL
    return table_of(texts(lambda row: (0, 30000)), pool), table_of(texts(lambda row: (1, 30000)), pool)


def value_everywhere():
    """The same, at another place for each row."""
    pool = b"a" * POOL
    return table_of(texts(lambda row: (0, 30000)), pool), table_of(texts(lambda row: (row, 30000)), pool)


def fields_everywhere():
    """Attributes without owners with four fields of 28,000 bytes, all equal, at 4,096 places, and at others in the proposal."""
    pool = b"a" * POOL
    size = POOL - 4 * ROWS
    return (table_of(ownerless(lambda at: (at, size)), pool), table_of(ownerless(lambda at: (4 * ROWS - 1 - at, size)), pool))


def names_shifted():
    """Attributes without owners with 3,072 different names of 29,000 bytes that overlap and 1,024 such values, over a pool that is
    shifted by a byte."""
    size = 29000

    def place(at, shift):
        row, field = divmod(at, 4)
        return 3 * row + field % 3 + shift, size

    numbers = Numbers(8)
    pool = bytes(97 + numbers.below(26) for _ in range(POOL - 1)) + b"a"
    shifted = b"a" + pool[:-1]
    return (table_of(ownerless(lambda at: place(at, 0)), pool), table_of(ownerless(lambda at: place(at, 1)), shifted))


def names_at_their_places():
    """The same names over the same pool."""
    original = names_shifted()[0]
    return original, original


def main():
    if len(sys.argv) != 2:
        sys.exit(__doc__)
    folder = Path(sys.argv[1])
    original = (folder / "ordinary-1000").read_bytes()
    rows, pool = split(original)
    pairs = {"ordinary_pairs": {"same_pool": (table_of(rows, pool), table_of(rows, pool)),
                                "each_text_once": (table_of(rows, pool), anew(rows, pool, True)),
                                "each_field_anew": (table_of(rows, pool), anew(rows, pool, False))},
             "hostile_pairs": {make.__name__: make() for make in (value_elsewhere, value_everywhere, fields_everywhere,
                                                                  names_shifted, names_at_their_places)}}
    for listed, made in pairs.items():
        (folder / listed).write_text("".join(name + "\n" for name in made))
        for name, (first, second) in made.items():
            first.write(folder / (name + ".original"))
            second.write(folder / (name + ".proposal"))


main()
