#!/usr/bin/env python3
"""Writes small trees, grafted of several makers' nodes, that other libraries can hold too: one document or element at the
top, names and URIs of ASCII. They are those of tests/generator.py that are so.

Usage: bench/grafts.py FILE COUNT

Each bundle stands behind its length, a little-endian word.
"""
import sys
from pathlib import Path
from random import Random
from struct import pack

sys.dont_write_bytecode = True
sys.path.insert(0, str(Path(__file__).resolve().parent.parent / "tests"))

import bundle_cases
import generator
import reading

generator.PREFIXES = (b"p", b"qq", b"rstu", b"NS1", b"NS2")
generator.URIS = (b"urn:a", b"urn:b", b"urn:b:c", b"http://e/", b"http://e/x")
generator.NAMES = (b"a", b"id", b"lang")
HELD = (1, 2, 3, 4, 7, 8, 9, 13)


def tree(random):
    builder = generator.Builder(random)
    generator.grow(builder, generator.ManyMakers(random), random.randint(3, 25))
    return builder.table(), bytes(builder.pool)


def suits(table, pool):
    """Accepted, with an element, and one row without a parent."""
    types = table[::reading.WIDTH]
    return (all(type in HELD for type in types) and table[1::reading.WIDTH].count(reading.NONE) == 1 and 1 in types
            and reading.check(table, pool)[0] == 0)


def main():
    if len(sys.argv) != 3:
        sys.exit(__doc__)
    random, left = Random(1), int(sys.argv[2])
    with open(sys.argv[1], "wb") as out:
        while left:
            table, pool = tree(random)
            if suits(table, pool):
                bundle = bundle_cases.bytes_of(table, pool)
                out.write(pack("<I", len(bundle)) + bundle)
                left -= 1


main()
