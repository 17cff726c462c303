"""Bundles to compare two readings on, each made from a seed and its number alone: those of the tables of
tests/generator.py, a quarter of them of version 1 and without makers, and a third of all damaged.

    case(seed, number) -> Case
"""
from random import Random
from struct import pack
from typing import NamedTuple

import generator


class Case(NamedTuple):
    """A bundle, the table and pool that it was made of, and what is asked: each question is a row, a prefix and a URI;
    each room is a number of words more than a result needs, or less, and a number of bytes; so many words and bytes are a
    little room; addresses are shifted by some bytes."""
    kind: str
    bundle: bytes
    table: list
    pool: bytes
    questions: list
    rooms: list
    little: tuple
    shift: int


ROW_WORDS = {1: 10, 2: 11}


def bytes_of(table, pool):
    """A bundle of the table and pool, also where they are no whole rows or too many."""
    return b"NTB" + pack("<HBHI%dI" % len(table), 2, 0, len(table) // ROW_WORDS[2], len(pool), *table) + pool


def old_bytes_of(table, pool):
    """A bundle of version 1: the rows without their makers."""
    words = [word for at, word in enumerate(table) if at % ROW_WORDS[2] < ROW_WORDS[1]]
    return b"NTB" + pack("<HBHI%dI" % len(words), 1, 0, len(table) // ROW_WORDS[2], len(pool), *words) + pool


def row_bytes(bundle):
    """The bytes that a row takes in it, by its version."""
    return 4 * ROW_WORDS.get(int.from_bytes(bundle[3:5], "little"), ROW_WORDS[2])


def other_byte(random, bundle):
    """One byte of the header is another."""
    at = random.randrange(12)
    bundle[at] = random.choice((0, 1, 2, 3, 255, bundle[at] ^ 1, (bundle[at] + 1) % 256, random.randrange(256)))


def cut(random, bundle):
    length = random.choice((random.randint(0, 13), random.randint(0, len(bundle)), len(bundle) - 1))
    del bundle[length:]


def longer(random, bundle):
    count = random.choice((1, 1, 2, 4, 40, 44, random.randint(1, 60)))
    bundle += bytes(random.choice((b"\0", b"a", b"NTB")) * count)[:count]


def other_lengths(random, bundle):
    """A row more or less; the pool makes up for it, or not."""
    rows, length = int.from_bytes(bundle[6:8], "little"), int.from_bytes(bundle[8:12], "little")
    more = random.choice((-2, -1, -1, 1, 1, 2, 256, -rows))
    rows, length = rows + more, length - row_bytes(bundle) * more + random.choice((0, 0, 0, row_bytes(bundle) * more, 1))
    if 0 <= rows < 2**16 and 0 <= length < 2**32:
        bundle[6:12] = rows.to_bytes(2, "little") + length.to_bytes(4, "little")


def other_version(random, bundle):
    """The other version, with as many rows; the pool makes up for it, or not."""
    rows, length, before = int.from_bytes(bundle[6:8], "little"), int.from_bytes(bundle[8:12], "little"), row_bytes(bundle)
    bundle[3:5] = b"\1\0" if bundle[3:5] == b"\2\0" else b"\2\0"
    length += random.choice((0, rows, rows)) * (before - row_bytes(bundle))
    if 0 <= length < 2**32:
        bundle[8:12] = length.to_bytes(4, "little")


def turned(random, bundle):
    """A number with its bytes the other way around."""
    first, end = random.choice(((0, 3), (3, 5), (6, 8), (8, 12), (12, 16), (16, 20)))
    bundle[first:end] = bundle[first:end][::-1]


def other_word(random, bundle):
    """Some byte behind the header is another, or four are."""
    if len(bundle) > 12:
        at = random.randrange(12, len(bundle))
        bundle[at:at + 1] = bytes([random.choice((0, 1, 2, 13, 255, random.randrange(256)))])
    if len(bundle) >= 16 and random.random() < 0.3:
        at = random.randrange(12, len(bundle) - 3, 4)
        bundle[at:at + 4] = random.getrandbits(32).to_bytes(4, "little")


def noise(random, bundle):
    """A few bytes, of which the first may be right."""
    start = bytes(bundle[:random.choice((0, 3, 5, 6, 12))])
    bundle[:] = start + bytes(random.choices(b"NTB\0\1\2a", k=random.randint(0, 20)))


DAMAGES = (other_byte, other_byte, cut, cut, longer, other_lengths, other_lengths, other_version, turned, other_word, other_word,
           noise)


def case(seed, number):
    made = generator.case(seed, number)
    random = Random("%d/%d of bundles" % (seed, number))
    old = random.random() < 0.25
    bundle, kind, table = bytearray((old_bytes_of if old else bytes_of)(made.table, made.pool)), made.kind, made.table
    if old:
        table = [word if at % ROW_WORDS[2] < ROW_WORDS[1] else 0 for at, word in enumerate(table)]
    if random.random() < (0.1 if kind == "limits" else 0.33):
        damage = random.choice(DAMAGES)
        damage(random, bundle)
        kind = damage.__name__
        if len(bundle) >= 12 and random.random() < 0.2:
            random.choice(DAMAGES)(random, bundle)
    rooms = [(random.choice((0, 0, 1, 10, 11, 27)), random.choice((0, 0, 1, 7, 100))),
             (random.choice((0, 0, -1, -10, -11, -12)), random.choice((-1, -1, -2, -3, -4, -5, -44, -45, -100))),
             (random.choice((-1, -11, -110)), random.choice((0, -1, -1000)))]
    little = random.choice((0, 1, 10, 11, 12, 22, 33)), random.choice((0, 1, 11, 12, 13, 52, 56, 200))
    return Case("%s, version 1" % kind if old else kind, bytes(bundle), table, made.pool, made.questions, rooms, little,
                random.randrange(8))
