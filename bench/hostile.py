#!/usr/bin/env python3
"""Writes the bundles that are made to be slow, which bench/measure counts instructions on.

Usage: bench/hostile.py DIR COLLIDE, at the top of the repository

Each is accepted by the check, but for those whose name says that they are refused or old, and has as many rows as its name says. COLLIDE is the program
bench/collide.c, which finds names that share a hash. The file DIR/hostile lists the bundles, those that bench/tables.py makes
to be slow among them, and DIR/asked those of them whose rows are made to be slow, and some others. Prints how many of the
names that should share a hash do, and exits 1 if not all.
"""
import itertools
import re
import subprocess
import sys
from pathlib import Path

sys.dont_write_bytecode = True
sys.path.insert(0, str(Path(__file__).resolve().parent))

from tables import NONE, NOTHING, SLOW, Numbers, Table

ROWS, POOL, NAMES = 1024, 32768, 3072
BLOCK = 256

# One character of one, two, three and four bytes, and one whose first byte is that of U+FFFE.
CHARACTERS = ("a", "\u00e9", "\u4e00", "\U0001f600")
LIGATURE = "\ufb01"


def made(pool, rows=()):
    table = Table()
    table.pool += pool
    table.rows += rows
    assert len(table.rows) <= ROWS and len(table.pool) <= POOL
    return table


def filled(text, size=POOL):
    """As many of a repeated text's characters as fit."""
    pool = bytearray()
    for k in range(size):
        character = text[k % len(text)].encode()
        if len(pool) + len(character) > size:
            break
        pool += character
    return bytes(pool)


def random_text(seed, size=POOL, characters=CHARACTERS):
    numbers, pool = Numbers(seed), bytearray()
    while len(pool) + 4 <= size:
        pool += characters[numbers.below(len(characters))].encode()
    return bytes(pool)


def random_letters(seed, size=POOL):
    return random_text(seed, size, "abcdefghijklmnopqrstuvwxyz").ljust(size, b"a")


def starts_of(pool):
    """Where characters start, and the end."""
    return [i for i in range(len(pool)) if pool[i] & 0xC0 != 0x80] + [len(pool)]


def elements(pool, places):
    """A root, and elements under it whose prefix, local name and URI stand at these places."""
    table, places = made(pool), list(places)
    for i in range(0, len(places) - 2, 3):
        table.add(1, 0 if i else NONE, *places[i:i + 3])
    return table


def attributes(pool, places):
    """The attributes of one element, which has the last place as its local name, each with three places."""
    table, places = made(pool), list(places)
    table.add(1, NONE, local=places[-1])
    for i in range(0, len(places) - 3, 3):
        table.add(2, 0, *places[i:i + 3])
    return table


def texts(pool, places, local):
    """Texts of an element."""
    table = made(pool)
    table.add(1, NONE, local=local)
    for place in places:
        table.add(3, 0, value=place)
    return table


def values(pool, places):
    """Attributes of an element, with values at these places."""
    table = made(pool)
    table.add(1, NONE, local=table.place("a"))
    for k, place in enumerate(places):
        table.add(2, 0, local=table.place("n%d" % k), value=place)
    return table


# ---- names

def alike(count, pool=POOL):
    """Names of one length and one hash, which overlap, start three bytes apart and are alike from the end over most of it."""
    length = (pool - 3 * count) // 8 * 8 - 80
    return elements(collided("long", count, length), [(3 * i, length) for i in range(count)])


def alike_3072():
    return alike(NAMES)


def alike_300():
    return alike(300)


def alike_192():
    """In a small bundle."""
    return alike(192, 4096)


def alike_short():
    """The same of 256 bytes, each behind the other, but for the last of all, which is longer: what comes before is done twice."""
    pool = bytearray(collided("long", 3000, 256))
    size = len(pool)
    pool += b"b" * 300
    places = [(3 * i, 256) for i in range(3000)]
    table = elements(bytes(pool), places)
    table.add(1, 0, local=(size, 300))
    return table


def lengths(text):
    """Names of as many lengths as there are names, from one start: some 30 kB each."""
    pool = filled(text)
    starts = starts_of(pool)
    return attributes(pool, [(0, starts[-1 - i]) for i in range(NAMES)])


def lengths_mixed():
    """Characters of one to four bytes."""
    pool = random_text(1)
    starts = starts_of(pool)
    return attributes(pool, [(starts[i % 7], starts[-1 - i] - starts[i % 7]) for i in range(NAMES)])


def lengths_two():
    return lengths("\u00e9")


def lengths_ascii():
    return lengths("a")


def lengths_by_twos():
    """One character of one byte and one of two in turn."""
    return lengths("a\u00e9")


def lengths_by_threes():
    return lengths("a\u4e00")


def lengths_by_sevens():
    return lengths("aaaaaa\u00e9")


def lengths_colon():
    """Level 1 names, with a colon behind each block, so that each is good with colons alone."""
    pool = bytearray(b"a" * POOL)
    pool[300::BLOCK] = b":" * len(pool[300::BLOCK])
    table = made(bytes(pool))
    for i in range(ROWS):
        table.add(257, 0 if i else NONE, local=(0, POOL - i))
    return table


def uris_bad_late():
    """URIs of many lengths and places whose first byte that no name may have comes late in a block."""
    pool = bytearray(random_letters(2))
    pool[254::BLOCK] = b"/" * len(pool[254::BLOCK])
    table = made(bytes(pool))
    table.add(1, NONE, local=(0, 3))
    for i in range(ROWS - 1):
        table.add(1, 0, local=(0, 3), uri=(i % 200 + 255, POOL - 1024 - i))
    return table


def equal_long():
    """Equal names of 29,696 bytes, each in a place of its own."""
    length = POOL - NAMES
    return elements(b"a" * POOL, [(i, length) for i in range(NAMES)])


def equal_turns(apart):
    """Equal names at two places in turn, which share a slot of the places that are remembered, if these are so many apart."""
    return elements(b"a" * POOL, [(apart * (i % 2), POOL - apart) for i in range(NAMES)])


def equal_turns_1023():
    return equal_turns(1023)


def equal_turns_1024():
    return equal_turns(1024)


def equal_turns_2047():
    return equal_turns(2047)


def equal_turns_2048():
    return equal_turns(2048)


def groups():
    """Equal names in groups, of twelve lengths near the longest and 256 places each."""
    return [(i // 12, POOL - 256 - i % 12) for i in range(NAMES)]


def equal_groups():
    return elements(b"a" * POOL, groups())


def equal_waste():
    """Such names of characters of one byte and of two, behind others that use up what may be read before names are keyed."""
    pool = filled("a\u00e9")
    waste = [(3 * i, 10920 - 3 * i) for i in range(6)]
    return elements(pool, waste + [(3 * (i // 12), len(pool) - 3 * 256 - 3 * (i % 12)) for i in range(NAMES - 6)])


def same_start():
    """The whole pool and all but its last byte in turn: two names that start at one byte."""
    return elements(b"a" * POOL, [(0, POOL - i % 2) for i in range(NAMES)])


def equal_and_values():
    """Equal names as in equal_long, of elements and of attributes, and values of two-byte characters at the end of the pool."""
    pool = b"a" * (POOL - 1500) + filled("\u00e9", 1500)
    length = POOL - 1500 - NAMES
    places = [(i, length) for i in range(NAMES)]
    table = made(pool)
    for i in range(0, ROWS, 2):
        element = table.add(1, 0 if i else NONE, *places[3 * i:3 * i + 3])
        table.add(2, element, *places[3 * i + 3:3 * i + 6], (POOL - 1500 + 2 * (i % 60), 1300))
    return table


def equal_edges():
    """Equal names whose starts and ends are the last bytes of blocks, as many as there are; many lengths."""
    return elements(b"a" * POOL, edges())


def edges():
    places = [(BLOCK * i - 1, BLOCK * n - 1) for n in range(1, 128) for i in range(1, 128 - n + 1)]
    return sorted(places, key=lambda place: -place[1])[:NAMES]


def other_edges():
    """The same, all different."""
    return elements(random_letters(3), edges())


def edges_of(block):
    """Names at such edges of smaller blocks, in a pool of one letter but for its middle."""
    pool = bytearray(random_letters(4))
    count = POOL // block
    places = [(block * i - 1, block * (count - n) - 1 - (block * i - 1) - 1) for i in range(1, 60) for n in range(1, 60)]
    return elements(bytes(pool), places[:NAMES])


def edges_64():
    return edges_of(64)


def edges_32():
    return edges_of(32)


def one_middle():
    """Names of 29,000 bytes that agree but for one byte in the middle of the pool."""
    pool = bytearray(b"a" * POOL)
    pool[POOL // 2] = ord("b")
    return elements(bytes(pool), [(i, 29000) for i in range(NAMES)])


def all_lengths():
    """Names of one letter, of all lengths from the longest down, from the first byte on."""
    return elements(b"a" * POOL, [(0, POOL - i) for i in range(NAMES)])


def ascii_256():
    """Names of 256 letters that overlap."""
    return elements(random_letters(12), [(i, 256) for i in range(NAMES)])


def four_byte(length):
    pool = random_text(5, characters=[chr(0x10000 + 7919 * k) for k in range(64)])
    return elements(pool, [(4 * i, length) for i in range(NAMES)])


def four_256():
    return four_byte(256)


def four_260():
    return four_byte(260)


def mixed_256():
    """Names of a hundred characters of one to four bytes."""
    pool = random_text(6)
    starts = starts_of(pool)
    return elements(pool, [(starts[i], starts[i + 100] - starts[i]) for i in range(NAMES)])


def mixed_long():
    pool = random_text(7)
    starts = starts_of(pool)
    return elements(pool, [(starts[i], starts[-1 - 7 * i % 1000] - starts[i]) for i in range(NAMES)])


def three_256():
    """Names of 255 bytes, of characters of three."""
    pool = filled("\u4e00\u4e01\u4e03")
    return elements(pool, [(3 * i, 255) for i in range(NAMES)])


def tails():
    """A pool of bytes that only continue a sequence, behind one long name."""
    table = made(b"a" * 300 + b"\x80" * (POOL - 300))
    table.add(1, NONE, local=(0, 300))
    for i in range(ROWS - 1):
        table.add(1, 0, local=(i % 40, 257))
    return table


def tails_half():
    """Half a pool of letters and half of bytes that only continue a sequence; texts of the letters."""
    pool = b"a" * (POOL // 2) + b"\x80" * (POOL // 2)
    return texts(pool, [(0, POOL // 2)] * (ROWS - 1), (0, 1))


def one_hash():
    """Names of seven letters that share a hash."""
    return short_names("65536")


def one_bucket():
    """Names of seven letters that share a bucket of the dictionary."""
    return short_names(buckets())


def short_names(how):
    names = collided("short", NAMES, how).split()
    return elements(b"".join(names), [(7 * i, 7) for i in range(NAMES)])


def buckets():
    """How many the dictionary has, as its sources say."""
    return re.search(r"^const BUCKETS: usize = (\d+);", Path("crates/entries/src/lib.rt").read_text(), re.M).group(1)


def one_hash_late():
    """As many names of one hash as are looked past before names are keyed, asked for in turn, at places that are not remembered."""
    names = collided("short", 32, "65536").split()
    pool = b"".join(names) * (POOL // 7 // 32)
    return elements(pool, [(7 * (i * 37 % (len(pool) // 7)), 7) for i in range(NAMES)])


def long_at_last():
    """Names of up to 256 bytes, and in the last row a longer one: what comes before it is done twice."""
    table = elements(random_letters(8), [(10 * i, 256) for i in range(NAMES - 3)])
    table.add(1, 0, local=(0, 257))
    return table


def refused_at_last():
    """Names as in mixed_long; the last row is refused."""
    table = mixed_long()
    table.rows[-1] = (1, 0, *NOTHING, 0, 0, *NOTHING, *NOTHING)
    return table


# ---- values

def whole(text):
    """Texts whose value is the whole pool."""
    pool = b"a" + filled(text, POOL - 1)
    return texts(pool, [(0, len(pool))] * (ROWS - 1), (0, 1))


def values_two():
    return whole("\u00e9")


def values_mixed():
    pool = b"a" + random_text(9, POOL - 1)
    starts = starts_of(pool)
    return texts(pool, [(starts[i % 50], starts[-1 - i] - starts[i % 50]) for i in range(ROWS - 1)], (0, 1))


def values_ef():
    """Characters whose first byte is that of U+FFFE."""
    return whole(LIGATURE)


def values_ef_bf():
    """Characters whose first two bytes are those of U+FFFE."""
    return whole("\ufffd")


def values_three():
    return whole("\u4e00")


def values_four():
    return whole("\U0001f600")


def values_attributes():
    """Attributes instead of texts."""
    pool = filled("\u00e9", POOL - 5 * ROWS)
    return values(pool, [(0, len(pool))] * (ROWS - 1))


def values_declared():
    """Declarations of long URIs that are no ASCII, each of another length."""
    pool = filled("\u00e9", POOL - 4092)
    table = made(pool)
    for i in range(ROWS - 1):
        table.pool += b"p%03x" % i
    table.add(1, NONE, local=(len(pool), 4))
    for i in range(ROWS - 1):
        table.add(13, 0, local=(len(pool) + 4 * i, 4), value=(0, len(pool) - 2 * i))
    return table


def spoiled(text, bad="\x01"):
    """The whole pool but its last character, which is forbidden and so in no value."""
    pool = b"a" + filled(text, POOL - 4)
    value = len(pool)
    return texts(pool + bad.encode(), [(0, value)] * (ROWS - 1), (0, 1))


def spoiled_ascii():
    return spoiled("b")


def spoiled_ef():
    return spoiled(LIGATURE)


def spoiled_quotes():
    return spoiled("\"")


def spoiled_quotes_ef():
    return spoiled(LIGATURE + "\"", "\ufffe")


def spoiled_between():
    """Forbidden characters all over the pool, and values between them, each asked for many times; the longest come behind."""
    pool = bytearray(b"a" * POOL)
    for i in range(0, POOL // 2, 32):
        pool[i] = 1
    places = [(32 * (i % 500) + 1, 31) for i in range(500)] + [(POOL // 2 + i % 8, POOL // 2 - 8) for i in range(523)]
    return texts(bytes(pool), places, (1, 1))


def spoiled_names():
    """Forbidden characters in URIs alone."""
    pool = b"p" + b"\x01" * 4000 + filled(LIGATURE, POOL - 4001)
    table = made(pool)
    table.add(1, NONE, (0, 1), (0, 1), (1, 4000))
    table.add(13, 0, local=(0, 1), value=(1, 4000))
    for i in range(ROWS - 2):
        table.add(3, 0, value=(4001, len(pool) - 4001))
    table.rows[1] = (3, 0, *NOTHING, *NOTHING, *NOTHING, 4001, 3)
    table.rows[0] = (1, NONE, *NOTHING, 0, 1, *NOTHING, *NOTHING)
    return table


def spoiled_last():
    """The last row alone has the forbidden character in its value."""
    table = spoiled(LIGATURE)
    table.rows[-1] = (3, 0, *NOTHING, *NOTHING, *NOTHING, 0, len(table.pool))
    return table


def quotes_all():
    """Values that are the whole pool, each byte of which is escaped."""
    return whole("\"")


def quotes_small():
    """The same in a small bundle."""
    pool = b"a" + b"\"" * 4095
    return texts(pool, [(0, 4096)] * 63, (0, 1))


def quotes_letters():
    """The same, every second byte escaped."""
    return whole("\"a")


def quotes_seldom():
    return whole("\"" + "a" * 30)


def lines_in_tags():
    """Attributes whose values are line feeds."""
    pool = b"\n" * (POOL - 5 * ROWS)
    return values(pool, [(0, len(pool))] * (ROWS - 1))


def lines_in_texts():
    """Texts of line feeds, which are escaped in tags alone."""
    return whole("\n")


def nothing_escaped():
    """Values that are the whole pool, in which nothing is escaped."""
    return whole("b")


def names_long_text():
    """Elements with one long local name, written twice each."""
    table = made(b"a" * POOL)
    for i in range(ROWS):
        table.add(1, 0 if i else NONE, local=(0, POOL))
    return table


# ---- packing: values get numbers too, and a packed pool of more than 32,768 bytes ends it

def fields(pool, places):
    """Attributes without owners, each with four fields."""
    return made(pool, [(2, NONE, *places[i], *places[i + 1], *places[i + 2], *places[i + 3]) for i in range(0, len(places), 4)])


def fields_everywhere():
    """Equal fields of 28,672 bytes, each in a place of its own."""
    return fields(b"a" * POOL, [(i, POOL - 4 * ROWS) for i in range(4 * ROWS)])


def fields_turns():
    """Equal fields of 30,721 bytes at two places, of one slot: the names at the one and the other in turn, and so the values."""
    return fields(b"a" * POOL, [(2047 * (turn % 2), POOL - 2047) for turn in turns()])


def fields_turns_wide():
    """Equal fields of characters of one byte and of two, at two places of one slot in turn; values start where a block of them does."""
    pool = filled("a\u00e9")
    return fields(pool, [(3 + 1023 * (turn % 2), (len(pool) - 1026) // 3 * 3) for turn in turns()])


def fields_turns_first():
    """The same, but for the values, which stand at the pool's start."""
    table = fields_turns_wide()
    table.rows = [(*row[:8], 0, *row[9:]) for row in table.rows]
    return table


def fields_guessed():
    """Names as in fields_turns_wide; short values, each at the pool's start and then near its end: a byte between them is another."""
    pool = bytearray(filled("a\u00e9"))
    pool[300] = ord("b")
    end = len(pool) // 3 * 3
    values = []
    for group in range(ROWS // 32):
        size = 66 + 3 * group
        values += [(0, size)] + [(end - size - 3 * k - 96 * (group + 1), size) for k in range(31)]
    names = [(303 + 1023 * (i % 2), end - 1326) for i in range(NAMES)]
    return fields(bytes(pool), [place for i, value in enumerate(values) for place in (*names[3 * i:3 * i + 3], value)])


def turns():
    """Counts the names and the values of attributes with four fields each, both from 0 on."""
    return [i // 4 if i % 4 == 3 else 3 * (i // 4) + i % 4 for i in range(4 * ROWS)]


def fields_threes():
    """Equal fields of 29,694 bytes, of characters of one byte and of two, at more places than are remembered."""
    pool = filled("a\u00e9")
    return fields(pool, [(3 * (turn % 1025), len(pool) // 3 * 3 - 3 * 1024) for turn in turns()])


def fields_threes_named():
    """The same, but for the values, which stand at one place."""
    table = fields_threes()
    table.rows = [(*row[:8], 0, row[9]) for row in table.rows]
    return table


def fields_threes_with(values):
    """The same with other values."""
    table = fields_threes()
    table.rows = [(*row[:8], *value) for row, value in zip(table.rows, values)]
    return table


def fields_threes_slot():
    """Values of 29,694 bytes at four places of one slot, which start where blocks do."""
    return fields_threes_with([(3 + 1023 * (i % 4), POOL // 3 * 3 - 3 * 1024) for i in range(ROWS)])


def fields_threes_parts():
    """Values of 3,069 bytes at many places, which start where blocks do."""
    places = [i for i in range(0, POOL - 3072, 3) if i % BLOCK < 8]
    return fields_threes_with([(places[7 * i % len(places)], 3069) for i in range(ROWS)])


def fields_threes_lengths():
    """Values of eleven lengths by turns, at four places of one slot."""
    return fields_threes_with([(3 + 1023 * (i // 11 % 4), 294 - 3 * (i % 11)) for i in range(ROWS)])


def fields_halves():
    """Equal fields of 9,000 bytes at many places of both halves of a pool, which are the same and each repeat themselves at another
    step."""
    half = "\u00e9a".encode() + filled("a\u00e9", POOL // 2 - 4)
    inside = range(3, len(half) - 9000, 3)
    table = fields(half + half, [(inside[turn // 2 % len(inside)] + len(half) * (turn % 2), 9000) for turn in turns()])
    starts = [i + k for k in (0, len(half)) for i in inside if (i + k) % BLOCK < 8]
    values = [3, 3 + len(half)] + [starts[5 * i % len(starts)] for i in range(2, ROWS)]
    table.rows = [(*row[:8], value, 9000) for row, value in zip(table.rows, values)]
    return table


def fields_two():
    """Fields of 16,384 bytes and of one less, each in many places."""
    return fields(b"a" * POOL, [(i // 2 * 7 % 16000, POOL // 2 - i % 2) for i in range(4 * ROWS)])


def fields_eights():
    """Different fields of eight bytes, which fill the packed pool."""
    return fields(b"".join(b"f%07d" % i for i in range(4 * ROWS)), [(8 * i, 8) for i in range(4 * ROWS)])


def fields_one_hash():
    """Different fields of seven letters that share a hash."""
    return fields(*sevens(4 * ROWS, "65536"))


def fields_one_bucket():
    """Different fields of seven letters that share a bucket of the dictionary."""
    return fields(*sevens(4 * ROWS, buckets()))


def sevens(count, how):
    names = collided("short", count, how).split()
    return b"".join(names), [(7 * i, 7) for i in range(count)]


def fields_late():
    """As many fields of one hash as are looked past before names are keyed, at places that are not remembered; the last value is one
    more, so that all that came before is done twice."""
    names = collided("short", 33, "65536").split()
    pool = b"".join(names[:32]) * (POOL // 7 // 32 - 1)
    places = [(7 * (i * 37 % (len(pool) // 7)), 7) for i in range(4 * ROWS - 1)]
    return fields(pool + names[32], places + [(len(pool), 7)])


def values_everywhere():
    """Texts with equal values of 31,744 bytes, each in a place of its own."""
    return texts(b"a" * POOL, [(i, POOL - ROWS) for i in range(1, ROWS)], (0, 1))


def values_everywhere_two():
    """The same of two-byte characters."""
    return texts(b"a" + filled("\u00e9", POOL - 2), [(1 + 2 * i, POOL - 2 * ROWS) for i in range(ROWS - 1)], (0, 1))


def values_turns():
    """The same at two places in turn, of one slot."""
    return texts(b"a" * POOL, [(2047 * (i % 2), POOL - 2047) for i in range(ROWS - 1)], (0, 1))


def values_groups():
    """Equal values in groups, of twelve lengths near 2,700, each in many places."""
    return texts(b"a" * POOL, [(29 * i % 30000, 2700 - i % 12) for i in range(ROWS - 1)], (0, 1))


def values_lengths():
    """Values of all lengths up to 255, which overlap, each in four places."""
    return texts(random_letters(10, 6500) * 5, [(i // 255 * 6500, 1 + i % 255) for i in range(ROWS - 1)], (0, 1))


def values_alike():
    """Values of 24 bytes and one hash, which overlap and are alike from the end."""
    pool = collided("long", ROWS - 1, 24)
    return texts(pool, [(3 * i, 24) for i in range(ROWS - 1)], (0, 1))


def values_one_hash():
    """Values of seven letters that share a hash."""
    return texts(*sevens(ROWS - 1, "65536"), (0, 1))


def fields_small():
    """Different fields of one hash in a small bundle."""
    return fields(*sevens(4 * 64, "65536"))


def values_small():
    """Overlapping values in a small bundle, which come apart to 32,761 bytes."""
    return texts(random_letters(13, 4096), [(i, 520) for i in range(63)], (0, 1))


def values_beyond():
    """Overlapping values of 31 bytes that all fit, and in the last row one that does not."""
    return texts(random_letters(11), [(i, 31) for i in range(ROWS - 2)] + [(0, 2000)], (0, 1))


# ---- doubles

def pairs():
    """Attributes that each bring a local name and a URI."""
    table = made(b"")
    table.add(1, NONE, local=table.place("a"))
    for i in range(ROWS - 1):
        table.add(2, 0, local=table.place("n%d" % i), uri=table.place("u%d" % i))
    return table


def pairs_one_bucket():
    """Attributes whose local names and URIs share a bucket of doubles, behind elements that number the names."""
    table = made(b"")
    names = [table.place("n%d" % i) for i in range(3 * 280)]
    for i in range(0, len(names), 3):
        table.add(1, 0 if i else NONE, *names[i:i + 3])
    for line in collided("doubles", ROWS - len(table.rows), str(len(names))).split(b"\n")[:-1]:
        local, uri = map(int, line.split())
        table.add(2, 0, local=names[local - 1], uri=names[uri - 1])
    return table


def old_pairs_one_bucket():
    """Such attributes, and half of the rows the same ones again, which are dropped."""
    table = pairs_one_bucket()
    first = next(i for i, row in enumerate(table.rows) if row[0] == 2)
    half = (ROWS - first) // 2
    table.rows[first + half:] = table.rows[first:first + half]
    return table


def old_equal_long():
    """One element's attributes and declarations, whose names are equal and of 29,696 bytes, each in a place of its own: all but two
    are dropped."""
    table = made(b"a" * POOL)
    table.add(1, NONE, local=(0, 1))
    for i in range(ROWS - 1):
        table.add(13 if i % 2 else 2, 0, local=(i, POOL - NAMES), value=(i + 7, POOL - NAMES))
    return table


# ---- rows

def by_turns_far():
    """Two elements with many declarations each, and elements below the one and the other in turn."""
    table = made(b"")
    root = table.add(1, NONE, local=table.place("a"))
    ends = []
    for side in "pq":
        ends.append(table.add(1, root, local=table.place("a")))
        for i in range(255):
            table.add(13, ends[-1], local=table.place("%s%d" % (side, i)), value=table.place("u%d" % i))
    while len(table.rows) < ROWS:
        table.add(1, ends[len(table.rows) % 2], local=table.place("a"))
    return table


def by_turns_far_undeclared():
    """The same; the last element's prefix is not declared."""
    table = by_turns_far()
    table.rows[-1] = (1, table.rows[-1][1], *table.place("z"), *table.place("a"), *table.place("uz"), *NOTHING)
    table.rows.pop(-2)
    return table


def by_turns_far_each():
    """The same, each element declares a prefix and has another one of the far element."""
    table = made(b"")
    root = table.add(1, NONE, local=table.place("a"))
    ends = []
    for side in "pq":
        ends.append(table.add(1, root, local=table.place("a")))
        for i in range(200):
            table.add(13, ends[-1], local=table.place("%s%d" % (side, i)), value=table.place("u%d" % i))
    while len(table.rows) + 2 <= ROWS:
        side = len(table.rows) // 2 % 2
        element = table.add(1, ends[side], table.place("%s%d" % ("pq"[side], len(table.rows) % 200)), table.place("a"),
                            table.place("u%d" % (len(table.rows) % 200)))
        table.add(13, element, local=table.place("pq"[side] + "0"), value=table.place("v"))
    return table


def by_turns_far_deep():
    """The same, with chains of elements below the one and the other, a row of each in turn."""
    table = made(b"")
    root = table.add(1, NONE, local=table.place("a"))
    ends = []
    for side in "pq":
        ends.append(table.add(1, root, local=table.place("a")))
        for i in range(255):
            table.add(13, ends[-1], local=table.place("%s%d" % (side, i)), value=table.place("u%d" % i))
    while len(table.rows) < ROWS:
        side = len(table.rows) % 2
        ends[side] = table.add(1, ends[side], local=table.place("a"))
    return table


def by_turns_bare():
    """Two chains of elements that declare nothing, and elements below the ends of both in turn."""
    table = made(b"")
    ends = [table.add(1, NONE, local=table.place("a"))] * 2
    for side in range(2):
        for _ in range(255):
            ends[side] = table.add(1, ends[side], local=table.place("a"))
    while len(table.rows) < ROWS:
        table.add(1, ends[len(table.rows) % 2], local=table.place("a"))
    return table


def by_turns_references():
    """The same of entity references."""
    table = made(b"")
    ends = [table.add(1, NONE, local=table.place("a"))] * 2
    for side in range(2):
        for _ in range(255):
            ends[side] = table.add(5, ends[side])
    while len(table.rows) < ROWS:
        table.add(1, ends[len(table.rows) % 2], local=table.place("a"))
    return table


def equal_by_turns(names, places, declared=None, deep=False):
    """Elements whose prefixes are long names, each declared for itself as a URI at the first one; and rows by turns: two
    chains of elements, or two elements with declarations of prefixes from a place on, and elements below the one and the other in
    turn, or in chains."""
    table = made(b"a" * POOL)

    def add(parent):
        return table.add(1, parent, next(places), next(places), next(places))

    root = add(NONE)
    for name in names:
        table.add(13, root, local=name, value=name)
    ends = [root, root]
    for side in range(2):
        for i in range(255):
            if declared and i > 0:
                table.add(13, ends[side], local=(declared[0], declared[1] - 2 * i - side), value=next(places))
            else:
                ends[side] = add(ends[side])
    while len(table.rows) < ROWS:
        side = len(table.rows) % 2
        element = add(ends[side])
        ends[side] = element if deep else ends[side]
    return table


def equal_names():
    """One name, at many places in turn."""
    return [(0, POOL - NAMES)], ((i % NAMES, POOL - NAMES) for i in itertools.count())


def equal_by_turns_bare():
    return equal_by_turns(*equal_names())


def equal_by_turns_far():
    return equal_by_turns(*equal_names(), declared=(0, 600))


def equal_by_turns_far_deep():
    return equal_by_turns(*equal_names(), declared=(0, POOL), deep=True)


def equal_by_turns_2047():
    return equal_by_turns([(0, POOL - 2047)], ((2047 * (i % 2), POOL - 2047) for i in itertools.count()))


def groups_by_turns():
    """The names of equal_groups; those of a row are of one group."""
    places = ((i // 36 * 3 % 256 + i % 3, POOL - 256 - i // 3 % 12) for i in itertools.count())
    return equal_by_turns([(0, POOL - 256 - i) for i in range(12)], places)


def same_start_by_turns():
    return equal_by_turns([(0, POOL), (0, POOL - 1)], ((0, POOL - i % 2) for i in itertools.count()))


def lengths_and_values():
    """As lengths_two, and each value as long as a name."""
    table = lengths_two()
    table.rows[1:] = [(*row[:8], 0, row[3]) for row in table.rows[1:]]
    return table


def hidden():
    """An element that declares many prefixes for one URI, and inside it one that hides all but the one found last; inside that,
    attributes with the URI and no prefix."""
    table = made(b"")
    outer = table.add(1, NONE, local=table.place("a"))
    inner = table.add(1, outer, local=table.place("a"))
    many = 256
    for i in range(many):
        table.add(13, outer, local=table.place("p%d" % i), value=table.place("u"))
    for i in range(many - 1):
        table.add(13, inner, local=table.place("p%d" % i), value=table.place("v"))
    while len(table.rows) < ROWS:
        table.add(2, inner, local=table.place("n%d" % len(table.rows)), uri=table.place("u"))
    return table


def hidden_first():
    """The same; the one that is not hidden is the first."""
    table = hidden()
    row = next(i for i, row in enumerate(table.rows) if row[0] == 13 and row[1] == 1)
    table.rows[row] = (*table.rows[row][:4], *table.place("p255"), *table.rows[row][6:])
    return table


def hidden_asked():
    """An element that declares many prefixes for one URI, and inside it a chain of elements whose outermost hides them all."""
    table = made(b"")
    outer = table.add(1, NONE, local=table.place("a"))
    inner = table.add(1, outer, local=table.place("a"))
    many = 340
    for element, uri in ((outer, "u"), (inner, "v")):
        for i in range(many):
            table.add(13, element, local=table.place("p%d" % i), value=table.place(uri))
    while len(table.rows) < ROWS:
        inner = table.add(1, inner, local=table.place("a"))
    return table


def hidden_names():
    """A chain of elements with prefixes of one URI, and inside it another chain whose prefixes are the same with another URI, in the
    opposite order."""
    table = made(b"")
    element = NONE
    for uri in "uv":
        for i in range(ROWS // 2):
            element = table.add(1, element, table.place("p%d" % (i if uri == "u" else ROWS // 2 - 1 - i)), table.place("a"),
                                table.place(uri))
    return table


def documents():
    """Documents, and then an element of each: whether it is its document's second one is asked of all rows before it."""
    table = made(b"")
    for i in range(ROWS // 2):
        table.add(9, NONE)
    for i in range(ROWS // 2):
        table.add(1, i, local=table.place("a"))
    return table


def documents_by_turns():
    """Documents and their elements by turns, the element of each standing right behind it."""
    table = made(b"")
    for i in range(ROWS // 2):
        table.add(1, table.add(9, NONE), local=table.place("a"))
    return table


def numbered_scopes():
    """An element that declares NS1, NS2 and so on, and elements inside it that each need the next."""
    table = made(b"")
    root = table.add(1, NONE, local=table.place("a"))
    for i in range(400):
        table.add(13, root, local=table.place("NS%d" % (i + 1)), value=table.place("u%d" % i))
    while len(table.rows) < ROWS - 210:
        element = table.add(1, root, local=table.place("a"))
        table.add(2, element, local=table.place("b"), uri=table.place("v%d" % len(table.rows)))
    return table


def numbered_names():
    """Names NSk that nothing declares, and attributes that each need one."""
    table = made(b"")
    root = table.add(1, NONE, local=table.place("a"))
    for i in range(500):
        table.add(2, root, local=table.place("NS%d" % (i + 1)), uri=table.place("u%d" % i))
    return table


NAMES_AND_VALUES = (alike_3072, alike_300, alike_192, alike_short, lengths_mixed, lengths_two, lengths_and_values,
                    lengths_ascii, lengths_by_twos, lengths_by_threes, lengths_by_sevens, lengths_colon, uris_bad_late,
                    equal_long, equal_turns_1023, equal_turns_1024, equal_turns_2047, equal_turns_2048, equal_groups,
                    equal_waste, same_start, equal_and_values, equal_edges, other_edges, edges_64, edges_32, one_middle,
                    all_lengths, ascii_256, four_256, four_260, mixed_256, mixed_long, three_256, tails, tails_half, one_hash,
                    one_bucket, one_hash_late, long_at_last, refused_at_last, values_two, values_mixed, values_ef,
                    values_ef_bf, values_three, values_four, values_attributes, values_declared, spoiled_ascii, spoiled_ef,
                    spoiled_quotes, spoiled_quotes_ef, spoiled_between, spoiled_names, spoiled_last, quotes_all, quotes_small,
                    quotes_letters, quotes_seldom, lines_in_tags, lines_in_texts, nothing_escaped, names_long_text,
                    fields_everywhere, fields_turns, fields_turns_wide, fields_turns_first, fields_guessed, fields_threes,
                    fields_threes_named, fields_threes_slot, fields_threes_parts, fields_threes_lengths, fields_halves, fields_two, fields_eights,
                    fields_one_hash, fields_one_bucket, fields_late,
                    values_everywhere, values_everywhere_two, values_turns, values_groups, values_lengths, values_alike,
                    values_one_hash, values_beyond, fields_small, values_small)
IN_ROWS = (pairs, pairs_one_bucket, old_pairs_one_bucket, old_equal_long, by_turns_far, by_turns_far_undeclared, by_turns_far_each, by_turns_far_deep, by_turns_bare,
           by_turns_references, equal_by_turns_bare, equal_by_turns_far, equal_by_turns_far_deep, equal_by_turns_2047,
           groups_by_turns, same_start_by_turns, hidden, hidden_first, hidden_asked, hidden_names, numbered_scopes,
           numbered_names, documents, documents_by_turns)
HOSTILE = NAMES_AND_VALUES + IN_ROWS
ASKED = IN_ROWS + (alike_300, alike_192, tails, one_hash, quotes_small, refused_at_last)


# What bench/collide says of the names that it has made: how many share a hash, and of how many.
said = []


def collided(*words):
    """What bench/collide writes."""
    made = subprocess.run([sys.argv[2], *map(str, words)], check=True, stdout=subprocess.PIPE, stderr=subprocess.PIPE)
    said.extend(made.stderr.decode().split("\n")[:-1])
    return made.stdout


def main():
    if len(sys.argv) != 3:
        sys.exit(__doc__)
    with open(sys.argv[1] + "/hostile", "w") as names, open(sys.argv[1] + "/asked", "w") as asked:
        for make in HOSTILE:
            table = make()
            name = "%s-%d" % (make.__name__, len(table.rows))
            table.write("%s/%s" % (sys.argv[1], name))
            for out in (names, asked) if make in ASKED else (names,):
                out.write(name + "\n")
        for make in SLOW:
            names.write("%s-1024\n" % make.__name__)
    for line in said:
        print("names that share a hash: " + line)
    sys.exit(any(len(set(line.split(" of "))) > 1 for line in said))


main()
