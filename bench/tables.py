#!/usr/bin/env python3
"""Writes the bundles that bench/measure counts instructions and bytes of stack on.

Usage: bench/tables.py DIR

The rows of a table for normalization are those of its result: the table is as much shorter as that adds rows.
The tables are the same in every run: the generator is seeded, and uses only its own arithmetic. A hundred different
trees (`grown`) stand in one file, each behind its length, a little-endian word. The rows are by six makers, some rows by each in
turn. DIR/version1 gets the tables that the check, the lookups and normalization are counted on as bundles of version 1.
"""
import os
import struct
import sys

NONE = 4294967295
ROW_WORDS = {1: 10, 2: 11}
NOTHING = (0, 0)
URIS = ["http://www.example.org/" + name for name in ("orders", "parts", "people", "2026/schema")]
PREFIXES = ["o", "p", "per", "s"]
WORDS = ["order", "item", "part", "name", "address", "city", "note", "price", "quantity", "customer", "id", "date",
         "lang", "class", "href", "type", "unit"]


class Numbers:
    """Numbers that only look random: a linear congruential generator."""

    def __init__(self, seed):
        self.state = seed

    def below(self, n):
        self.state = (self.state * 6364136223846793005 + 1442695040888963407) % 2**64
        return (self.state >> 33) % n


def maker(row):
    return 1 + row // 20 % 6


class Table:
    """Rows without their makers, which are told by the rows' numbers."""

    def __init__(self, letters=None):
        self.rows, self.pool, self.places, self.letters = [], bytearray(), {}, letters or {}

    def place(self, text):
        """Where the pool holds the text, in the table's letters, which is put there once."""
        text = text.translate(self.letters)
        if text not in self.places:
            self.places[text] = (len(self.pool), len(text.encode()))
            self.pool += text.encode()
        return self.places[text]

    def add(self, kind, parent, prefix=NOTHING, local=NOTHING, uri=NOTHING, value=NOTHING):
        self.rows.append((kind, parent, *prefix, *local, *uri, *value))
        return len(self.rows) - 1

    def bundle(self, version=2):
        words = [word for i, row in enumerate(self.rows) for word in (*row, maker(i))[:ROW_WORDS[version]]]
        return b"NTB" + struct.pack("<HBHI%dI" % len(words), version, 0, len(self.rows), len(self.pool), *words) + self.pool

    def write(self, path, version=2):
        with open(path, "wb") as out:
            out.write(self.bundle(version))


def start(table):
    """A document, its element, and that element's declarations."""
    document = table.add(9, NONE)
    root = table.add(1, document, table.place(PREFIXES[0]), table.place("orders"), table.place(URIS[0]))
    for prefix, uri in zip(PREFIXES, URIS):
        table.add(13, root, local=table.place(prefix), value=table.place(uri))
    return root


def add_attribute(table, numbers, owner, word):
    value = table.place("value%d" % numbers.below(200))
    if numbers.below(3) == 0:
        k = numbers.below(4)
        table.add(2, owner, table.place(PREFIXES[k]), table.place(word), table.place(URIS[k]), value)
    else:
        table.add(2, owner, local=table.place(word), value=value)


def ordinary(rows, letters=None):
    """Elements with prefixes and up to three attributes, texts, now and then a declaration or a comment."""
    table, numbers = Table(letters), Numbers(1)
    elements = [start(table)]
    while len(table.rows) < rows:
        parent = elements[-1 - numbers.below(min(8, len(elements)))]
        what = numbers.below(100)
        if what < 35:
            k = numbers.below(4)
            element = table.add(1, parent, table.place(PREFIXES[k]), table.place(WORDS[numbers.below(17)]), table.place(URIS[k]))
            elements.append(element)
            first = numbers.below(17)
            for i in range(numbers.below(4)):
                add_attribute(table, numbers, element, WORDS[(first + i) % 17])
        elif what < 38:
            table.add(13, elements[-1], local=table.place("d%d" % len(table.rows)), value=table.place(URIS[numbers.below(4)]))
        elif what < 41:
            table.add(8, parent, value=table.place("a comment"))
        else:
            table.add(3, parent, value=table.place("text %d" % numbers.below(500)))
    del table.rows[rows:]
    return table


def cyrillic(rows):
    """As ordinary, each letter one of two bytes; digits, spaces and marks stay."""
    return ordinary(rows, {ord("a") + i: 0x430 + i for i in range(26)})


def accent(rows):
    """As ordinary, and one character of two bytes, in the last row."""
    table = ordinary(rows)
    table.rows[-1] = (8, table.rows[-1][1], *NOTHING, *NOTHING, *NOTHING, *table.place("caf\u00e9"))
    return table


def apart(rows):
    """Elements first; then, element by element and round after round, their attributes."""
    table, numbers = Table(), Numbers(2)
    root = start(table)
    elements = [root] + [table.add(1, root, local=table.place(WORDS[numbers.below(17)])) for _ in range(rows // 4)]
    turn = 0
    while len(table.rows) < rows:
        add_attribute(table, numbers, elements[turn % len(elements)], "%s%d" % (WORDS[numbers.below(17)], turn // len(elements)))
        turn += 1
    return table


def one_owner(rows):
    """All attributes at one element, with names of one length that differ in the last byte read."""
    table = Table()
    root = start(table)
    while len(table.rows) < rows:
        table.add(2, root, local=table.place("attribute%04d" % len(table.rows)))
    return table


def texts(rows):
    """Texts under one element."""
    table = Table()
    root = start(table)
    while len(table.rows) < rows:
        table.add(3, root, value=table.place("text"))
    return table


def dead(rows):
    """As ordinary, over a pool of which seven eighths are names that no row has any more."""
    table = ordinary(rows)
    pool, moved = bytearray(), {NOTHING: NOTHING}
    for offset, length in sorted(table.places.values()):
        pool += (b"gone%d-" % offset * length)[:7 * length]
        moved[offset, length] = len(pool), length
        pool += table.pool[offset:offset + length]
    table.rows = [(*row[:2], *(word for at in (2, 4, 6, 8) for word in moved[row[at:at + 2]])) for row in table.rows]
    table.pool = pool
    return table


def parts(rows):
    """Elements and texts by turns, whose names and values are parts of each other: packed, they come apart."""
    table, numbers = Table(), Numbers(9)
    root = start(table)
    offset = len(table.pool)
    table.pool += bytes(97 + numbers.below(26) for _ in range(2 * rows))
    element = root
    while len(table.rows) < rows:
        at = offset + len(table.rows)
        if len(table.rows) % 2:
            element = table.add(1, root, local=(at, 8 + numbers.below(8)))
        else:
            table.add(3, element, value=(at, 16 + numbers.below(16)))
    return table


def old(rows, mended=False):
    """Elements with two attributes and two declarations each; at one element in five one of each may not stand where it does."""
    table, numbers = Table(), Numbers(10)
    root = start(table)
    while len(table.rows) + 5 <= rows:
        k = numbers.below(4)
        element = add_element(table, numbers, root, k)
        conflict = numbers.below(5) == 0 and not mended
        for word in ("id", "id" if conflict else "lang"):
            table.add(2, element, local=table.place(word), value=table.place("value%d" % numbers.below(200)))
        table.add(13, element, local=table.place("x"), value=table.place(URIS[k]))
        table.add(13, element, local=table.place("y"), value=NOTHING if conflict else table.place(URIS[k]))
    return fill(table, root, rows)


def mended(rows):
    """The same with rows that may stand there."""
    return old(rows, True)


def long_names(rows):
    """Names that fill the pool."""
    table = Table()
    root = start(table)
    while len(table.rows) < rows:
        table.add(1, root, local=table.place("element-%s-%04d" % ("x" * 18, len(table.rows))))
    return table


def one_uri(rows):
    """Attributes of one element and one URI that fills the pool, each with a local name of its own of three letters."""
    table = Table()
    names = ["".join(chr(ord("a") + k // 26**i % 26) for i in range(3)) for k in range(rows - 1)]
    root = table.add(1, NONE, local=table.place(names[0]))
    uri = table.place("u" * (32768 - 3 * len(names)))
    for name in names:
        table.add(2, root, local=table.place(name), uri=uri)
    return table


def long_parts(rows, length, middle):
    """Elements with names of one length, each a byte further in the pool, which holds one letter alone but in its middle."""
    table = Table()
    table.pool += b"a" * (length + rows)
    table.pool[(length + rows) // 2] = ord(middle)
    root = table.add(1, NONE, local=(0, length))
    while len(table.rows) < rows:
        table.add(1, root, local=(len(table.rows), length))
    return table


def overlapping(rows):
    """Names of 15,000 bytes that overlap, each alike to the others but for a byte in the middle."""
    return long_parts(rows, 15000, "b")


def equal_names(rows):
    """Names of 15,000 bytes that are all equal, each in a place of its own."""
    return long_parts(rows, 15000, "a")


def chain(rows):
    """A chain of elements without names in a namespace below an element that declares four prefixes."""
    table = Table()
    element = start(table)
    while len(table.rows) < rows:
        element = table.add(1, element, local=table.place("part"))
    return table


def texts_of(rows, line, length):
    """Texts of some length under one element, each somewhere in 24,000 bytes of repeated lines."""
    table = Table()
    root = start(table)
    offset = len(table.pool)
    table.pool += (line * (24000 // len(line) + 1)).encode()[:24000]
    while len(table.rows) < rows:
        table.add(3, root, value=(offset + 29 * len(table.rows) % (24000 - length), length))
    return table


def long_texts(rows):
    """Texts of 1,000 bytes, of which none is escaped."""
    return texts_of(rows, "The quick brown fox jumps over the lazy dog. ", 1000)


def prose(rows):
    """Texts of 1,000 bytes, of which one in 31 is escaped."""
    return texts_of(rows, "The \"quick\" brown fox jumps over the lazy dog & then he sleeps in the shadow of an old tree. ", 1000)


def escapes(rows):
    """Texts of 100 bytes, of which every second is escaped."""
    return texts_of(rows, "a&b<c>d\"e\r", 100)


def quotes(rows):
    """Texts of 100 bytes, of which every one is escaped."""
    return texts_of(rows, "\"", 100)


def tagged(rows):
    """Elements with four attributes each, whose values have 18 bytes, of which one is escaped."""
    table, numbers = Table(), Numbers(7)
    root = start(table)
    while len(table.rows) + 5 <= rows:
        element = add_element(table, numbers, root, numbers.below(4))
        for word in ("id", "type", "href", "lang"):
            table.add(2, element, local=table.place(word), value=table.place("%04d & twelve more" % numbers.below(500)))
    return fill(table, root, rows)


def add_element(table, numbers, parent, k):
    return table.add(1, parent, table.place(PREFIXES[k]), table.place(WORDS[numbers.below(17)]), table.place(URIS[k]))


def add_prefixed(table, owner, word, prefix, uri):
    """An attribute with a URI; no prefix where it is empty."""
    table.add(2, owner, table.place(prefix) if prefix else NOTHING, table.place(word), table.place(uri), table.place("value"))


def fill(table, parent, rows):
    while len(table.rows) < rows:
        table.add(3, parent, value=table.place("text"))
    return table


def typical(rows):
    """A tree of elements, four prefixes declared at its root, two attributes an element; one element in ten has a
    prefix that is not declared, one attribute in ten a prefix that is not, for a URI that is in scope."""
    table, numbers, added = Table(), Numbers(3), 0
    elements = [start(table)]
    while len(table.rows) + added + 4 <= rows:
        parent, k = elements[-1 - numbers.below(min(8, len(elements)))], numbers.below(4)
        if numbers.below(10) == 0:
            added += 1
            element = table.add(1, parent, table.place("q%d" % added), table.place("extra"), table.place("urn:extra:%d" % added))
        else:
            element = add_element(table, numbers, parent, k)
        elements.append(element)
        table.add(2, element, local=table.place("id"), value=table.place("value%d" % numbers.below(200)))
        add_prefixed(table, element, "type", "z" if numbers.below(10) == 0 else PREFIXES[k], URIS[k])
    return fill(table, elements[0], rows - added)


def grown(rows, seed):
    """A tree as typical ones are, another one for each seed: elements with a prefix, in the default namespace or in none, some
    with declarations of their own, up to three attributes, and texts; one name in ten to repair."""
    table, numbers, added = Table(), Numbers(seed), 0
    elements = [start(table)]
    table.add(13, elements[0], value=table.place(URIS[numbers.below(4)]))
    while len(table.rows) + added + 8 <= rows:
        parent, what = elements[-1 - numbers.below(min(8, len(elements)))], numbers.below(20)
        if what < 5:
            table.add(3, parent, value=table.place("text %d" % numbers.below(500)))
            continue
        if what == 5:
            added += 1
            element = table.add(1, parent, table.place("q%d" % added), table.place("extra"), table.place("urn:extra:%d" % added))
        elif what == 6:
            added += 1
            element = table.add(1, parent, local=table.place(WORDS[numbers.below(17)]))
        elif what < 10:
            added += 1
            element = table.add(1, parent, NOTHING, table.place(WORDS[numbers.below(17)]), table.place(URIS[numbers.below(4)]))
        else:
            element = add_element(table, numbers, parent, numbers.below(4))
        elements.append(element)
        if numbers.below(20) == 0:
            table.add(13, element, local=table.place(PREFIXES[numbers.below(4)]), value=table.place(URIS[numbers.below(4)]))
        first = numbers.below(17)
        for i in range(numbers.below(4)):
            if numbers.below(10) == 0:
                added += 1
                add_prefixed(table, element, WORDS[(first + i) % 17], "z", URIS[numbers.below(4)])
            else:
                add_attribute(table, numbers, element, WORDS[(first + i) % 17])
    return table


def deep(rows):
    """A chain of elements, four prefixes declared at its root; a prefix on every element and on its attribute."""
    table, numbers = Table(), Numbers(4)
    element = start(table)
    while len(table.rows) + 2 <= rows:
        element = add_element(table, numbers, element, numbers.below(4))
        k = numbers.below(4)
        add_prefixed(table, element, "type", PREFIXES[k], URIS[k])
    return fill(table, element, rows)


def wide(rows):
    """One root, its children with two attributes each."""
    table, numbers = Table(), Numbers(5)
    root = start(table)
    while len(table.rows) + 3 <= rows:
        element = add_element(table, numbers, root, numbers.below(4))
        table.add(2, element, local=table.place("id"), value=table.place("value%d" % numbers.below(200)))
        k = numbers.below(4)
        add_prefixed(table, element, "type", PREFIXES[k], URIS[k])
    return fill(table, root, rows)


def askers(table, parent, added, rows):
    """Elements with an attribute of the shadowed URI, which each add a declaration."""
    while len(table.rows) + added + 3 <= rows:
        element = table.add(1, parent, local=table.place("item"))
        add_prefixed(table, element, "type", "", SHADOWED)
        added += 1
    return fill(table, parent, rows - added)


SHADOWED = "http://www.example.org/shadowed"


def shadowed(rows):
    """Nested elements that declare the same four prefixes, the outer half for one URI, the inner half for others;
    inside them, attributes with that one URI."""
    table = Table()
    element, depth = table.add(9, NONE), rows // 10
    for i in range(depth):
        element = table.add(1, element, local=table.place("part"))
        for prefix in PREFIXES:
            uri = SHADOWED if i < depth // 2 else "http://www.example.org/part%04d" % i
            table.add(13, element, local=table.place(prefix), value=table.place(uri))
    return askers(table, element, 0, rows)


def shadowed_once(rows):
    """One element declares many prefixes for one URI, one inside it all of them for another; then as before."""
    table = Table()
    outer = table.add(1, NONE, local=table.place("outer"))
    inner = table.add(1, outer, local=table.place("inner"))
    for element, uri in ((outer, SHADOWED), (inner, "http://www.example.org/nearer00")):
        for i in range(rows // 4):
            table.add(13, element, local=table.place("p%03d" % i), value=table.place(uri))
    return askers(table, inner, 0, rows)


def numbered(rows):
    """Attributes of one element, each with a URI of its own and no prefix, which each add a declaration."""
    table = Table()
    root = table.add(1, NONE, local=table.place("root"))
    for i in range((rows - 1) // 2):
        add_prefixed(table, root, "type", "", "http://www.example.org/n%d" % i)
    return fill(table, root, rows - (rows - 1) // 2)


def references(rows):
    """Entity references in each other, as many as half the rows; elements with prefixes under the innermost."""
    table, numbers = Table(), Numbers(6)
    parent = start(table)
    while len(table.rows) < rows // 2:
        parent = table.add(5, parent)
    while len(table.rows) < rows:
        add_element(table, numbers, parent, numbers.below(4))
    return table


def by_turns(rows, chains):
    """Chains of elements below one root, one row of each chain after the other, so that no two elements in row order lie in
    each other. Each element declares a prefix of its own and has the one that its chain's first element declares."""
    table = Table()
    ends = [start(table)] * chains
    turn = 0
    while len(table.rows) + 2 <= rows:
        k, level = turn % chains, turn // chains
        uri = "http://www.example.org/chain%d" % k
        ends[k] = table.add(1, ends[k], table.place("c%d" % k), table.place("part"), table.place(uri))
        prefix, declared = ("c%d" % k, uri) if level == 0 else ("l%d" % level, URIS[level % 4])
        table.add(13, ends[k], local=table.place(prefix), value=table.place(declared))
        turn += 1
    return table


def by_turns_deep(rows):
    return by_turns(rows, 2)


def by_turns_wide(rows):
    return by_turns(rows, 22)


def in_each_other(rows, body, declared):
    """Rows in each other below one element, of these types in turn; the last row is always an element. The names of the
    elements below have a prefix, so that the default URI is looked for further. What is asked for is at the top: the prefix in the top
    element's own name, or, if it is to be declared there, with the default namespace and the prefix of the others."""
    table, last = Table(), rows - 1
    other, asked = ((table.place(PREFIXES[k]), table.place("part"), table.place(URIS[k])) for k in (0, 1))
    row = table.add(1, NONE, NOTHING if declared else asked[0], *asked[1:])
    if declared:
        for prefix, uri in ((NOTHING, asked[2]), (asked[0], asked[2]), (other[0], other[2])):
            table.add(13, row, local=prefix, value=uri)
    while len(table.rows) < rows:
        kind = body[len(table.rows) % len(body)] if len(table.rows) < last else 1
        row = table.add(kind, row, *(other if kind == 1 else ()))
    return table


def elements_own(rows):
    return in_each_other(rows, (1,), False)


def elements_declared(rows):
    return in_each_other(rows, (1,), True)


def references_own(rows):
    return in_each_other(rows, (5,), False)


def references_declared(rows):
    return in_each_other(rows, (5,), True)


def both_own(rows):
    return in_each_other(rows, (1, 5), False)


def both_declared(rows):
    return in_each_other(rows, (1, 5), True)


CHECKED = (ordinary, cyrillic, accent, apart, one_owner, texts, long_names)
SLOW = (one_uri, overlapping, equal_names, by_turns_deep, by_turns_wide)
PACKED = (dead, parts)
SALVAGED = (old, mended)
ASKED = (chain,)
WRITTEN = (long_texts, prose, escapes, quotes, tagged)
NORMALIZED = (typical, deep, wide, shadowed, shadowed_once, numbered, references)
DEEPEST = (elements_own, elements_declared, references_own, references_declared, both_own, both_declared)


def main():
    if len(sys.argv) != 2:
        sys.exit(__doc__)
    os.makedirs(sys.argv[1] + "/version1", exist_ok=True)
    for make in CHECKED + PACKED + SALVAGED + ASKED + WRITTEN + NORMALIZED:
        for rows in (250, 500, 1000):
            make(rows).write("%s/%s-%d" % (sys.argv[1], make.__name__, rows))
            if make in CHECKED + ASKED + NORMALIZED:
                make(rows).write("%s/version1/%s-%d" % (sys.argv[1], make.__name__, rows), 1)
    for make in (ordinary, typical):
        make(10).write("%s/%s-10" % (sys.argv[1], make.__name__))
        make(10).write("%s/version1/%s-10" % (sys.argv[1], make.__name__), 1)
    with open("%s/typical-trees" % sys.argv[1], "wb") as out:
        for seed in range(100):
            bundle = grown(1000, 1000 + seed).bundle()
            out.write(struct.pack("<I", len(bundle)) + bundle)
    for make in CHECKED[:1] + SALVAGED[:1] + ASKED + WRITTEN[4:] + NORMALIZED + SLOW[-2:] + DEEPEST:
        make(64).write("%s/%s-64" % (sys.argv[1], make.__name__))
    for make in SLOW + DEEPEST:
        make(1024).write("%s/%s-1024" % (sys.argv[1], make.__name__))


if __name__ == "__main__":
    main()
