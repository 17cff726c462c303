#!/usr/bin/env python3
"""Makes bundles, most of which draw one refusal each.

    tests/tool/refused.py FOLDER               writes them there as NUMBER.ntb
    tests/tool/refused.py FOLDER 100           and a hundred of tests/bundle_cases.py beside them
"""
import struct
import sys
from pathlib import Path

NONE = 0xFFFFFFFF


class Bundle:
    """Rows and a pool that grow."""

    def __init__(self):
        self.rows, self.pool = [], b""

    def place(self, text):
        if not text:
            return [0, 0]
        self.pool += text
        return [len(self.pool) - len(text), len(text)]

    def add(self, kind, parent, prefix=b"", name=b"", uri=b"", value=b"", maker=0):
        self.rows.append([kind, parent, *self.place(prefix), *self.place(name), *self.place(uri), *self.place(value), maker])
        return len(self.rows) - 1

    def bytes(self, version=2):
        words = [word for row in self.rows for word in row[:{1: 10, 2: 11}[version]]]
        return b"NTB" + struct.pack("<HBHI", version, 0, len(self.rows), len(self.pool)) + struct.pack(
            f"<{len(words)}I", *words) + self.pool


def session():
    """A root in urn:s, which declares it, and under it p:note in urn:n, which is not declared."""
    made = Bundle()
    root = made.add(1, NONE, b"", b"session", b"urn:s")
    made.add(13, root, value=b"urn:s")
    made.note = made.add(1, root, b"p", b"note", b"urn:n")
    return made


def wide(rows, uri=b""):
    """An element with texts, so many rows in all."""
    made = Bundle()
    root = made.add(1, NONE, b"", b"a", uri)
    for _ in range(rows - 1):
        made.add(3, root)
    return made


def changed(row, word, value):
    made = session()
    made.rows[row][word] = value
    return made


def with_row(*row, **fields):
    made = session()
    made.add(*row, **fields)
    return made


def twice():
    made = session()
    made.add(2, made.note, name=b"id", value=b"1")
    made.add(2, made.note, name=b"id", value=b"2")
    return made


def full_pool():
    """A pool with four bytes of room, and an attribute that needs a new prefix twice."""
    made = Bundle()
    root = made.add(1, NONE, name=b"a")
    made.add(2, root, name=b"b", uri=b"urn:b")
    made.add(2, root, name=b"c", uri=b"urn:c")
    made.add(3, root, value=b"x" * (32768 - 4 - len(made.pool)))
    return made


def outside():
    """An element whose declaration stands around it."""
    made = Bundle()
    root = made.add(1, NONE, name=b"a")
    made.add(13, root, name=b"p", value=b"urn:p")
    made.add(1, root, b"p", b"b", b"urn:p")
    return made


def unread():
    """Names that are read as something else, of every kind: DOM Level 1 among them."""
    made = session()
    made.add(1, 0, name=b"plain")
    made.add(2, made.note, name=b"role", uri=b"urn:roles", value=b"x")
    made.add(257, 0, name=b"old")
    made.add(257, 0, name=b"p:q:r")
    made.add(258, 0, name=b"xmlns:p", value=b"y")
    made.add(2, NONE, name=b"alone", uri=b"urn:alone", value=b"z")
    return made


def odd():
    """Characters that a terminal would act on, in names, URIs and values."""
    made = Bundle()
    root = made.add(1, NONE, "p\u0085".encode(), "a\u202eb".encode(), b"urn:\x1b[31mred\x07")
    made.add(13, root, name="p\u0085".encode(), value=b"urn:\x1b[31mred\x07")
    made.add(2, root, name="\u200bid".encode(), value=b"\x00\x1b]0;title\x07\\\"\n")
    made.add(3, root, value="tab\tline\nend \u2028 \U000e0041 \xe9".encode())
    return made


def plan(prefix=b"note", declared=b"note", parent=2, uri=b"urn:n", kind=13, maker=0):
    """What somebody proposes for the session: another prefix for p:note, and its declaration."""
    made = session()
    made.rows[2][2:4] = made.place(prefix)
    made.rows[2][6:8] = made.place(uri)
    made.rows[2][10] = maker
    made.add(kind, parent, name=declared, value=b"urn:n", maker=5)
    return made


def moved(parent):
    """The session with a text in it, under one of its rows."""
    made = session()
    made.add(13, made.note, name=b"p", value=b"urn:n")
    made.add(3, parent, value=b"x")
    return made


def old():
    """A session from before the check: forbidden and doubled declarations, doubled attributes, and good rows between."""
    made = session()
    made.add(13, made.note, name=b"p")
    made.add(13, made.note, name=b"p", value=b"urn:n")
    made.add(13, made.note, name=b"p", value=b"urn:other")
    made.add(2, made.note, name=b"id", value=b"1")
    made.add(1, 0, b"", b"last", b"urn:s")
    made.add(2, made.note, name=b"id", value=b"2")
    made.add(13, 7, name=b"xmlns", value=b"urn:x")
    made.add(2, made.note, b"p", b"id", b"urn:n", b"3")
    made.add(2, made.note, b"q", b"id", b"urn:n", b"4")
    made.add(3, 7, value=b"kept")
    return made


def makers():
    """A session of three makers: the host's root declares what the host uses; a guest's element declares nothing and has an
    attribute of a third, whose name has no prefix, and a declaration of its own that says something else than its name."""
    made = Bundle()
    root = made.add(1, NONE, b"", b"session", b"urn:s", maker=1)
    made.add(13, root, value=b"urn:s", maker=1)
    note = made.add(1, root, b"p", b"note", b"urn:n", maker=2)
    made.add(2, note, name=b"role", uri=b"urn:roles", value=b"x", maker=4294967295)
    made.add(3, note, value=b"text", maker=2)
    made.add(3, note, value=b" and more", maker=3)
    other = made.add(1, root, b"q", b"other", b"urn:o", maker=2)
    made.add(13, other, name=b"q", value=b"urn:else", maker=3)
    return made


def old_makers():
    """Doubled attributes of two makers."""
    made = makers()
    made.add(2, 2, name=b"role", uri=b"urn:roles", value=b"y", maker=6)
    made.add(13, 2, name=b"p", maker=6)
    return made


def old_and_damaged():
    made = old()
    made.add(1, 0, name=b"1st")
    return made


def dead():
    """The session with bytes in its pool that no row uses, and names that stand there twice."""
    made = session()
    made.add(1, 0, b"p", b"note", b"urn:n")
    made.pool += b"no row uses this any more"
    made.add(3, made.note, value=b"urn:n")
    return made


def parts_of_each_other():
    """Values that are parts of each other: each ends where the pool does."""
    made = wide(1000)
    made.pool += b"x" * 32000
    for row in range(1, 1000):
        made.rows[row][8:10] = [row, len(made.pool) - row]
    return made


def two():
    """Two trees in one bundle, and an attribute without an owner."""
    made = Bundle()
    made.add(1, NONE, name=b"a")
    made.add(2, NONE, name=b"b", value=b"1")
    made.add(1, NONE, name=b"c")
    return made


def cut(length):
    return session().bytes()[:length]


MADE = {
    "good": lambda: session().bytes(),
    "1": lambda: wide(1025).bytes(),
    "2": lambda: with_row(3, 99, value=b"lost").bytes(),
    "3": lambda: changed(2, 7, 500).bytes(),
    "4": lambda: with_row(1, 0, name=b"1st").bytes(),
    "5": lambda: with_row(1, 0, b"q", b"b").bytes(),
    "6": lambda: with_row(13, 2, name=b"p").bytes(),
    "7": lambda: twice().bytes(),
    "9": lambda: with_row(257, 0, name=b"p:old").bytes(),
    "10": lambda: wide(1024, b"urn:a").bytes(),
    "11": lambda: full_pool().bytes(),
    "12": lambda: changed(1, 4, 3).bytes(),
    "13": lambda: with_row(3, 0, name=b"x", value=b"named").bytes(),
    "14": lambda: with_row(3, 0, value=b"caf\xe9").bytes(),
    "20": lambda: with_row(8, 0, value=b"a comment").bytes(),
    "21": lambda: with_row(3, 0, value=b"bell \x07").bytes(),
    "23": lambda: session().bytes(),
    "24": lambda: outside().bytes(),
    "30": lambda: b"PTB" + session().bytes()[3:],
    "31": lambda: b"NTB\3\0" + session().bytes()[5:],
    "32": lambda: cut(100),
    "plan": lambda: plan().bytes(),
    "plan-41": lambda: plan(declared=b"", parent=0).bytes(),
    "plan-42": lambda: plan(declared=b"old", parent=0, kind=258).bytes(),
    "plan-43": lambda: plan(uri=b"urn:m").bytes(),
    "plan-43-added": lambda: plan(kind=2).bytes(),
    "plan-43-maker": lambda: plan(maker=9).bytes(),
    "plan-44": lambda: plan(declared=b"n").bytes(),
    "inner": lambda: moved(2).bytes(),
    "outer": lambda: moved(0).bytes(),
    "old": lambda: old().bytes(),
    "old-4": lambda: old_and_damaged().bytes(),
    "makers": lambda: makers().bytes(),
    "old-makers": lambda: old_makers().bytes(),
    "version-1": lambda: session().bytes(1),
    "version-1-old": lambda: old().bytes(1),
    "version-1-makers": lambda: makers().bytes(1),
    "version-1-32": lambda: b"NTB\1\0" + session().bytes()[5:],
    "dead": lambda: dead().bytes(),
    "parts": lambda: parts_of_each_other().bytes(),
    "two": lambda: two().bytes(),
    "unread": lambda: unread().bytes(),
    "odd": lambda: odd().bytes(),
    "empty": lambda: Bundle().bytes(),
}


def main():
    folder = Path(sys.argv[1] if len(sys.argv) > 1 else ".")
    for name, make in MADE.items():
        (folder / f"{name}.ntb").write_bytes(make())
    if len(sys.argv) > 2:
        sys.dont_write_bytecode = True
        sys.path.insert(0, str(Path(__file__).resolve().parent.parent))
        import bundle_cases
        for number in range(int(sys.argv[2])):
            (folder / f"case{number}.ntb").write_bytes(bundle_cases.case(1, number).bundle)


if __name__ == "__main__":
    main()
