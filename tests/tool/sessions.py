"""Sessions of six nodes that are cut from six files and grafted into each other: what they should hold, by expanded names,
and what is read from their text.

    files = [Source(path, noemathu) ...]
    plan = planned(choose, files)             which node of which file, under which node of the session
    expected(plan)                            the tree, of what Python's expat reads in the files
    by_noemathu(plan, noemathu, folder)       the text that the command makes: cut, graft, normalize, xml; and what it mended
    wrong_names(expected, text)               how many names, values and texts libxml2 reads otherwise

A tree is a list: URI, local name, attributes by URI and local name, children, which are trees and texts.
"""
import json
import subprocess
import sys
from pathlib import Path
from xml.parsers import expat

sys.path.insert(0, str(Path(__file__).resolve().parent.parent))
import parsers  # noqa: E402

# What has no XML text is left out, by both sides.
READING = ["--no-comments", "--no-instructions", "--no-cdata"]
SEPARATOR = "\x01"


class Trouble(Exception):
    """A command that ended with another status than 0."""


def ran(words, **more):
    done = subprocess.run(words, stdout=subprocess.PIPE, stderr=subprocess.PIPE, **more)
    if done.returncode != 0:
        raise Trouble(f"{' '.join(map(str, words))}: status {done.returncode}: {done.stderr.decode(errors='replace').strip()}")
    return done.stdout


def split(name):
    uri, _, local_name = name.rpartition(SEPARATOR)
    return uri, local_name


def parsed(data):
    """The tree of a text, by expat."""
    parser = expat.ParserCreate(None, SEPARATOR)
    parser.ordered_attributes = parser.buffer_text = True
    root, path = [], []

    def start(name, attributes):
        node = [*split(name), {split(key): value for key, value in zip(attributes[::2], attributes[1::2])}, []]
        (path[-1][3] if path else root).append(node)
        path.append(node)

    parser.StartElementHandler = start
    parser.EndElementHandler = lambda name: path.pop()
    parser.CharacterDataHandler = lambda text: path[-1][3].append(text)
    parser.Parse(data, True)
    return root[0]


def elements(tree):
    """The elements of a tree, in the order of the text."""
    yield tree
    for child in tree[3]:
        if isinstance(child, list):
            yield from elements(child)


def copied(tree):
    return [*tree[:2], dict(tree[2]), [copied(child) if isinstance(child, list) else child for child in tree[3]]]


def rows_of(noemathu, file):
    """The rows of a file's elements, in the order of the text."""
    lines = ran([noemathu, "list", "--json", *READING, file]).decode().splitlines()
    return [row["row"] for row in map(json.loads, lines) if row["kind"] == "element"]


class Source:
    """A file, its elements as expat reads them, and the rows that the command gives them. The text that the command writes of
    it must be read as the file is."""

    def __init__(self, path, noemathu):
        self.path = Path(path)
        self.elements = list(elements(parsed(self.path.read_bytes())))
        self.rows = rows_of(noemathu, path)
        self.kind = tuple(self.elements[0][:2])
        if len(self.rows) != len(self.elements):
            raise Trouble(f"{path}: {len(self.rows)} elements, and expat has {len(self.elements)}")
        if wrong_names(self.elements[0], ran([noemathu, "xml", *READING, path])) != (0, 0):
            raise Trouble(f"{path}: it is read as something else when it was read and written")


def size(tree):
    return 1 + len(tree[2]) + sum(size(child) if isinstance(child, list) else 1 for child in tree[3])


def chosen(choose, files, count):
    """Files of as many kinds as there are, by the names of their outermost elements."""
    kinds = {}
    for file in files:
        kinds.setdefault(file.kind, []).append(file)
    names = choose.sample(sorted(kinds), min(count, len(kinds)))
    return [choose.choice(kinds[names[number % len(names)]]) for number in range(count)]


def planned(choose, files, nodes=6, most=140):
    """Six files, a node of each that is not too large, and for all but the first a node of the session to stand under:
    the number of an element in the order of the text at that time."""
    plan = []
    count = 0
    for file in chosen(choose, files, nodes):
        fitting = [number for number, node in enumerate(file.elements) if size(node) <= most]
        number = choose.choice(fitting)
        plan.append((file, number, choose.randrange(count) if count else None))
        count += len(list(elements(file.elements[number])))
    return plan


def expected(plan):
    session = None
    for file, number, under in plan:
        node = copied(file.elements[number])
        if session is None:
            session = node
        else:
            list(elements(session))[under][3].append(node)
    return session


def by_noemathu(plan, noemathu, folder, bare=True):
    """The text, by way of the command, and how many names would be read as something else before normalization. Where guests
    come bare, all depends on it."""
    session, how = Path(folder) / "session.ntb", ["--bare"] if bare else []
    for file, number, under in plan:
        node = f"{file.path}#{file.rows[number]}"
        if under is None:
            ran([noemathu, "cut", *how, *READING, node, "-o", session])
        else:
            row = rows_of(noemathu, session)[under]
            ran([noemathu, "graft", *how, *READING, session, node, "--under", str(row), "-o", session])
    audit = subprocess.run([noemathu, "audit", "--json", session], stdout=subprocess.PIPE, stderr=subprocess.DEVNULL)
    ran([noemathu, "normalize", session, "-o", session])
    ran([noemathu, "audit", session])
    return ran([noemathu, "xml", session]), audit.stdout.count(b"\n")


def events(tree):
    """A tree as tests/parsers.py has them, without declarations."""
    attributes = {(uri.encode(), name.encode()): value.encode() for (uri, name), value in tree[2].items()}
    yield "start", tree[0].encode(), tree[1].encode(), attributes
    for child in tree[3]:
        if isinstance(child, list):
            yield from events(child)
        else:
            yield "text", child.encode()
    yield ("end",)


def read(text):
    """What libxml2 reads in a text, without declarations; None if it refuses it."""
    found = parsers.libxml2(text)
    return None if found is None else [event[:4] for event in found]


def wrong_names(tree, text):
    """How many elements and attributes, and how many of values and texts, are read as something else. A text that is
    refused, or has other nodes, is wrong in all of them."""
    meant, found = parsers.joined(events(tree)), read(text)
    names = sum(1 + len(event[3]) for event in meant if event[0] == "start")
    if found is None or [event[0] for event in found] != [event[0] for event in meant]:
        return names, 0
    wrong = others = 0
    for one, other in zip(meant, found):
        if one[0] == "start":
            wrong += one[1:3] != other[1:3]
            wrong += len(set(one[3]) - set(other[3]))
            others += sum(value != other[3].get(key, value) for key, value in one[3].items())
        else:
            others += one != other
    return wrong, others


def names_in(tree):
    return sum(1 + len(node[2]) for node in elements(tree))
