"""Tables to compare two readings on, each made from a seed and its number alone.

    case(seed, number) -> Case

The kinds, from common to rare: grafted trees, whose names and declarations come from several makers; typical trees, of
one maker; damaged ones; plain ones, of elements, attributes, declarations and texts alone; old ones, with declarations and
attributes that may not stand where they do; wild ones, whose names keep no rule; random words; tables at the limits. Which
maker a row names does not depend on its names: each table has a few, and every row is any of them.
"""
from random import Random
from typing import NamedTuple

NONE = 4294967295
WIDTH = 11
MOST_ROWS = 1024
MOST_BYTES = 32768
XML_URI = b"http://www.w3.org/XML/1998/namespace"
XMLNS_URI = b"http://www.w3.org/2000/xmlns/"

# Mostly of different lengths, since an answer may be no more than a length. Some are parts of others.
PREFIXES = (b"p", b"qq", b"rstu", b"NS1", b"NS2", b"NS10x", b"\xc3\xa9t\xc3\xa9ou")
URIS = (b"U", b"u:", b"urn", b"urn:", b"urn:w", b"http://e/", b"http://e/x", b"\x00\xc3\xbf 7 bytes", b'u?"a"\t&<b>\r\n')
# The last begins with a character that XML does not allow there.
NAMES = (b"a", b"id", b"lang", b"xml", b"xmlns", b"_b.-1") * 5 + (b"\xe2\x82\xac\xf0\x90\x80\x80", b"\xc2\xb7b")
# Most may stand in XML text, some only as references.
VALUES = (b"", b"value") * 4 + (
    b'a&b<c>d"e', b"&amp;&lt;&#9;", b"\t \n \r \r\n", b"]]>", b"'\x7f\xc2\x85\xe2\x80\xa8", b"\xf0\x9f\x98\x80 & more",
    b"\xef\xbf\xbd\xee\x80\x80", b"\xf0\x9f\xbf\xbe", b"\xef\xbf\xbe", b"x\xef\xbf\xbf", b"\x00", b"\x0b\x1f")
WHOLE_NAMES = (b"p:a", b":", b"a", b"xmlns", b"xmlns:p", b"id")
# Of any size.
MAKERS = (0, 0, 1, 2, 3, 13, 255, 256, 65536, 2**31, NONE - 1, NONE)


class Case(NamedTuple):
    """A table and what is asked of it: each question is a row, a prefix and a URI; each room is a number of words and of
    bytes more than the result needs, or less."""
    kind: str
    table: list
    pool: bytes
    questions: list
    rooms: list


class Builder:
    def __init__(self, random):
        self.random, self.rows, self.pool, self.taken = random, [], bytearray(), set()
        self.makers = random.sample(MAKERS, random.choice((1, 2, 2, 3, 6)))

    def place(self, text):
        """A place that holds the text: one that is there, or a new one."""
        if not text:
            return 0, 0
        at = -1
        if self.random.random() < 0.7:
            at = self.pool.find(text) if self.random.random() < 0.5 else self.pool.rfind(text)
        if at < 0:
            at = len(self.pool)
            self.pool += text
        return at, len(text)

    def add(self, type, parent, prefix=b"", local_name=b"", uri=b"", value=b""):
        fields = [word for text in (prefix, local_name, uri, value) for word in self.place(text)]
        return self.put([type, parent, *fields])

    def put(self, words):
        """A row of these words, by one of the makers."""
        self.rows.append([*words, self.random.choice(self.makers)])
        return len(self.rows) - 1

    def free(self, *key):
        """Whether the key was not taken yet; it is now."""
        fresh = key not in self.taken
        self.taken.add(key)
        return fresh

    def table(self):
        return [word for row in self.rows for word in row]


class OneMaker:
    """The names of a tree of one maker: a prefix has one URI, everywhere."""

    def __init__(self, random):
        self.random = random
        self.bindings = list(zip(random.sample(PREFIXES, 4), random.choices(URIS, k=4)))

    def element(self):
        prefix, uri = self.random.choice(self.bindings)
        return (prefix, uri) if self.random.random() < 0.8 else (b"", self.random.choice((b"", b"", uri)))

    def attribute(self):
        if self.random.random() < 0.05:
            return b"xml", XML_URI
        return self.random.choice(self.bindings) if self.random.random() < 0.5 else (b"", b"")

    def declaration(self):
        if self.random.random() < 0.1:
            return b"", self.random.choice((b"", self.bindings[0][1]))
        return self.random.choice(self.bindings)


class ManyMakers:
    """Names and declarations that need not go together, and are legal each by itself."""

    def __init__(self, random):
        self.random = random
        self.prefixes = random.sample(PREFIXES, random.randint(1, 4))
        self.uris = random.sample(URIS, random.randint(1, 4))

    def element(self):
        chance = self.random.random()
        if chance < 0.15:
            return b"", b""
        if chance < 0.18:
            return b"xml", XML_URI
        return self.random.choice((b"", *self.prefixes)), self.random.choice(self.uris)

    def attribute(self):
        chance = self.random.random()
        if chance < 0.15:
            return b"", b""
        if chance < 0.22:
            return self.random.choice((b"", b"xml", *self.prefixes)), XML_URI
        return self.random.choice((b"", b"", *self.prefixes)), self.random.choice(self.uris)

    def declaration(self):
        chance = self.random.random()
        if chance < 0.25:
            return b"", self.random.choice((b"", *self.uris))
        if chance < 0.28:
            return b"xml", XML_URI
        return self.random.choice(self.prefixes), self.random.choice(self.uris)


class NoRule:
    """Names and declarations that may break every rule."""

    def __init__(self, random):
        self.random = random

    def element(self):
        return (self.random.choice((b"", b"", b"xml", b"xmlns", *PREFIXES)),
                self.random.choice((b"", XML_URI, XMLNS_URI, *URIS, *URIS)))

    attribute = declaration = element


class OldMakers(ManyMakers):
    """Few names and declarations, of which some are illegal."""

    def __init__(self, random):
        super().__init__(random)
        self.prefixes, self.uris = self.prefixes[:2], self.uris[:2]

    def declaration(self):
        chance = self.random.random()
        if chance < 0.6:
            return super().declaration()
        if chance < 0.8:
            return self.random.choice(self.prefixes), b""
        return self.random.choice(((b"xmlns", self.uris[0]), (b"xml", self.uris[0]), (b"xml", b""), (b"", XML_URI),
                                   (self.prefixes[0], XML_URI), (self.prefixes[0], XMLNS_URI), (b"", XMLNS_URI)))


def grow(builder, names, size, level1=False, doubles=False, plain=False, old=False):
    """Lets the table grow to some size, at random places. Where nothing of its kind may stand, nothing is added, but for doubles of
    what an element owns in an old table."""
    random = builder.random
    elements, holders, documents, types = [], [], [], []
    for _ in range(random.choice((1, 1, 1, 2))):
        kind = random.choice((1, 9) if plain else (1, 9, 9, 11, 5))
        if kind == 9:
            documents.append(builder.add(9, NONE))
        elif kind != 1:
            holders.append(builder.add(kind, NONE))
    attempts = 4 * size + 4
    while len(builder.rows) < size and attempts:
        attempts -= 1
        chance = random.random()
        owner = elements[-1] if elements and random.random() < 0.5 else random.choice(elements) if elements else None
        if chance < 0.4 or owner is None:
            parents = elements[-2:] + elements + holders + documents or [NONE]
            parent = random.choice(parents) if random.random() < 0.97 else NONE
            if parent in documents and not (builder.free("child", parent) or doubles):
                continue
            if level1 and random.random() < 0.3:
                elements.append(builder.add(257, parent, local_name=random.choice(WHOLE_NAMES)))
            else:
                prefix, uri = names.element()
                elements.append(builder.add(1, parent, prefix, random.choice(NAMES), uri))
        elif chance < 0.6:
            prefix, uri = names.declaration()
            if builder.free(13, owner, prefix) or doubles or old:
                builder.add(13, owner, local_name=prefix, value=uri)
        elif chance < 0.85:
            owner = NONE if random.random() < 0.05 else owner
            value = random.choice(VALUES)
            if level1 and random.random() < 0.3:
                name = random.choice(WHOLE_NAMES)
                if owner == NONE or builder.free(258, owner, name) or doubles or old:
                    builder.add(258, owner, local_name=name, value=value)
            else:
                prefix, uri = names.attribute()
                name = random.choice(NAMES)
                if not prefix and name == b"xmlns" and not doubles:
                    name = b"a"
                if owner == NONE or builder.free(2, owner, uri, name) or doubles or old:
                    builder.add(2, owner, prefix, name, uri, value)
        elif plain:
            builder.add(3, random.choice(elements), value=random.choice(VALUES))
        elif chance < 0.97:
            kind = random.choice((3, 4, 5, 5, 5, 7, 8))
            parents = elements[-1:] + holders + (documents if kind in (7, 8) else [])
            parent = random.choice(parents + [NONE] if random.random() < 0.1 else parents)
            row = builder.add(kind, parent, value=random.choice(VALUES))
            if kind == 5:
                holders.append(row)
        else:
            kind = random.choice((10, 6, 12))
            parents = documents if kind == 10 else types
            row = builder.add(kind, random.choice(parents) if parents and random.random() < 0.8 else NONE)
            if kind == 10:
                types.append(row)


def small(random):
    """A number of rows, mostly small."""
    return random.choice((random.randint(0, 6), random.randint(3, 12), random.randint(3, 12), random.randint(8, 30)))


def typical(random):
    builder = Builder(random)
    names = OneMaker(random)
    if random.random() < 0.7:
        root = builder.add(1, NONE, local_name=b"root")
        for prefix, uri in names.bindings:
            builder.free(13, root, prefix)
            builder.add(13, root, local_name=prefix, value=uri)
    grow(builder, names, len(builder.rows) + small(random), level1=random.random() < 0.1)
    return builder.table(), bytes(builder.pool)


def grafted(random):
    builder = Builder(random)
    grow(builder, ManyMakers(random), small(random), level1=random.random() < 0.15, doubles=random.random() < 0.05)
    return builder.table(), bytes(builder.pool)


def plain(random):
    builder = Builder(random)
    names = random.choice((OneMaker, ManyMakers))(random)
    grow(builder, names, small(random), plain=True)
    return builder.table(), bytes(builder.pool)


def old(random):
    """Some of what its elements own stands there again; now and then with a fault in one of its rows."""
    builder = Builder(random)
    grow(builder, OldMakers(random), small(random), level1=random.random() < 0.4, plain=random.random() < 0.3, old=True)
    owned = [row for row in builder.rows if row[0] in (2, 13, 258)]
    for row in random.sample(owned, min(len(owned), random.choice((0, 0, 1, 2)))):
        builder.put([*row[:8], *builder.place(random.choice((b"", b"U", b"value")))])
    table, pool = builder.table(), bytearray(builder.pool)
    if table and random.random() < 0.15:
        random.choice((damage_fields, damage_encoding))(random, table, pool, WIDTH * random.randrange(len(table) // WIDTH))
    return table, bytes(pool)


def wild(random):
    builder = Builder(random)
    grow(builder, NoRule(random), random.randint(1, 8), level1=random.random() < 0.2, doubles=random.random() < 0.5)
    return builder.table(), bytes(builder.pool)


def damage_fields(random, table, pool, row):
    """One field of the row or two: past the pool, with an offset and no length, or with a byte where it may have none."""
    for word in random.sample((2, 4, 6, 8), random.choice((1, 2, 2))):
        offset, length = random.choice(((len(pool), 1), (len(pool) + 1, 0), (len(pool), 0), (1, 0), (0, 1), (0, len(pool) + 1)))
        table[row + word:row + word + 2] = offset, length
    if random.random() < 0.3:
        table[row] = random.choice((1, 2, 3, 13, 257, 258))


# Sequences of UTF-8 at the boundaries of their kind, and bytes that are none.
SEQUENCES = tuple(map(bytes.fromhex, (
    "7f", "c280", "dfbf", "e0a080", "ed9fbf", "ee8080", "efbfbf", "f0908080", "f48fbfbf", "c3a9e282acf09f9880",
    "80", "bf", "c1bf", "c2", "e09fbf", "e0a0", "eda080", "edbfbf", "f08fbfbf", "f09080", "f4908080", "f5808080", "ff",
    "c28080", "e282")))


def damage_encoding(random, table, pool, row):
    """One field of the row or two with other bytes at the end of the pool: often malformed, and sometimes cut short where
    the pool goes on."""
    for word in random.sample((2, 4, 6, 8), random.choice((1, 2, 2))):
        text = random.choice((b"", b"a", b"abcdefgh")) + b"".join(random.choices(SEQUENCES, k=random.choice((1, 1, 2))))
        table[row + word:row + word + 2] = len(pool), len(text) - (random.random() < 0.2 and len(text) > 1)
        pool += text


def damaged(random):
    """A tree with one thing wrong, or two."""
    table, pool = random.choice((typical, grafted))(random)
    table, pool = list(table), bytearray(pool)
    for _ in range(random.choice((1, 1, 2))):
        rows = len(table) // WIDTH
        how = random.randint(0, 9)
        if how == 0:
            del table[len(table) - random.randint(0, 10):]
        elif how == 1:
            table += [random.choice((0, 1, 13, NONE)) for _ in range(random.randint(1, WIDTH))]
        elif how == 2 and pool:
            del pool[-1]
        elif how == 3 and pool:
            pool[random.randrange(len(pool))] = random.choice(b":- ./@[`{09\x7f\x80")
        elif rows:
            row, other = WIDTH * random.randrange(rows), WIDTH * random.randrange(rows)
            if how == 4:
                # The same row again; in half of the tables its names stand at other places.
                again = table[row:row + WIDTH]
                for word in (2, 4, 6, 8) if random.random() < 0.5 else ():
                    text = pool[again[word]:again[word] + again[word + 1]]
                    if text:
                        again[word] = len(pool)
                        pool += text
                table += again
            elif how == 5:
                table[row:row + WIDTH], table[other:other + WIDTH] = table[other:other + WIDTH], table[row:row + WIDTH]
            elif how == 8:
                damage_fields(random, table, pool, row)
            elif how == 9:
                damage_encoding(random, table, pool, row)
            elif how == 6:
                table[row] = random.choice((0, 1, 2, 3, 5, 9, 10, 11, 13, 14, 256, 257, 258, 259, NONE))
            else:
                word = row + random.randrange(1, WIDTH)
                table[word] = random.choice((0, 1, table[word] + 1, max(table[word], 1) - 1, row // WIDTH, row // WIDTH + 1,
                                             len(pool), len(pool) + 1, 2**31, 2**32 - 2, NONE,
                                             table[other + random.randrange(WIDTH)])) % 2**32
    return table, bytes(pool)


def random_words(random):
    pool = b"".join(random.choices((b"a", b"a", b"b", b"U", b":", b"-", b"1", b"\x00", b"\xc3\xa9"), k=random.randint(0, 6)))
    table = []
    for row in range(random.randint(0, 4)):
        table += [random.choice((1, 1, 2, 13, 5, 9, 257, 258, random.randint(0, 14))),
                  random.choice((NONE, max(row, 1) - 1, random.randint(0, row)))]
        for _ in range(4):
            length = random.choice((0, 0, 1, 1, 2, random.randint(0, 7)))
            offset = 0 if length == 0 and random.random() < 0.95 else random.randint(0, 5)
            table += [offset, length]
        table.append(random.choice((0, row, random.getrandbits(32))))
    if random.random() < 0.1:
        table = random.choices((0, 1, 2, 13, NONE, random.getrandbits(32)), k=random.randint(0, 25))
    return table, pool


def full(builder, rows):
    """A table of so many rows, of one shape: texts, attributes, elements in each other, entity references, or both in
    turn."""
    shape = builder.random.choice(("texts", "texts", "attributes", "elements", "references", "references", "both"))
    root = parent = builder.add(1, NONE, local_name=b"root")
    builder.add(13, root, local_name=b"p", value=b"U")
    while len(builder.rows) < rows:
        if shape == "texts":
            builder.add(3, root)
        elif shape == "attributes":
            builder.add(2, root, local_name=b"a%d" % len(builder.rows))
        elif shape == "references" or shape == "both" and len(builder.rows) % 2:
            parent = builder.add(5, parent)
        else:
            parent = builder.add(1, parent, b"p", b"a", b"U")


def growing(builder, result):
    """A table whose result has so many rows: each attribute adds one, and the element when it is time."""
    root = builder.add(1, NONE, local_name=b"root")
    added = 0
    while len(builder.rows) + added + 1 < result:
        if builder.random.random() < 0.05:
            builder.add(1, root, b"q%d" % len(builder.rows), b"a", b"V")
        else:
            builder.add(2, root, b"", b"a", b"%d" % len(builder.rows))
        added += 1
    if len(builder.rows) + added < result:
        builder.add(3, root)


def longer(builder):
    """Attributes that each add three bytes to the pool; answers how many they add."""
    root = builder.add(1, NONE, local_name=b"root")
    attributes = builder.random.randint(1, 9)
    for k in range(attributes):
        builder.add(2, root, b"", b"a%d" % k, builder.random.choice((XML_URI, b"%d" % k)))
    return 3 * attributes


def shared(builder, bytes):
    """Values that share their bytes, in few rows or in a short pool, or in more: they come apart to so many bytes."""
    random = builder.random
    root = builder.add(1, NONE, local_name=b"root")
    builder.pool += b"a" * random.choice((2000, 4096 - 4, 4096, 9000, 30000))
    longest = len(builder.pool) - 4
    lengths = set()
    bytes -= 4
    while bytes > 0:
        length = min(bytes, longest, random.randint(400, 8000))
        while length in lengths and length > 1:
            length -= 1
        lengths.add(length)
        bytes -= length
        builder.put([3, root, 0, 0, 0, 0, 0, 0, random.randint(4, len(builder.pool) - length), length])


def conflicting(builder, rows):
    """So many rows, of which all that an element owns are illegal or doubles, but for a few; below it stands another element."""
    random = builder.random
    root = builder.add(1, NONE, local_name=b"root")
    while len(builder.rows) < rows:
        if random.random() < 0.002:
            root = builder.add(1, root, local_name=b"a")
        elif random.random() < 0.5:
            builder.add(13, root, local_name=b"p", value=random.choice((b"", b"", b"U")))
        else:
            builder.add(2, root, local_name=b"a")


def limits(random):
    """Tables at the limits: the rows and the pool of the input, or those of a result."""
    builder, about = Builder(random), random.choice((-1, 0, 0, 1))
    what = random.choice(("rows", "rows", "rows of the result", "bytes", "bytes of the result",
                          "bytes that come apart", "bytes that come apart", "conflicts"))
    if what == "conflicts":
        conflicting(builder, MOST_ROWS + about)
    elif what == "bytes that come apart":
        shared(builder, MOST_BYTES + about)
    elif what == "rows":
        full(builder, MOST_ROWS + about)
    elif what == "rows of the result":
        growing(builder, MOST_ROWS + about)
        if random.random() < 0.6:
            # Too many bytes as well.
            builder.pool += bytes(MOST_BYTES - random.randint(0, 9) - len(builder.pool))
    else:
        added = 0
        if what == "bytes":
            grow(builder, ManyMakers(random), 20)
        else:
            added = longer(builder)
        builder.pool += bytes(MOST_BYTES + about - added - len(builder.pool))
    table = builder.table()
    if random.random() < 0.05:
        del table[-1]
    elif random.random() < 0.05:
        table.append(0)
    return table, bytes(builder.pool)


KINDS = ((grafted, 32), (typical, 13), (damaged, 18), (plain, 12), (old, 9), (wild, 7), (random_words, 8), (limits, 1))


def held(random, table, pool, words):
    """A name that the table holds in one of these words, or none."""
    if len(table) < WIDTH:
        return b""
    at = WIDTH * random.randrange(len(table) // WIDTH) + random.choice(words)
    return pool[table[at]:table[at] + table[at + 1]]


def case(seed, number):
    random = Random("%d/%d" % (seed, number))
    kind = random.choices([kind for kind, _ in KINDS], [weight for _, weight in KINDS])[0]
    table, pool = kind(random)
    rows = len(table) // WIDTH
    questions = []
    for _ in range(2 if kind is limits else 5):
        row = random.randrange(rows) if rows and random.random() < 0.93 else random.choice((0, rows, rows + 1, 2**31, NONE))
        if kind is limits and random.random() < 0.7:
            row = max(rows, 1) - 1
        prefix, uri = random.choice((b"", b"xml", b"xmlns", *PREFIXES)), random.choice((b"", XML_URI, XMLNS_URI, *URIS))
        chance = random.random()
        if chance < 0.5:
            prefix, uri = held(random, table, pool, (2, 4)), held(random, table, pool, (6, 8))
        elif chance < 0.6:
            prefix = uri = held(random, table, pool, (2, 4, 6, 8))
        questions.append((row, prefix, uri))
    rooms = [(random.choice((0, 0, 1, 10, 11, 27)), random.choice((0, 0, 1, 7))),
             (random.choice((0, 0, -1, -10, -11, -12)), random.choice((0, 0, -1, -2, -3))),
             (0, random.choice((-1, -3, -100)))]
    return Case(kind.__name__, table, pool, questions, rooms[:1] if kind is limits else rooms)
