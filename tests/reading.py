"""A second reading of the rules: the check of a node table, the lookups, normalization, packing, salvage and XML text, as
docs/RULES.md says them, in its order and words. The check, the lookups and normalization were written without a look at the
library, the others after their definitions had been read. tests/compare holds the library to it.

A table is a sequence of words, a pool a string of bytes, a row a number, a query a string of bytes.

    check(table, pool) -> (number, row, word)
    check_proposal(table, pool, proposed_table, proposed_pool) -> (number, row, word)
    uri_of_prefix(table, pool, row, query) -> (number, row, word, kind, offset, length)
    prefix_of_uri(table, pool, row, query) -> (number, row, word, offset, length)
    default_uri(table, pool, row) -> (number, row, word, offset, length)
    default_is(table, pool, row, query) -> (number, row, word, yes)
    in_scope_uri(table, pool, row, query) -> (number, row, word, kind, offset, length)
    in_scope_prefix(table, pool, row, query) -> (number, row, word, kind, offset, length)
    normalize(table, pool, out_words, out_bytes) -> (number, row, word, rows, bytes, out_table, out_pool)
    pack(table, pool, out_words, out_bytes) -> (number, row, word, rows, bytes, out_table, out_pool)
    salvage(table, pool, out_words, list_words) -> (number, row, word, rows, dropped, out_table, list)
    write_xml(table, pool, row, out_size) -> (number, row, word, bytes, out)

Number 0 is no refusal. A kind is "none", "place", "xml" or "xmlns", of which the last two are built in.
"""
from functools import lru_cache
from itertools import count
from typing import NamedTuple

# The node table.

WIDTH = 11
MOST_ROWS = 1024
MOST_BYTES = 32768
NONE = 4294967295

ELEMENT = 1
ATTRIBUTE = 2
TEXT = 3
CDATA = 4
ENTITY_REFERENCE = 5
ENTITY = 6
INSTRUCTION = 7
COMMENT = 8
DOCUMENT = 9
DOCUMENT_TYPE = 10
FRAGMENT = 11
NOTATION = 12
DECLARATION = 13
LEVEL1_ELEMENT = 257
LEVEL1_ATTRIBUTE = 258

ELEMENTS = (ELEMENT, LEVEL1_ELEMENT)
ATTRIBUTES = (ATTRIBUTE, LEVEL1_ATTRIBUTE)

ALLOWED_PARENTS = {
    ELEMENT: (NONE, *ELEMENTS, ENTITY_REFERENCE, DOCUMENT, FRAGMENT),
    LEVEL1_ELEMENT: (NONE, *ELEMENTS, ENTITY_REFERENCE, DOCUMENT, FRAGMENT),
    ATTRIBUTE: (NONE, *ELEMENTS),
    LEVEL1_ATTRIBUTE: (NONE, *ELEMENTS),
    DECLARATION: ELEMENTS,
    TEXT: (NONE, *ELEMENTS, ENTITY_REFERENCE, FRAGMENT),
    CDATA: (NONE, *ELEMENTS, ENTITY_REFERENCE, FRAGMENT),
    ENTITY_REFERENCE: (NONE, *ELEMENTS, ENTITY_REFERENCE, FRAGMENT),
    INSTRUCTION: (NONE, *ELEMENTS, ENTITY_REFERENCE, DOCUMENT, FRAGMENT),
    COMMENT: (NONE, *ELEMENTS, ENTITY_REFERENCE, DOCUMENT, FRAGMENT),
    DOCUMENT_TYPE: (NONE, DOCUMENT),
    ENTITY: (NONE, DOCUMENT_TYPE),
    NOTATION: (NONE, DOCUMENT_TYPE),
    DOCUMENT: (NONE,),
    FRAGMENT: (NONE,),
}

XML_URI = b"http://www.w3.org/XML/1998/namespace"
XMLNS_URI = b"http://www.w3.org/2000/xmlns/"


class Field(NamedTuple):
    """Where a name stands in the pool, and its bytes. Names are compared by bytes, never by offset."""
    offset: int
    length: int
    text: bytes


EMPTY = Field(0, 0, b"")


class Row:
    def __init__(self, number, type, parent, prefix, local_name, uri, value, maker):
        self.number = number
        self.type = type
        self.parent = parent
        self.prefix = prefix
        self.local_name = local_name
        self.uri = uri
        self.value = value
        self.maker = maker

    def fields(self):
        return self.prefix, self.local_name, self.uri, self.value

    def worded(self):
        """The fields in word order, each with the word of its offset."""
        return zip((2, 4, 6, 8), self.fields())

    def words(self):
        words = [self.type, self.parent]
        for field in self.fields():
            words += [field.offset, field.length]
        return words + [self.maker]


class Tree:
    """The rows of a table, and for each row those of which it is the parent, or the owner, in row order."""

    def __init__(self, table, pool):
        self.rows, self.under, self.pool = [], {}, pool
        for at in range(0, len(table), WIDTH):
            type, parent, *places, maker = table[at:at + WIDTH]
            fields = [Field(offset, length, pool[offset:offset + length])
                      for offset, length in zip(places[::2], places[1::2])]
            self.add(Row(len(self.rows), type, parent, *fields, maker))

    def add(self, row):
        self.rows.append(row)
        self.under.setdefault(row.parent, []).append(row)

    def parent_of(self, row):
        return None if row.parent == NONE else self.rows[row.parent]

    def owned(self, element, type):
        """The rows of one owner need not be adjacent; their order is row order."""
        return [row for row in self.under.get(element.number, ()) if row.type == type]

    def declarations(self, element):
        return self.owned(element, DECLARATION)


# Refusal numbers.

class Refusal(NamedTuple):
    """The row at fault, or 0; the word that holds the offset of the field at fault, or 0 where it is no field."""
    number: int
    row: int = 0
    word: int = 0


NOT_REFUSED = Refusal(0)


def wrong_size(table, pool):
    """1: word count not a multiple of 11 or above 11,264, or pool above 32,768."""
    return len(table) % WIDTH != 0 or len(table) > WIDTH * MOST_ROWS or len(pool) > MOST_BYTES


def wrong_structure(tree, row):
    """2: unknown type; parent not NONE and not less than the row; parent type not allowed; a second element (1 or 257)
    under one document."""
    if row.type not in ALLOWED_PARENTS:
        return True
    if row.parent != NONE and row.parent >= row.number:
        return True
    parent = tree.parent_of(row)
    if (parent.type if parent else NONE) not in ALLOWED_PARENTS[row.type]:
        return True
    return row.type in ELEMENTS and parent is not None and parent.type == DOCUMENT and any(
        other.type in ELEMENTS and other.number < row.number for other in tree.under[parent.number])


def past_pool(tree, field):
    """3: offset and length add up to more than the pool has."""
    return field.offset + field.length > len(tree.pool)


def offset_alone(field):
    """12: an offset, and no length to go with it."""
    return field.length == 0 and field.offset != 0


def full_but_must_be_empty(row, word, field):
    """13: rows of this type do not have the field."""
    return field.length != 0 and word in must_be_empty(row.type)


def must_be_empty(type):
    """The value of elements; prefix and URI of 13, 257, 258; prefix, local name and URI of all types but 1, 2, 13, 257,
    258. Each by the word of its offset."""
    words = set()
    if type in ELEMENTS:
        words |= {8}
    if type in (DECLARATION, LEVEL1_ELEMENT, LEVEL1_ATTRIBUTE):
        words |= {2, 6}
    if type not in (ELEMENT, ATTRIBUTE, DECLARATION, LEVEL1_ELEMENT, LEVEL1_ATTRIBUTE):
        words |= {2, 4, 6}
    return words


def malformed(field):
    """14: the bytes are not UTF-8, by Python's own decoder."""
    try:
        field.text.decode("utf-8", "strict")
    except UnicodeDecodeError:
        return True
    return False


def field_tries(tree, row):
    """The fields one after the other for 3 and 12, once more, if all pass, for 13, and once more for 14."""
    for word, field in row.worded():
        yield 3, word, past_pool(tree, field)
        yield 12, word, offset_alone(field)
    for word, field in row.worded():
        yield 13, word, full_but_must_be_empty(row, word, field)
    for word, field in row.worded():
        yield 14, word, malformed(field)


LETTERS = b"ABCDEFGHIJKLMNOPQRSTUVWXYZabcdefghijklmnopqrstuvwxyz"
DIGITS = b"0123456789"


def wrong_names(tree, row):
    """4: an empty local name in 1, 2, 257, 258; a bad byte in a prefix or local name."""
    if row.type in ELEMENTS + ATTRIBUTES and row.local_name.length == 0:
        return True
    level1 = row.type in (LEVEL1_ELEMENT, LEVEL1_ATTRIBUTE)
    return not good_name(row.prefix.text, level1) or not good_name(row.local_name.text, level1)


def good_name(name, level1):
    """Good: ASCII letters, digits, `-` `.` `_`, bytes from 128; the first is no digit, `-` or `.`. In 257 and 258 `:` is
    good everywhere."""
    for at, byte in enumerate(name):
        if not (byte in LETTERS or byte in DIGITS or byte in b"-._" or byte >= 128 or (level1 and byte in b":")):
            return False
        if at == 0 and (byte in DIGITS or byte in b"-."):
            return False
    return True


def wrong_namespace(tree, row):
    """5: in type 1 or 2: prefix without URI; URI is XMLNS-URI; prefix `xmlns`; prefix `xml` with another URI; in type 1,
    XML-URI without prefix `xml`; in type 2, no prefix and local name `xmlns`."""
    if row.type not in (ELEMENT, ATTRIBUTE):
        return False
    prefix, uri = row.prefix.text, row.uri.text
    return (prefix != b"" and uri == b""
            or uri == XMLNS_URI
            or prefix == b"xmlns"
            or prefix == b"xml" and uri != XML_URI
            or row.type == ELEMENT and uri == XML_URI and prefix != b"xml"
            or row.type == ATTRIBUTE and prefix == b"" and row.local_name.text == b"xmlns")


def wrong_declaration(tree, row):
    """6: declaration of `xmlns`; of `xml` with a value other than XML-URI; of anything else with XML-URI; of anything with
    XMLNS-URI; of a non-empty prefix with empty value."""
    if row.type != DECLARATION:
        return False
    prefix, value = row.local_name.text, row.value.text
    return (prefix == b"xmlns"
            or prefix == b"xml" and value != XML_URI
            or prefix != b"xml" and value == XML_URI
            or value == XMLNS_URI
            or prefix != b"" and value == b"")


def wrong_double(tree, row):
    """7: an earlier row with the same owner (not NONE): both 13 with one declared prefix; both 2 with one URI and local
    name; both 258 with one name."""
    if row.parent == NONE or row.type not in (DECLARATION, ATTRIBUTE, LEVEL1_ATTRIBUTE):
        return False
    return any(other.number < row.number and other.type == row.type
               and other.local_name.text == row.local_name.text
               and (row.type != ATTRIBUTE or other.uri.text == row.uri.text)
               for other in tree.under[row.parent])


def tries(tree, row):
    """What a row is tried for, in order: the number, the word that it gives, and whether it is drawn."""
    yield 2, 0, wrong_structure(tree, row)
    yield from field_tries(tree, row)
    yield 4, 0, wrong_names(tree, row)
    yield 5, 0, wrong_namespace(tree, row)
    yield 6, 0, wrong_declaration(tree, row)
    yield 7, 0, wrong_double(tree, row)


def check(table, pool):
    """Order: 1; then rows ascending, each tried for 2 to 7 in that order. All but 1 name their row."""
    return checked(tuple(table), bytes(pool))[0]


@lru_cache(maxsize=1)
def checked(table, pool):
    """What the check answers, and the tree where it accepts. Every entry point runs the whole check itself."""
    if wrong_size(table, pool):
        return Refusal(1), None
    tree = Tree(table, pool)
    for row in tree.rows:
        for number, word, drawn in tries(tree, row):
            if drawn:
                return Refusal(number, row.number, word), None
    return NOT_REFUSED, tree


# Proposals.

def check_proposal(table, pool, proposed_table, proposed_pool):
    """Order: 40 original fails, 41 proposal fails, with the failed check's row and word; 42 Level 1, the original first; 43 a
    row changed or an extra row of another type; 44 a name doesn't resolve; each at its lowest row."""
    return judge_proposal(check(table, pool), table, pool, check(proposed_table, proposed_pool), proposed_table, proposed_pool)


def judge_proposal(drawn, table, pool, proposed_drawn, proposed_table, proposed_pool):
    """The same, where the checks of the two drew this."""
    if drawn.number:
        return Refusal(40, drawn.row, drawn.word)
    if proposed_drawn.number:
        return Refusal(41, proposed_drawn.row, proposed_drawn.word)
    original, proposal = Tree(table, pool), Tree(proposed_table, proposed_pool)
    for tree in level1_order(original, proposal):
        if first_level1(tree).number:
            return Refusal(42, first_level1(tree).row)
    for number in range(max(len(original.rows), len(proposal.rows))):
        if not keeps(original, proposal, number):
            return Refusal(43, number)
    for row in proposal.rows:
        if is_asked(row) and not resolves(proposal, row):
            return Refusal(44, row.number)
    return NOT_REFUSED


def level1_order(original, proposal):
    """42 looks at the original first."""
    return original, proposal


def keeps(original, proposal, number):
    """Every further row is type 13; a missing row counts as changed."""
    if number >= len(proposal.rows):
        return False
    if number >= len(original.rows):
        return proposal.rows[number].type == DECLARATION
    return keeps_row(original.rows[number], proposal.rows[number])


def keeps_row(row, proposed):
    """The original rows keep type, parent, maker, and the bytes of local name, URI and value, save that a declaration's value
    may differ; ownerless attributes keep their prefix."""
    return ((row.type, row.parent, row.maker, row.local_name.text, row.uri.text)
            == (proposed.type, proposed.parent, proposed.maker, proposed.local_name.text, proposed.uri.text)
            and (row.type == DECLARATION or row.value.text == proposed.value.text)
            and (row.type != ATTRIBUTE or row.parent != NONE or row.prefix.text == proposed.prefix.text))


def is_asked(row):
    """Every element and owned attribute."""
    return row.type == ELEMENT or row.type == ATTRIBUTE and row.parent != NONE


def resolves(tree, row):
    """It means its URI in scope."""
    return means_its_uri(tree, row)


# Lookups.

def start_element(tree, row):
    """Type 1 or 257, itself; 2, 258, 13, the owner; 9, its element child; 6, 10, 11, 12, none; all others, the nearest
    ancestor element."""
    if row.type in ELEMENTS:
        return row
    if row.type in (ATTRIBUTE, LEVEL1_ATTRIBUTE, DECLARATION):
        return tree.parent_of(row)
    if row.type == DOCUMENT:
        return next((child for child in tree.under.get(row.number, ()) if child.type in ELEMENTS), None)
    if row.type in (ENTITY, DOCUMENT_TYPE, FRAGMENT, NOTATION):
        return None
    return ancestor_element(tree, row)


def ancestor_element(tree, row):
    """Climbs parents and passes over entity references."""
    row = tree.parent_of(row)
    while row is not None and row.type not in ELEMENTS:
        row = tree.parent_of(row)
    return row


def outward(tree, element):
    """The element and its ancestor elements, the nearest first; none for no element."""
    while element is not None:
        yield element
        element = ancestor_element(tree, element)


def has_own_name(element):
    """A type 257 element's own name is skipped in all lookups; its declarations count."""
    return element.type == ELEMENT


def declaration_of(tree, element, prefix):
    return next((row for row in tree.declarations(element) if row.local_name.text == prefix), None)


class Bound(NamedTuple):
    """What a lookup finds that knows the built-ins; a built-in has its text, and no place."""
    kind: str
    field: Field


NOTHING = Bound("none", EMPTY)
BUILT_IN_URIS = {b"xml": Bound("xml", Field(0, 0, XML_URI)), b"xmlns": Bound("xmlns", Field(0, 0, XMLNS_URI))}
BUILT_IN_PREFIXES = {XML_URI: Bound("xml", Field(0, 0, b"xml")), XMLNS_URI: Bound("xmlns", Field(0, 0, b"xmlns"))}


def placed(value):
    """A value, or nothing when it is empty."""
    return NOTHING if value.text == b"" else Bound("place", value)


def uri_from(tree, start, prefix):
    """At a start element, `xml` and `xmlns` answer XML-URI and XMLNS-URI. At each element outward: if it has a URI and its
    prefix equals the query, that URI. Else if it has a declaration of that prefix, its value, or nothing when the value is
    empty. Else the next ancestor element. With no start element: nothing."""
    if start is None:
        return NOTHING
    if prefix in BUILT_IN_URIS:
        return BUILT_IN_URIS[prefix]
    for element in outward(tree, start):
        if has_own_name(element) and element.uri.text != b"" and element.prefix.text == prefix:
            return Bound("place", element.uri)
        declaration = declaration_of(tree, element, prefix)
        if declaration is not None:
            return placed(declaration.value)
    return NOTHING


def means_at(tree, start, prefix, uri):
    """The URI of that prefix, looked up from the start element, is the query."""
    return uri_from(tree, start, prefix).field.text == uri


def prefix_from(tree, start, uri):
    """Empty query: nothing. At each element outward: its own prefix if its URI matches, it has a prefix, and the URI of
    that prefix, looked up from the start element, is the query. Then its declarations of non-empty prefixes in row order
    with value equal to the query and the same condition."""
    if uri == b"":
        return EMPTY
    for element in outward(tree, start):
        if (has_own_name(element) and element.uri.text == uri and element.prefix.text != b""
                and means_at(tree, start, element.prefix.text, uri)):
            return element.prefix
        for declaration in tree.declarations(element):
            prefix = declaration.local_name
            if prefix.text != b"" and declaration.value.text == uri and means_at(tree, start, prefix.text, uri):
                return prefix
    return EMPTY


def default_uri_from(tree, start, query):
    """The URI of the empty prefix, which the query is."""
    return uri_from(tree, start, query).field


def default_from(tree, start, uri):
    """Yes exactly if the URI of the empty prefix equals the query, where nothing equals empty."""
    return uri_from(tree, start, b"").field.text == uri


def scope_uri(tree, start, prefix):
    """`xml` and `xmlns` are built in and answer XML-URI and XMLNS-URI. Otherwise the nearest declaration of that prefix
    decides, elements' own names are not looked at; an empty value or no declaration means none."""
    if start is None:
        return NOTHING
    if prefix in BUILT_IN_URIS:
        return BUILT_IN_URIS[prefix]
    for element in outward(tree, start):
        declaration = declaration_of(tree, element, prefix)
        if declaration is not None:
            return placed(declaration.value)
    return NOTHING


def in_scope_as(tree, start, prefix, uri):
    """That prefix has that in-scope URI at the start."""
    return scope_uri(tree, start, prefix).field.text == uri


def scope_prefix(tree, start, uri):
    """Only non-empty prefixes. Empty query: none. XML-URI gives built-in `xml`, XMLNS-URI built-in `xmlns`. Otherwise
    outward, in row order, the first declaration with that value whose prefix has that in-scope URI at the start."""
    if start is None or uri == b"":
        return NOTHING
    if uri in BUILT_IN_PREFIXES:
        return BUILT_IN_PREFIXES[uri]
    for element in outward(tree, start):
        for declaration in tree.declarations(element):
            prefix = declaration.local_name
            if prefix.text != b"" and declaration.value.text == uri and in_scope_as(tree, start, prefix.text, uri):
                return Bound("place", prefix)
    return NOTHING


def asked(table, pool, row, query, question):
    """The refusal; or no refusal, and what the question answers at the row's start element. 8: lookup from a row that
    isn't in the table."""
    refusal, tree = checked(tuple(table), bytes(pool))
    if tree is None:
        return refusal, None
    if row >= len(tree.rows):
        return Refusal(8), None
    return NOT_REFUSED, question(tree, start_element(tree, tree.rows[row]), query)


def bound(table, pool, row, query, question):
    refusal, found = asked(table, pool, row, query, question)
    found = found or NOTHING
    return (*refusal, found.kind, found.field.offset, found.field.length)


def uri_of_prefix(table, pool, row, query):
    return bound(table, pool, row, query, uri_from)


def prefix_of_uri(table, pool, row, query):
    refusal, found = asked(table, pool, row, query, prefix_from)
    return (*refusal, found.offset, found.length) if found else (*refusal, 0, 0)


def default_uri(table, pool, row):
    refusal, found = asked(table, pool, row, b"", default_uri_from)
    return (*refusal, found.offset, found.length) if found else (*refusal, 0, 0)


def default_is(table, pool, row, query):
    refusal, yes = asked(table, pool, row, query, default_from)
    return (*refusal, bool(yes))


def in_scope_uri(table, pool, row, query):
    return bound(table, pool, row, query, scope_uri)


def in_scope_prefix(table, pool, row, query):
    return bound(table, pool, row, query, scope_prefix)


# Normalization.

def normalize(table, pool, out_words, out_bytes):
    """Input table and pool are read; output table and pool are written. The rest of both output buffers is zero. Success
    answers the result's row count and pool length; a refusal answers 0 for both."""
    return filled(*normalized(tuple(table), bytes(pool)), out_words, out_bytes)


def filled(refusal, tree, out_words, out_bytes):
    """What a result, or a refusal, answers and leaves in an output table and an output pool."""
    if refusal.number == 0:
        refusal = too_much(tree, out_words, out_bytes)
    if refusal.number != 0:
        return (*refusal, 0, 0, (0,) * out_words, bytes(out_bytes))
    words = words_of(tree)
    return (*refusal, len(tree.rows), len(tree.pool),
            words + (0,) * (out_words - len(words)), tree.pool + bytes(out_bytes - len(tree.pool)))


@lru_cache(maxsize=1)
def normalized(table, pool):
    """The refusal; or no refusal, and the result, whatever room there is for it."""
    refusal = check(table, pool)
    if refusal.number != 0:
        return refusal, None
    tree = Tree(table, pool)
    refusal = first_level1(tree)
    if refusal.number != 0:
        return refusal, None
    for element in [row for row in tree.rows if row.type == ELEMENT]:
        repair_element(tree, element)
        for attribute in tree.owned(element, ATTRIBUTE):
            if attribute.uri.text != b"":
                repair_attribute(tree, element, attribute)
    return NOT_REFUSED, tree


def words_of(tree):
    return tuple(word for row in tree.rows for word in row.words())


def first_level1(tree):
    """9: normalization of a table with a type 257 or 258 row; the lowest such row."""
    for row in tree.rows:
        if row.type in (LEVEL1_ELEMENT, LEVEL1_ATTRIBUTE):
            return Refusal(9, row.number)
    return NOT_REFUSED


def too_much(tree, out_words, out_bytes):
    """10: the result needs more than 1,024 rows, or more than the whole rows of the output table. 11: the result needs
    more than 32,768 pool bytes, or more than the output pool."""
    if len(tree.rows) > MOST_ROWS or len(tree.rows) > out_words // WIDTH:
        return Refusal(10)
    if len(tree.pool) > MOST_BYTES or len(tree.pool) > out_bytes:
        return Refusal(11)
    return NOT_REFUSED


def repair_element(tree, element):
    """1. Element with a URI: if the in-scope URI of its prefix (or default) differs, set its own declaration of that
    prefix to its URI, or append one. 2. Element without a URI: if the in-scope default isn't none, set its own default
    declaration to empty, or append one."""
    if element.uri.text != b"":
        if not in_scope_as(tree, element, element.prefix.text, element.uri.text):
            declare(tree, element, element.prefix, element.uri)
    elif scope_uri(tree, element, b"") != NOTHING:
        declare(tree, element, EMPTY, EMPTY)


def declare(tree, element, prefix, value):
    """Set its own declaration of that prefix, or append one, which the element needs."""
    declaration = declaration_of(tree, element, prefix.text)
    if declaration is not None:
        declaration.value = value
    else:
        append(tree, element, element, prefix, value)


def append(tree, element, needing, prefix, value):
    """New rows go at the end, type 13, parent the element, prefix and URI fields 0, maker that of the row that needed it.
    References are copied."""
    tree.add(Row(len(tree.rows), DECLARATION, element.number, EMPTY, prefix, EMPTY, value, needing.maker))


def repair_attribute(tree, element, attribute):
    """3. If it has a prefix and the in-scope URI of that is its URI, nothing. Else if an in-scope prefix of the URI
    exists, take that. Else if it has a prefix, and that has no in-scope URI, append a declaration of it. Else take `NS`
    and the least k from 1 that is not declared in scope, and append its declaration."""
    prefix, uri = attribute.prefix, attribute.uri
    if prefix.text != b"" and in_scope_as(tree, element, prefix.text, uri.text):
        return
    found = scope_prefix(tree, element, uri.text)
    if found.kind == "place":
        attribute.prefix = found.field
    elif found != NOTHING:
        attribute.prefix = in_pool(tree, found.field.text)
    elif prefix.text != b"" and scope_uri(tree, element, prefix.text) == NOTHING:
        append(tree, element, attribute, prefix, uri)
    else:
        attribute.prefix = in_pool(tree, free_prefix(tree, element))
        append(tree, element, attribute, attribute.prefix, uri)


def free_prefix(tree, element):
    """`NS` and the least k from 1 (decimal, no leading zero) that is not declared in scope."""
    declared = {row.local_name.text for outer in outward(tree, element) for row in tree.declarations(outer)}
    return next(name for name in (b"NS%d" % k for k in count(1)) if name not in declared)


def in_pool(tree, text):
    """Each time step 3 takes built-in `xml` or makes an `NS` prefix, its bytes are appended to the pool once."""
    field = Field(len(tree.pool), len(text), text)
    tree.pool += text
    return field


# Packing.

def pack(table, pool, out_words, out_bytes):
    """A table, and a pool that is each distinct non-empty field once. After the check, refusal 10 exactly if the output table
    has too few rows, then 11 exactly if the packed pool is above 32,768 or above the output pool."""
    return filled(*packed(tuple(table), bytes(pool)), out_words, out_bytes)


@lru_cache(maxsize=1)
def packed(table, pool):
    """The refusal; or no refusal, and the packed table and pool, whatever room there is for them."""
    refusal, tree = checked(table, pool)
    return (refusal, None) if tree is None else (NOT_REFUSED, packed_form(tree))


def packed_form(tree):
    """Each distinct non-empty field once, in order of first use. Every field keeps its bytes, a non-empty one pointing to its
    entry there, and every other word its number."""
    made, entries = Tree((), b""), {}
    for word, field in uses(tree):
        if field.text and entry_of(word, field) not in entries:
            entries[entry_of(word, field)] = new_entry(made, field.text)
    for row in tree.rows:
        fields = [entries[entry_of(word, field)] if field.text else empty_field(made) for word, field in row.worded()]
        made.add(Row(row.number, row.type, row.parent, *fields, row.maker))
    return made


def uses(tree):
    """All fields, by row and then word."""
    return [use for row in tree.rows for use in row.worded()]


def entry_of(word, field):
    """What tells entries apart: their bytes, over all four kinds together."""
    return field.text


def new_entry(made, text):
    """End to end: an entry stands behind those before it."""
    field = Field(len(made.pool), len(text), text)
    made.pool += text
    return field


def empty_field(made):
    return EMPTY


# Salvage.

def salvage(table, pool, out_words, list_words):
    """A table without exactly the rows that draw refusal 6 and those that draw 7 against a kept row; each dropped row by its old
    number and its refusal, as two words, rows ascending, in a list, whose use is answered in dropped rows. If the list or table
    is too short: 10."""
    refusal, tree, drops = salvaged(tuple(table), bytes(pool))
    if refusal.number == 0 and (len(tree.rows) > out_words // WIDTH or short_list(drops, list_words)):
        refusal = Refusal(10)
    if refusal.number != 0:
        return (*refusal, 0, 0, (0,) * out_words, (0,) * list_words)
    words = words_of(tree)
    return (*refusal, len(tree.rows), len(drops), words + (0,) * (out_words - len(words)), listed(drops, list_words))


@lru_cache(maxsize=1)
def salvaged(table, pool):
    """The refusal; or no refusal, the result, whatever room there is for it, and the dropped rows, each with its number. Refusals
    1 to 5, with the numbers added since, refuse as before, at the first such row."""
    if wrong_size(table, pool):
        return Refusal(1), None, ()
    tree = Tree(table, pool)
    for row in tree.rows:
        for number, word, drawn in faults(tree, row):
            if drawn:
                return Refusal(number, row.number, word), None, ()
    return NOT_REFUSED, *kept_and_dropped(tree)


def faults(tree, row):
    """What a row is tried for, but for 6 and 7."""
    return (tried for tried in tries(tree, row) if tried[0] not in (6, 7))


def kept_and_dropped(tree):
    """The kept rows, with their parents renumbered, over the same pool; the dropped ones, rows ascending."""
    made, kept, drops = Tree((), tree.pool), {NONE: NONE}, []
    held = {}
    for row in tree.rows:
        number = drop_number(tree, row, held.get(row.parent, ()))
        if number == 0:
            held.setdefault(row.parent, []).append(row)
            kept[row.number] = len(made.rows)
            made.add(Row(len(made.rows), row.type, new_parent(row, kept), *row.fields(), row.maker))
        else:
            drops.append((dropped_row(row, made), number))
    return made, drops


def drop_number(tree, row, held):
    """6, or 7 against a row that is kept; 6 where both; 0 for none."""
    if wrong_declaration(tree, row):
        return 6
    return 7 if any(is_double(row, other) for other in held) else 0


def is_double(row, other):
    """The same owner (not NONE): both 13 with one declared prefix; both 2 with one URI and local name; both 258 with one name."""
    return (row.parent == other.parent != NONE and row.type == other.type
            and row.type in (DECLARATION, ATTRIBUTE, LEVEL1_ATTRIBUTE)
            and row.local_name.text == other.local_name.text
            and (row.type != ATTRIBUTE or row.uri.text == other.uri.text))


def new_parent(row, kept):
    """The number that the parent has now."""
    return kept[row.parent]


def dropped_row(row, made):
    """A dropped row is told by its old number."""
    return row.number


def short_list(drops, list_words):
    """A list counts its whole pairs."""
    return len(drops) > list_words // 2


def listed(drops, list_words):
    """Two words for each, and zeros."""
    words = tuple(word for drop in drops for word in drop)
    return words + (0,) * (list_words - len(words))


# XML text.

def write_xml(table, pool, row, out_size):
    """From an element row, or a document's element, the markup of its subtree into a lent buffer. Success answers how much
    of it is used; what is left over, and after a refusal all, is zero."""
    refusal, text = xml_text(tuple(table), bytes(pool), row)
    if refusal.number == 0 and not has_room(text, out_size):
        refusal = Refusal(22)
    if refusal.number != 0:
        return (*refusal, 0, bytes(out_size))
    return (*refusal, len(text), text + bytes(out_size - len(text)))


def has_room(text, out_size):
    """22: too little room."""
    return len(text) <= out_size


@lru_cache(maxsize=1)
def xml_text(table, pool, row):
    """The refusal; or no refusal, and the text, whatever room there is for it. 01's check, 8, 9, 20, 21, 23, 24, in that
    order, each at its lowest row."""
    refusal, tree = checked(table, pool)
    if tree is None:
        return refusal, None
    if row >= len(tree.rows):
        return Refusal(8), None
    refusal = first_level1(tree)
    if refusal.number != 0:
        return refusal, None
    for number, rows in xml_tries(tree, tree.rows[row]):
        if rows:
            return Refusal(number, min(rows)), None
    return NOT_REFUSED, element_markup(tree, element_to_write(tree, tree.rows[row]))


def xml_tries(tree, start):
    """What is tried, in order: the number, and the rows that draw it."""
    element = element_to_write(tree, start)
    if element is None:
        yield 20, [start.number]
        return
    rows = subtree(tree, element)
    yield 20, [row.number for row in rows if row.type not in (ELEMENT, ATTRIBUTE, TEXT, DECLARATION)]
    yield 21, [row.number for row in rows if forbidden(row.value.text)]
    yield 23, [row.number for row in rows if row.type in (ELEMENT, ATTRIBUTE) and not means_its_uri(tree, row)]
    yield 24, [row.number for row in inherited(tree, element)]


def element_to_write(tree, start):
    """An element row itself, or a document's element; 20: the start is neither an element nor a document with one."""
    if start.type == ELEMENT:
        return start
    if start.type == DOCUMENT:
        return next((child for child in tree.under.get(start.number, ()) if child.type == ELEMENT), None)
    return None


def subtree(tree, element):
    """The element, what it owns and holds, and what that does."""
    rows = [element]
    for row in rows:
        rows += tree.under.get(row.number, ())
    return rows


def forbidden(value):
    """21: a value holds a byte below 32 other than tab, line feed and carriage return, or U+FFFE or U+FFFF."""
    return any(character < " " and character not in "\t\n\r" or character in "\ufffe\uffff"
               for character in value.decode("utf-8"))


def means_its_uri(tree, row):
    """An element means its URI if the in-scope URI of its prefix (or default) is it, none for none. An attribute does if it
    has neither URI nor prefix, or if it has both and the in-scope URI of its prefix at its owner is its URI."""
    prefix, uri = row.prefix.text, row.uri.text
    if row.type == ATTRIBUTE:
        return prefix == uri == b"" or prefix != b"" and in_scope_as(tree, tree.parent_of(row), prefix, uri)
    return in_scope_as(tree, row, prefix, uri)


def inherited(tree, element):
    """24: an ancestor's declaration with non-empty value whose prefix neither the start nor any element between declares;
    whether it is used or not."""
    declared = set()
    for outer in outward(tree, element):
        declarations = tree.declarations(outer)
        if outer is not element:
            yield from (row for row in declarations if row.value.text != b"" and row.local_name.text not in declared)
        declared |= {row.local_name.text for row in declarations}


def element_markup(tree, element):
    """Attributes and declarations in row order in the start tag, each after one space, children in row order, always an end
    tag, double quotes."""
    parts, open_rows = [], [(element, False)]
    while open_rows:
        row, ended = open_rows.pop()
        if row.type == TEXT:
            parts.append(escaped(row.value.text, TEXT_ESCAPES))
        elif ended:
            parts.append(b"</%s>" % written_name(row))
        else:
            parts.append(b"<%s%s>" % (written_name(row), b"".join(map(owned_markup, in_tag(tree, row)))))
            open_rows.append((row, True))
            open_rows += [(child, False) for child in reversed(content(tree, row))]
    return b"".join(parts)


def in_tag(tree, element):
    """The rows of its start tag."""
    return [row for row in tree.under.get(element.number, ()) if row.type in (ATTRIBUTE, DECLARATION)]


def content(tree, element):
    """What stands between its tags."""
    return [row for row in tree.under.get(element.number, ()) if row.type in (ELEMENT, TEXT)]


def owned_markup(row):
    """An attribute or a declaration, after one space."""
    return b' %s="%s"' % (written_name(row), escaped(row.value.text, QUOTED_ESCAPES))


def written_name(row):
    """The prefix, if there is one, a colon and the local name; a declaration is `xmlns`, or `xmlns:` and its prefix."""
    names = (b"xmlns" if row.type == DECLARATION else row.prefix.text), row.local_name.text
    return b":".join(name for name in names if name)


# All values, and attribute and declared values.
TEXT_ESCAPES = ((b"&", b"&amp;"), (b"<", b"&lt;"), (b">", b"&gt;"), (b'"', b"&quot;"), (b"\r", b"&#13;"))
QUOTED_ESCAPES = (*TEXT_ESCAPES, (b"\t", b"&#9;"), (b"\n", b"&#10;"))


def escaped(value, escapes):
    """One after the other, so `&` first: what stands for another byte is not escaped again."""
    for byte, escape in escapes:
        value = value.replace(byte, escape)
    return value
