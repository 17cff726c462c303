"""Wrong readings of the rules, each by one function of the reading that is replaced. A comparison that is worth its time
finds every one of them."""
import re

import bundles
import reading


def shadowed_prefix():
    """The first declaration with the right URI is taken, though a nearer one rebinds its prefix."""
    reading.in_scope_as = lambda tree, start, prefix, uri: (
        reading.scope_uri(tree, start, prefix).field.text == uri or any(
            row.local_name.text == prefix != b"" and row.value.text == uri
            for element in reading.outward(tree, start) for row in tree.declarations(element)))


def shadowed_own_prefix():
    """The prefix lookup does not look its finding up from the start element."""
    reading.means_at = lambda tree, start, prefix, uri: True


def element_by_uri_lookup():
    """An element's scope is tested with the URI lookup, so that its own name answers first."""
    def repair_element(tree, element):
        if element.uri.text != b"":
            if reading.uri_from(tree, element, element.prefix.text).field.text != element.uri.text:
                reading.declare(tree, element, element.prefix, element.uri)
        elif reading.uri_from(tree, element, b"").field.text != b"":
            reading.declare(tree, element, reading.EMPTY, reading.EMPTY)
    reading.repair_element = repair_element


def default_serves_attribute():
    """The default declaration serves an attribute without a prefix."""
    right = reading.repair_attribute

    def repair_attribute(tree, element, attribute):
        if attribute.prefix.text != b"" or not reading.in_scope_as(tree, element, b"", attribute.uri.text):
            right(tree, element, attribute)
    reading.repair_attribute = repair_attribute


def bound_prefix_declared():
    """An attribute's prefix is declared although it is in scope with another URI."""
    right = reading.repair_attribute

    def repair_attribute(tree, element, attribute):
        prefix, uri = attribute.prefix, attribute.uri
        if (prefix.text not in (b"", b"xml") and not reading.in_scope_as(tree, element, prefix.text, uri.text)
                and reading.scope_prefix(tree, element, uri.text) == reading.NOTHING):
            reading.declare(tree, element, prefix, uri)
        else:
            right(tree, element, attribute)
    reading.repair_attribute = repair_attribute


def declared_xml():
    """The URI lookup answers `xml` by what says it, as any other prefix."""
    right = reading.uri_from

    def uri_from(tree, start, prefix):
        built_in = reading.BUILT_IN_URIS
        reading.BUILT_IN_URIS = {name: bound for name, bound in built_in.items() if name != b"xml"}
        found = right(tree, start, prefix)
        reading.BUILT_IN_URIS = built_in
        return found
    reading.uri_from = uri_from


def xmlns_not_built_in():
    """The URI lookup knows no `xmlns`."""
    right = reading.uri_from
    reading.uri_from = lambda tree, start, prefix: (
        reading.NOTHING if prefix == b"xmlns" else right(tree, start, prefix))


def built_in_without_start():
    """The URI lookup knows the built-ins without a start element too."""
    right = reading.uri_from
    reading.uri_from = lambda tree, start, prefix: (
        reading.BUILT_IN_URIS.get(prefix) or right(tree, start, prefix))


def nothing_is_no_default():
    """Where the empty prefix has no URI, the default test says no, also to the empty query."""
    reading.default_from = lambda tree, start, uri: (
        reading.uri_from(tree, start, b"").field.text == uri != b"")


def unprefixed_decides():
    """An element without a prefix decides the default test, also where it has no URI."""
    def default_from(tree, start, uri):
        for element in reading.outward(tree, start):
            if reading.has_own_name(element) and element.prefix.text == b"":
                return element.uri.text == uri
            declaration = reading.declaration_of(tree, element, b"")
            if declaration is not None:
                return declaration.value.text == uri
        return uri == b""
    reading.default_from = default_from


def default_by_declarations():
    """The default URI is looked for by declarations alone."""
    reading.default_uri_from = lambda tree, start, query: reading.scope_uri(tree, start, query).field


def empty_default_passed_over():
    """Where the default is declared empty, the default URI is looked for further outward."""
    def default_uri_from(tree, start, query):
        for element in reading.outward(tree, start):
            found = reading.uri_from(tree, element, query)
            if found.field.text != b"":
                return found.field
        return reading.EMPTY
    reading.default_uri_from = default_uri_from


def names_by_offset():
    """The rows of one owner are doubles only where their names stand at one place."""
    reading.wrong_double = lambda tree, row: any(
        other.number < row.number and other.type == row.type and other.local_name == row.local_name
        and other.uri == row.uri for other in tree.under[row.parent]
        if row.parent != reading.NONE and row.type in (13, 2, 258))


def fields_before_structure():
    """A row's fields are tried before 2."""
    right = reading.tries

    def tries(tree, row):
        yield from reading.field_tries(tree, row)
        yield from right(tree, row)
    reading.tries = tries


def offset_before_pool():
    """A field is tried for 12 before 3."""
    right = reading.past_pool
    reading.past_pool = lambda tree, field: right(tree, field) and not reading.offset_alone(field)


def empty_in_first_pass():
    """A field is tried for 13 before the next is tried for 3 and 12."""
    def field_tries(tree, row):
        for word, field in row.worded():
            yield 3, word, reading.past_pool(tree, field)
            yield 12, word, reading.offset_alone(field)
            yield 13, word, reading.full_but_must_be_empty(row, word, field)
        for word, field in row.worded():
            yield 14, word, reading.malformed(field)
    reading.field_tries = field_tries


def pool_before_offsets():
    """All fields are tried for 3 before one is tried for 12."""
    def field_tries(tree, row):
        for word, field in row.worded():
            yield 3, word, reading.past_pool(tree, field)
        for word, field in row.worded():
            yield 12, word, reading.offset_alone(field)
        for word, field in row.worded():
            yield 13, word, reading.full_but_must_be_empty(row, word, field)
        for word, field in row.worded():
            yield 14, word, reading.malformed(field)
    reading.field_tries = field_tries


def fields_after_names():
    """A row is tried for 13 after 4."""
    right = reading.tries

    def tries(tree, row):
        tried = list(right(tree, row))
        yield from (one for one in tried if one[0] in (2, 3, 12, 4))
        yield from (one for one in tried if one[0] not in (2, 3, 12, 4))
    reading.tries = tries


def encoding_after_names():
    """A row is tried for 14 after 4."""
    right = reading.tries

    def tries(tree, row):
        tried = list(right(tree, row))
        yield from (one for one in tried if one[0] in (2, 3, 12, 13, 4))
        yield from (one for one in tried if one[0] not in (2, 3, 12, 13, 4))
    reading.tries = tries


def encoding_with_empty():
    """A field is tried for 14 before the next is tried for 13."""
    def field_tries(tree, row):
        for word, field in row.worded():
            yield 3, word, reading.past_pool(tree, field)
            yield 12, word, reading.offset_alone(field)
        for word, field in row.worded():
            yield 13, word, reading.full_but_must_be_empty(row, word, field)
            yield 14, word, reading.malformed(field)
    reading.field_tries = field_tries


def surrogates_accepted():
    """A surrogate counts as a scalar value."""
    right = reading.malformed
    reading.malformed = lambda field: right(field) and b"\xed" not in field.text


def values_not_decoded():
    """Values may hold any bytes."""
    right = reading.field_tries
    reading.field_tries = lambda tree, row: (one for one in right(tree, row) if one[:2] != (14, 8))


def length_word():
    """The word is that of the field's length."""
    right = reading.tries

    def tries(tree, row):
        for number, word, drawn in right(tree, row):
            yield number, word + 1 if word else 0, drawn
    reading.tries = tries


def last_field():
    """The last of two faulty fields is named."""
    right = reading.Row.worded
    reading.Row.worded = lambda row: reversed(list(right(row)))


def bytes_before_rows():
    """11 is tried before 10."""
    right = reading.too_much

    def too_much(tree, out_words, out_bytes):
        if len(tree.pool) > min(reading.MOST_BYTES, out_bytes):
            return reading.Refusal(11)
        return right(tree, out_words, out_bytes)
    reading.too_much = too_much


def shared_bytes():
    """Bytes that stand in the pool already are not appended."""
    right = reading.in_pool

    def in_pool(tree, text):
        at = tree.pool.find(text)
        return right(tree, text) if at < 0 else reading.Field(at, len(text), text)
    reading.in_pool = in_pool


def big_endian():
    """The numbers of a bundle have their highest byte first."""
    bundles.ORDER = ">"


def zero_byte_not_seen():
    """The zero byte of a bundle may be any."""
    bundles.zero_byte = lambda bytes: bytes.take(1, 32)


def bytes_after():
    """Bytes may stand after the pool."""
    bundles.nothing_after = lambda bytes: None


def version_before_mark():
    """31 is tried before 30."""
    def mark_and_version(bytes):
        mark, version = bytes.take(len(bundles.MARK), 30), bytes.number("H", 31)
        if version not in bundles.ROW_WORDS:
            raise bundles.Refused(31)
        if mark != bundles.MARK:
            raise bundles.Refused(30)
        return version
    bundles.mark_and_version = mark_and_version


def cut_is_lengths():
    """Bytes that end before the mark or the version is whole draw 32."""
    right = bundles.mark_and_version

    def mark_and_version(bytes):
        if len(bytes.all) < 5:
            raise bundles.Refused(32)
        return right(bytes)
    bundles.mark_and_version = mark_and_version


def limits_by_lengths():
    """More rows or pool bytes than there may be draw 32."""
    right = bundles.split

    def split(bundle):
        table, pool = right(bundle)
        if reading.wrong_size(table, pool):
            raise bundles.Refused(32)
        return table, pool
    bundles.split = split


def room_before_limits():
    """33 is tried before 10 and 11."""
    right = bundles.normalize

    def normalize(bundle, out_size):
        number, *rest = right(bundle, out_size)
        return (33 if number in (10, 11) and out_size < len(bundle) else number, *rest)
    bundles.normalize = normalize


def read_bytes_before_rows():
    """The reader tries 11 before 10."""
    def too_short(table, pool, out_words, out_bytes):
        if len(pool) > out_bytes:
            raise bundles.Refused(11)
        if len(table) // reading.WIDTH > out_words // reading.WIDTH:
            raise bundles.Refused(10)
    bundles.too_short = too_short


def rest_kept():
    """What a written bundle leaves over of the output is not zero."""
    def written(bundle, out_size):
        if len(bundle) > out_size:
            raise bundles.Refused(33)
        return (*reading.NOT_REFUSED, len(bundle), bundle + b"\xa5" * (out_size - len(bundle)))
    bundles.written = written


def escapes_without(*bytes):
    """The escapes of values, but not of these bytes."""
    for name in ("TEXT_ESCAPES", "QUOTED_ESCAPES"):
        setattr(reading, name, tuple(one for one in getattr(reading, name) if one[0] not in bytes))


def quote_not_escaped():
    """A quote stands in a value as it is."""
    escapes_without(b'"')


def ampersand_escaped_last():
    """What stands for another byte is escaped again."""
    for name in ("TEXT_ESCAPES", "QUOTED_ESCAPES"):
        setattr(reading, name, tuple(reversed(getattr(reading, name))))


def tab_kept_in_attribute():
    """A tab stands in an attribute as it is."""
    escapes_without(b"\t")


def line_feed_kept_in_attribute():
    """A line feed stands in an attribute as it is."""
    escapes_without(b"\n")


def return_kept():
    """A carriage return stands in a value as it is."""
    escapes_without(b"\r")


def tab_escaped_in_text():
    """A text has the escapes of attributes."""
    reading.TEXT_ESCAPES = reading.QUOTED_ESCAPES


def attributes_before_declarations():
    """In a start tag the attributes come first."""
    right = reading.in_tag
    reading.in_tag = lambda tree, element: sorted(right(tree, element), key=lambda row: row.type)


def texts_before_elements():
    """Among the children of an element the texts come first."""
    right = reading.content
    reading.content = lambda tree, element: sorted(right(tree, element), key=lambda row: -row.type)


def no_end_tag():
    """An element that holds nothing has no end tag."""
    right = reading.element_markup
    reading.element_markup = lambda tree, element: re.sub(rb"<([^ >]*)([^>]*)></\1>", rb"<\1\2/>", right(tree, element))


def empty_default_left_out():
    """An empty default declaration is not written."""
    right = reading.in_tag
    reading.in_tag = lambda tree, element: [
        row for row in right(tree, element) if row.type != reading.DECLARATION or row.value.text != b""]


def text_room_off_by_one():
    """A text that fills the output draws 22."""
    reading.has_room = lambda text, out_size: len(text) < out_size


def text_room_first():
    """22 is tried before 21, 23 and 24."""
    right = reading.write_xml

    def write_xml(table, pool, row, out_size):
        answer = right(table, pool, row, out_size)
        return (22, 0, *answer[2:]) if answer[0] in (21, 23, 24) and out_size == 0 else answer
    reading.write_xml = write_xml


def tried_in_order(*numbers):
    """The refusals of an XML text are tried in this order."""
    right = reading.xml_tries
    reading.xml_tries = lambda tree, start: sorted(right(tree, start), key=lambda one: numbers.index(one[0]))


def undeclared_before_character():
    """23 is tried before 21."""
    tried_in_order(20, 23, 21, 24)


def character_before_markup():
    """21 is tried before 20."""
    tried_in_order(21, 20, 23, 24)


def inherited_before_undeclared():
    """24 is tried before 23."""
    tried_in_order(20, 21, 24, 23)


def row_by_row():
    """The lowest row is named that draws 20, 21 or 23."""
    right = reading.xml_tries

    def xml_tries(tree, start):
        tried = list(right(tree, start))
        lowest = min((row for number, rows in tried if number != 24 for row in rows), default=None)
        yield from ((number, [row for row in rows if row == lowest or number == 24]) for number, rows in tried)
    reading.xml_tries = xml_tries


def inherited_at_the_start():
    """The start's own declarations draw 24."""
    right = reading.inherited
    reading.inherited = lambda tree, element: [*right(tree, element), *(
        row for row in tree.declarations(element) if row.value.text != b"")]


def inherited_where_used():
    """Only a declaration that some name in the subtree uses draws 24."""
    right = reading.inherited
    reading.inherited = lambda tree, element: [row for row in right(tree, element) if any(
        other.prefix.text == row.local_name.text and other.uri.text == row.value.text
        for other in reading.subtree(tree, element))]


def empty_is_inherited():
    """A declaration with an empty value draws 24."""
    right = reading.inherited

    def inherited(tree, element):
        declared = {row.local_name.text for row in tree.declarations(element)}
        yield from right(tree, element)
        for outer in reading.outward(tree, reading.ancestor_element(tree, element)):
            yield from (row for row in tree.declarations(outer) if row.value.text == b"" and b"" not in declared)
    reading.inherited = inherited


def xml_not_inherited():
    """A declaration of `xml` does not draw 24."""
    right = reading.inherited
    reading.inherited = lambda tree, element: [row for row in right(tree, element) if row.local_name.text != b"xml"]


def between_not_looked_at():
    """A declaration draws 24 also where an element between declares its prefix."""
    def inherited(tree, element):
        declared = {row.local_name.text for row in tree.declarations(element)}
        for outer in reading.outward(tree, reading.ancestor_element(tree, element)):
            yield from (row for row in tree.declarations(outer)
                        if row.value.text != b"" and row.local_name.text not in declared)
    reading.inherited = inherited


def beside_counts():
    """What stands beside a document's element counts for 20."""
    right = reading.xml_tries

    def xml_tries(tree, start):
        yield 20, [row.number for row in tree.under.get(start.number, ()) if start.type == reading.DOCUMENT
                   and row.type != reading.ELEMENT]
        yield from right(tree, start)
    reading.xml_tries = xml_tries


def owner_written():
    """From an attribute, a text or a declaration its element is written."""
    right = reading.element_to_write
    reading.element_to_write = lambda tree, start: right(tree, start) or (
        reading.start_element(tree, start) if start.type in (2, 3, 13) else None)


def attribute_without_prefix():
    """An attribute with a URI and no prefix does not draw 23."""
    right = reading.means_its_uri
    reading.means_its_uri = lambda tree, row: right(tree, row) or row.type == reading.ATTRIBUTE and not row.prefix.text


def noncharacters_allowed():
    """U+FFFE and U+FFFF do not draw 21."""
    right = reading.forbidden
    reading.forbidden = lambda value: right(value.replace(b"\xef\xbf\xbe", b"").replace(b"\xef\xbf\xbf", b""))


def declared_values_not_tried():
    """The value of a declaration does not draw 21."""
    right = reading.xml_tries
    reading.xml_tries = lambda tree, start: ((number, [row for row in rows if number != 21 or tree.rows[row].type != 13])
                                             for number, rows in right(tree, start))


def declaration_value_compared():
    """A declaration keeps its value too."""
    right = reading.keeps_row
    reading.keeps_row = lambda row, proposed: right(row, proposed) and row.value.text == proposed.value.text


def element_prefix_compared():
    """An element keeps its prefix too."""
    right = reading.keeps_row
    reading.keeps_row = lambda row, proposed: right(row, proposed) and (
        row.type != reading.ELEMENT or row.prefix.text == proposed.prefix.text)


def ownerless_prefix_free():
    """An attribute without an owner may take another prefix."""
    reading.keeps_row = lambda row, proposed: (
        (row.type, row.parent, row.maker, row.local_name.text, row.uri.text)
        == (proposed.type, proposed.parent, proposed.maker, proposed.local_name.text, proposed.uri.text)
        and (row.type == reading.DECLARATION or row.value.text == proposed.value.text))


def proposal_level1_first():
    """42 looks at the proposal first."""
    reading.level1_order = lambda original, proposal: (proposal, original)


def missing_row_accepted():
    """A missing row is no change."""
    right = reading.keeps
    reading.keeps = lambda original, proposal, number: number >= len(proposal.rows) or right(original, proposal, number)


def extra_rows_not_looked_at():
    """A further row may be of any type."""
    right = reading.keeps
    reading.keeps = lambda original, proposal, number: number >= len(original.rows) or right(original, proposal, number)


def unresolved_by_uri_lookup():
    """44 asks the URI lookup, so that an element's own name answers."""
    right = reading.resolves
    reading.resolves = lambda tree, row: right(tree, row) or (
        row.type == reading.ELEMENT and reading.uri_from(tree, row, row.prefix.text).field.text == row.uri.text)


def ownerless_attribute_asked():
    """44 asks attributes without an owner."""
    right = reading.is_asked
    reading.is_asked = lambda row: right(row) or row.type == reading.ATTRIBUTE and row.prefix.text == b"" != row.uri.text


def words_before_rows():
    """The entries of a packed pool stand in order of their words, and of rows within each."""
    right = reading.uses
    reading.uses = lambda tree: sorted(right(tree), key=lambda use: use[0])


def entries_by_place():
    """Equal fields at two places are two entries."""
    reading.entry_of = lambda word, field: (field.offset, field.text)


def entries_by_kind():
    """A name and a value of the same bytes are two entries."""
    reading.entry_of = lambda word, field: (word == 8, field.text)


def part_of_entry_reused():
    """A field that is a part of what was packed before points there."""
    right = reading.new_entry

    def new_entry(made, text):
        at = made.pool.find(text)
        return right(made, text) if at < 0 else reading.Field(at, len(text), text)
    reading.new_entry = new_entry


def empty_field_points():
    """An empty field points behind the packed pool."""
    reading.empty_field = lambda made: reading.Field(len(made.pool), 0, b"")


def dead_bytes_kept():
    """Bytes that no field uses stay behind the packed pool."""
    right = reading.packed_form

    def packed_form(tree):
        made = right(tree)
        used = {at for row in tree.rows for field in row.fields() for at in range(field.offset, field.offset + field.length)}
        made.pool += bytes(byte for at, byte in enumerate(tree.pool) if at not in used)
        return made
    reading.packed_form = packed_form


def packed_no_longer():
    """11 comes where the packed pool is longer than it was."""
    right = reading.packed

    def packed(table, pool):
        refusal, tree = right(table, pool)
        return (refusal, tree) if tree is None or len(tree.pool) <= len(pool) else (reading.Refusal(11), None)
    reading.packed = packed


def packed_beyond_limit():
    """11 does not come by 32,768 where a bundle is packed."""
    right = bundles.pack

    def pack(bundle, out_size):
        answer = right(bundle, out_size)
        return (33, *answer[1:]) if answer[0] == 11 else answer
    bundles.pack = pack


def level1_not_packed():
    """9 comes for packing too."""
    right = reading.packed

    def packed(table, pool):
        refusal, tree = right(table, pool)
        level1 = reading.first_level1(tree) if tree else reading.NOT_REFUSED
        return (level1, None) if level1.number else (refusal, tree)
    reading.packed = packed


def dropped_rows_count():
    """A row draws 7 against a dropped row too."""
    right = reading.drop_number
    reading.drop_number = lambda tree, row, held: right(tree, row, held) or (7 if reading.wrong_double(tree, row) else 0)


def double_told_first():
    """Where a row draws 6 and 7, 7 is told."""
    right = reading.drop_number
    reading.drop_number = lambda tree, row, held: (
        7 if any(reading.is_double(row, other) for other in held) else right(tree, row, held))


def attributes_not_dropped():
    """Attributes that draw 7 are kept."""
    right = reading.drop_number
    reading.drop_number = lambda tree, row, held: right(tree, row, held) if row.type == reading.DECLARATION else 0


def level1_doubles_kept():
    """Attributes of DOM Level 1 that draw 7 are kept."""
    right = reading.drop_number
    reading.drop_number = lambda tree, row, held: 0 if row.type == reading.LEVEL1_ATTRIBUTE else right(tree, row, held)


def parents_not_renumbered():
    """A kept row has its parent's old number."""
    reading.new_parent = lambda row, kept: row.parent


def parents_moved_with_rows():
    """A parent's number is less by what was dropped before the row, and not before the parent."""
    right = reading.kept_and_dropped

    def kept_and_dropped(tree):
        made, drops = right(tree)
        numbers = [row.number for row in tree.rows if row.number not in dict(drops)]
        for row, old in zip(made.rows, numbers):
            parent = tree.rows[old].parent
            row.parent = parent if parent == reading.NONE else max(0, parent - (old - row.number))
        return made, drops
    reading.kept_and_dropped = kept_and_dropped


def list_by_new_numbers():
    """A dropped row is told by the number that it would have."""
    reading.dropped_row = lambda row, made: len(made.rows)


def list_room_in_words():
    """The list has room for as many dropped rows as it has words."""
    right = reading.short_list
    reading.short_list = lambda drops, list_words: right(drops, list_words) and len(drops) > list_words


def dropped_counted_in_words():
    """The use of the list is answered in words."""
    right = bundles.salvage

    def salvage(bundle, out_size, list_words):
        *answer, dropped, out, drops = right(bundle, out_size, list_words)
        return (*answer, 2 * dropped, out, drops)
    bundles.salvage = salvage


def fault_behind_conflict_passed():
    """A fault behind a row that is dropped is not seen."""
    right = reading.faults

    def faults(tree, row):
        conflict = any(reading.wrong_declaration(tree, other) for other in tree.rows[:row.number])
        return () if conflict else right(tree, row)
    reading.faults = faults
    reading.new_parent = lambda row, kept: kept.get(row.parent, 0)


def conflict_refused_before_fault():
    """Where a fault comes behind a row that draws 6, that row refuses."""
    right = bundles.salvage

    def salvage(bundle, out_size, list_words):
        answer, checked = right(bundle, out_size, list_words), bundles.check(bundle)
        return (*checked, *answer[3:]) if 1 < answer[0] < 10 and checked.number == 6 else answer
    bundles.salvage = salvage


def room_before_list():
    """33 is tried before 10."""
    right = bundles.salvage

    def salvage(bundle, out_size, list_words):
        answer = right(bundle, out_size, list_words)
        return (33, *answer[1:]) if answer[0] == 10 and right(bundle, out_size, 2048)[0] == 33 else answer
    bundles.salvage = salvage


def list_left_after_refusal():
    """The list is written, though 33 comes."""
    right = bundles.salvage

    def salvage(bundle, out_size, list_words):
        answer = right(bundle, out_size, list_words)
        return (*answer[:6], right(bundle, len(bundle), list_words)[6]) if answer[0] == 33 else answer
    bundles.salvage = salvage


def salvaged_pool_packed():
    """The pool of a salvaged bundle is packed."""
    right = reading.kept_and_dropped

    def kept_and_dropped(tree):
        made, drops = right(tree)
        return (reading.packed_form(made), drops) if drops else (made, drops)
    reading.kept_and_dropped = kept_and_dropped


def made_by(maker):
    """An added declaration is by the maker that this says of its element and of the row that needed it."""
    right = reading.append

    def append(tree, element, needing, prefix, value):
        right(tree, element, needing, prefix, value)
        tree.rows[-1].maker = maker(element, needing)
    reading.append = append


def element_makes():
    """A declaration that an attribute needed is by the element's maker."""
    made_by(lambda element, needing: element.maker)


def element_makes_numbered():
    """A declaration of an `NS` prefix is by the element's maker."""
    made_by(lambda element, needing: element.maker if needing.prefix.text.startswith(b"NS") else needing.maker)


def attributes_alone_make():
    """A declaration that an element needed has maker 0."""
    made_by(lambda element, needing: 0 if needing is element else needing.maker)


def nobody_makes():
    """An added declaration has maker 0."""
    made_by(lambda element, needing: 0)


def host_makes():
    """An added declaration is by the maker of row 0."""
    right = reading.append

    def append(tree, element, needing, prefix, value):
        right(tree, element, needing, prefix, value)
        tree.rows[-1].maker = tree.rows[0].maker
    reading.append = append


def set_declaration_taken_over():
    """A declaration whose value is set is the element's maker's from then on."""
    right = reading.declare

    def declare(tree, element, prefix, value):
        right(tree, element, prefix, value)
        reading.declaration_of(tree, element, prefix.text).maker = element.maker
    reading.declare = declare


def attribute_taken_over():
    """An attribute whose prefix is set is its element's maker's from then on."""
    right = reading.repair_attribute

    def repair_attribute(tree, element, attribute):
        before = attribute.prefix
        right(tree, element, attribute)
        attribute.maker = attribute.maker if attribute.prefix == before else element.maker
    reading.repair_attribute = repair_attribute


def large_maker_refused():
    """A maker of 2^31 or more draws 2."""
    right = reading.wrong_structure
    reading.wrong_structure = lambda tree, row: right(tree, row) or row.maker >= 2**31


def other_maker_kept():
    """A row of the original may have another maker in the proposal."""
    right = reading.keeps_row

    def keeps_row(row, proposed):
        maker, proposed.maker = proposed.maker, row.maker
        kept = right(row, proposed)
        proposed.maker = maker
        return kept
    reading.keeps_row = keeps_row


def declaration_maker_free():
    """A declaration of the original, whose value may be another, may have another maker too."""
    right = reading.keeps_row
    reading.keeps_row = lambda row, proposed: right(row, proposed) or row.type == reading.DECLARATION == proposed.type and (
        (row.parent, row.local_name.text) == (proposed.parent, proposed.local_name.text))


def further_maker_compared():
    """A further row of a proposal is by its owner's maker."""
    right = reading.keeps
    reading.keeps = lambda original, proposal, number: right(original, proposal, number) and (
        number < len(original.rows) or proposal.rows[number].maker == proposal.rows[proposal.rows[number].parent].maker)


def packed_without_makers():
    """A packed row has maker 0."""
    without_makers("packed_form", lambda made: made)


def salvaged_without_makers():
    """A kept row has maker 0, where another was dropped."""
    without_makers("kept_and_dropped", lambda made: made[0] if made[1] else reading.Tree((), b""))


def without_makers(name, tree_of):
    right = getattr(reading, name)

    def making(tree):
        made = right(tree)
        for row in tree_of(made).rows:
            row.maker = 0
        return made
    setattr(reading, name, making)


def salvaged_makers_moved():
    """A kept row has the maker of the row that stood in its place."""
    right = reading.kept_and_dropped

    def kept_and_dropped(tree):
        made, drops = right(tree)
        for row in made.rows:
            row.maker = tree.rows[row.number].maker
        return made, drops
    reading.kept_and_dropped = kept_and_dropped


def old_version_refused():
    """31 comes for version 1."""
    bundles.ROW_WORDS = {2: reading.WIDTH}


def any_version_read():
    """A version after 2 is read as version 2."""
    bundles.ROW_WORDS = {1: 10} | dict.fromkeys(range(2, 65536), reading.WIDTH)


def old_rows_as_long():
    """A row of version 1 takes 44 bytes."""
    bundles.ROW_WORDS = {1: reading.WIDTH, 2: reading.WIDTH}
    bundles.with_makers = lambda words, version: words


def rows_as_old():
    """A row of version 2 takes 40 bytes, and its maker is 0."""
    right = bundles.with_makers
    bundles.ROW_WORDS = {1: 10, 2: 10}
    bundles.with_makers = lambda words, version: right(words, 1)


def old_makers_first():
    """The word that a row of version 1 lacks is its first."""
    bundles.with_makers = lambda words, version: words if version != 1 else tuple(
        word for at in range(0, len(words), 10) for word in (0, *words[at:at + 10]))


def old_makers_numbered():
    """The maker of a row of version 1 is its number."""
    right = bundles.with_makers

    def with_makers(words, version):
        table = list(right(words, version))
        if version == 1:
            table[10::reading.WIDTH] = range(len(table) // reading.WIDTH)
        return tuple(table)
    bundles.with_makers = with_makers


def version_kept():
    """What was of version 1 and needs no repair comes back as it was."""
    right = bundles.normalize

    def normalize(bundle, out_size):
        answer, same = right(bundle, out_size), right(bundle, 1 << 17)
        table, pool = bundles.opened(bundle)
        if bundle[3:4] == b"\1" and same[0] == 0 and same[3] == len(bundles.join(table, pool)) and len(bundle) <= out_size:
            return (*reading.NOT_REFUSED, len(bundle), bundle + bytes(out_size - len(bundle)))
        return answer
    bundles.normalize = normalize


def old_room():
    """33 of a bundle of version 1 is judged by its own length where it is packed."""
    right = bundles.pack

    def pack(bundle, out_size):
        answer = right(bundle, out_size)
        rows = len(bundles.opened(bundle)[0]) // reading.WIDTH
        if answer[0] == 33 and bundle[3:4] == b"\1" and right(bundle, out_size + 4 * rows)[0] == 0:
            return (*reading.NOT_REFUSED, *right(bundle, out_size + 4 * rows)[3:])
        return answer
    bundles.pack = pack


FAULTS = {fault.__name__: fault for fault in (
    shadowed_prefix, shadowed_own_prefix, element_by_uri_lookup, default_serves_attribute, bound_prefix_declared,
    declared_xml, xmlns_not_built_in, built_in_without_start, nothing_is_no_default, unprefixed_decides,
    default_by_declarations, empty_default_passed_over,
    names_by_offset, fields_before_structure, offset_before_pool, empty_in_first_pass,
    pool_before_offsets, fields_after_names, encoding_after_names, encoding_with_empty, surrogates_accepted,
    values_not_decoded, length_word, last_field, bytes_before_rows, shared_bytes, big_endian, zero_byte_not_seen,
    bytes_after, version_before_mark, cut_is_lengths, limits_by_lengths, room_before_limits, read_bytes_before_rows,
    rest_kept, quote_not_escaped, ampersand_escaped_last, tab_kept_in_attribute, line_feed_kept_in_attribute, return_kept,
    tab_escaped_in_text, attributes_before_declarations, texts_before_elements, no_end_tag, empty_default_left_out,
    text_room_off_by_one, text_room_first, undeclared_before_character, character_before_markup,
    inherited_before_undeclared, row_by_row, inherited_at_the_start, inherited_where_used, empty_is_inherited,
    xml_not_inherited, between_not_looked_at, beside_counts, owner_written, attribute_without_prefix,
    noncharacters_allowed, declared_values_not_tried,
    declaration_value_compared, element_prefix_compared, ownerless_prefix_free, proposal_level1_first, missing_row_accepted,
    extra_rows_not_looked_at, unresolved_by_uri_lookup, ownerless_attribute_asked,
    words_before_rows, entries_by_place, entries_by_kind, part_of_entry_reused, empty_field_points, dead_bytes_kept,
    packed_no_longer, packed_beyond_limit, level1_not_packed,
    dropped_rows_count, double_told_first, attributes_not_dropped, level1_doubles_kept, parents_not_renumbered,
    parents_moved_with_rows, list_by_new_numbers, list_room_in_words, dropped_counted_in_words, fault_behind_conflict_passed,
    conflict_refused_before_fault, room_before_list, list_left_after_refusal, salvaged_pool_packed,
    element_makes, element_makes_numbered, attributes_alone_make, nobody_makes, host_makes, set_declaration_taken_over,
    attribute_taken_over, large_maker_refused, other_maker_kept, declaration_maker_free, further_maker_compared,
    packed_without_makers, salvaged_without_makers, salvaged_makers_moved, old_version_refused, any_version_read,
    old_rows_as_long, rows_as_old, old_makers_first, old_makers_numbered, version_kept, old_room)}
