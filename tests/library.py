"""The library behind the names of tests/bundles.py: a shared object made of the static one, called in this process by
the C interface.

    library = Library(path)
    library.lend(bundle, table, pool, shift)    what the following calls read, at an address that is shifted by some bytes
    library.ask(operation, *rest)               the whole answer, and every output buffer whole
    library.room(), library.xml_room()          what noemathu_room and noemathu_xml_room of the header say of the bundle
    library.seen(words, bytes)                  its table and its pool, which have so many, as the header's helpers see them
    library.taken_back()                        after the calls: whether what was lent is unchanged

Outputs are filled with a pattern before a call, and the margins around them must still hold it afterwards.
"""
import ctypes
import subprocess
from array import array
from pathlib import Path

BYTES, SIZE, WORD = ctypes.c_void_p, ctypes.c_size_t, ctypes.c_uint32


class Refusal(ctypes.Structure):
    _fields_ = [("number", WORD), ("row", WORD), ("word", WORD)]

    def given(self):
        return self.number, self.row, self.word


class Place(ctypes.Structure):
    _fields_ = [("offset", WORD), ("length", WORD)]


class Found(ctypes.Structure):
    _fields_ = [("refusal", Refusal), ("found", WORD), ("place", Place)]


class Sizes(ctypes.Structure):
    _fields_ = [("refusal", Refusal), ("rows", SIZE), ("bytes", SIZE)]


class Used(ctypes.Structure):
    _fields_ = [("refusal", Refusal), ("bytes", SIZE)]


class Salvaged(ctypes.Structure):
    _fields_ = [("refusal", Refusal), ("bytes", SIZE), ("dropped", SIZE)]


BUFFER = [BYTES, SIZE]
LOOKUP = BUFFER + [WORD, ctypes.c_char_p, SIZE]

# The parameters and the result of each operation.
FUNCTIONS = {
    "check": (BUFFER, Refusal),
    "check_proposal": (BUFFER * 2, Refusal),
    "uri_of_prefix": (LOOKUP, Found),
    "prefix_of_uri": (LOOKUP, Found),
    "default_uri": (BUFFER + [WORD], Found),
    "in_scope_uri": (LOOKUP, Found),
    "in_scope_prefix": (LOOKUP, Found),
    "normalize": (BUFFER * 2, Used),
    "pack": (BUFFER * 2, Used),
    "salvage": (BUFFER * 3, Salvaged),
    "read": (BUFFER * 3, Sizes),
    "write": (BUFFER * 3, Used),
    "write_xml": (BUFFER + [WORD] + BUFFER, Used),
}

# The header's own functions, made callable.
HELPERS = """#include <noemathu.h>
size_t room(const uint8_t *bundle) { return noemathu_room(bundle); }
size_t xml_room(const uint8_t *bundle) { return noemathu_xml_room(bundle); }
void seen(const uint8_t *bundle, uint32_t *table, uint8_t *pool)
{
    for (size_t i = 0; i < noemathu_row_count(bundle); i++)
        noemathu_put_row(table, i, noemathu_row_of(bundle, i));
    if (noemathu_pool_length(bundle) > 0)
        memcpy(pool, noemathu_bytes(bundle, (noemathu_place){0, 0}), noemathu_pool_length(bundle));
}
bool default_is(const uint8_t *bundle, noemathu_found default_uri, const uint8_t *uri, size_t uri_length)
{
    return noemathu_default_is(bundle, default_uri, uri, uri_length);
}
"""

MARGIN = 64
MOST = 1 << 18
PATTERN = b"\xa5" * MOST


class Overrun(Exception):
    pass


class Room:
    """Memory to lend from. It stands at a multiple of 64."""

    def __init__(self):
        self.memory = memoryview(bytearray(MOST + 64))
        address = ctypes.addressof(ctypes.c_char.from_buffer(self.memory))
        self.memory = self.memory[-address % 64:][:MOST]
        self.address = address + -address % 64
        self.content, self.at, self.end = b"", 0, 0

    def lend(self, length, shift, content=None):
        """A pointer and a length; NULL for nothing. Around it stands the pattern, and in it, if nothing else does."""
        self.at, self.end = MARGIN + shift, MARGIN + shift + length
        self.memory[:self.end + MARGIN] = PATTERN[:self.end + MARGIN]
        if content:
            self.memory[self.at:self.end] = content
        self.content = content
        return self.address + self.at if length else None, length

    def taken_back(self, told):
        """What stands there now."""
        if self.memory[:self.at] != PATTERN[:self.at] or self.memory[self.end:self.end + MARGIN] != PATTERN[:MARGIN]:
            raise Overrun("%s was written around" % told)
        now = bytes(self.memory[self.at:self.end])
        if self.content is not None and now != self.content:
            raise Overrun("%s was written to" % told)
        return now


class Library:
    def __init__(self, archive, made="target/tests"):
        Path(made).mkdir(parents=True, exist_ok=True)
        shared = str(Path(made, "library.so").resolve())
        subprocess.run(["cc", "-O2", "-fPIC", "-Iinclude", "-shared", "-o", shared, "-x", "c", "-", "-x", "none",
                        "-Wl,--whole-archive", str(archive), "-Wl,--no-whole-archive"], input=HELPERS, text=True, check=True)
        loaded = ctypes.CDLL(shared)
        self.helpers = {}
        for name, parameters in (("room", [BYTES]), ("xml_room", [BYTES]), ("seen", [BYTES] * 3)):
            self.helpers[name] = getattr(loaded, name)
            self.helpers[name].argtypes, self.helpers[name].restype = parameters, SIZE
        self.compare_default = loaded.default_is
        self.compare_default.argtypes, self.compare_default.restype = [BYTES, Found, ctypes.c_char_p, SIZE], ctypes.c_bool
        self.functions = {}
        for operation, (parameters, result) in FUNCTIONS.items():
            function = getattr(loaded, "noemathu_" + operation)
            function.argtypes, function.restype = parameters, result
            self.functions[operation] = function
        self.rooms = {name: Room() for name in ("bundle", "proposal", "table", "pool", "out", "out_table", "out_pool", "out_list")}
        self.lent, self.shift = {}, 0

    def lend(self, bundle, table, pool, shift):
        self.shift = shift
        self.lent["bundle"] = self.rooms["bundle"].lend(len(bundle), shift, bundle)
        self.lent["pool"] = self.rooms["pool"].lend(len(pool), shift, pool)
        content = array("I", table).tobytes()
        self.lent["table"] = self.rooms["table"].lend(len(content), 4 * shift, content)[0], len(table)

    def taken_back(self):
        for name in ("bundle", "table", "pool"):
            self.rooms[name].taken_back(name)

    def ask(self, operation, *rest):
        return getattr(self, operation, self.lookup)(operation, *rest)

    def check(self, operation):
        answer = self.functions[operation](*self.lent["bundle"])
        return answer.given()

    def check_proposal(self, operation, proposal):
        lent = self.rooms["proposal"].lend(len(proposal), self.shift, proposal)
        answer = self.functions[operation](*self.lent["bundle"], *lent)
        self.rooms["proposal"].taken_back("the proposal")
        return answer.given()

    def lookup(self, operation, row, query):
        answer = self.functions[operation](*self.lent["bundle"], row, query if query else None, len(query))
        return (*answer.refusal.given(), answer.found, answer.place.offset, answer.place.length)

    def default_uri(self, operation, row):
        answer = self.functions[operation](*self.lent["bundle"], row)
        return (*answer.refusal.given(), answer.found, answer.place.offset, answer.place.length)

    def default_is(self, operation, row, query):
        """The default URI is asked for, and compared as the header does."""
        answer = self.functions["default_uri"](*self.lent["bundle"], row)
        yes = self.compare_default(self.lent["bundle"][0], answer, query if query else None, len(query))
        return (*answer.refusal.given(), yes)

    def normalize(self, operation, size):
        answer = self.functions[operation](*self.lent["bundle"], *self.rooms["out"].lend(size, self.shift))
        return (*answer.refusal.given(), answer.bytes, self.rooms["out"].taken_back("the output"))

    pack = normalize

    def write(self, operation, size):
        answer = self.functions[operation](*self.lent["table"], *self.lent["pool"],
                                           *self.rooms["out"].lend(size, self.shift))
        return (*answer.refusal.given(), answer.bytes, self.rooms["out"].taken_back("the output"))

    def salvage(self, operation, size, count):
        out = self.rooms["out"].lend(size, self.shift)
        answer = self.functions[operation](*self.lent["bundle"], *out, *self.lend_words("out_list", count))
        return (*answer.refusal.given(), answer.bytes, answer.dropped, self.rooms["out"].taken_back("the output"),
                self.words_back("out_list", "the list"))

    def write_xml(self, operation, row, size):
        answer = self.functions[operation](*self.lent["bundle"], row, *self.rooms["out"].lend(size, self.shift))
        return (*answer.refusal.given(), answer.bytes, self.rooms["out"].taken_back("the output"))

    def room(self):
        return self.helpers["room"](self.lent["bundle"][0])

    def xml_room(self):
        return self.helpers["xml_room"](self.lent["bundle"][0])

    def seen(self, words, size):
        table, pool = self.lend_words("out_table", words)[0], self.rooms["out_pool"].lend(size, self.shift)[0]
        self.helpers["seen"](self.lent["bundle"][0], table, pool)
        return self.words_back("out_table", "the table seen"), self.rooms["out_pool"].taken_back("the pool seen")

    def read(self, operation, count, size):
        table = self.lend_words("out_table", count)
        answer = self.functions[operation](*self.lent["bundle"], *table, *self.rooms["out_pool"].lend(size, self.shift))
        return (*answer.refusal.given(), answer.rows, answer.bytes, self.words_back("out_table", "the output table"),
                self.rooms["out_pool"].taken_back("the output pool"))

    def lend_words(self, name, count):
        return self.rooms[name].lend(4 * count, 4 * self.shift)[0], count

    def words_back(self, name, told):
        return tuple(memoryview(self.rooms[name].taken_back(told)).cast("I"))
