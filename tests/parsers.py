"""Two readers of XML text that others wrote, behind one form: libxml2, called by its reader interface, and the expat that
Python has.

    libxml2(text) -> events, or None if it refuses the text
    expat(text) -> events, or None

An event is ("start", uri, local name, attributes, declarations), ("text", text) or ("end",). Attributes are by URI and local
name, declarations by prefix. Adjoining texts are one, and an empty one is none. Everything is bytes.
"""
import ctypes
from xml.parsers import expat as python_expat

# Without the first, libxml2 leaves `&amp;` in a declaration as `&#38;`; without the last, it refuses depths above 256.
ENTITIES, NO_ERRORS, NO_WARNINGS, NO_NETWORK, HUGE = 1 << 1, 1 << 5, 1 << 6, 1 << 11, 1 << 19
ELEMENT, TEXTS, END_ELEMENT = 1, (3, 4, 13, 14), 15
XMLNS_URI = b"http://www.w3.org/2000/xmlns/"


# The errors of namespaces, which libxml2 tells and goes on: a name that is none, a prefix that is not declared and the like.
# That a URI is relative or no URI is none of them.
NAMESPACE_ERRORS = range(200, 206)


class Error(ctypes.Structure):
    """How its error begins."""
    _fields_ = [("domain", ctypes.c_int), ("code", ctypes.c_int)]


HANDLER = ctypes.CFUNCTYPE(None, ctypes.c_void_p, ctypes.POINTER(Error))


def joined(events):
    """Adjoining texts as one, empty ones gone."""
    kept = []
    for event in events:
        if event[0] == "text" and kept and kept[-1][0] == "text":
            kept[-1] = "text", kept[-1][1] + event[1]
        elif event != ("text", b""):
            kept.append(event)
    return kept


def loaded():
    for name in ("libxml2.so.2", "libxml2.so.16"):
        try:
            library = ctypes.CDLL(name)
        except OSError:
            continue
        pointer, number, text = ctypes.c_void_p, ctypes.c_int, ctypes.c_char_p
        for function, result, *parameters in (
                ("xmlReaderForMemory", pointer, text, number, text, text, number), ("xmlFreeTextReader", None, pointer),
                ("xmlTextReaderSetStructuredErrorHandler", None, pointer, HANDLER, pointer),
                ("xmlTextReaderRead", number, pointer), ("xmlTextReaderNodeType", number, pointer),
                ("xmlTextReaderIsEmptyElement", number, pointer), ("xmlTextReaderMoveToNextAttribute", number, pointer),
                ("xmlTextReaderConstLocalName", text, pointer), ("xmlTextReaderConstPrefix", text, pointer),
                ("xmlTextReaderConstNamespaceUri", text, pointer), ("xmlTextReaderConstValue", text, pointer)):
            getattr(library, function).restype = result
            getattr(library, function).argtypes = parameters
        return library
    raise SystemExit("parsers: there is no libxml2 here; Debian has it in the package libxml2")


XML2 = loaded()


def started(reader):
    """The event of a start tag."""
    uri, local_name = XML2.xmlTextReaderConstNamespaceUri(reader) or b"", XML2.xmlTextReaderConstLocalName(reader)
    attributes, declarations = {}, {}
    while XML2.xmlTextReaderMoveToNextAttribute(reader) == 1:
        of, name = XML2.xmlTextReaderConstNamespaceUri(reader) or b"", XML2.xmlTextReaderConstLocalName(reader)
        value = XML2.xmlTextReaderConstValue(reader) or b""
        if of == XMLNS_URI:
            declarations[name if XML2.xmlTextReaderConstPrefix(reader) else b""] = value
        else:
            attributes[of, name] = value
    return "start", uri, local_name, attributes, declarations


def libxml2(text):
    reader = XML2.xmlReaderForMemory(text, len(text), None, None,
                                     ENTITIES | NO_ERRORS | NO_WARNINGS | NO_NETWORK | HUGE)
    events, errors = [], []
    handler = HANDLER(lambda _, error: errors.append(error.contents.code))
    XML2.xmlTextReaderSetStructuredErrorHandler(reader, handler, None)
    try:
        while (more := XML2.xmlTextReaderRead(reader)) == 1:
            kind, empty = XML2.xmlTextReaderNodeType(reader), XML2.xmlTextReaderIsEmptyElement(reader) == 1
            if kind == ELEMENT:
                events.append(started(reader))
            if kind in TEXTS:
                events.append(("text", XML2.xmlTextReaderConstValue(reader)))
            if kind == END_ELEMENT or kind == ELEMENT and empty:
                events.append(("end",))
    finally:
        XML2.xmlFreeTextReader(reader)
    return joined(events) if more == 0 and not any(code in NAMESPACE_ERRORS for code in errors) else None


# No URI in XML text holds it.
SEPARATOR = "\x01"


def split(name):
    """A name as URI and local name."""
    uri, _, local_name = name.rpartition(SEPARATOR)
    return uri.encode(), local_name.encode()


def expat(text):
    parser = python_expat.ParserCreate("UTF-8", SEPARATOR)
    parser.ordered_attributes = parser.buffer_text = True
    events, declarations = [], {}

    def declared(prefix, uri):
        declarations[(prefix or "").encode()] = (uri or "").encode()

    def start(name, attributes):
        values = {split(name): value.encode() for name, value in zip(attributes[::2], attributes[1::2])}
        events.append(("start", *split(name), values, dict(declarations)))
        declarations.clear()

    parser.StartNamespaceDeclHandler = declared
    parser.StartElementHandler = start
    parser.EndElementHandler = lambda name: events.append(("end",))
    parser.CharacterDataHandler = lambda text: events.append(("text", text.encode()))
    try:
        parser.Parse(text, True)
    except python_expat.ExpatError:
        return None
    return joined(events)
