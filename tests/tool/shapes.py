#!/usr/bin/env python3
"""Makes XML files in the shapes that real ones have: drawings (SVG), style sheets (XSLT), schemas (XSD), texts (OpenDocument),
windows (GTK) and presets of audio programs. Each is made from the seed and its number alone.

    tests/tool/shapes.py FOLDER [--count 60] [--seed 1]
"""
import argparse
import random
from pathlib import Path
from xml.sax.saxutils import escape, quoteattr

WORDS = ("layer guide marker clip mask path group gain delay reverb chorus button grid label window menu title list item "
         "é 日本").split()


class Writer:
    """Text of elements, with line breaks and blanks as people and programs write them."""

    def __init__(self, choose):
        self.choose, self.parts, self.breaks = choose, [], choose.random() < 0.7

    def start(self, name, depth, empty=False, /, **attributes):
        pairs = "".join(f" {key.replace('__', ':').replace('_', '-')}={quoteattr(value)}" for key, value in attributes.items())
        self.blank(depth)
        self.parts.append(f"<{name}{pairs}{'/' if empty else ''}>")

    def end(self, name, depth):
        self.blank(depth)
        self.parts.append(f"</{name}>")

    def blank(self, depth):
        if self.breaks and self.parts:
            self.parts.append("\n" + "  " * depth)

    def text(self, text):
        self.parts.append(escape(text))

    def leaf(self, name, depth, text, /, **attributes):
        self.start(name, depth, **attributes)
        self.text(text)
        self.parts.append(f"</{name}>")


def word(choose):
    return choose.choice(WORDS)


def words(choose):
    return " ".join(word(choose) for _ in range(choose.randint(1, 6)))


def svg(choose):
    out = Writer(choose)
    head = {"xmlns": "http://www.w3.org/2000/svg", "xmlns__xlink": "http://www.w3.org/1999/xlink"}
    if choose.random() < 0.6:
        head |= {"xmlns__inkscape": "http://www.inkscape.org/namespaces/inkscape",
                 "xmlns__sodipodi": "http://sodipodi.sourceforge.net/DTD/sodipodi-0.dtd"}
    prefix = "svg:" if choose.random() < 0.2 else ""
    if prefix:
        head["xmlns__svg"] = "http://www.w3.org/2000/svg"
    out.start(prefix + "svg", 0, **head, width="100", viewBox="0 0 100 100")
    if "xmlns__inkscape" in head:
        out.start("sodipodi:namedview", 1, True, inkscape__zoom="1.4", id=word(choose))
        out.start("metadata", 1)
        out.start("rdf:RDF", 2, xmlns__rdf="http://www.w3.org/1999/02/22-rdf-syntax-ns#",
                  xmlns__cc="http://creativecommons.org/ns#", xmlns__dc="http://purl.org/dc/elements/1.1/")
        out.start("cc:Work", 3, rdf__about="")
        out.leaf("dc:format", 4, "image/svg+xml")
        out.end("cc:Work", 3)
        out.end("rdf:RDF", 2)
        out.end("metadata", 1)
    for _ in range(choose.randint(1, 4)):
        out.start(prefix + "g", 1, id=word(choose), style="fill:none")
        for _ in range(choose.randint(1, 4)):
            out.start(prefix + choose.choice(["path", "rect", "circle"]), 2, True, d="M 0,0 L 10,10 z", id=word(choose))
        out.start(prefix + "use", 2, True, xlink__href="#" + word(choose))
        out.leaf(prefix + "text", 2, words(choose), xml__space="preserve")
        out.end(prefix + "g", 1)
    out.end(prefix + "svg", 0)
    return out


def xslt(choose):
    out = Writer(choose)
    head = {"xmlns__xsl": "http://www.w3.org/1999/XSL/Transform", "version": "1.0"}
    result = choose.choice([{}, {"xmlns": "http://www.w3.org/1999/xhtml"}, {"xmlns__d": "http://docbook.org/ns/docbook"}])
    out.start("xsl:stylesheet", 0, **head, **result)
    out.start("xsl:output", 1, True, method="html")
    for _ in range(choose.randint(1, 5)):
        out.start("xsl:template", 1, match=choose.choice(["/", "d:para", "*[@id]", "@*|node()"]))
        out.start("div", 2, **{"class": word(choose)})
        out.start("xsl:apply-templates", 3, True, select="d:title")
        out.leaf("xsl:text", 3, words(choose))
        out.start("xsl:choose", 3)
        out.start("xsl:when", 4, test="$x < 3 and $y > 1")
        out.leaf("p", 5, words(choose), lang="en")
        out.end("xsl:when", 4)
        out.end("xsl:choose", 3)
        out.end("div", 2)
        out.end("xsl:template", 1)
    out.end("xsl:stylesheet", 0)
    return out


def xsd(choose):
    out = Writer(choose)
    xs = choose.choice(["xs", "xsd", ""])
    of = xs + ":" if xs else ""
    head = {"xmlns__" + xs if xs else "xmlns": "http://www.w3.org/2001/XMLSchema",
            "xmlns__p": "urn:" + choose.choice(["maps", "cakes", "orders"]), "targetNamespace": "urn:t"}
    out.start(of + "schema", 0, **head, elementFormDefault="qualified")
    for _ in range(choose.randint(1, 5)):
        out.start(of + "complexType", 1, name=choose.choice("abcdef"))
        out.start(of + "annotation", 2)
        out.leaf(of + "documentation", 3, words(choose), xml__lang="en")
        out.end(of + "annotation", 2)
        out.start(of + "sequence", 2)
        out.start(of + "element", 3, True, name=choose.choice("xyz"), type="p:" + choose.choice("abc"), minOccurs="0")
        out.start(of + "element", 3, True, ref="p:layer")
        out.end(of + "sequence", 2)
        out.end(of + "complexType", 1)
    out.end(of + "schema", 0)
    return out


def office(choose):
    out = Writer(choose)
    parts = "office", "style", "text", "table", "svg-compatible"
    names = {key: "urn:oasis:names:tc:opendocument:xmlns:" + key + ":1.0" for key in parts}
    head = {"xmlns__" + key.replace("svg-compatible", "svg"): uri for key, uri in names.items()}
    head |= {"xmlns__fo": "urn:oasis:names:tc:opendocument:xmlns:xsl-fo-compatible:1.0",
             "xmlns__xlink": "http://www.w3.org/1999/xlink"}
    out.start("office:document-content", 0, **head, office__version="1.2")
    out.start("office:automatic-styles", 1)
    for _ in range(choose.randint(1, 3)):
        out.start("style:style", 2, style__name="P1", style__family="paragraph")
        out.start("style:text-properties", 3, True, fo__font_size="12pt", svg__width="1cm")
        out.end("style:style", 2)
    out.end("office:automatic-styles", 1)
    out.start("office:body", 1)
    out.start("office:text", 2)
    for _ in range(choose.randint(1, 5)):
        out.start("text:p", 3, text__style_name="P1")
        out.text(words(choose))
        out.start("text:a", 4, xlink__href="http://example.org/?a=1&b=2", xlink__type="simple")
        out.text(word(choose))
        out.parts.append("</text:a>")
        out.start("text:s", 4, True)
        out.text(words(choose))
        out.parts.append("</text:p>")
    out.end("office:text", 2)
    out.end("office:body", 1)
    out.end("office:document-content", 0)
    return out


def window(choose):
    out = Writer(choose)
    out.start("interface", 0)
    out.start("requires", 1, True, lib="gtk", version="4.0")
    for number in range(choose.randint(1, 4)):
        out.start("object", 1, **{"class": "GtkWindow", "id": f"w{number}"})
        out.leaf("property", 2, words(choose), name="title", translatable="yes")
        out.start("child", 2)
        out.start("object", 3, **{"class": choose.choice(["GtkButton", "GtkGrid"]), "id": word(choose)})
        out.leaf("property", 4, "1", name="visible")
        out.start("signal", 4, True, name="clicked", handler="on_" + choose.choice("abc"))
        out.end("object", 3)
        out.end("child", 2)
        out.end("object", 1)
    out.end("interface", 0)
    return out


def preset(choose):
    out = Writer(choose)
    head = choose.choice([{}, {"xmlns": "http://www.hydrogen-music.org/drumkit"}, {"xmlns": "urn:night"}])
    out.start("drumkit", 0, **head)
    out.leaf("name", 1, words(choose))
    out.start("instrumentList", 1)
    for number in range(choose.randint(1, 5)):
        out.start("instrument", 2)
        out.leaf("id", 3, str(number))
        out.leaf("volume", 3, "0.8")
        out.leaf("run", 3, choose.choice(["start", "stop", "A & B", ""]))
        out.start("layer", 3, gain="1", run="x")
        out.leaf("filename", 4, word(choose) + ".wav")
        out.end("layer", 3)
        out.end("instrument", 2)
    out.end("instrumentList", 1)
    out.end("drumkit", 0)
    return out


SHAPES = [svg, xslt, xsd, office, window, preset]


def made(seed, number):
    """The text of one file."""
    choose = random.Random(f"{seed} {number}")
    shape = SHAPES[number % len(SHAPES)]
    head = choose.choice(['<?xml version="1.0" encoding="UTF-8"?>\n', "", "<!-- made by a program -->\n"])
    return (head + "".join(shape(choose).parts) + "\n").encode()


def make(folder, count, seed):
    """The files, in a folder."""
    paths = []
    for number in range(count):
        path = Path(folder) / f"{SHAPES[number % len(SHAPES)].__name__}{number:03}.xml"
        path.write_bytes(made(seed, number))
        paths.append(path)
    return paths


if __name__ == "__main__":
    options = argparse.ArgumentParser(description=__doc__, formatter_class=argparse.RawDescriptionHelpFormatter)
    options.add_argument("folder")
    options.add_argument("--count", type=int, default=60)
    options.add_argument("--seed", type=int, default=1)
    given = options.parse_args()
    Path(given.folder).mkdir(parents=True, exist_ok=True)
    make(given.folder, given.count, given.seed)
