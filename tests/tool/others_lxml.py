#!/usr/bin/env python3
"""The moves of tests/tool/real-files, done with lxml: the same plans and the same output as tests/tool/others.c has."""
import sys
from copy import deepcopy

from lxml import etree

PARSER = etree.XMLParser(remove_comments=True, remove_pis=True, strip_cdata=True, resolve_entities=True, no_network=True)


def moved(plan):
    session, sources = None, []
    for file, number, under in plan:
        sources.append(etree.parse(file, PARSER))
        node = list(sources[-1].getroot().iter("*"))[number]
        node.tail = None
        if session is None:
            session = deepcopy(node)
        else:
            list(session.iter("*"))[int(under)].append(node)
    return etree.tostring(session, encoding="UTF-8")


plan = []
for line in sys.stdin:
    if line == "END\n":
        text = moved(plan)
        sys.stdout.buffer.write(b"%d\n" % len(text) + text)
        plan = []
    else:
        file, number, under = line.rstrip("\n").split("\t")
        plan.append((file, int(number), under))
