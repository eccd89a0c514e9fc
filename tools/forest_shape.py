"""Whether the lines of a text stand as those of a forest without a choice do; what they say isn't read.

One expression goes over all lines, so this takes a fifth of the time in which `forest_text` reads them. It doesn't ask
whether lines fit together: whether items have the numbers that other lines call them by, or spans meet.
"""

import re

NUMBER = rb"(?!0[0-9])[0-9]++"
NAME = rb"[^\s(]++ \([^\s)]*+\)"
SPAN = rb"%b\.\.%b" % (NUMBER, NUMBER)
WAY = rb"(?:begin|pass %b|take %b (?:node %b|leaf %b))" % (NUMBER, NUMBER, NUMBER, SPAN)
NODES = rb"(?:node %b %b %b\nalt \S++ %b\n)++" % (NUMBER, NAME, SPAN, NUMBER)
ITEMS = rb"(?:item %b %b %b %b \[[^\s\]]*+\] %b\n%b\n)++" % (NUMBER, NAME, NUMBER, NUMBER, SPAN, WAY)
FIRST = re.compile(rb"forest (%b) (%b)\n" % (NUMBER, NUMBER))
LINES = re.compile(NODES + ITEMS)


def sizes_without_choice(text):
    """How many nodes and items there are, where each of them has one line below it; else None.

    Where the text is a forest, each node has a tree, so there is one tree then.
    """
    first = FIRST.match(text)
    if not (first and LINES.fullmatch(text, first.end()) and is_utf8(text)):
        return None
    start, middle = first.end() - 1, text.find(b"\nitem ")
    nodes, items = text.count(b"\nnode ", start, middle), text.count(b"\nitem ", middle)
    lasts = text.rfind(b"\nnode ", start, middle), text.rfind(b"\nitem ")
    numbered = text.startswith(b"\nnode %d " % (nodes - 1), lasts[0]) and text.startswith(b"\nitem %d " % (items - 1), lasts[1])
    one_root = text.count(b" $root (", start, middle) == 1
    return (nodes, items) if numbered and one_root and (nodes, items) == (int(first[1]), int(first[2])) else None


def is_utf8(text):
    """Whether the bytes are characters."""
    try:
        return text.isascii() or bool(text.decode("utf-8"))
    except UnicodeDecodeError:
        return False
