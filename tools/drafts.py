"""Forests as `verify` takes them: in any order, and with parts that no tree uses.

`forest_text` reads a forest that was printed of a parse. Here each line stands for itself: of a whole text no more is asked
than that its numbers name something, and that an item has the dot behind that of the one before.
"""

import re

MOST = 2**32 - 1

NUMBER = r"(0|[1-9][0-9]*)"
VALUE = r"(?:true|false|0|-?[1-9][0-9]*|(?:0|[1-9][0-9]*)\.\.(?:0|[1-9][0-9]*))"
VALUES = rf"((?:{VALUE}(?:,{VALUE})*)?)"
HEADING = re.compile(rf"forest {NUMBER} {NUMBER}")
NODE = re.compile(rf"node {NUMBER} (\S+) \({VALUES}\) {NUMBER}\.\.{NUMBER}")
ALTERNATIVE = re.compile(rf"alt (\S+) {NUMBER}")
ITEM = re.compile(rf"item {NUMBER} (\S+) \({VALUES}\) {NUMBER} {NUMBER} \[{VALUES}\] {NUMBER}\.\.{NUMBER}")
PASS = re.compile(rf"pass {NUMBER}")
NODE_TAKEN = re.compile(rf"take {NUMBER} node {NUMBER}")
LEAF_TAKEN = re.compile(rf"take {NUMBER} leaf {NUMBER}\.\.{NUMBER}")

BEGIN = (None, None)


class NotADraft(Exception):
    """The text is of no such forest: the message says where and why."""


class Node:
    """A node: its key is name, values, begin and end; an alternative is a tag and the number of an item."""

    def __init__(self, key):
        self.key, self.alternatives = key, []


class Item:
    """An item: its key is name, values, alternative, dot, what was bound, begin and end. An entry is the number of the item
    before and what was taken: None, `("node", K)` or `("leaf", I, J)`; at dot 0 it is `BEGIN`."""

    def __init__(self, key):
        self.key, self.entries = key, []

    @property
    def dot(self):
        return self.key[3]


class Draft:
    """Nodes and items, each by its number, and the number of the root's node."""

    def __init__(self):
        self.nodes, self.items, self.root = [], [], None

    def text(self):
        """The text of the forest."""
        lines = [f"forest {len(self.nodes)} {len(self.items)}"]
        for number, node in enumerate(self.nodes):
            name, values, begin, end = node.key
            lines.append(f"node {number} {name} ({values}) {begin}..{end}")
            lines += [f"alt {tag} {item}" for tag, item in node.alternatives]
        for number, item in enumerate(self.items):
            name, values, alternative, dot, bound, begin, end = item.key
            lines.append(f"item {number} {name} ({values}) {alternative} {dot} [{bound}] {begin}..{end}")
            lines += map(entry_line, item.entries)
        return "".join(line + "\n" for line in lines)


def entry_line(entry):
    """The line of an entry."""
    before, child = entry
    if before is None:
        return "begin"
    if child is None:
        return f"pass {before}"
    if child[0] == "node":
        return f"take {before} node {child[1]}"
    return f"take {before} leaf {child[1]}..{child[2]}"


def read_draft(text):
    """The forest of a text; `NotADraft` where it is of none."""
    if not text.endswith("\n"):
        raise NotADraft("the last line has no end")
    lines = text[:-1].split("\n")
    heading = HEADING.fullmatch(lines[0])
    if not heading:
        raise NotADraft("line 1: not `forest NODES ITEMS`")
    draft = Draft()
    for number, line in enumerate(lines[1:], 2):
        if not (add_node_line if not draft.items else add_item_line)(draft, line):
            raise NotADraft(f"line {number}: not expected here: {line[:60]}")
    if (len(draft.nodes), len(draft.items)) != tuple(map(int, heading.groups())):
        raise NotADraft(f"{len(draft.nodes)} nodes and {len(draft.items)} items")
    draft.root = next((k for k, node in enumerate(draft.nodes) if node.key[0] == "$root"), None)
    check_numbers(draft)
    return draft


def are_small(*numbers):
    return all(int(number) <= MOST for number in numbers)


def are_small_values(values):
    """Whether integers have 64 bits, and places 32."""
    for value in filter(None, values.split(",")):
        if ".." in value:
            if not are_small(*value.split("..")):
                return False
        elif value not in ("true", "false") and not -2**63 <= int(value) < 2**63:
            return False
    return True


def add_node_line(draft, line):
    """Takes a line of a node, or the first one of an item; False where it can't stand there."""
    if found := NODE.fullmatch(line):
        if int(found[1]) != len(draft.nodes) or not are_small(found[4], found[5]) or not are_small_values(found[3]):
            return False
        draft.nodes.append(Node((found[2], found[3], int(found[4]), int(found[5]))))
    elif found := ALTERNATIVE.fullmatch(line):
        if not draft.nodes or not are_small(found[2]):
            return False
        draft.nodes[-1].alternatives.append((found[1], int(found[2])))
    else:
        return ITEM.fullmatch(line) is not None and add_item_line(draft, line)
    return True


def add_item_line(draft, line):
    """Takes a line of an item; False where it can't stand there."""
    if found := ITEM.fullmatch(line):
        numbers = found[4], found[5], found[7], found[8]
        if int(found[1]) != len(draft.items) or not are_small(*numbers):
            return False
        if not are_small_values(found[3]) or not are_small_values(found[6]):
            return False
        draft.items.append(
            Item((found[2], found[3], int(found[4]), int(found[5]), found[6], int(found[7]), int(found[8]))))
    elif line == "begin":
        draft.items[-1].entries.append(BEGIN)
    elif found := PASS.fullmatch(line):
        draft.items[-1].entries.append((int(found[1]), None))
    elif found := NODE_TAKEN.fullmatch(line):
        draft.items[-1].entries.append((int(found[1]), ("node", int(found[2]))))
    elif found := LEAF_TAKEN.fullmatch(line):
        draft.items[-1].entries.append((int(found[1]), ("leaf", int(found[2]), int(found[3]))))
        return are_small(found[2], found[3])
    else:
        return False
    return True


def check_numbers(draft):
    """Refuses a forest without a root, and numbers that name nothing."""
    if draft.root is None:
        raise NotADraft("no node of $root")
    for number, node in enumerate(draft.nodes):
        if any(item >= len(draft.items) for _, item in node.alternatives):
            raise NotADraft(f"node {number}: there is no such item")
    for number, item in enumerate(draft.items):
        if item.dot == 0 and item.entries != [BEGIN]:
            raise NotADraft(f"item {number}: at dot 0 stands `begin` alone")
        for before, child in item.entries:
            if before is None:
                there = item.dot == 0
            else:
                there = before < len(draft.items) and draft.items[before].dot + 1 == item.dot
            if not there or child and child[0] == "node" and child[1] >= len(draft.nodes):
                raise NotADraft(f"item {number}: what an entry names isn't there")
