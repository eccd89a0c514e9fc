"""Says where and why a text is no forest, line by line."""

import re

from forest_text import NotAForest


class Node:
    def __init__(self, name, values, begin, end):
        self.name, self.values, self.begin, self.end = name, values, begin, end
        self.alternatives = []  # pairs of a tag and the number of an item


class Item:
    def __init__(self, name, values, alternative, dot, begin, end):
        self.name, self.values, self.alternative, self.dot = name, values, alternative, dot
        self.begin, self.end = begin, end
        self.ways = []  # triples: the item before or None, and what it took: None, a node's number, or a span


class Forest:
    """A forest as far as it was read."""

    def __init__(self):
        self.nodes, self.items = [], []
        self.root = None


NUMBER = r"(0|[1-9][0-9]{0,18})"
FIRST = re.compile(rf"forest {NUMBER} {NUMBER}")
NAME = r"([^\s(]+) (\([^\s)]*\))"
NODE = re.compile(rf"node {NUMBER} {NAME} {NUMBER}\.\.{NUMBER}")
ALT = re.compile(rf"alt (\S+) {NUMBER}")
ITEM = re.compile(rf"item {NUMBER} {NAME} {NUMBER} {NUMBER} (\[[^\s\]]*\]) {NUMBER}\.\.{NUMBER}")
PASS = re.compile(rf"pass {NUMBER}")
TAKE_NODE = re.compile(rf"take {NUMBER} node {NUMBER}")
TAKE_LEAF = re.compile(rf"take {NUMBER} leaf {NUMBER}\.\.{NUMBER}")


def find_fault(lines):
    """Raises `NotAForest`, which says what is wrong with the lines, where they are no forest."""
    first = FIRST.fullmatch(lines[0])
    if not first:
        raise NotAForest("line 1: not `forest NODES ITEMS`")
    forest = Forest()
    for number, line in enumerate(lines[1:], 2):
        if not add_line(forest, line):
            raise NotAForest(f"line {number}: not expected here: {line[:60]}")
    check_counts(forest, *map(int, first.groups()))
    check_nodes(forest)
    check_items(forest)


def add_line(forest, line):
    """Adds what a line tells; False where it can't stand there."""
    nodes, items = forest.nodes, forest.items
    if found := NODE.fullmatch(line):
        if items or int(found[1]) != len(nodes):
            return False
        nodes.append(Node(found[2], found[3], int(found[4]), int(found[5])))
    elif found := ALT.fullmatch(line):
        if items or not nodes:
            return False
        nodes[-1].alternatives.append((found[1], int(found[2])))
    elif found := ITEM.fullmatch(line):
        if int(found[1]) != len(items):
            return False
        items.append(Item(found[2], found[3], int(found[4]), int(found[5]), int(found[7]), int(found[8])))
    elif not items:
        return False
    elif line == "begin":
        items[-1].ways.append((None, None))
    elif found := PASS.fullmatch(line):
        items[-1].ways.append((int(found[1]), None))
    elif found := TAKE_NODE.fullmatch(line):
        items[-1].ways.append((int(found[1]), int(found[2])))
    elif found := TAKE_LEAF.fullmatch(line):
        items[-1].ways.append((int(found[1]), (int(found[2]), int(found[3]))))
    else:
        return False
    return True


def check_counts(forest, nodes, items):
    if (len(forest.nodes), len(forest.items)) != (nodes, items):
        raise NotAForest(f"{len(forest.nodes)} nodes and {len(forest.items)} items, not {nodes} and {items}")
    roots = [k for k, node in enumerate(forest.nodes) if node.name == "$root"]
    if len(roots) != 1:
        raise NotAForest(f"{len(roots)} nodes of $root, not one")
    forest.root = roots[0]


def check_nodes(forest):
    for k, node in enumerate(forest.nodes):
        if not node.alternatives:
            raise NotAForest(f"node {k} has no alternative")
        for tag, number in node.alternatives:
            if number >= len(forest.items):
                raise NotAForest(f"node {k}: there is no item {number}")
            item = forest.items[number]
            if (item.name, item.values, item.begin, item.end) != (node.name, node.values, node.begin, node.end):
                raise NotAForest(f"node {k}: item {number} is of another node")


def check_items(forest):
    for k, item in enumerate(forest.items):
        if not item.ways:
            raise NotAForest(f"item {k} has no way")
        for before, child in item.ways:
            if before is None:
                fits = item.dot == 0 and item.begin == item.end
            else:
                fits = before < len(forest.items) and follows(forest, item, forest.items[before], child)
            if not fits:
                raise NotAForest(f"item {k} isn't reached so")


def follows(forest, item, before, child):
    """Whether an item is reached from another one by what it took."""
    same = (item.name, item.values, item.alternative, item.begin)
    if same != (before.name, before.values, before.alternative, before.begin) or item.dot != before.dot + 1:
        return False
    if child is None:
        return item.end == before.end
    if isinstance(child, int):
        if child >= len(forest.nodes):
            return False
        child = (forest.nodes[child].begin, forest.nodes[child].end)
    return child == (before.end, item.end)
