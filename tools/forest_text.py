"""Reads the text of a forest."""

import re
import sys
from collections import defaultdict, namedtuple
from functools import cached_property
from itertools import accumulate, chain, compress, count, repeat
from operator import add

from forest_columns import Unread, demand, pick_at, read_parts, repeated
from side_by_side import side_by_side

Node = namedtuple("Node", "name values begin end")
Item = namedtuple("Item", "name values alternative dot begin end")

NUMBER = rb"(0|[1-9][0-9]{0,18})"
FIRST = re.compile(rb"forest %b %b" % (NUMBER, NUMBER))
NO_NODE = -1
LEAST_SHARE = 1 << 23  # characters for which a process is worth while


class NotAForest(Exception):
    """The text is no forest: the message says where and why."""


class Forest:
    """Nodes and items by their numbers; lines, which are those below nodes, and ways, which are those below items, by theirs.

    Keys are numbers of what stands before spans: of nodes name and values; of items these, an alternative and a dot. A way
    has an item before it, its own one where it begins, and a middle, where what it took begins. Takers took nodes.
    """

    def __init__(self, text, processes):
        self.text = text
        nodes, items = zip(*read_parts(text, processes))
        self.node_names, self.node_keys = renumbered(nodes)
        self.item_names, self.item_keys = renumbered(items)
        self.first_line, self.first_way = starts_of(nodes), starts_of(items)
        self.node_begins, self.node_ends, self.complete = (together(nodes, name) for name in ("begins", "ends", "complete"))
        self.item_begins, self.item_ends, self.before, self.middles, self.taken = (
            together(items, name) for name in ("begins", "ends", "before", "middles", "taken"))
        self.takers = takers_of(items)
        for way, begin in zip(self.takers, pick_at(self.taken)(self.node_begins)):
            self.middles[way] = begin
        checks = (self.keys_fit, self.begins_fit, self.ends_fit, self.lines_fit)
        demand(all(side_by_side(lambda fit: fit(), checks, processes)))
        roots = [key for key, (name, _) in enumerate(self.node_names) if name == "$root"]
        demand(len(roots) == 1, self.node_keys.count(*roots[:1] or [NO_NODE]) == 1)
        self.root = self.node_keys.index(roots[0])

    @cached_property
    def keys_before(self):
        """For each key of items that of the item before; where there is none, it is the same one."""
        keys = {names: key for key, names in enumerate(self.item_names)}
        return [key if dot == "0" else keys.get((*names, str(int(dot) - 1)), NO_NODE) for (*names, dot), key in keys.items()]

    @cached_property
    def of_before(self):
        """What gives of a column of items that of the item before, for each way."""
        return pick_at(self.before)

    def keys_fit(self):
        """Whether each item is that before it, a step on, where it doesn't begin."""
        wanted = list(map(self.keys_before.__getitem__, self.item_keys))
        return self.of_before(self.item_keys) == tuple(self.for_ways(wanted))

    def begins_fit(self):
        """Whether each item begins where that before it does."""
        return self.of_before(self.item_begins) == tuple(self.for_ways(self.item_begins))

    def ends_fit(self):
        """Whether what each way took lies between the end of the item before and that of its own."""
        return (self.of_before(self.item_ends) == tuple(self.middles)
                and pick_at(self.takers)(self.for_ways(self.item_ends)) == pick_at(self.taken)(self.node_ends))

    def lines_fit(self):
        """Whether each line `alt` names an item of its node."""
        keys, of_items = {names: key for key, names in enumerate(self.node_names)}, pick_at(self.complete)
        node_of = [keys.get(names[:2], NO_NODE) for names in self.item_names]
        return (tuple(map(node_of.__getitem__, of_items(self.item_keys))) == tuple(repeated(self.node_keys, self.first_line))
                and of_items(self.item_begins) == tuple(repeated(self.node_begins, self.first_line))
                and of_items(self.item_ends) == tuple(repeated(self.node_ends, self.first_line)))

    def for_ways(self, column):
        """A column of items, for each of their ways."""
        return repeated(column, self.first_way)

    @property
    def node_count(self):
        return len(self.node_keys)

    @property
    def item_count(self):
        return len(self.item_keys)

    @property
    def has_choices(self):
        """Whether a node has several alternatives, or an item several ways."""
        return len(self.complete) > self.node_count or len(self.before) > self.item_count

    @cached_property
    def tags(self):
        """For each line its tag."""
        return [tag.decode("utf-8") for tag in re.findall(rb"^alt (\S+)", self.text[: self.text.find(b"\nitem ")], re.M)]

    def begun(self):
        """The ways that begin."""
        begins = [dot == "0" for *_, dot in self.item_names]
        return compress(count(), self.for_ways(list(map(begins.__getitem__, self.item_keys))))

    def words_of_ways(self):
        """For each way the word that says what it took, `node` or `leaf`; else nothing."""
        words = re.findall(rb"^(?:begin|pass|take \d+ (\w+))", self.text[self.text.find(b"\nitem ") :], re.M)
        return [word.decode("utf-8") for word in words]

    @cached_property
    def child(self):
        """For each way the node that it took, or NO_NODE."""
        child = [NO_NODE] * len(self.before)
        for way, node in zip(self.takers, self.taken):
            child[way] = node
        return child

    def node(self, k):
        return Node(*self.node_names[self.node_keys[k]], self.node_begins[k], self.node_ends[k])

    def item(self, k):
        name, values, alternative, dot = self.item_names[self.item_keys[k]]
        return Item(name, values, int(alternative), int(dot), self.item_begins[k], self.item_ends[k])

    def lines(self, k):
        """The numbers of the lines below a node."""
        return range(self.first_line[k], self.first_line[k + 1])

    def alternatives(self, k):
        """Pairs of a tag and the number of an item."""
        return [(self.tags[line], self.complete[line]) for line in self.lines(k)]

    def ways_of(self, k):
        """The numbers of the ways of an item."""
        return range(self.first_way[k], self.first_way[k + 1])

    def ways(self, k):
        """Pairs of the item before, or None, and what the item took: None, the number of a node, or a span."""
        return [(None if self.before[way] == k else self.before[way], self.took(way, k)) for way in self.ways_of(k)]

    def took(self, way, k):
        """What a way of an item took: None, the number of a node, or a span."""
        if self.child[way] != NO_NODE:
            return self.child[way]
        begin, end = self.middles[way], self.item_ends[k]
        return (begin, end) if begin < end else None


def read_forest(data, processes=1):
    """The forest whose text the bytes are, read by so many processes at most; `NotAForest` where they are none."""
    try:
        if not data.isascii():
            data.decode("utf-8")
    except UnicodeDecodeError as fault:
        raise NotAForest(f"not UTF-8 at byte {fault.start}") from None
    if not data:
        raise NotAForest("nothing to read")
    if not data.endswith(b"\n"):
        raise NotAForest("the last line has no end")
    try:
        first = FIRST.fullmatch(data, 0, data.find(b"\n"))
        demand(first)
        forest = Forest(data, max(1, min(processes, len(data) // LEAST_SHARE)))
        demand((forest.node_count, forest.item_count) == (int(first[1]), int(first[2])))
        return forest
    except (Unread, IndexError, ValueError):
        from forest_faults import find_fault  # it is seldom needed, and takes its time to begin

        find_fault(data[:-1].decode("utf-8").split("\n"))
        raise NotAForest("not as a forest is written") from None


def told_size(data):
    """How many nodes and items together the first line of a forest tells; 0 where there is no such line."""
    first = FIRST.fullmatch(data[:64].partition(b"\n")[0])
    return int(first[1]) + int(first[2]) if first else 0


def together(parts, name):
    """A column of all parts."""
    return parts[0][name] if len(parts) == 1 else list(chain.from_iterable(part[name] for part in parts))


def renumbered(parts):
    """The names of all parts, and a column of keys, which are their numbers."""
    ids, column = defaultdict(count().__next__), []
    for part in parts:
        new = [ids[names] for names in part["names"]]
        column += part["keys"] if new == list(range(len(new))) else map(new.__getitem__, part["keys"])
    return list(ids), column


def takers_of(parts):
    """The ways that took nodes, counted over all parts."""
    ways = accumulate((len(part["before"]) for part in parts), initial=0)
    return list(chain.from_iterable(map(add, part["takers"], repeat(before)) for part, before in zip(parts, ways)))


def starts_of(parts):
    """For each node or item where the lines below it begin, and at the end how many lines there are."""
    if not any(part["several"] for part in parts):
        return range(sum(len(part["keys"]) for part in parts) + 1)
    numbers = []
    for part in parts:
        here = [1] * len(part["keys"])
        for head, number in part["several"]:
            here[head] = number
        numbers += here
    return list(accumulate(numbers, initial=0))


def fetch(name):
    """The bytes of a file, or of the standard input where the name is None."""
    if name is None:
        return sys.stdin.buffer.read()
    with open(name, "rb") as file:
        return file.read()
