"""Reads the lines of the text of a forest into columns of numbers.

Such a text has millions of lines where the input is long. So it stays bytes, and is read in pieces: one expression cuts
each of them into columns of words, which are turned into numbers and compared whole. The expression looks for what ends a
word, and asks no more of most of them, since `Numbers` and `Keys` look at each word once. What isn't written as it should
be raises `Unread`.
"""

import re
from collections import defaultdict
from itertools import accumulate, chain, compress, count, repeat
from operator import itemgetter, sub

from side_by_side import side_by_side

NUMBER = b"((?!0[0-9])[0-9]+)"
PIECE = 1 << 14  # characters that are read at once: what is made of them is used up while it is near
THOUSAND = [b"%03d" % number for number in range(1000)]


class Unread(Exception):
    """The text isn't as a forest is written."""


class Numbers(dict):
    """The numbers that words are, each of them made once, together with its thousand. Words that aren't as numbers are
    written are never among them."""

    def __missing__(self, word):
        first = int(word) // 1000 * 1000
        self.update(zip(said_range(range(first, first + 1000)).split(b" "), count(first)))
        demand(first >= 0, word in self)
        return self[word]


class Keys(dict):
    """Numbers from 0 on for what stands between the ordinals and the spans of heads; equal ones for equal names."""

    def __init__(self, form):
        super().__init__()
        self.form, self.names = form, defaultdict(count().__next__)

    def __missing__(self, words):
        found = self.form.fullmatch(words.decode("utf-8"))
        demand(found)
        return self.setdefault(words, self.names[found.groups()])


def demand(*facts):
    """Raises `Unread` where one of the facts isn't so."""
    if not all(facts):
        raise Unread


def read_parts(text, processes):
    """The columns of nodes and those of items, for each part of the text: there are as many parts as processes."""
    end = text.find(b"\nitem ")
    demand(end >= 0)
    nodes = places_of(text, Nodes.head, text.find(b"\n"), end, processes)
    items = places_of(text, Items.head, end, len(text) - 1, processes)
    found = side_by_side(lambda places: read_part(text, *places), list(zip(nodes, items)), processes)
    demand(all(found))
    for parts in zip(*found):
        heads = accumulate((len(part["keys"]) for part in parts), initial=0)
        demand(all(part["first"] in (None, first) for part, first in zip(parts, heads)))
    return found


def places_of(text, head, at, end, shares):
    """Where shares of the text from one place to another are, each of which begins with a head."""
    cuts = [text.find(head, at + (end - at) * share // shares, end) for share in range(1, shares)]
    cuts = [at, *(end if place < 0 else place for place in cuts), end]
    return list(zip(cuts, cuts[1:]))


def read_part(text, node_lines, item_lines):
    """The columns of the nodes and of the items whose lines are from one place in the text to another."""
    number = Numbers().__getitem__
    nodes, items = Nodes(number), Items(number)
    nodes.read(text, *node_lines)
    items.read(text, *item_lines)
    return nodes.told(), items.told()


def forms(head, below):
    """Expressions for a head with one line below it, and for one line with a head above it or without."""
    return [re.compile(form + b"$", re.M) for form in (head + below, b"(?:%b)?%b" % (head, below))]


class Heads:
    """The heads of nodes or of items, with the lines below them: keys, spans, and the ordinal of the first head.

    `several` has pairs for the heads with several lines below them: the place of the head, and how many lines these are.
    """

    def __init__(self, number):
        self.number, self.key_of = number, Keys(self.name)
        self.first, self.several, self.keys, self.begins, self.ends = None, [], [], [], []

    def read(self, text, at, end):
        """Reads the text from one place to another."""
        while at < end:
            stop = text.find(self.head, at + PIECE, end)
            stop = end if stop < 0 else stop
            (ordinals, names, begins, ends), lines, starts = self.cut(text[at:stop])
            self.first = int(ordinals[0]) if self.first is None else self.first
            first = self.first + len(self.keys)
            numbers = range(first, first + len(ordinals))
            demand(b" ".join(ordinals) == said_range(numbers))
            keys = list(map(self.key_of.__getitem__, names))
            begins, ends = list(map(self.number, begins)), list(map(self.number, ends))
            self.add(*(repeated(column, starts) for column in (numbers, keys, begins, ends)), *lines)
            self.keys += keys
            self.begins += begins
            self.ends += ends
            at = stop

    def cut(self, piece):
        """The columns of words of the heads of a piece, those of the lines below, and where these begin for each head."""
        columns = self.words(self.pair, piece)  # mostly there is one line below each head
        if columns:
            return columns[:4], columns[4:], range(len(columns[0]) + 1)
        columns = self.words(self.line, piece)
        demand(columns, columns[0][0])
        starts = [*compress(count(), columns[0]), len(columns[0])]
        known = count(len(self.keys))
        self.several += ((head, stop - start) for head, start, stop in zip(known, starts, starts[1:]) if stop > start + 1)
        return [list(filter(None, column)) for column in columns[:4]], columns[4:], starts

    def words(self, form, piece):
        """The columns of words that the form finds in a piece; none where it doesn't find all of the piece."""
        words = form.split(piece)
        width = form.groups + 1
        return [] if any(words[::width]) else [words[k::width] for k in range(1, width)]

    def told(self):
        """What was read, in plain things."""
        return {"first": self.first, "names": list(self.key_of.names), **{name: getattr(self, name) for name in self.columns}}


class Nodes(Heads):
    """Nodes with keys for names with values. Each line below has an item."""

    head = b"\nnode "
    name = re.compile(r"([^\s(]+) (\([^\s)]*\))")
    pair, line = forms(rb"\nnode ([^ ]+) ([^)]+\)) ([^.]+)\.\.([^\n]+)", rb"\nalt \S+ %b" % NUMBER)
    columns = ("several", "keys", "begins", "ends", "complete")

    def __init__(self, number):
        super().__init__(number)
        self.complete = []

    def add(self, _numbers, _keys, _begins, _ends, items):
        self.complete += map(int, items)


class Items(Heads):
    """Items with keys for names, values, alternatives and dots. Lines below are ways: each has the item before, which is
    its own item where the way begins, and where begins what it took. Some took nodes: which ones, and which nodes."""

    head = b"\nitem "
    name = re.compile(r"([^\s(]+) (\([^\s)]*\)) (0|[1-9][0-9]*) (0|[1-9][0-9]*) \[[^\s\]]*\]")
    pair, line = forms(  # a leaf has the end that stands in the head above it; where none does, the end is compared later
        rb"\nitem ([^ ]+) ([^]]+\]) ([^.]+)\.\.([^\n]+)",
        rb"\n(?:begin|pass %b|take %b (?:node %b|leaf ([^.]+)\.\.(?(1)\4|([^\n]+))))" % (NUMBER, NUMBER, NUMBER))
    columns = ("several", "keys", "begins", "ends", "before", "middles", "takers", "taken")

    def __init__(self, number):
        super().__init__(number)
        self.before, self.middles, self.takers, self.taken, self.going_on = [], [], [], [], set()

    def add(self, numbers, keys, begins, ends, passed, before, nodes, leaf_begins, leaf_ends):
        number = self.number
        demand(list(compress(ends, leaf_ends)) == list(map(number, filter(None, leaf_ends))))
        middles = [number(one) if one else own for one, own in zip(leaf_begins, begins)]
        for way in compress(count(), passed):
            before[way], middles[way] = passed[way], ends[way]
        self.going_on.update(compress(keys, before))
        self.takers += compress(count(len(self.before)), nodes)
        self.before += [int(one) if one else own for one, own in zip(before, numbers)]
        self.middles += middles
        self.taken += map(int, filter(None, nodes))

    def told(self):
        """What was read, where ways begin at the dot 0 alone."""
        demand(*(dot != "0" or key not in self.going_on for (*_, dot), key in self.key_of.names.items()))
        return super().told()


def said_range(numbers):
    """The numbers of a range with blanks between; those of a thousand are written at once."""
    said, first = [], numbers.start
    while first < numbers.stop:
        thousands, rest = divmod(first, 1000)
        some = min(numbers.stop - first, 1000 - rest)
        if thousands:
            said.append((b" %d" % thousands).join([b"", *THOUSAND[rest : rest + some]])[1:])
        else:
            said += [b"%d" % number for number in range(first, first + some)]
        first += some
    return b" ".join(said)


def pick_at(places):
    """What gives of a column all that it has at the places."""
    return itemgetter(*places) if len(places) > 1 else lambda column: tuple(column[place] for place in places)


def repeated(column, starts):
    """A column of what has lines below it, for each of these lines, which begin there for each."""
    if isinstance(starts, range):
        return column
    return list(chain.from_iterable(map(repeat, column, map(sub, starts[1:], starts))))
