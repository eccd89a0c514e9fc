"""Trees and forests for people: their parts with names and labels, without what is seldom asked for.

A part is a leaf, a node, or what lies before a choice inside an alternative. A node of a forest has all its ways, one
of a tree has one. A `View` says which parts are shown, and as what.
"""

import heapq
import re
from collections import namedtuple

from forest_count import count_trees

TREE = re.compile(r"\((\S+) (\d+)\.\.(\d+)|(\d+)\.\.(\d+)|\)")
Row = namedtuple("Row", "depth label name kind begin end text part")


class NoCursor(Exception):
    """The word is the cursor of no tree."""


class Part:
    """A part of a tree or a forest: its span, its nonterminal where it is a node, and its ways."""

    __slots__ = ("nonterminal", "number", "begin", "end", "values", "found", "source")

    def __init__(self, begin, end, nonterminal=None, number=None, values="()", ways=(), source=None):
        self.begin, self.end, self.nonterminal, self.number, self.values = begin, end, nonterminal, number, values
        self.found, self.source = (None if source else ways), source

    @property
    def ways(self):
        """Pairs of a tag and children, which are pairs of a label or None and a part."""
        if self.found is None:
            self.found = self.source(self)
        return self.found


def read_tree(line, core):
    """The root of the tree that a line of `trees` shows, without its cursor."""
    root = None
    stack = []  # parts whose children are read, and the steps that take them
    for found in TREE.finditer(line):
        if found[0] == ")":
            stack.pop()
            continue
        step = next(stack[-1][1]) if stack else None
        number = 0 if step is None else step.call
        if found[4]:
            part = Part(int(found[4]), int(found[5]))
        else:
            part = Part(int(found[2]), int(found[3]), core.nonterminals[number], ways=[(found[1], [])])
        if stack:
            stack[-1][0].ways[0][1].append((step.label, part))
        else:
            root = part
        if not found[4]:
            stack.append((part, iter(part.nonterminal.takers[found[1]])))
    return root


class Forested:
    """The parts of a forest, each of them once."""

    def __init__(self, forest, core):
        self.forest, self.core, self.nodes, self.items = forest, core, {}, {}

    @property
    def root(self):
        return self.node(self.forest.root)

    def node(self, k):
        if k not in self.nodes:
            node = self.forest.node(k)
            self.nodes[k] = Part(node.begin, node.end, self.core.by_name[node.name], k, node.values, source=self.ways_of_node)
        return self.nodes[k]

    def ways_of_node(self, part):
        return [(tag, self.children(number, way)) for tag, number in self.forest.alternatives(part.number)
                for way in self.forest.ways(number)]

    def children(self, number, way):
        """What one way of an item took, from left to right; the first part stands for those before a choice."""
        out = []
        while True:
            before, child = way
            if child is not None:
                out.append((self.step(number).label, self.taken(child)))
            if before is None:
                return out[::-1]
            number, ways = before, self.forest.ways(before)
            if len(ways) > 1:
                return [(None, self.before_choice(number)), *out[::-1]]
            way = ways[0]

    def step(self, number):
        """The step behind which the dot of an item stands."""
        item = self.forest.item(number)
        return self.core.by_name[item.name].alternatives[item.alternative - 1][1][item.dot - 1]

    def taken(self, child):
        return self.node(child) if isinstance(child, int) else Part(*child)

    def before_choice(self, number):
        if number not in self.items:
            item = self.forest.item(number)
            self.items[number] = Part(item.begin, item.end, None, number, source=self.ways_of_item)
        return self.items[number]

    def ways_of_item(self, part):
        return [(None, self.children(part.number, way)) for way in self.forest.ways(part.number)]

    def tree(self, root, choose):
        """The tree of a node, where `choose` says for a node or an item which of its lines is taken.

        It is asked in the order of the numbers of a cursor: of a node, of its items from the last one on, and then of
        the nodes that these took, from left to right.
        """
        top = self.stub(root)
        stack = [top]
        while stack:
            part = stack.pop()
            alternatives = self.forest.alternatives(part.number)
            tag, number = alternatives[choose("node", part.number, len(alternatives))]
            children = []  # the last one first
            while number is not None:
                ways = self.forest.ways(number)
                before, child = ways[choose("item", number, len(ways))]
                if child is not None:
                    children.append((self.step(number).label, self.stub(child)))
                number = before
            part.found = [(tag, children[::-1])]
            stack += [child for _, child in children if child.nonterminal]
        return top

    def stub(self, child):
        """A leaf, or a node whose ways are still to come."""
        if not isinstance(child, int):
            return Part(*child)
        node = self.forest.node(child)
        return Part(node.begin, node.end, self.core.by_name[node.name], child, node.values)


def by_cursor(word):
    """What chooses as a cursor says, and what is to be called at the end; both raise `NoCursor`."""
    numbers = iter([] if word == "only" else word.split("."))

    def choose(_kind, _number, count):
        if count == 1:
            return 0
        number = next(numbers, "")
        if not number.isdecimal() or not number.isascii() or str(int(number)) != number or int(number) >= count:
            raise NoCursor
        return int(number)

    def end():
        if next(numbers, None) is not None:
            raise NoCursor

    return choose, end


class Ambiguity:
    """A node with several ways: its number, and where the choice is, a node or an item, with how many ways."""

    def __init__(self, node, place, count):
        self.node, self.place, self.count = node, place, count


def ambiguities(forest):
    """The nodes that `query` prints, in its order, each with the first choice in it."""
    found = []
    for k in range(forest.node_count):
        alternatives = forest.alternatives(k)
        if len(alternatives) > 1:
            found.append(Ambiguity(k, ("node", k), len(alternatives)))
            continue
        number = alternatives[0][1]
        while number is not None:
            ways = forest.ways(number)
            if len(ways) > 1:
                found.append(Ambiguity(k, ("item", number), len(ways)))
                break
            number = ways[0][0]
    return found


def choose_least(forest):
    """What chooses the first tree, or where trees go round a cycle the first one of the lowest."""
    if count_trees(forest) is not None:
        return lambda kind, number, count: 0
    heights = least_heights(forest)

    def choose(kind, number, _count):
        if kind == "node":
            ways = [heights["item", item] for _, item in forest.alternatives(number)]
        else:
            ways = [max((heights[part] for part in parts_of(way)), default=0) for way in forest.ways(number)]
        return ways.index(min(ways))

    return choose


def parts_of(way):
    """The item before and the node of a way of an item, where there are such."""
    before, child = way
    return [("item", before)] * (before is not None) + [("node", child)] * isinstance(child, int)


def least_heights(forest):
    """For each node and item the height of its lowest tree: the lowest part is done first (Knuth 1977)."""
    users, heights, waiting = {}, {}, []
    for k in range(forest.item_count):
        for way in forest.ways(k):
            rest = set(parts_of(way))
            for part in rest:
                users.setdefault(part, []).append((("item", k), rest))
            if not rest:
                waiting.append((0, "item", k))
    for k in range(forest.node_count):
        for _, number in forest.alternatives(k):
            users.setdefault(("item", number), []).append((("node", k), {("item", number)}))
    heapq.heapify(waiting)
    while waiting:
        height, *part = heapq.heappop(waiting)
        part = tuple(part)
        if part in heights:
            continue
        heights[part] = height
        for user, rest in users.get(part, ()):
            rest.discard(part)
            if not rest:
                heapq.heappush(waiting, (height + (user[0] == "node"), *user))
    return heights


class View:
    """Which parts are shown, and as what: names, texts, and the children that are seen."""

    def __init__(self, core, text, layout=False, lists=False, lexical=False, packed=False):
        """Layout, lists and lexical nonterminals as they are, where that is asked for; `packed` of a forest."""
        self.core, self.text, self.packed = core, text, packed
        self.layout, self.lists, self.lexical = layout, lists, lexical
        self.plain = {}  # for parts of a forest whether there is no choice in them

    def top(self, root):
        """What is shown of a root: the one part that is seen below it, or else itself."""
        ways = self.below(root)
        return ways[0][1][0] if len(ways) == 1 and len(ways[0][1]) == 1 else (None, root)

    def name(self, part, tag=None):
        """The name of a node: a tag where its declaration has several alternatives; the form of an added one."""
        one = part.nonterminal
        if one is None:
            return ""
        if one.added:
            return tag if self.lists and tag else self.core.form(one.number)
        return tag if tag and len(one.takers) > 1 else one.name

    def values(self, part):
        """The values of the parameters that a declaration has in the grammar, in parentheses; else nothing."""
        one = part.nonterminal
        if one is None or one.added:
            return ""
        own = [value for name, value in zip(one.parameters, part.values[1:-1].split(",")) if not name.startswith(".")]
        return f"({', '.join(own)})" if own and any(own) else ""

    def kind(self, part):
        """What a part is: a token, a choice, a word, a list or a node."""
        one = part.nonterminal
        if one is None:
            return "choice" if part.ways else "token"
        if self.is_word(part):
            return "word"
        return "list" if one.is_list and not self.lists else "node"

    def is_word(self, part):
        """Whether a node is shown as one leaf: it is of a lexical or layout declaration, with no choice in it."""
        one = part.nonterminal
        return (not self.lexical and one.kind in ("lexical", "layout") and not one.added
                and one.number != self.core.start and (not self.packed or self.is_plain(part)))

    def is_plain(self, part):
        """Whether there is no choice in a part of a forest: not in its own ways, nor in what is below."""
        if part in self.plain:
            return self.plain[part]
        seen, stack = {part}, [part]
        while stack:
            one = stack.pop()
            if len(one.ways) > 1 or self.plain.get(one) is False:
                self.plain[part] = False
                return False
            for _, children in one.ways:
                more = [child for _, child in children if child not in seen and not self.plain.get(child)]
                seen.update(more)
                stack += more
        self.plain.update(dict.fromkeys(seen, True))
        return True

    def below(self, part):
        """The ways of a part, with the children that are seen; none where it is shown as a leaf."""
        if part.nonterminal is None and not part.ways or part.nonterminal and self.is_word(part):
            return []
        if self.kind(part) == "list" and len(part.ways) == 1:
            return [(part.ways[0][0], self.seen(self.items(part)))]
        return [(tag, self.seen(children)) for tag, children in part.ways]

    def items(self, part):
        """The items and separators of a list, as far as its beginning has no choice."""
        out = []  # the last one first
        while True:
            children = part.ways[0][1]
            rest = children[:]
            inner = rest.pop(0)[1] if rest and self.continues(part, rest[0][1]) else None
            out += reversed(rest)
            if inner is None:
                return out[::-1]
            if len(inner.ways) > 1:
                return [(None, inner), *out[::-1]]
            part = inner

    def continues(self, part, first):
        """Whether the first child of a list is the beginning of the same list."""
        one, other = part.nonterminal, first.nonterminal
        return other is not None and other.added and (other is one and part.ways[0][0] in ("$more", "$snoc")
                                                      or other.is_list and part.ways[0][0] == "$some")

    def seen(self, children):
        """The children that are seen: without layout, and with those of options and groups in their place."""
        out, stack = [], children[::-1]
        while stack:
            label, part = stack.pop()
            if self.is_layout(part):
                continue
            inner = self.inside(label, part)
            if inner is None:
                out.append((label, part))
            else:
                stack += reversed(inner)
        return out

    def is_layout(self, part):
        """Whether a part is layout that isn't shown."""
        one = part.nonterminal
        return not self.layout and one is not None and one.number == self.core.layout != self.core.start

    def inside(self, label, part):
        """What stands in place of an option or a group; a label on it goes to the one part in it, if it is one."""
        one = part.nonterminal
        if one is None or self.lists or not one.added or one.is_list or len(part.ways) > 1:
            return None
        inner = [child for child in part.ways[0][1] if not self.is_layout(child[1])]
        if label is None:
            return inner
        return [(label, inner[0][1])] if len(inner) == 1 and inner[0][0] is None else None

    def rows(self, part, label=None):
        """The rows of a tree from its top on: each part, and then what is below it."""
        stack = [(0, label, part)]
        while stack:
            depth, label, part = stack.pop()
            ways = self.below(part)
            tag, children = ways[0] if ways else (part.ways[0][0] if part.ways else None, [])
            text = None if children else self.text[part.begin:part.end]
            yield Row(depth, label, self.name(part, tag), self.kind(part), part.begin, part.end, text, part)
            stack += [(depth + 1, *child) for child in reversed(children)]
