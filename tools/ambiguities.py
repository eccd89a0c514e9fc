"""What differs where a forest has a choice, and what usually cures it."""

from added_names import owner_of, said_name
from grammar_text import hides_call, operand_places
from source_text import quoted

HIDDEN = ("levels and sides see an operand only where it is the plain name {}, first or last in its alternative, with a label at most;"
          " put the filter, the mark or the parentheses elsewhere")
LISTS = ("star", "plus", "sepstar", "sepplus")


class Choice:
    """A node with a choice: two ways to read it, each a list of children; `number` is that of the node."""

    def __init__(self, number, node, tags, first, second):
        self.number, self.node, self.tags, self.first, self.second = number, node, tags, first, second

    def size(self):
        return self.node.end - self.node.begin, self.node.begin


class Child:
    """A child of a node: a node of the forest, or a leaf."""

    def __init__(self, number, begin, end):
        self.number, self.begin, self.end = number, begin, end

    def key(self):
        return self.number, self.begin, self.end


def children(forest, item):
    """The children below an item, by the first way at each choice."""
    return branch(forest, forest.ways(item)[0])


def branch(forest, way):
    """The children that a way has, by the first way at each choice before it."""
    found = []
    while True:
        before, child = way
        if child is not None:
            found.append(child_of(forest, child))
        if before is None:
            return found[::-1]
        way = forest.ways(before)[0]


def child_of(forest, child):
    if isinstance(child, int):
        node = forest.node(child)
        return Child(child, node.begin, node.end)
    return Child(None, *child)


def choice_of(forest, number):
    """The first choice at a node, or None."""
    node, alternatives = forest.node(number), forest.alternatives(number)
    if len(alternatives) > 1:
        (one, first), (other, second) = alternatives[:2]
        return Choice(number, node, (one, other), children(forest, first), children(forest, second))
    (tag, item), behind = alternatives[0], []
    while item is not None:
        ways = forest.ways(item)
        if len(ways) > 1:
            first, second = (branch(forest, way) + behind[::-1] for way in ways[:2])
            return Choice(number, node, (tag, tag), first, second)
        item, child = ways[0]
        if child is not None:
            behind.append(child_of(forest, child))
    return None


def circle(forest):
    """The nodes of a circle, by the names that lead round; the smallest span first."""
    nodes = [forest.node(k) for k in range(forest.node_count)]
    below = [[child for _, item in forest.alternatives(k) for child in all_children(forest, item)] for k in range(len(nodes))]
    for start in sorted(range(len(nodes)), key=lambda k: nodes[k].end - nodes[k].begin):
        reached = {start: None}
        waiting = [start]
        while waiting:
            node = waiting.pop(0)
            for child in below[node]:
                if child == start:
                    found = [node]
                    while reached[found[-1]] is not None:
                        found.append(reached[found[-1]])
                    return [nodes[k] for k in found[::-1]]
                if child not in reached:
                    reached[child] = node
                    waiting.append(child)
    return []


def all_children(forest, item):
    """The nodes that some way below an item takes."""
    found, seen, waiting = [], set(), [item]
    while waiting:
        item = waiting.pop()
        if item in seen:
            continue
        seen.add(item)
        for before, child in forest.ways(item):
            if isinstance(child, int):
                found.append(child)
            if before is not None:
                waiting.append(before)
    return found


class Ambiguities:
    """The choices of a forest, by declaration."""

    def __init__(self, grammar, grammar_source, source, forest):
        self.grammar, self.grammar_source, self.source, self.forest = grammar, grammar_source, source, forest
        layout = grammar.layout()
        self.layout = layout.name if layout else None

    def groups(self):
        """The choices of each declaration, the smallest one first, grouped; the groups by their smallest one."""
        found = {}
        for number in range(self.forest.node_count):
            choice = choice_of(self.forest, number)
            if choice is not None:
                found.setdefault(choice.node.name.partition("#")[0], []).append(choice)
        return sorted((sorted(group, key=Choice.size) for group in found.values()), key=lambda group: group[0].size())

    def lines_of(self, group):
        choice = group[0]
        node = choice.node
        base = node.name.partition("#")[0]
        declaration = self.grammar.named(base)
        line = f" (line {self.grammar_source.line_of(declaration.named_at)})" if declaration else ""
        count = f"{len(group)} nodes, the smallest " if len(group) > 1 else ""
        last = self.source.line_of(node.begin + len(self.source.text[node.begin : node.end].rstrip()))
        upto = f" to line {last}" if last > self.source.line_of(node.begin) else ""
        lines = [f"{base}{line}: {count}{self.source.named(node.begin)}{upto}"]
        if node.end > node.begin:
            end = min(node.end, self.line_end(node.begin))
            lines += self.source.marked(node.begin, max(end, node.begin + 1))
        if "#" in node.name:
            lines.append(f"  in {said_name(self.grammar, node.name)}")
        lines += self.ways(choice)
        return lines + [f"  usual cure: {self.cure(choice)}"]

    def line_end(self, at):
        end = self.source.text.find("\n", at)
        return len(self.source.text) if end < 0 else end

    def ways(self, choice):
        first, second = (self.said_children(way) for way in (choice.first, choice.second))
        if choice.tags[0] != choice.tags[1]:
            return [f"  either {self.said_tag(choice.tags[0])}: {first}", f"  or     {self.said_tag(choice.tags[1])}: {second}"]
        return [f"  by {self.said_tag(choice.tags[0])}, either {first}", f"  or {second}"]

    def said_tag(self, tag):
        if tag.startswith("$group."):
            return f"choice {tag[7:]}"
        if tag.startswith("$"):
            return {"$none": "nothing", "$nil": "an empty list", "$some": "something", "$one": "one item",
                    "$snoc": "a list and an item", "$more": "a list and an item", "$root": "the start symbol"}.get(tag, tag)
        name, _, number = tag.rpartition(".")
        declaration = self.grammar.named(name)
        if declaration is None:
            return tag
        alternative = declaration.alternatives[int(number) - 1]
        text = " ".join(self.grammar.of(alternative).split())
        shown = text if len(text) <= 50 else text[:47] + "..."
        return f"alternative {number}, `{shown}`" if len(declaration.alternatives) > 1 else f"`{shown}`"

    def said_children(self, way):
        """The texts of the children that take something, or are no layout."""
        parts = []
        for child in way:
            name = self.forest.node(child.number).name if child.number is not None else None
            if name == self.layout and self.layout:
                continue
            text = self.source.text[child.begin : child.end]
            text = text.strip() or text
            if not text and name and "#" in name and len(way) > 1:
                continue
            parts.append(quoted(text) if text else f"nothing ({said_name(self.grammar, name)})" if name else '""')
        return " ".join(parts) or "nothing"

    # cures

    def cure(self, choice):
        declaration, symbol = owner_of(self.grammar, choice.node.name)
        if declaration is None:
            return "the root calls the layout before the start symbol, and the start symbol is the layout"
        if declaration.kind == "layout" or declaration.name == self.layout:
            return ("let the layout be as long as it can be: `!>>` after its list, with the classes and literals that its items"
                    " begin with")
        if self.leads_back(choice.number):
            return "an alternative that is the name itself, or a list or an option of what may be nothing, has no end of trees: take it away"
        if symbol is not None:
            return self.cure_added(choice, declaration, symbol)
        if choice.tags[0] != choice.tags[1]:
            return self.cure_alternatives(choice, declaration)
        return self.cure_ways(choice, declaration)

    def leads_back(self, number):
        """Whether a child of a node is the node itself."""
        return any(number in all_children(self.forest, item) for _, item in self.forest.alternatives(number))

    def alternatives(self, choice):
        return [self.alternative(tag) for tag in choice.tags]

    def alternative(self, tag):
        name, _, number = tag.rpartition(".")
        return self.grammar.named(name).alternatives[int(number) - 1]

    def cure_alternatives(self, choice, declaration):
        one, other = self.alternatives(choice)
        if self.goes_on(one, other) or self.goes_on(other, one):
            return ("one alternative goes on where the other one ends, so what it goes on with may belong to the one inside or to the one"
                    " outside: a parameter says what a part may end with, as in examples/else")
        if any(hides_call(end, declaration.name) for each in (one, other) for end in operand_places(each)):
            return HIDDEN.format(declaration.name)
        if is_operator(one, declaration) and is_operator(other, declaration):
            if one.level == other.level:
                return (f"both are operators of {declaration.name} on one level: say how they group (`left`, `right` or `nonassoc`"
                        " before them), or part them by `>`, the one that binds tighter first")
            return HIDDEN.format(declaration.name)
        if word := self.keyword(choice):
            literal, name = word
            return f"a word is read both as the literal {literal} and as {name}: take it away from {name}, as `.. \\ {literal}`"
        return ("two alternatives read the same text: keep one, or let a guard (`when`), a filter or a parameter say which is meant")

    def goes_on(self, short, long):
        """Whether an alternative is another one and then more."""
        first = [self.grammar.of(symbol) for symbol in short.symbols]
        return 1 < len(first) < len(long.symbols) and first == [self.grammar.of(symbol) for symbol in long.symbols[: len(first)]]

    def keyword(self, choice):
        """A literal that one way reads where the other one reads a lexical declaration; None where there is none."""
        for first, second in ((choice.first, choice.second), (choice.second, choice.first)):
            leaves = {(child.begin, child.end) for child in self.tokens(first, literals=True)}
            for child in self.tokens(second, literals=False):
                if (child.begin, child.end) in leaves:
                    return quoted(self.source.text[child.begin : child.end]), self.forest.node(child.number).name
        return None

    def tokens(self, way, literals):
        """Literals of an alternative, or lexical nodes, below a way, by first ways; as far down as syntax goes."""
        found, waiting, seen = [], list(way), set()
        while waiting and len(seen) < 2000:
            child = waiting.pop()
            if child.key() in seen:
                continue
            seen.add(child.key())
            if child.number is None:
                found += [child] if literals else []
                continue
            declaration, _ = owner_of(self.grammar, self.forest.node(child.number).name)
            if declaration is not None and declaration.kind == "syntax":
                waiting += children(self.forest, self.forest.alternatives(child.number)[0][1])
            elif not literals and declaration is not None and declaration.kind == "lexical":
                found.append(child)
        return found

    def cure_ways(self, choice, declaration):
        alternative = self.alternative(choice.tags[0])
        if any(hides_call(end, declaration.name) for end in operand_places(alternative)):
            return HIDDEN.format(declaration.name)
        if operands(alternative, declaration) == 2:
            return (f"say how the operator groups: `left` or `right` at the begin of its level, as `> left {declaration.name} ..`"
                    if alternative.side is None else
                    HIDDEN.format(declaration.name))
        if word := self.keyword(choice):
            literal, name = word
            return f"a word is read both as the literal {literal} and as {name}: take it away from {name}, as `.. \\ {literal}`"
        return self.cure_boundary(choice, declaration)

    def cure_boundary(self, choice, declaration):
        """Two parts side by side share a text that either may have."""
        split = next(((a, b) for a, b in zip(choice.first, choice.second) if a.end != b.end), None)
        name = self.child_name(split[0]) if split else None
        callee = self.grammar.named(name) if name else None
        if callee is not None and callee.kind == "lexical" or declaration.kind == "lexical":
            what = callee.name if callee is not None and callee.kind == "lexical" else declaration.name
            return f"let {what} be as long as it can be: `.. !>> [..]` with what it could go on with"
        return ("nothing says where one part ends and the next one begins: a separator, a filter (`!>>`), a block by columns"
                " (`offside`), or a parameter that says what the first part may end with, as in examples/else")

    def child_name(self, child):
        return self.forest.node(child.number).name.partition("#")[0] if child.number is not None else None

    def cure_added(self, choice, declaration, symbol):
        if symbol.form in LISTS:
            return self.cure_list(choice, declaration, symbol)
        if symbol.form == "opt":
            return "what the option has may be nothing, so that nothing is read in two ways: let it have at least one token"
        if choice.tags[0] != choice.tags[1]:
            return "two choices of a group read the same text: keep one, or let a guard or a filter say which is meant"
        return self.cure_boundary(choice, declaration)

    def cure_list(self, choice, declaration, symbol):
        item = symbol.parts[0].core()
        callee = self.grammar.named(item.name) if item.form == "call" else None
        if any(child.begin == child.end and not self.is_list(child) for child in choice.first + choice.second
               if self.child_name(child) != self.layout):
            return "an item of the list may be nothing: let it have at least one token"
        if callee is not None and callee.kind == "lexical":
            return (f"an item may end early, so that one may be two: let {callee.name} be as long as it can be, as `.. !>> [..]` with"
                    " what it could go on with")
        if declaration.kind != "syntax":
            return f"the list may be cut in several ways: let its items be as long as they can be, `.. !>> [..]`"
        return ("an item may end early or late: part the items by a separator (`{X \";\"}*`), by columns (`align (offside X)*`), or end"
                " each with a token")

    def is_list(self, child):
        return child.number is not None and "#" in self.forest.node(child.number).name


def operands(alternative, declaration):
    """How many operands an alternative has: plain calls of its own name at its ends."""
    ends = [symbol.parts[0] if symbol.form == "label" else symbol for symbol in operand_places(alternative)]
    return sum(1 for end in ends if end.form == "call" and end.name == declaration.name)


def is_operator(alternative, declaration):
    return operands(alternative, declaration) > 0
