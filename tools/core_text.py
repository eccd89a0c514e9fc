"""Reads what `core` and `show` print of a grammar: nonterminals with their names, kinds, labels and forms."""

import re

STEP = re.compile(r"""(?:"(?:[^"\\]|\\.)*"|\[(?:[^\]\\]|\\.)*\]|[^"\[ ]|[ ](?!\.[ ]))+""")
LABEL = re.compile(r"([^\W\d]\w*): ")
CALL = re.compile(r"call (\d+) \(")
LITERAL = re.compile(r'"(?:[^"\\]|\\.)*"')
CLASS = re.compile(r"\[(?:[^\]\\]|\\.)*\]|\$\w+")
DECLARATION = re.compile(r"(syntax|lexical|layout) ([^\W\d]\w*)")
LONGEST = 40  # characters of the name of a list, an option or a group


class Step:
    """A step of an alternative: a token, a call, or what takes nothing; with its label where it has one."""

    def __init__(self, text):
        found = LABEL.match(text)
        self.label = found[1] if found else None
        text = text[found.end():] if found else text
        self.call, self.token = None, None
        if found := CALL.match(text):
            self.call = int(found[1])
        elif found := LITERAL.match(text) or CLASS.match(text):
            self.token = found[0]

    @property
    def takes(self):
        """Whether it takes a tree: a leaf or a node."""
        return self.call is not None or self.token is not None


class Nonterminal:
    def __init__(self, number, name, parameters):
        self.number, self.name, self.parameters = number, name, parameters
        self.declaration, _, self.added = name.partition("#")  # the name of its declaration; its number in it, or ""
        self.alternatives = []  # pairs of a tag and steps
        self.kind = None  # of its declaration: syntax, lexical or layout; None of `$root`
        self.is_list = False

    def close(self):
        """Notes for each tag the steps that take something."""
        self.takers = {tag: [step for step in steps if step.takes] for tag, steps in self.alternatives}


class Core:
    """The core grammar of a grammar, with the kinds of its declarations."""

    def __init__(self, core, shown):
        self.nonterminals = []
        for line in core.split("\n"):
            head, _, rest = line.partition(" ")
            if head == "nt":
                number, name, parameters = rest.split(" ", 2)
                names = parameters[1:-1].split(",") if parameters != "()" else []
                self.nonterminals.append(Nonterminal(int(number), name, names))
            elif head == "alt":
                tag, _, steps = rest.partition(" . ")
                self.nonterminals[-1].alternatives.append((tag, read_steps(steps)))
        kinds = {found[2]: found[1] for line in shown.split("\n") if (found := DECLARATION.match(line))}
        self.by_name = {}
        for nonterminal in self.nonterminals:
            nonterminal.close()
            nonterminal.kind = kinds.get(nonterminal.declaration)
            self.by_name[nonterminal.name] = nonterminal
        self.layout = next((one.number for one in self.nonterminals if one.kind == "layout" and not one.added), None)
        for nonterminal in self.nonterminals:
            nonterminal.is_list = self.is_list(nonterminal.takers)
        self.forms = {}

    def is_list(self, takers):
        """Whether these are the alternatives of a list. A `{X S}*` is none, or some: then a `{X S}+`."""
        if "$some" in takers:
            calls = [step.call for step in self.seen(takers["$some"]) if step.call is not None]
            rest = self.nonterminals[calls[0]].takers.get("$more", []) if calls else []
            return len(self.seen(rest)) > 2
        return "$snoc" in takers or "$more" in takers

    @property
    def start(self):
        """The number of the start symbol: what the root calls beside layout."""
        calls = [step.call for step in self.nonterminals[0].alternatives[0][1] if step.call is not None]
        return next((call for call in calls if call != self.layout), calls[0])

    def form(self, number):
        """How a grammar would write the nonterminal: its name, or of an added one the list, option or group."""
        if number not in self.forms:
            one = self.nonterminals[number]
            text = self.form_of_added(one) if one.added else one.name
            self.forms[number] = text if len(text) <= LONGEST else text[:LONGEST - 2] + "…" + text[-1]
        return self.forms[number]

    def form_of_added(self, one):
        takers = one.takers
        if "$snoc" in takers:
            return self.joined(takers["$snoc"][1:]) + "*"
        if "$more" in takers:
            item, rest = self.joined(takers["$one"]), self.seen(takers["$more"][1:])
            return f"{{{item} {self.symbol(rest[0])}}}+" if len(rest) > 1 else item + "+"
        if "$some" in takers:
            inner = self.joined(takers["$some"])
            return inner[:-1] + "*" if one.is_list else inner + "?"
        alternatives = list(map(self.joined, takers.values()))
        return alternatives[0] if len(alternatives) == 1 and " " not in alternatives[0] else f"({' | '.join(alternatives)})"

    def seen(self, steps):
        """The steps without calls of the layout."""
        return [step for step in steps if step.call is None or step.call != self.layout]

    def joined(self, steps):
        return " ".join(map(self.symbol, self.seen(steps)))

    def symbol(self, step):
        return step.token if step.call is None else self.form(step.call)


def read_steps(text):
    """The steps of an alternative, which ` . ` parts; a literal or a class may have the same characters inside."""
    steps, at = [], 0
    while found := STEP.match(text, at):
        steps.append(Step(found[0]))
        at = found.end() + len(" . ")
    return steps
