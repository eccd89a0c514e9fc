"""Which items of a core grammar a text has: found slowly and plainly, to say where they stand.

Reads what `iguana core` prints and follows the six rules of items position by position, as Earley's algorithm does. Its
answers aren't proved: who uses them sees first whether the report is the one that the program gives (`Items.report`).
"""

import re

from grammar_tokens import CLASS, LITERAL, NAMED_CLASS, class_test, literal_text
from source_text import column_behind

SMALLEST, LARGEST = -(1 << 63), (1 << 63) - 1


class NoValue(Exception):
    """An expression has no value."""


class Pattern:
    """A literal or a class: its text, and where a match of it ends."""

    def __init__(self, text):
        self.text = text
        self.word = literal_text(text) if text.startswith('"') else None
        self.test = None if self.word is not None else class_test(text)

    def end(self, text, at):
        """Where the match that begins at the place ends; None where there is none."""
        if self.word is not None:
            return at + len(self.word) if text.startswith(self.word, at) else None
        return at + 1 if at < len(text) and self.test(text[at]) else None

    def ends_at(self, text, at):
        """Whether a match ends at the place."""
        begin = at - (1 if self.word is None else len(self.word))
        return begin >= 0 and self.end(text, begin) == at

    def covers(self, text, begin, end):
        return self.end(text, begin) == end


class Step:
    """A step of an alternative: `match`, `call`, `test` or `let`; `label` and `excluded` stand round the first two."""

    def __init__(self, kind, text):
        self.kind, self.text = kind, text
        self.pattern = self.callee = self.expr = self.label = None
        self.args, self.excluded = [], []


class Nonterminal:
    def __init__(self, name, params):
        self.name, self.params, self.alternatives = name, params, []  # pairs of a tag and a list of steps


def read_core(text):
    """The nonterminals of a core grammar, as `iguana core` prints it."""
    found = []
    for line in text.splitlines():
        if line.startswith("nt "):
            _, _, name, params = line.split(" ", 3)
            found.append(Nonterminal(name, [param for param in params[1:-1].split(",") if param]))
        else:
            reader = StepReader(line)
            found[-1].alternatives.append(reader.alternative())
    return found


class StepReader:
    """Reads a line `alt`."""

    def __init__(self, line):
        self.line, self.at = line, 0

    def alternative(self):
        tag = re.compile(r"alt (\S+)").match(self.line)
        self.at, steps = tag.end(), []
        while self.at < len(self.line):
            self.at += len(" . ")
            begin = self.at
            step = self.step()
            step.text = self.line[begin : self.at]
            steps.append(step)
        return tag[1], steps

    def take(self, form):
        found = re.compile(form).match(self.line, self.at)
        if found:
            self.at = found.end()
        return found

    def step(self):
        if self.take(r"test "):
            step = Step("test", "")
            step.expr = self.expr()
            return step
        if found := self.take(r"let (\S+) = "):
            step = Step("let", "")
            step.label, step.expr = found[1], self.expr()
            return step
        label = self.take(r"(\.?\w+): ")
        if found := self.take(r"call (\d+) \("):
            step = Step("call", "")
            step.callee = int(found[1])
            while not self.take(r"\)"):
                step.args.append(self.expr())
                self.take(",")
        else:
            step = Step("match", "")
            step.pattern = self.pattern()
        step.label = label[1] if label else None
        while self.take(r" \\ "):
            step.excluded.append(self.pattern())
        return step

    def pattern(self):
        return Pattern(self.take(rf"{LITERAL.pattern}|{CLASS.pattern}|{NAMED_CLASS.pattern}")[0])

    def expr(self):
        """An expression: a tuple of its form and its parts."""
        if self.take("not "):
            return "not", self.term()
        if self.take("- "):
            return "minus", self.term()
        left = self.term()
        found = self.take(r" (==|!=|<=|>=|<|>|\+|-|\*|div|mod|and|or) ")
        return (found[1], left, self.term()) if found else left

    def term(self):
        if self.take(r"\("):
            inside = self.expr()
            self.take(r"\)")
            return inside
        if found := self.take(r"-?\d+"):
            return "integer", int(found[0])
        if found := self.take(r"(true|false|here)\b"):
            return (found[0],)
        if found := self.take(r"(free_before|free_after)\("):
            pattern = self.pattern()
            self.take(r"\)")
            return found[1], pattern
        if found := self.take(r"(begin|end|size|column|line|number|same|spells|inside|outer)\("):
            return self.function(found[1])
        return "name", self.take(r"\.?\w+")[0]

    def function(self, name):
        parts = [self.expr()]
        while self.take(r",\s*"):
            parts.append(("word", self.pattern().word) if name == "spells" else self.expr())
        self.take(r"\)")
        return (name, *parts)


class Evaluator:
    """Values of expressions over a text, with this width of tabs."""

    def __init__(self, text, tabs=1):
        self.text, self.tabs = text, tabs
        self.starts = [0] + [k + 1 for k, char in enumerate(text) if char == "\n"]

    def value(self, expr, names, here):
        form = expr[0]
        if form == "integer":
            return expr[1]
        if form == "name":
            return names[expr[1]]
        if form == "here":
            return here
        if form in ("true", "false"):
            return form == "true"
        if form == "word":
            return expr[1]
        if form == "free_before":
            return not expr[1].ends_at(self.text, here)
        if form == "free_after":
            return expr[1].end(self.text, here) is None
        values = [self.value(part, names, here) for part in expr[1:]]
        return self.applied(form, values, here)

    def applied(self, form, values, here):
        """The value of an operator or a function; its parts have values already."""
        a, b = values[0], values[-1]
        simple = SIMPLE.get(form)
        if simple:
            return whole(simple(a, b))
        if form in ("div", "mod"):
            if b == 0:
                raise NoValue
            quotient = abs(a) // abs(b) * (1 if (a < 0) == (b < 0) else -1)
            return whole(quotient) if form == "div" else a - b * quotient
        if form == "column":
            return self.column(a)
        if form == "line":
            return self.line(a)
        if form == "number":
            return self.number(*a)
        if form == "same":
            return self.part(a) == self.part(b)
        if form == "spells":
            return self.part(a) == b
        if form == "inside":
            return self.column(here) > a and (here == b or self.column(here) > self.column(b))
        if form == "outer":
            return a if here == b else max(a, self.column(b))
        raise NoValue

    def part(self, span):
        return self.text[span[0] : span[1]]

    def column(self, at):
        if at == -1:
            return 0
        if not 0 <= at <= len(self.text):
            raise NoValue
        return column_behind(self.text[self.text.rfind("\n", 0, at) + 1 : at], self.tabs)

    def line(self, at):
        if not 0 <= at <= len(self.text):
            raise NoValue
        return 1 + self.text.count("\n", 0, at)

    def number(self, begin, end):
        digits = self.text[begin:end]
        if not digits or not all("0" <= char <= "9" for char in digits):
            raise NoValue
        return whole(int(digits))


def whole(value):
    """A value, where it has 64 bits."""
    if not isinstance(value, tuple) and not SMALLEST <= value <= LARGEST:
        raise NoValue
    return value


SIMPLE = {
    "+": lambda a, b: a + b, "-": lambda a, b: a - b, "*": lambda a, b: a * b,
    "<": lambda a, b: a < b, "<=": lambda a, b: a <= b, ">": lambda a, b: a > b, ">=": lambda a, b: a >= b,
    "==": lambda a, b: a == b, "!=": lambda a, b: a != b,
    "and": lambda a, b: a and b, "or": lambda a, b: a or b, "not": lambda a, _: not a, "minus": lambda a, _: -a,
    "begin": lambda a, _: a[0], "end": lambda a, _: a[1], "size": lambda a, _: a[1] - a[0],
}


class Item:
    """An item: the instance (nonterminal, values), the alternative, the dot, what is bound, and where it began."""

    __slots__ = ("nt", "values", "alternative", "dot", "bound", "begin")

    def __init__(self, nt, values, alternative, dot, bound, begin):
        self.nt, self.values, self.alternative, self.dot = nt, values, alternative, dot
        self.bound, self.begin = bound, begin

    def key(self):
        return self.nt, self.values, self.alternative, self.dot, self.bound, self.begin


class Failed:
    """A test, a let or an argument that kept an item from going on."""

    def __init__(self, item, step, at):
        self.item, self.step, self.at = item, step, at


class Items:
    """The items of a text with this width of tabs, up to as many as `most`; `whole` says whether these are all."""

    def __init__(self, core, text, most, tabs=1):
        self.core, self.text, self.most = core, text, most
        self.evaluator = Evaluator(text, tabs)
        self.number, self.counts, self.whole = 0, [0] * len(core), True
        self.rows = [None] * (len(text) + 1)  # by position: what begins a match behind a leaf; None where nothing does
        self.waiting = {}  # by instance and position: the items before its call
        self.ends = {}  # by instance and begin: where it ended, in order
        self.terminals = {}  # by position: the items before a match
        self.failed = {}  # by position: what failed there
        self.names = {}
        self.furthest, self.complete = 0, []
        self.run()

    def run(self):
        self.rows[0] = {}
        for at in range(len(self.text) + 1):
            if self.rows[at] is None or not self.whole:
                continue
            self.todo, self.row = list(self.rows[at].values()), self.rows[at]
            self.at = at
            if at == 0:
                self.enter(0, (), None)
            while self.todo and self.whole:
                self.follow(self.todo.pop())
            self.rows[at] = None

    def add(self, nt, values, alternative, dot, bound, begin, at):
        """Adds an item at a place, once."""
        row = self.rows[at]
        if row is None:
            row = self.rows[at] = {}
        key = (nt, values, alternative, dot, bound, begin)
        if key in row:
            return
        item = row[key] = Item(*key)
        self.number += 1
        self.counts[nt] += 1
        if self.number > self.most:
            self.whole = False
        if at == self.at:
            self.todo.append(item)

    def visible(self, item):
        """The values of the names that an item sees."""
        key = (item.nt, item.alternative, item.dot)
        if key not in self.names:
            nonterminal = self.core[item.nt]
            steps = nonterminal.alternatives[item.alternative][1][: item.dot]
            self.names[key] = nonterminal.params + [step.label for step in steps if step.label]
        found = {}
        for name, value in zip(self.names[key], item.values + item.bound):
            found.setdefault(name, value)
        return found

    def follow(self, item):
        """Does what the step behind the dot asks."""
        steps = self.core[item.nt].alternatives[item.alternative][1]
        if item.dot == len(steps):
            self.complete_at(item)
            return
        step = steps[item.dot]
        if step.kind == "match":
            self.note_terminal(item)
            end = step.pattern.end(self.text, self.at)
            if end is not None:
                self.pass_over(item, step, end)
            return
        try:
            if step.kind == "call":
                values = tuple(self.evaluator.value(arg, self.visible(item), self.at) for arg in step.args)
                self.enter(step.callee, values, item)
            elif step.kind == "test":
                if not self.evaluator.value(step.expr, self.visible(item), self.at):
                    raise NoValue
                self.add(item.nt, item.values, item.alternative, item.dot + 1, item.bound, item.begin, self.at)
            else:
                value = self.evaluator.value(step.expr, self.visible(item), self.at)
                self.add(item.nt, item.values, item.alternative, item.dot + 1, item.bound + (value,), item.begin, self.at)
        except NoValue:
            self.failed.setdefault(self.at, []).append(Failed(item, step, self.at))

    def note_terminal(self, item):
        self.terminals.setdefault(self.at, []).append(item)
        self.furthest = max(self.furthest, self.at)

    def pass_over(self, item, step, end):
        """The item behind what a step took from here up to the end."""
        if any(pattern.covers(self.text, self.at, end) for pattern in step.excluded):
            self.failed.setdefault(end, []).append(Failed(item, step, end))
            return
        bound = item.bound + ((self.at, end),) if step.label else item.bound
        self.add(item.nt, item.values, item.alternative, item.dot + 1, bound, item.begin, end)

    def enter(self, callee, values, item):
        """An instance is called here."""
        place = (callee, values, self.at)
        if item is not None and (callers := self.waiting.get(place)):
            callers.append(item)
            if (callee, values, self.at) in self.ends.get(self.at, ()):
                self.returns(item, self.at)
            return
        self.waiting[place] = [] if item is None else [item]
        for number in range(len(self.core[callee].alternatives)):
            self.add(callee, values, number, 0, (), self.at, self.at)

    def complete_at(self, item):
        """An item is complete here: those that wait for its instance go on, each once."""
        place = (item.nt, item.values, item.begin)
        if item.nt == 0 and item.begin == 0:
            self.furthest = self.at
            self.complete.append(self.at)
        done = self.ends.setdefault(self.at, set())
        if place in done:
            return
        done.add(place)
        for caller in list(self.waiting.get(place, ())):
            self.returns(caller, item.begin)

    def returns(self, caller, begin):
        """A caller goes on behind what it called from the begin up to here."""
        step = self.core[caller.nt].alternatives[caller.alternative][1][caller.dot]
        if any(pattern.covers(self.text, begin, self.at) for pattern in step.excluded):
            self.failed.setdefault(self.at, []).append(Failed(caller, step, self.at))
            return
        bound = caller.bound + ((begin, self.at),) if step.label else caller.bound
        self.add(caller.nt, caller.values, caller.alternative, caller.dot + 1, bound, caller.begin, self.at)

    def step_of(self, item):
        """The step behind the dot of an item."""
        return self.core[item.nt].alternatives[item.alternative][1][item.dot]

    def report(self):
        """The furthest place, and the texts of the patterns that were expected there, as the program says them."""
        wanted = {self.step_of(item).pattern.text for item in self.terminals.get(self.furthest, ())}
        if self.furthest in self.complete:
            wanted.add("end of input")
        return self.furthest, wanted
