"""Why an input has no tree."""

import re

from core_items import Items, Pattern, read_core
from grammar_tokens import CLASS, LITERAL, NAMED_CLASS, ranges_of
from source_text import char_name, listed, quoted

MOST_ITEMS = 300_000  # how many items are found here at most, to say where they stand
NOTE = re.compile(r"no parse at line (\d+), column (\d+), expected (.*)", re.S)
PATTERN = re.compile(rf"({LITERAL.pattern}|{CLASS.pattern}|{NAMED_CLASS.pattern}|end of input|nothing)(?:, )?")
MOST_FRAMES = 6
MOST_TESTS = 4


def read_note(note):
    """The line, the column and the patterns of a note `no parse`."""
    found = NOTE.fullmatch(note)
    return int(found[1]), int(found[2]), [each[1] for each in PATTERN.finditer(found[3])]


def explain_no_parse(run, grammar, source, note):
    """The place of the mark, and lines. `run` starts the program over the grammar; `grammar` is its text as it was read."""
    line, column, patterns = read_note(note)
    at = source.at(line, column)
    core_text = run(["core"])
    items = items_as_told(core_text, source, at, patterns) if core_text is not None else None
    layout = layout_patterns(grammar)
    lines = [stands(source, at, patterns), *expected_lines(patterns, layout)]
    if items is not None:
        teller = Teller(grammar, source, items, at)
        lines += teller.frames() + teller.refusals()
    else:
        lines += pattern_places(grammar, [each for each in patterns if each not in layout])
    return at, lines + operator_line(grammar, source, at, patterns) + hint_lines(grammar, source, at, patterns)


def items_as_told(core_text, source, at, patterns):
    """The items of the input, where they are few and their report is the program's; else None."""
    found = Items(read_core(core_text), source.text, MOST_ITEMS, source.tabs)
    return found if found.whole and found.report() == (at, set(patterns) - {"nothing"}) else None


def hint_lines(grammar, source, at, patterns):
    """What newcomers meet: letters of another case, and ends of lines that nothing takes."""
    text = source.text
    for pattern in patterns:
        word = Pattern(pattern).word if pattern.startswith('"') else None
        if word and text[at : at + len(word)] != word and text[at : at + len(word)].lower() == word.lower():
            return [f"Literals are compared letter by letter: {quoted(text[at : at + len(word)])} isn't {pattern}."]
    char = text[at : at + 1]
    if char == "\ufeff":
        return ["A byte order mark stands here, which can't be seen: save the file as UTF-8 without it."]
    if char == "\r":
        return ["The lines of this file end with a carriage return and a line feed: let the layout have `\\r`."]
    if char == "\n" and at == len(text) - 1 and "end of input" in patterns:
        return ["The input ends with a line feed, and nothing in the grammar takes it: a layout that has `\\n` does."]
    if char in (" ", "\t", "\n") and grammar.layout() is None:
        return ["No layout is declared, so blanks and ends of lines stand only where the grammar says so."]
    return []


def operator_line(grammar, source, at, patterns):
    """That an operator doesn't chain, where one stands here that nothing else explains."""
    for declaration in grammar.declarations:
        for alternative in declaration.alternatives:
            if alternative.side != "nonassoc":
                continue
            for symbol in alternative.preorder():
                if symbol.form == "literal" and source.text.startswith(symbol.text, at) and canonical(symbol) not in patterns:
                    return [f"{canonical(symbol)} is an operator of {declaration.name} that doesn't chain (`nonassoc`)."]
    return []


def stands(source, at, patterns):
    if at >= len(source.text):
        return "The input ends here." if at else "The input is empty."
    said = f"Here stands {char_name(source.text[at])}"
    read = [each for each in patterns if each[0] in '"[$' and Pattern(each).end(source.text, at) is not None]
    if read:
        return f"{said}, which is read as {listed(read, 'and')}; what refused it comes after that."
    return f"{said}."


def expected_lines(patterns, layout):
    """What was expected, with what the layout alone expects told apart."""
    if patterns == ["nothing"]:
        return ["Nothing could stand anywhere: no token of the grammar can begin."]
    others = [said_pattern(each) for each in patterns if each not in layout]
    lines = []
    if others:
        lines.append(f"Here could stand {listed(others, 'or')}.")
    inside = [said_pattern(each) for each in patterns if each in layout]
    if inside:
        lines.append(f"{'Layout' if others else 'Here could stand layout alone'}{' could go on with' if others else ':'}"
                     f" {listed(inside, 'or')}.")
    return lines


def said_pattern(text):
    return "the end of the input" if text == "end of input" else text


def layout_patterns(grammar):
    """The patterns that stand in the layout, and nowhere else, in their canonical texts."""
    layout = grammar.layout() if grammar else None
    if layout is None:
        return set()
    inside = patterns_of(grammar, reached(grammar, [layout]))
    others = [each for each in grammar.declarations if each is not layout]
    started = [each for each in others if grammar.start and each.name == grammar.start.text]
    return inside - patterns_of(grammar, reached(grammar, started, layout))


def reached(grammar, first, without=None):
    """The declarations that these call, and those that they call, and so on, themselves among them."""
    found, waiting = [], list(first)
    while waiting:
        declaration = waiting.pop()
        if declaration in found or declaration is without:
            continue
        found.append(declaration)
        for symbol in declaration.preorder():
            callee = grammar.named(symbol.name) if symbol.form == "call" else None
            if callee is not None:
                waiting.append(callee)
    return found


def patterns_of(grammar, declarations):
    return {canonical(symbol) for declaration in declarations for symbol in declaration.preorder()
            if symbol.form in ("literal", "class")}


SPECIAL = {"\n": "\\n", "\r": "\\r", "\t": "\\t"}


def canonical(symbol):
    """The text of a literal or a class as the program prints it."""
    if symbol.form == "literal":
        escapes = {'"': '\\"', "\\": "\\\\", **SPECIAL}
        return '"' + "".join(escapes.get(char, char) for char in symbol.text) + '"'
    return canonical_class(symbol.text)


def canonical_class(text):
    """A class in its normal form: ranges sorted and joined."""
    if text.startswith("$"):
        return text
    joined = []
    for first, last in sorted((ord(a), ord(b)) for a, b in ranges_of(text)):
        if joined and first <= joined[-1][1] + 1:
            joined[-1][1] = max(joined[-1][1], last)
        else:
            joined.append([first, last])
    return f"[{'^' if text[1] == '^' else ''}{''.join(range_text(first, last) for first, last in joined)}]"


def range_text(first, last):
    escapes = {char: "\\" + char for char in "[]^-\\"} | SPECIAL
    one, other = (escapes.get(chr(each), chr(each)) for each in (first, last))
    return one if first == last else f"{one}-{other}"


def pattern_places(grammar, patterns):
    """Which declarations have these patterns: all that can be said where there are too many items."""
    places = {}
    for declaration in grammar.declarations if grammar else []:
        for symbol in declaration.preorder():
            if symbol.form in ("literal", "class") and canonical(symbol) in patterns:
                places.setdefault(declaration.name, []).append(canonical(symbol))
    names = [f"{name} ({listed(dict.fromkeys(found), 'and')})" for name, found in places.items()]
    return [f"Declarations that have these: {listed(names)}."] if names else []


class Teller:
    """Says of the items at a place in which declarations they are, and what refused others there."""

    def __init__(self, grammar, source, items, at):
        self.grammar, self.source, self.items, self.at = grammar, source, items, at
        names = {each.name for each in reached(grammar, [layout])} if (layout := grammar.layout()) else set()
        started = {each.name for each in reached(grammar, [grammar.named(grammar.start.text)], layout)} if grammar.start else set()
        self.layout = names - started

    def owner(self, nt):
        """The name of the declaration for which a nonterminal stands."""
        return self.items.core[nt].name.partition("#")[0]

    def frames(self):
        """For each declaration that is begun and not ended here: where it began, and what it could go on with."""
        found = {}
        for item in self.items.terminals.get(self.at, ()):
            if self.owner(item.nt) in self.layout:
                continue
            pattern = self.items.step_of(item).pattern.text
            for frame in self.begun(item):
                found.setdefault(frame, []).append(pattern)
        if self.at in self.items.complete and self.grammar.start:
            begin = self.start_begin()
            frame = (self.grammar.start.text, begin) if begin < self.at else ("$root", 0)
            found.setdefault(frame, []).append("end of input")
        shown = sorted(found, key=lambda frame: (-frame[1], frame[0]))
        lines = [self.frame_line(frame, found[frame]) for frame in shown[:MOST_FRAMES]]
        if len(shown) > MOST_FRAMES:
            lines.append(f"  and {len(shown) - MOST_FRAMES} more that began further left")
        return (["What is being read here:"] + lines) if lines else []

    def start_begin(self):
        """Where the start symbol was called: behind the layout at the begin of the input."""
        name = self.grammar.start.text
        return max((place for (nt, _, place), callers in self.items.waiting.items() if self.items.core[nt].name == name
                    and any(self.items.core[caller.nt].name == "$root" for caller in callers)), default=0)

    def begun(self, item):
        """The innermost declarations round an item that began further left: pairs of a name and a begin."""
        found, seen, waiting = set(), set(), [item]
        while waiting:
            item = waiting.pop()
            if item.key() in seen:
                continue
            seen.add(item.key())
            name = self.items.core[item.nt].name
            if "#" not in name and name != "$root" and item.begin < self.at:
                found.add((name, item.begin))
            elif name == "$root":
                found.add(("$root", item.begin))
            else:
                waiting += self.items.waiting.get((item.nt, item.values, item.begin), [])
        return found

    def frame_line(self, frame, patterns):
        name, begin = frame
        wanted = listed([said_pattern(each) for each in sorted(set(patterns))], "or")
        if name == "$root":
            return f"  the whole input, which begins with {wanted}"
        declaration = self.grammar.named(name)
        line = f" (line {self.source_line(declaration)})" if declaration else ""
        read = quoted(self.source.text[begin : self.at])
        return f"  {name}{line} from {self.source.said(begin)}: {read}, to go on with {wanted}"

    def source_line(self, declaration):
        return self.grammar.text.count("\n", 0, declaration.named_at) + 1

    # what refused

    def refusals(self):
        """Guards, filters and blocks that kept items from going on from here or from behind what stands here."""
        lines, places = [], range(self.at, len(self.source.text) + 1)
        for at in [*places[1:], self.at]:
            for failed in self.items.failed.get(at, ()):
                line = self.refusal(failed)
                if line and line not in lines:
                    lines.append(line)
        more = [f"  and {len(lines) - MOST_TESTS} more"] if len(lines) > MOST_TESTS else []
        return (["What refused more:"] + lines[:MOST_TESTS] + more) if lines else []

    def refusal(self, failed):
        """A line on a step that failed, where a person would care; else None."""
        name, step, at = self.owner(failed.item.nt), failed.step, failed.at
        if name in self.layout or name == "$root":
            return None
        place = self.source.said(at)
        if step.kind != "test":
            if step.kind == "match" or step.kind == "call" and step.excluded:
                return self.excluded_line(failed, name)
            return f"  {name}: `{step.text}` has no value at {place}"
        text = step.text.removeprefix("test ")
        if step.expr[0] == "inside":
            return self.block_line(failed, name)
        if text.startswith("column(here) == .c"):
            return self.align_line(failed, name)
        if ".l" in text or ".r" in text:
            return None
        if step.expr[0] == "free_after":
            steps = self.items.core[failed.item.nt].alternatives[failed.item.alternative][1]
            what = "end" if failed.item.dot + 1 == len(steps) else "go on"
            return f"  {name} can't {what} at {place}: the filter `!>> {step.expr[1].text}` sees what follows"
        if step.expr[0] == "free_before":
            what = "begin" if failed.item.begin == at else "go on"
            return f"  {name} can't {what} at {place}: the filter `!<< {step.expr[1].text}` sees what stands before"
        return f"  {name}: `when ({text})` isn't true at {place}{self.values_said(failed)}"

    def values_said(self, failed):
        """The values of the variables in a guard."""
        names = self.items.visible(failed.item)
        found = []
        for name, value in names.items():
            if not name.startswith(".") and re.search(rf"\b{name}\b", failed.step.text):
                said = quoted(self.source.text[value[0] : value[1]]) if isinstance(value, tuple) else str(value).lower()
                found.append(f"{name} is {said}")
        return f": {listed(found)}" if found else ""

    def excluded_line(self, failed, name):
        words = [pattern for pattern in failed.step.excluded if pattern.ends_at(self.source.text, failed.at)]
        word = max(words, key=lambda pattern: len(pattern.text)).text if words else "what ends"
        return f"  {name} excludes {word}, which ends at {self.source.said(failed.at)}"

    def next_matches(self, failed):
        """Whether the first match behind a failed test would have been there, or nobody knows."""
        steps = self.items.core[failed.item.nt].alternatives[failed.item.alternative][1]
        for step in steps[failed.item.dot + 1 :]:
            if step.kind == "match":
                return step.pattern.end(self.source.text, failed.at) is not None
            if step.kind == "call":
                return True
        return True

    def block_line(self, failed, name):
        """A token that a block keeps out."""
        if failed.at >= len(self.source.text) or not self.next_matches(failed):
            return None
        names, evaluator = self.items.visible(failed.item), self.items.evaluator
        margin = evaluator.value(failed.step.expr[1], names, failed.at)
        other = evaluator.value(failed.step.expr[2], names, failed.at)
        least = max(margin, evaluator.column(other) if other >= 0 else 0)
        line, column = self.source.place(failed.at)
        return (f"  a block (`offside`) keeps tokens to the right of column {least}; at line {line}, column {column} a token of"
                f" {name} stands too far to the left")

    def align_line(self, failed, name):
        wanted = self.items.visible(failed.item).get(".c")
        line, column = self.source.place(failed.at)
        if wanted is None or column == wanted or failed.at >= len(self.source.text):
            return None
        return f"  a list of {name} is aligned (`align`) in column {wanted}; at line {line} an item would begin in column {column}"
