"""What the page to try grammars is told: answers about a grammar and an input, as data for JSON.

Places count characters. A newer request of the same page stops the runs of older ones, whose answers nobody reads.
"""

import math
import os
import re
import sys
import tempfile
import threading
from collections import OrderedDict

from core_text import Core
from forest_count import count_trees, is_ambiguous
from forest_text import NotAForest, read_forest
from grammar_text import tab_width
from parts import Forested, View, read_tree
from program import BUDGET, NO_DEPTH, PRINTED, USAGE, Ended, Run, find_program, put_texts, run
from source_text import Source

HERE = os.path.dirname(os.path.dirname(os.path.abspath(__file__)))
EXAMPLE = re.compile(r"\| `([^`]+)` \| `([^`]+)` \| (?:\d+|infinite) \| (?:yes|no) \|")
PLACE = re.compile(r"(grammar|input):(\d+):(\d+): ")
NO_PARSE_AT = re.compile(r"no parse at line (\d+), column (\d+)")
CARETS = re.compile(r"^ +\| *(\^+)$", re.MULTILINE)
BYTE = re.compile(r"grammar: (?:syntax|not UTF-8) at byte (\d+)")
MOST_PARTS = 4000  # of a forest that the page draws
MOST_COLOURS = 6000  # leaves that are coloured
MOST_ROWS = 3000  # of a tree that the page lists
MOST_PAGES = 32  # whose requests are remembered
AT_ONCE = 3  # runs
DIGITS = 30  # of a number of trees that is shown whole


class Stale(Exception):
    """There is a newer request."""


class Lane:
    """The requests of one kind of one page: the newest number, and what runs for it."""

    def __init__(self):
        self.newest, self.runs = -1, set()


class Answers:
    """Answers requests, with limits: items, seconds, and the newest request of a page alone."""

    def __init__(self, program=None, budget=200_000, seconds=10.0):
        self.program, self.budget, self.seconds = find_program(program), budget, seconds
        self.lock, self.turns = threading.Lock(), threading.Semaphore(AT_ONCE)
        self.pages = OrderedDict()
        self.explain = os.path.join(HERE, "tools", "explain")
        os.environ["IGUANA"] = self.program

    def has_facts(self):
        """Whether the program has the command `analyse`; `OSError` where there is no program."""
        texts = {"grammar": 'start S; syntax S = "a";'}
        said = run(["check", "grammar"], texts, self.program)
        if said.status != PRINTED:
            raise OSError(f"{self.program} doesn't work: {said.note or said.status}")
        return run(["analyse", "grammar"], texts, self.program).status != USAGE

    def answer(self, request):
        """The answer to a request, a mapping with `page`, `number`, `kind`, `grammar`, `input` and `view`."""
        kinds = {"answer": self.whole, "tree": self.tree, "core": self.core_text, "facts": self.facts}
        lane = self.enter(request["page"], request["kind"], request["number"])
        with tempfile.TemporaryDirectory() as folder:
            put_texts(folder, {"grammar": request["grammar"], "input": request["input"]})
            job = Job(self, lane, request, folder)
            try:
                return {"number": request["number"], **kinds[request["kind"]](job)}
            except Stale:
                return {"number": request["number"], "stale": True}

    def enter(self, page, kind, number):
        """The lane of a request, which stops older runs; those of all kinds where texts are new."""
        with self.lock:
            lanes = self.pages.setdefault(page, {})
            self.pages.move_to_end(page)
            while len(self.pages) > MOST_PAGES:
                self.pages.popitem(last=False)
            lane = lanes.setdefault(kind, Lane())
            for other in lanes.values() if kind == "answer" else [lane]:
                if other.newest < number:
                    other.newest = number
                    for run in other.runs:
                        run.stop()
            return lane

    def whole(self, job):
        """The main answer: how the program ended, what that means, and the forest where there is one."""
        forest = job.run("forest", "grammar", "input", "--budget", str(self.budget))
        out = {"status": forest.status, "note": forest.note, "budget": self.budget, "seconds": self.seconds}
        if forest.status is None:
            return out
        if forest.status != PRINTED:
            explanation = job.explained(forest.status)
            return {**out, "explanation": explanation, "mark": find_mark(explanation or forest.note, job.grammar, job.input)}
        return {**out, **job.forest(forest.output)}

    def tree(self, job):
        """The tree after a cursor, or the first one, as rows."""
        after, depth = job.request.get("after"), job.request.get("depth")
        options = ["--after", after] * (after is not None) + ["--depth", str(depth)] * (depth is not None)
        said = job.run("trees", "grammar", "input", "--count", "1", "--budget", str(self.budget), *options)
        if said.status != PRINTED:
            return {"status": said.status, "note": said.note, "cyclic": said.status == NO_DEPTH}
        cursor, _, line = said.text.rstrip("\n").partition(" ")
        if not line:
            return {"status": PRINTED, "end": True}
        view = job.view()
        label, top = view.top(read_tree(line, view.core))
        rows = []
        for row in view.rows(top, label):
            if len(rows) == MOST_ROWS:
                break
            rows.append(row[:-1])
        return {"status": PRINTED, "cursor": cursor, "rows": rows, "cut": len(rows) == MOST_ROWS}

    def core_text(self, job):
        said = job.run("core", "grammar")
        return {"status": said.status, "note": said.note, "text": said.text}

    def facts(self, job):
        said = job.run("analyse", "grammar")
        rows = [line.split(" ") for line in said.text.splitlines()]
        return {"status": said.status, "note": said.note, "rows": rows}


class Job:
    """One request at work, in a folder with its texts."""

    def __init__(self, answers, lane, request, folder):
        self.answers, self.lane, self.request, self.folder = answers, lane, request, folder
        self.grammar, self.input = request["grammar"], request["input"]

    def check(self):
        if self.lane.newest > self.request["number"]:
            raise Stale

    def run(self, *words, program=None):
        """How the program ends with these words; `Stale` where a newer request came."""
        answers = self.answers
        with answers.turns:
            with answers.lock:
                self.check()
                running = Run(list(words), program or answers.program, self.folder)
                self.lane.runs.add(running)
            try:
                ended = running.wait(answers.seconds)
            finally:
                with answers.lock:
                    self.lane.runs.discard(running)
        self.check()
        return ended

    def explained(self, status):
        """What `explain` says of the texts, or None where it isn't there or takes too long."""
        if not os.path.exists(self.answers.explain):
            return None
        words = ["forest", "grammar", "input", "--budget", str(self.answers.budget)]
        said = self.run(self.answers.explain, *words, program=sys.executable) if status != BUDGET else Ended(None)
        return said.text.rstrip("\n") if said.status == status else None

    def view(self, packed=False, **also):
        core = Core(self.run("core", "grammar").text, self.run("show", "grammar").text)
        asked = {name: bool(self.request["view"].get(name)) for name in ("layout", "lists", "lexical")}
        return View(core, self.input, packed=packed, **{**asked, **also})

    def forest(self, data):
        """What is told of a forest: its size, how many trees it has, its picture, and colours of the input."""
        try:
            forest = read_forest(data)
        except NotAForest as fault:
            return {"note": f"no forest: {fault}"}
        self.check()
        number = count_trees(forest)
        out = {"trees": said_number(number), "cyclic": number is None, "ambiguous": is_ambiguous(forest),
               "nodes": forest.node_count, "items": forest.item_count}
        self.check()
        view = self.view(packed=True)
        root = Forested(forest, view.core).root
        plain = View(view.core, self.input, layout=True, packed=True)
        return {**out, "graph": graph_of(view, root), "colours": colours_of(plain, root)}


def said_number(number):
    """A number of trees as text: a long one about."""
    if number is None:
        return "infinitely many"
    if number < 10 ** DIGITS:
        return f"{number:,}"
    power = int(math.log10(number >> max(0, number.bit_length() - 64)) + max(0, number.bit_length() - 64) * math.log10(2))
    return f"about 10^{power}"


def find_mark(said, grammar, text):
    """Where a note or an explanation points to: a text, and characters of it; None where it doesn't."""
    if found := PLACE.match(said):
        source = grammar if found[1] == "grammar" else text
        begin = offset(source, int(found[2]), int(found[3]))
        carets = CARETS.search(said)
        return {"where": found[1], "begin": begin, "end": min(len(source), begin + (len(carets[1]) if carets else 1))}
    if found := NO_PARSE_AT.match(said):
        begin = Source("input", text, tab_width(grammar)).at(int(found[1]), int(found[2]))
        return {"where": "input", "begin": begin, "end": min(len(text), begin + 1)}
    if found := BYTE.match(said):
        begin = len(grammar.encode("utf-8", "surrogatepass")[:int(found[1])].decode("utf-8", "replace"))
        return {"where": "grammar", "begin": begin, "end": min(len(grammar), begin + 1)}
    return None


def offset(text, line, column):
    """The place of a line and a column, which count from 1."""
    begin = 0
    for _ in range(line - 1):
        begin = text.find("\n", begin) + 1
    return min(len(text), begin + column - 1)


def graph_of(view, root):
    """The parts of a forest that are shown, from the top on, by numbers; those too far from it have no ways."""
    label, top = view.top(root)
    numbers, parts, order = {top: 0}, [], [top]
    for part in order:
        ways = view.below(part)
        room = len(order) < MOST_PARTS
        said = {"name": view.name(part, ways[0][0] if len(ways) == 1 else only_tag(part)), "kind": view.kind(part),
                "begin": part.begin, "end": part.end, "ways": []}
        if values := view.values(part):
            said["values"] = values
        for tag, children in ways if room else ():
            for _, child in children:
                if child not in numbers:
                    numbers[child] = len(order)
                    order.append(child)
            said["ways"].append({"tag": tag, "children": [[name, numbers[child]] for name, child in children]})
        said["cut"] = bool(ways) and not room
        parts.append(said)
    return {"parts": parts, "label": label}


def only_tag(part):
    return part.ways[0][0] if len(part.ways) == 1 else None


def colours_of(view, root):
    """What the input is coloured by: the spans of leaves along the first ways, with a kind and a name."""
    out, seen, stack = [], set(), [root]
    while stack and len(out) < MOST_COLOURS:
        part = stack.pop()
        if part in seen:
            continue
        seen.add(part)
        ways = view.below(part)
        if ways:
            stack += [child for _, child in reversed(ways[0][1])]
        elif part.begin < part.end:
            out.append([part.begin, part.end, colour(view, part), view.name(part)])
    return out


def colour(view, part):
    """The kind of a leaf: layout, word, keyword or sign."""
    one = part.nonterminal
    if one is not None:
        return "layout" if one.kind == "layout" else "word" if one.kind == "lexical" else "other"
    text = view.text[part.begin:part.end]
    return "keyword" if len(text) > 1 and text.isalpha() else "sign"


def examples():
    """The gallery: grammars with their inputs, as examples/README.md lists them."""
    folder, found = os.path.join(HERE, "examples"), []
    with open(os.path.join(folder, "README.md"), encoding="utf-8") as file:
        rows = [EXAMPLE.fullmatch(line.rstrip("\n")) for line in file]
    for row in filter(None, rows):
        texts = []
        for name in row.groups():
            with open(os.path.join(folder, name), encoding="utf-8") as file:
                texts.append(file.read())
        found.append({"name": f"{row[1]} on {os.path.basename(row[2])}", "grammar": texts[0], "input": texts[1]})
    return found
