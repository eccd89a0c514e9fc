"""Asks the program all that there is to ask of a grammar and an input, and whether the answers agree with one another."""

import re

from forest_count import count_trees
from forest_text import NotAForest, read_forest
from job_lists import text_of_jobs, wrong_line
from mutations import LIMITS, draw_case
from unfoldings import Unfolding

DONE, NO_PARSE, USAGE, REFUSED, BAD_INPUT, BUDGET, UNREAD, NO_MEMORY, NO_CURSOR, NO_DEPTH = 0, 1, 2, 3, 4, 5, 6, 8, 9, 10
NOT_A_LIST, NOT_SOUND, NOT_A_FOREST = 11, 12, 13
CAUSES = rb"""duplicate name|unknown name|wrong arity|unknown variable|duplicate variable|kind mismatch|no start|start has parameters
    |layout not plain|align not list|mark in lexical|syntax in lexical|too many (?:nonterminals|parameters|variables)"""
CAUSES = re.sub(rb"\n *", b"", CAUSES)
NOTES = {
    DONE: rb"",
    NO_PARSE: rb"no parse at line \d+, column \d+, expected .+\n",
    USAGE: rb"usage: iguana .*\n",
    REFUSED: rb"grammar: (?:too large: (?:bytes|number|nesting)|not UTF-8 at byte \d+|syntax at byte \d+|too many dots"
             rb"|(?:" + CAUSES + rb") at declaration \d+, alternative \d+, symbol \d+)\n",
    BAD_INPUT: rb"input: (?:not UTF-8 at byte \d+|too long)\n",
    BUDGET: rb"budget: more than \d+ items\n",
    UNREAD: rb"cannot read .+\n",
    NO_MEMORY: rb"out of memory\n",
    NO_CURSOR: rb"no such cursor\n",
    NO_DEPTH: rb"depth needed: the forest is cyclic\n",
    NOT_A_LIST: rb"batch list: (?:line \d+|too long)\n",
    NOT_SOUND: rb"not sound: (?:node|item) \d+ rule [1-5]\n",
    NOT_A_FOREST: rb"forest: (?:not a forest|too long)\n",
}
NOTES = {status: re.compile(form, re.DOTALL) for status, form in NOTES.items()}
BUDGETS = (1, 100, *(2_000,) * 7, *(20_000,) * 3)
MOST_PARTS = 100_000  # of a tree that is listed
MOST_TREES = 40  # that are listed
MOST_CURSOR = 100_000  # bytes of a cursor that is given as a word; Linux takes 131,071
MOST_HEIGHT = 12
PER_FOREST = 40_000  # lines that are read here
MOST_JOBS = 4  # of other cases in a list
ORDERS = ("lifo", "lowest", "plain")  # beside that without the option


class Case:
    """A grammar and an input on the bench, and what is asked of them."""

    def __init__(self, bench, commands, grammar, text, draw, seeds):
        self.bench, self.commands, self.draw, self.seeds = bench, commands, draw, seeds
        self.flaws, self.statuses = [], []
        bench.put("g", grammar)
        bench.put("i", text)

    def flaw(self, what, *details):
        self.flaws.append(": ".join([what, *map(str, details)]))

    def run(self, *words):
        """How the program ends; tells what is wrong with any end."""
        said = self.bench.run(*words)
        form = NOTES.get(said.status)
        if form is None:
            self.flaw("a status that is none", " ".join(words), said)
        elif not form.fullmatch(said.notes):
            self.flaw("another note", " ".join(words), said)
        elif said.status != DONE and said.out:
            self.flaw("a refusal with output", " ".join(words), said)
        return said

    def same(self, what, said, other):
        if said != other and NO_MEMORY not in (said.status, other.status):
            self.flaw(what, said, other)

    def ask(self):
        """All questions; answers what is wrong."""
        said = self.run("check", "g")
        self.statuses.append(said.status)
        if said.status == REFUSED:
            self.same("another refusal", self.run(*self.draw.choice((("show", "g"), ("core", "g"), ("forest", "g", "i")))), said)
        elif said.status != DONE or said.out != b"ok\n":
            self.flaw("check", said)
        else:
            self.ask_grammar()
            self.ask_input()
        if self.draw.random() < 0.1:
            self.ask_words()
        if "batch" in self.commands and self.draw.random() < 0.1:
            self.ask_batch()
        return self.flaws

    def ask_grammar(self):
        shown = self.run("show", "g")
        self.bench.put("s", shown.out)
        if shown.status != DONE:
            self.flaw("show", shown)
        elif len(shown.out) <= 262_144:
            self.same("the canonical text isn't stable", self.run("show", "s"), shown)
            if self.draw.random() < 0.3:
                self.same("the canonical text has another core", self.run("core", "s"), self.run("core", "g"))
        self.facts = {}
        if "analyse" in self.commands:
            lines = self.run("analyse", "g").out.decode("utf-8", "replace").splitlines()
            self.facts = {line.split(" ")[0]: line.split(" ")[1:] for line in lines}

    def ask_input(self):
        budget = self.draw.choice(BUDGETS)
        self.options = (f"--budget={budget}",)
        said = self.run("forest", "g", "i", *self.options)
        self.statuses[-1] = said.status
        if said.status not in (DONE, NO_PARSE, BAD_INPUT, BUDGET, NO_MEMORY):
            self.flaw("forest", said)
        elif said.status == BUDGET and said.notes != b"budget: more than %d items\n" % budget:
            self.flaw("another budget", said)
        for order in ORDERS:
            self.same(f"another end by --order={order}", self.run("forest", "g", "i", *self.options, f"--order={order}"), said)
        if said.status != DONE:
            words = self.draw.choice((("trees",), ("query",), ("query", "--what=cyclic"), ("query", "--what", "report")))
            self.same("another end than forest", self.run(*words, "g", "i", *self.options), said)
        elif said.out.count(b"\n") <= PER_FOREST:
            self.ask_forest(said, budget)

    def ask_forest(self, said, budget):
        try:
            self.forest = read_forest(said.out)
        except NotAForest as fault:
            self.flaw("no forest", fault)
            return
        self.unfolding, self.trees = Unfolding(self.forest), count_trees(self.forest)
        if self.forest.item_count > budget:
            self.flaw("more items than the budget")
        self.ask_queries()
        self.ask_trees()
        self.ask_facts()
        if "verify" in self.commands:
            self.ask_verify(said.out)
        if self.draw.random() < 0.1:
            self.same("the canonical text has another forest", self.run("forest", "s", "i", *self.options), said)
        if self.draw.random() < 0.1:
            less = self.run("forest", "g", "i", f"--budget={self.draw.randint(1, budget)}")
            if less.status != BUDGET:
                self.same("the forest depends on the budget", less, said)

    def ask_queries(self):
        forest, yes = self.forest, ("no", "yes")
        nodes = [forest.node(k) for k in self.unfolding.ambiguous_nodes()]
        lines = [f"ambiguous {yes[self.trees != 1]}", *(f"{node.name} {node.values} {node.begin}..{node.end}" for node in nodes)]
        self.wanted("query ambiguous", self.run("query", "g", "i", *self.options), lines)
        self.wanted("query cyclic", self.run("query", "g", "i", "--what=cyclic", *self.options), [f"cyclic {yes[self.trees is None]}"])
        names = {name for name, _ in forest.node_names if "#" not in name and "$" not in name}
        name = self.draw.choice(sorted(names))
        spans = {(node.begin, node.end) for node in map(forest.node, range(forest.node_count)) if node.name == name}
        said = self.run("query", "g", "i", "--what=spans", "--name", name, *self.options)
        self.wanted("query spans", said, [f"{begin}..{end}" for begin, end in sorted(spans)])

    def wanted(self, what, said, lines):
        """Whether these lines were printed."""
        if said.status == NO_MEMORY:
            return
        if said.status != DONE or said.out.decode("utf-8", "replace") != "".join(line + "\n" for line in lines):
            self.flaw(what, said, f"in place of {lines[:5]}")

    def ask_trees(self):
        if self.trees is None:
            if self.run("trees", "g", "i", *self.options).status not in (NO_DEPTH, NO_MEMORY):
                self.flaw("trees of a cyclic forest without a depth")
        elif self.unfolding.largest_tree() <= MOST_PARTS:
            self.list_trees(self.trees, ())
        if self.forest.item_count > 3_000:
            return
        heights = self.unfolding.trees_by_height(MOST_HEIGHT)
        low = [height for height, (_, largest) in enumerate(heights) if largest <= MOST_PARTS]
        height = self.draw.choice([height for height in low if heights[height][0]] or low)
        self.list_trees(heights[height][0], (f"--depth={height}",))

    def list_trees(self, number, options):
        """The first trees are listed, and those after one of them."""
        words = ("trees", "g", "i", *self.options, *options)
        said = self.run(*words, f"--count={MOST_TREES}")
        if said.status == NO_MEMORY:
            return
        lines = said.out.decode("utf-8", "replace").splitlines(True)
        pairs = [line.split(" ", 1) for line in lines]
        if said.status != DONE or len(lines) != min(number, MOST_TREES):
            self.flaw("another number of trees", f"{len(lines)} in place of {number} {options}", said)
            return
        if len({tree for _, tree in pairs}) != len(lines):
            self.flaw("a tree twice", *options)
        if len(lines) > 1 and [cursor for cursor, _ in pairs] != sorted((cursor for cursor, _ in pairs), key=numbers_of):
            self.flaw("trees out of order", *options)
        place = self.draw.randrange(len(lines)) if lines else None
        if lines and len(pairs[place][0]) < MOST_CURSOR:
            after = self.run(*words, f"--count={len(lines)}", "--after", pairs[place][0])
            if after.status != DONE or not after.out.decode("utf-8", "replace").startswith("".join(lines[place + 1:])):
                self.flaw("other trees after a cursor", pairs[place][0], after)

    def ask_facts(self):
        """Whether the facts of the grammar agree with the forest."""
        if not self.facts:
            return
        cyclic = self.unfolding.cyclic_nodes()
        if bool(cyclic) != (self.trees is None):
            self.flaw("a cycle without infinitely many trees")
        for k in range(self.forest.node_count):
            node = self.forest.node(k)
            words = self.facts.get(node.name)
            if words is not None and ("unproductive" in words or "unreachable" in words):
                self.flaw("a tree of what has none", node)
            elif words is not None and (k in cyclic and "cyclic" not in words):
                self.flaw("a cycle of what isn't cyclic", node)
            elif words is not None and node.begin == node.end and "nullable" not in words:
                self.flaw("a tree of the empty text of what isn't nullable", node)

    def ask_verify(self, text):
        self.bench.put("f", text)
        said = self.run("verify", "g", "i", "f")
        if said.status != NO_MEMORY and (said.status, said.out) != (DONE, b"verified\n"):
            self.flaw("a printed forest isn't verified", said)
        lines = text.split(b"\n")
        place = self.draw.randrange(len(lines))
        lines[place] = re.sub(rb"\d+", lambda found: b"%d" % self.draw.choice((int(found[0]) + 1, *LIMITS)), lines[place])
        self.bench.put("f", b"\n".join(lines))
        if self.run("verify", "g", "i", "f").status not in (DONE, NOT_SOUND, NOT_A_FOREST, NO_MEMORY):
            self.flaw("verify of a changed forest")

    def ask_batch(self):
        """Whether jobs of this case and of others, in a list, end as each does alone, whatever turns they take."""
        draw, files = self.draw, ["g i"]
        for number in range(1, draw.randint(1, MOST_JOBS) + 1):
            for name, data in zip("gi", draw_case(draw, self.seeds)):
                self.bench.put(f"{name}{number}", data)
            files.append(f"g{number} i{number}")
        jobs = files + draw.choices((*files, "g1 i", "g i1", "g nowhere"), (*(3,) * len(files), 3, 3, 1), k=draw.randrange(3))
        draw.shuffle(jobs)
        options = (f"--budget={draw.choice(BUDGETS)}",)
        alone = [self.run("forest", *job.split(), *options) for job in jobs]
        self.bench.put("l", "".join(f"{job}\n" for job in jobs).encode())
        turns = (f"--turn={draw.choice((1, 2, 7, 100, 1000, 1_000_000))}", f"--order={draw.choice(('fifo', 'lifo', 'lowest'))}")
        said = self.run("batch", "l", *options, *turns)
        unread = [end for end in alone if end.status == UNREAD]
        if NO_MEMORY in (said.status, *(end.status for end in alone)):
            return
        text = text_of_jobs([(end.status, end.out, end.notes) for end in alone])
        wanted = (UNREAD, b"", unread[0].notes) if unread else (DONE, text, b"")
        if (said.status, said.out, said.notes) != wanted:
            self.flaw("another end in a list than alone", f"{jobs} {options} {turns}", said)
        self.ask_changed_list(jobs)

    def ask_changed_list(self, jobs):
        """Whether the first wrong line of a list is told, of which bytes were changed at random."""
        data = bytearray("".join(f"{job}\n" for job in jobs).encode())
        for _ in range(self.draw.randint(1, 3)):
            data[self.draw.randrange(len(data))] = self.draw.choice(b"\n\n  -g\xc3\xff")
        self.bench.put("l", bytes(data))
        said, wrong = self.run("batch", "l", "--budget=1"), wrong_line(bytes(data))
        if wrong and (said.status, said.notes) != (NOT_A_LIST, b"batch list: line %d\n" % wrong[0]):
            self.flaw("another first wrong line", f"{bytes(data)!r}: {wrong}", said)
        elif not wrong and said.status not in (DONE, UNREAD, NO_MEMORY):
            self.flaw("a list is refused", repr(bytes(data)), said)

    def ask_words(self):
        """Words that may be no command: any end will do that is one."""
        draw = self.draw
        words = [draw.choice(("check", "show", "core", "load", "trees", "query", "forest", *sorted(self.commands))), "none"]
        words += draw.choices(("nowhere", "-", "--", "--help", "", "--count", "--depth=0", f"--budget={draw.choice(LIMITS)}",
                               "--what=", "--after=0.1", str(draw.choice(LIMITS)), "é"), k=draw.randrange(4))
        self.run(*words)
        self.run("load", str(draw.choice([number for number in LIMITS if not 100 < number <= 4000])), str(draw.choice(LIMITS)))


def numbers_of(cursor):
    """The numbers of a cursor."""
    return [int(number) for number in cursor.split(".")]
