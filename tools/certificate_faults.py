"""What is wrong with a forest that `verify` refuses, and with a text that is none."""

import re

from forest_text import NotAForest, read_forest

NOT_SOUND = re.compile(r"not sound: (node|item) (\d+) rule (\d)")
RULES = {
    "1": "the root has no values, and covers the whole input",
    "2": "each line `alt` of a node names an item of that node: of its nonterminal, its values and its begin, at the end of the"
         " alternative that the tag names, and standing where the node ends",
    "3": "an item has an alternative and a dot that the core grammar has, and as many values of the right kinds; its begin isn't"
         " after its position, nor that after the end of the input",
    "4": "an item at dot 0 stands where it begins, with nothing bound",
    "5": "each line below an item follows from the item that it names by one step: a test is true, a value is that of its"
         " expression, a leaf is a match, a node is of the nonterminal that is called, with the values of the arguments",
}


def explain_unsound(note, name, data):
    """The node or the item of a forest that breaks a rule, with the lines below it, and the rule."""
    kind, number, rule = NOT_SOUND.fullmatch(note).groups()
    lines = data.decode("utf-8", "replace").split("\n")
    first = next((k for k, line in enumerate(lines) if line.startswith(f"{kind} {number} ")), None)
    shown = [f"{name}: {note}"]
    if first is not None:
        last = first + 1
        while last < len(lines) and not re.match(r"(node|item) |$", lines[last]):
            last += 1
        shown = [f"{name}:{first + 1}: {note}", *(f"  {k + 1} | {lines[k]}" for k in range(first, last))]
    return [*shown, f"Rule {rule}: {RULES[rule]}.", "`iguana core G` prints the alternatives and their steps; docs/CERTIFICATES.md has all rules."]


def explain_no_forest(note, name, data):
    """Why a text is no forest, as far as the reader of the tools sees it."""
    try:
        read_forest(data)
    except NotAForest as fault:
        return [f"{name}: {note}", f"In the text: {fault}."]
    return [f"{name}: {note}", "The tools read it as a forest; `verify` asks, too, that names, tags and values are those of the grammar."]
