"""What a fault of scope means: the declaration, the alternative and the symbol by name, and why."""

import difflib

from grammar_text import MARKS
from source_text import ordinal

LISTS = ("star", "plus", "sepstar", "sepplus")
FORMS = {"opt": "option", "star": "list", "plus": "list", "sepstar": "list", "sepplus": "list", "group": "group"}
MOST = {"declarations": 4096, "parameters": 16, "variables": 32}


def explain_scope(source, grammar, cause, numbers):
    """The begin and the end of the mark, other marks with a word for each, and the lines that explain."""
    found = grammar.symbol_at(*numbers)
    fault = Fault(source, grammar, numbers, found)
    begin, end = fault.begin_end()
    lines = CAUSES[cause](fault)
    return begin, end, fault.marks, [fault.where()] + lines


class Fault:
    """A fault at a place of a grammar; what explains it may add marks."""

    def __init__(self, source, grammar, numbers, found):
        self.source, self.grammar, self.numbers, self.found = source, grammar, numbers, found
        self.declaration = grammar.declarations[numbers[0] - 1] if numbers[0] else None
        self.alternative = None
        if numbers[1]:
            self.alternative = self.declaration.alternatives[numbers[1] - 1]
        self.marks = []

    def begin_end(self):
        if self.declaration is None:
            start = self.grammar.start
            return (start.begin, start.end) if start else (0, 1)
        if self.found is self.declaration:
            begin = self.declaration.named_at
            return begin, begin + len(self.declaration.name)
        if self.found is self.alternative:
            return self.alternative.begin, max(self.alternative.end, self.alternative.begin + 1)
        return self.found.begin, self.found.end

    def where(self):
        if self.declaration is None:
            return "In the start line:" if self.grammar.start else "At the begin of the grammar:"
        line = self.source.line_of(self.declaration.named_at)
        named = f"the declaration of {self.declaration.name} (line {line})"
        if self.alternative is None:
            return f"At the head of {named}:"
        number = f"alternative {self.numbers[1]} of {len(self.declaration.alternatives)}"
        if self.found is self.alternative:
            return f"In {number} in {named}:"
        return f"At the {ordinal(self.numbers[2])} symbol of {number} in {named}:"

    def mark(self, begin, end, word):
        self.marks.append((begin, end, word))

    def mark_head(self, declaration, word):
        self.mark(declaration.named_at, declaration.named_at + len(declaration.name), word)

    # variables

    def before(self, upto=None):
        """What is visible at the symbol, as a mapping of names to what binds them: a parameter, a label or a let."""
        seen = {name: ("parameter", kind, at) for name, kind, at in reversed(self.declaration.params)}
        if self.alternative is not None:
            visible_before(self.alternative.symbols, upto or self.found, seen)
        return seen

    def bindings(self):
        """All labels and lets of the declaration: triples of the alternative, the symbol, and the symbols round it."""
        for alternative in self.declaration.alternatives:
            for symbol, around in nested(alternative.symbols, []):
                if symbol.form in ("label", "let"):
                    yield alternative, symbol, around


def nested(symbols, around):
    """The symbols in preorder, each with those round it that keep what they bind inside."""
    for symbol in symbols:
        yield symbol, around
        yield from nested(symbol.parts, around + [symbol] if symbol.form in FORMS else around)


def visible_before(symbols, target, seen):
    """Adds what stands before a symbol in a sequence and is visible there; True where the symbol was found."""
    for symbol in symbols:
        if symbol is target:
            return True
        inner = [inside.symbols for inside in symbol.alternatives] if symbol.form == "group" else [symbol.parts]
        for sequence in inner:
            found = dict(seen)
            if visible_before(sequence, target, found):
                seen.clear()
                seen.update(found)
                return True
        bind(symbol, seen)
    return False


def bind(symbol, seen):
    """Adds what a symbol binds for those behind it."""
    while symbol.form in ("filtered", *MARKS):
        symbol = symbol.parts[0]
    if symbol.form == "label":
        bind(symbol.parts[0], seen)
        seen.setdefault(symbol.name, ("label", "span", symbol.begin))
    elif symbol.form == "let":
        kind = kind_of(symbol.expr, seen)
        if kind:
            seen.setdefault(symbol.name, ("let", kind, symbol.begin))


ARITHMETIC, ORDER = ("+", "-", "*", "div", "mod"), ("<", "<=", ">", ">=")
FUNCTION_KINDS = {"begin": ("span", "int"), "end": ("span", "int"), "size": ("span", "int"), "number": ("span", "int"),
                  "column": ("int", "int"), "line": ("int", "int"), "same": ("span", "bool"), "spells": ("span", "bool")}


def wanted_kinds(expr):
    """Which kind the parts of an expression have to have, and that of the whole; None where the parts have to be equal."""
    if expr.form in ARITHMETIC or expr.form == "minus":
        return "int", "int"
    if expr.form in ORDER:
        return "int", "bool"
    if expr.form in ("and", "or", "not"):
        return "bool", "bool"
    if expr.form == "call":
        return FUNCTION_KINDS[expr.text]
    return None, "bool"


def kind_of(expr, seen):
    """The kind of an expression, or None."""
    if expr.form in ("number", "here"):
        return "int"
    if expr.form in ("true", "false"):
        return "bool"
    if expr.form == "name":
        return seen[expr.text][1] if expr.text in seen else None
    wanted, kind = wanted_kinds(expr)
    kinds = [kind_of(part, seen) for part in expr.parts if part.form != "word"]
    if wanted is None:
        return kind if kinds[0] is not None and kinds[0] == kinds[1] else None
    return kind if all(each == wanted for each in kinds) else None


def kind_fault(source, expr, seen):
    """The innermost part without a kind, and why: its place and a line; None where all have one."""
    for part in expr.parts:
        if part.form != "word" and (found := kind_fault(source, part, seen)):
            return found
    if kind_of(expr, seen) is not None or expr.form == "name":
        return None
    wanted, _ = wanted_kinds(expr)
    said = "`-`" if expr.form == "minus" else f"`{expr.text or expr.form}`"
    parts = [part for part in expr.parts if part.form != "word"]
    kinds = [kind_of(part, seen) for part in parts]
    if wanted is None:
        return expr, f"{said} compares two values of one kind; here one is of kind {kinds[0]}, the other of kind {kinds[1]}."
    for part, kind in zip(parts, kinds):
        if kind != wanted:
            return part, f"{said} wants {KINDS_SAID[wanted]}, and this is of kind {kind}.{span_hint(part, kind, wanted)}"
    return None


KINDS_SAID = {"int": "an integer", "bool": "a truth value", "span": "a span"}


def span_hint(part, kind, wanted):
    if kind == "span" and wanted == "int" and part.form == "name":
        return f" A label is a span; its number is `number({part.text})`, its length `size({part.text})`."
    return ""


def names_in(expr):
    """The names of variables in an expression, with their places."""
    if expr.form == "name":
        yield expr
    for part in expr.parts:
        yield from names_in(part)


def expressions(symbol):
    return symbol.args if symbol.form == "call" else [symbol.expr] if symbol.expr else []


# The causes


def duplicate_name(fault):
    first = fault.grammar.named(fault.declaration.name)
    fault.mark_head(first, "the first one")
    return [f"{fault.declaration.name} is declared a second time. All alternatives of a name stand in one declaration, with `|` between."]


def unknown_name(fault):
    symbol = fault.found
    name = fault.grammar.start.text if symbol is None else symbol.name
    lines = [f"No declaration has the name {name}."]
    names = [declaration.name for declaration in fault.grammar.declarations]
    near = difflib.get_close_matches(name, names, 1, 0.6)
    lower = [each for each in names if each.lower() == name.lower()]
    if lower or near:
        meant = (lower or near)[0]
        lines.append(f"{meant} was meant, perhaps (line {fault.source.line_of(fault.grammar.named(meant).named_at)}).")
    if symbol is not None and (kind := known_word(fault, name)):
        lines.append(kind)
    return lines


def known_word(fault, name):
    """A hint for names that other notations know."""
    if fault.declaration and name in fault.before():
        return f"{name} is a variable; what it is bound to is no symbol. `when (..)` compares it."
    return {
        "EOF": "The end of the input needs no symbol: a tree is of the whole input.",
        "epsilon": "What may be nothing is an empty alternative: `A = \"a\" | ;`.",
        "empty": "What may be nothing is an empty alternative: `A = \"a\" | ;`.",
        "error": "There is no recovery from errors: an input has trees, or it hasn't.",
        "i": "Literals are compared letter by letter; for both cases write classes, as `[Ii][Ff]`.",
    }.get(name)


def wrong_arity(fault):
    callee = fault.grammar.named(fault.found.name)
    params = ", ".join(f"{name}: {kind}" for name, kind, _ in callee.params)
    given, wanted = len(fault.found.args), len(callee.params)
    fault.mark_head(callee, "its declaration")
    has = f"{wanted} parameter{'s' if wanted != 1 else ''} ({params})" if wanted else "no parameters"
    return [f"{callee.name} has {has}, and is called with {given or 'no'} argument{'s' if given != 1 else ''}."]


def unknown_variable(fault):
    seen = fault.before()
    unknown = next(part for expr in expressions(fault.found) for part in names_in(expr) if part.text not in seen)
    fault.mark(unknown.begin, unknown.end, "this one")
    return [f"The variable {unknown.text} isn't visible here."] + [why_unseen(fault, unknown.text, seen)]


def why_unseen(fault, name, seen):
    for alternative, symbol, around in fault.bindings():
        if symbol.name != name:
            continue
        line = fault.source.line_of(symbol.begin)
        if alternative is not fault.alternative:
            return f"It is bound in alternative {alternative.number} (line {line}), and seen in that alternative alone."
        if symbol is fault.found:
            return "A let binds its variable for what stands to its right, not for its own expression."
        if symbol.begin <= fault.found.begin < symbol.end:
            return f"The label {name} stands round this symbol itself, and is seen to the right of it."
        if around and symbol.begin < fault.found.begin:
            kind = FORMS[around[-1].form]
            return f"It is bound inside the {kind} of {fault.source.said(around[-1].begin)}, and seen only inside that."
        if symbol.begin > fault.found.begin:
            return f"It is bound further right ({fault.source.said(symbol.begin)}), and seen only after that."
    if fault.grammar.named(name):
        return f"{name} is a declaration; a label, as `x: {name}`, binds what it covers, and `x` is the variable."
    near = difflib.get_close_matches(name, seen, 1, 0.5)
    return f"{near[0]} was meant, perhaps." if near else "Variables are parameters, labels (`x: A`) and lets (`let x = (..)`)."


def duplicate_variable(fault):
    if fault.alternative is None:
        names = [name for name, _, _ in fault.declaration.params]
        again = next(k for k, name in enumerate(names) if name in names[:k])
        name, _, at = fault.declaration.params[again]
        fault.mark(at, at + len(name), "again")
        return [f"Two parameters have the name {name}."]
    name = fault.found.name
    kind, _, at = fault.before()[name]
    fault.mark(at, at + len(name) + (4 if kind == "let" else 0), f"the {kind} that has the name")
    return [f"{name} is the name of a {kind} that is visible here already; nothing may hide it."]


def kind_mismatch(fault):
    seen = fault.before()
    symbol = fault.found
    for expr in expressions(symbol):
        if found := kind_fault(fault.source, expr, seen):
            part, line = found
            fault.mark(part.begin, part.end, "this part")
            return [line]
    if symbol.form == "guard":
        return [f"The expression of a guard is a truth value, and this is of kind {kind_of(symbol.expr, seen)}."]
    callee = fault.grammar.named(symbol.name)
    for (name, kind, _), arg in zip(callee.params, symbol.args):
        if kind_of(arg, seen) != kind:
            fault.mark(arg.begin, arg.end, "this argument")
            given = kind_of(arg, seen)
            return [f"The parameter {name} of {callee.name} is of kind {kind}, and this argument is of kind {given}."
                    + span_hint(arg, given, kind)]
    return ["An expression has a wrong kind."]


def no_start(fault):
    names = [declaration for declaration in fault.grammar.declarations if declaration.kind == "syntax"]
    first = names[0].name if names else "NAME"
    return [f"The first line of a grammar says what the whole input has to be: `start {first};`."]


def start_has_parameters(fault):
    declaration = fault.grammar.named(fault.grammar.start.text)
    fault.mark_head(declaration, "its declaration")
    first = {"int": "1", "bool": "true"}
    args = ", ".join(first.get(kind, "..") for _, kind, _ in declaration.params)
    return [f"{declaration.name} has parameters, and nobody gives their values at the start.",
            f"Declare a start symbol that calls it: `syntax Start = {declaration.name}({args});`."]


def layout_not_plain(fault):
    declaration = fault.declaration
    first = fault.grammar.layout()
    if first is not declaration:
        fault.mark_head(first, "the first one")
        return [f"There is one layout, and {first.name} is it.",
                f"Let {first.name} call what else may stand between tokens, declared as `lexical`."]
    if declaration.params:
        return ["The layout has no parameters, as nobody gives their values between tokens."]
    return ["The layout has one level: no `>`, and no `left`, `right` or `nonassoc`."]


def align_not_list(fault):
    core = fault.found.core()
    lines = ["`align` stands before a list: `X*`, `X+`, `{X S}*` or `{X S}+`."]
    if core.form == "group" and len(core.parts) == 1 and core.parts[0].form in LISTS:
        lines.append("Here the list stands in parentheses; delete them.")
    elif core.form == "call":
        lines.append(f"It asks one column of the items that it sees: write it where {core.name} has its list.")
    return lines


def mark_in_lexical(fault):
    return [f"`{fault.found.form}` stands in syntax declarations alone: in a {fault.declaration.kind} one there are no tokens whose"
            " columns it could ask for.",
            "Write it where a syntax declaration calls this one, or compare columns by a guard: `when (column(here) == 1)`."]


def syntax_in_lexical(fault):
    callee = fault.grammar.named(fault.found.name)
    fault.mark_head(callee, "its declaration")
    return [f"{callee.name} is declared as `syntax`, with layout between its tokens; a {fault.declaration.kind} declaration calls"
            f" lexical ones alone. Declare {callee.name} as `lexical`, or {fault.declaration.name} as `syntax`."]


def too_many_nonterminals(fault):
    return [f"A grammar has at most {MOST['declarations']:,} declarations."]


def too_many_parameters(fault):
    return [f"A declaration has at most {MOST['parameters']} parameters; this one has {len(fault.declaration.params)}."]


def too_many_variables(fault):
    return [f"An alternative has at most {MOST['variables']} parameters, labels and lets together. Part it into declarations."]


CAUSES = {
    "duplicate name": duplicate_name, "unknown name": unknown_name, "wrong arity": wrong_arity, "unknown variable": unknown_variable,
    "duplicate variable": duplicate_variable, "kind mismatch": kind_mismatch, "no start": no_start,
    "start has parameters": start_has_parameters, "layout not plain": layout_not_plain, "align not list": align_not_list,
    "mark in lexical": mark_in_lexical, "syntax in lexical": syntax_in_lexical, "too many nonterminals": too_many_nonterminals,
    "too many parameters": too_many_parameters, "too many variables": too_many_variables,
}
