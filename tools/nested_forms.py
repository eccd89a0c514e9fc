"""Grammars in which one form of symbol or expression stands in itself as deeply as brackets may: 64 are open at once."""

BRACKETS = 64
LETTER = '"a"'

# What stands before the inner symbol and after it. Each opens one bracket.
SYMBOLS = {
    "group": ("(", ")"),
    "alternative": ('("b" | ', ")"),
    "sequence": ("(", ' "b"?)'),
    "option": ("(", ")?"),
    "list": ("(", ")*"),
    "list of one or more": ("(", ")+"),
    "list with separators": ("{", ' ","}*'),
    "the same, of one or more": ("{", ' ","}+'),
    "separator": ('{"a" ', "}*"),
    "offside": ("offside (", ")"),
    "ignore": ("ignore (", ")"),
    "align": ("align (", ")*"),
    "label": ("x#: (", ")"),
    "filter behind": ("(", ') !>> "b"'),
    "filter before": ("(", ') !<< "b"'),
    "exclusion": ("(", ') \\ "b"'),
    "guard": ("(when (true) ", ")"),
    "let": ("(let v# = (1) ", ")"),
    "all marks": ("offside (", ')? !>> "b"'),
}
DEPTHS = {"label": 32, "let": 32, "guard": BRACKETS - 1}  # less, since an alternative has at most 32 variables, or a guard a bracket

# The same of expressions, of truths and of numbers.
TRUTHS = {"parentheses": ("(", ")"), "not": ("(not ", ")"), "and, to the right": ("(true and ", ")")}
NUMBERS = {
    "minus": ("(- ", ")"),
    "sum, to the left": ("(", " + 1)"),
    "sum, to the right": ("(1 + ", ")"),
    "quotient": ("(", " div 1)"),
    "column": ("column(", ")"),
    "line": ("line(", ")"),
}


def nested(opening, closing, inside, most=BRACKETS):
    """The form in itself, with `inside` in the middle; `#` stands for a number of its own."""
    return "".join(opening.replace("#", str(number)) for number in range(most)) + inside + closing * most


def symbol_grammars():
    """Pairs of a form and a grammar in which it nests; each has a tree for the text `a`."""
    for name, (opening, closing) in SYMBOLS.items():
        yield name, f"start S; syntax S = {nested(opening, closing, LETTER, DEPTHS.get(name, BRACKETS))};"


def expression_grammars():
    """The same of expressions, as a guard, a let and an argument."""
    for name, (opening, closing) in TRUTHS.items():
        yield name, f'start S; syntax S = when ({nested(opening, closing, "true", BRACKETS - 1)}) "a" | "a";'
    for name, (opening, closing) in NUMBERS.items():
        number = nested(opening, closing, "1", BRACKETS - 1)
        yield name, f'start S; syntax S = let v = ({number}) "a" A({number}) | "a"; syntax A(n: int) = when (n > n) | ;'


def w3c_grammars():
    """The same in the notation of the XML recommendation."""
    for name, closing in (("group", ")"), ("list", ")*"), ("option", ")?")):
        yield f"{name}, w3c", f"S ::= {nested('(', closing, LETTER)}"
