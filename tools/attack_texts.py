"""The worst grammars and inputs that are known, each of a size that grows: what a run costs beyond what its size shows."""

from dataclasses import dataclass
from typing import Callable

ATTACKS = []
LETTERS = 'start S; syntax S = S "a" | "a";'
GREATEST_BUDGET = "--budget=4000000"
CHINESE = 0x4E00  # a character, after which many come
# The factors by which tables of a run count environments, in crates/ig_run_tables/src/buckets.rt and returned.rt.
BY_ENVIRONMENT, SEVENTEENTHS = 0x41BD_386F, 0x1E1E_1E1E
VALUES = 1 << 17  # numbers that are counted first, so that the environment of a list with one of them has the next number
COUNTED = 'start S; syntax S = N(0) T; syntax N(n: int) = "x" N(n + 1) | "yy";'


@dataclass
class Attack:
    """A grammar and an input by a size, what is asked of them, and on which limit they lean."""

    limit: str
    size: int
    make: Callable
    words: tuple
    options: tuple

    @property
    def name(self):
        return self.make.__name__.replace("_", " ")

    @property
    def told(self):
        """What it is, in a line."""
        return self.make.__doc__

    def texts(self, size):
        """The bytes of its grammar and of its input."""
        grammar, text = self.make(size)
        return grammar.encode(), text.encode()

    def command(self, size):
        """The words of the program, over files `g` and `i`."""
        files = ("g",) if self.words[0] == "check" else ("g", "i")
        return (self.words[0], *files, *(word.format(size=size) for word in (*self.words[1:], *self.options)))


def attack(limit, size, *words, options=(GREATEST_BUDGET,)):
    """Enters the function in the list, with the smaller of the two sizes with which it is run."""
    def enter(make):
        ATTACKS.append(Attack(limit, size, make, words or ("forest",), options))
        return make
    return enter


def numbered(size, form):
    """The form with each number below the size."""
    return "".join(form.format(number) for number in range(size))


@attack("characters of an input", 100_000)
def letters(size):
    """Letters, for comparison."""
    return LETTERS, "a" * size


@attack("characters of an input", 50_000)
def input_brackets(size):
    """Brackets of the input in one another."""
    return 'start S; syntax S = "(" S ")" | ;', "(" * size + ")" * size


# The notation, and its limits.


@attack("open brackets of a grammar", 31)
def nested_groups(size):
    """Groups in one another."""
    return f'start S; syntax S = S "a" | {"(" * size}"a"{")" * size};', "a" * 50_000


@attack("open brackets of a grammar", 31)
def nested_lists(size):
    """Lists of lists, cyclic."""
    return f'start S; syntax S = {"(" * size}"a"{")*" * size};', "a" * 100


@attack("open brackets of a grammar", 31)
def separated_lists(size):
    """Lists in one another with separators, both of which may be empty."""
    symbol = '"a"'
    for _ in range(size):
        symbol = f'{{{symbol} ","?}}*'
    return f"start S; syntax S = {symbol};", "a" * 50


@attack("declarations", 2048)
def circle(size):
    """Declarations that call one another in a circle."""
    return "start S0; " + "".join(f'syntax S{k} = S{(k + 1) % size} | "a"; ' for k in range(size)), "a"


@attack("declarations", 2048)
def calls(size):
    """Declarations that each call six others."""
    body = "".join(f"syntax D{k} = {'|'.join(f'D{(k * 7 + j * 131) % size}' for j in range(6))}|\"a\"; " for k in range(size))
    return "start D0; " + body, "a"


@attack("declarations", 2048)
def names_alike(size):
    """Names of 24 letters that differ in the last ones."""
    return "start S; syntax S = " + numbered(size - 1, "|aaaaaaaaaaaaaaaaaaaa{:04}")[1:] + "; " + numbered(
        size - 1, "syntax aaaaaaaaaaaaaaaaaaaa{:04}=\"a\"; "), "a"


@attack("dots", 10_000)
def alternatives(size):
    """Alternatives that all begin at each place."""
    return 'start S; syntax S = S T | ; syntax T = "a"' + numbered(size, '|"b{}"') + ";", "a" * 50


@attack("dots", 8_000)
def expected(size):
    """Literals that a note names."""
    return "start S; syntax S = S \"a\" | \"a\"" + numbered(size, '| "a" "b{}"') + ";", "a" * 100 + "c"


@attack("dots", 250)
def levels(size):
    """Levels of right operators."""
    return "start S; syntax S = \"a\"" + "".join(f' > right S "{chr(CHINESE + k)}" S' for k in range(size)) + ";", f"a{chr(CHINESE)}a"


@attack("dots", 500, "check", options=())
def levels_alone(size):
    """Levels of right operators, without an input."""
    return levels(size)


@attack("ranges of a class", 32_000, "check", options=())
def falling_ranges(size):
    """Ranges of a class, the last one first."""
    return f"start S; syntax S = [{far_characters(size)[::-1]}];", ""


@attack("ranges of a class", 10_000)
def last_range(size):
    """A class of many ranges, and the character of its last one."""
    characters = far_characters(size)
    return f"start S; syntax S = S [{characters}] | ;", characters[-1] * 50_000


def far_characters(size):
    """So many characters that aren't beside one another."""
    return "".join(map(chr, range(0x10000, 0x10000 + 2 * size, 2)))


@attack("characters of a literal", 50_000)
def long_literal(size):
    """A long literal that nearly stands at each place."""
    return f'start S; syntax S = S "a" | S T | "a"; syntax T = "{"a" * size}b";', "a" * 200_000


@attack("characters of a literal", 50_000)
def long_filter(size):
    """A filter of a long literal that nearly stands at each place."""
    return f'start S; syntax S = S "a" !>> "{"a" * size}b" | "a";', "a" * 200_000


@attack("characters of a literal", 50_000)
def long_exclusion(size):
    """An exclusion of a long literal that nearly stands at each place."""
    return f'start S; syntax S = D \\ "{"0" * size}"; syntax D = [0-9]+;', "0" * 200_000


@attack("characters of a literal", 50_000)
def long_spelling(size):
    """A test of whether a span spells a long literal."""
    return f'start S; syntax S = x: A when (spells(x, "{"a" * size}b")) "b" | A; syntax A = "a"+;', "a" * 200_000


@attack("filters", 5_000)
def filters(size):
    """Filters behind one letter."""
    return 'start S; syntax S = S "a"' + numbered(size, ' !>> "b{}"') + ' | "a";', "a" * 200


@attack("filters", 5_000)
def exclusions(size):
    """Exclusions of one letter."""
    return 'start S; syntax S = S T | "a"; syntax T = "a"' + numbered(size, ' \\ "b{}"') + ";", "a" * 10_000


# Data.


@attack("labels of an alternative", 15)
def labels(size):
    """Labels of symbols that end at two places each."""
    return "start S; syntax S =" + numbered(size, " x{}: A") + '; syntax A = "a" | "a" "a";', "a" * (size + size // 2)


@attack("variables of an alternative", 16)
def lets(size):
    """Variables of one alternative at each place."""
    return 'start S; syntax S = S "a"' + numbered(size, " let v{} = (here)") + ' | "a";', "a" * 20_000


@attack("parameters", 8)
def parameters(size):
    """Parameters that each call raises."""
    names = [f"p{k}" for k in range(size)]
    head, given = ", ".join(f"{name}: int" for name in names), ", ".join(f"{name} + 1" for name in names)
    return f'start S; syntax S = A({", ".join("0" * size)}); syntax A({head}) = "a" A({given}) | "b";', "a" * 50_000 + "b"


@attack("digits of a number", 10_000)
def digits(size):
    """A number that is read at the end of each of its prefixes."""
    return 'start S; syntax S = x: D when (number(x) == 7) "b" | x: D "c"; syntax D = [0-9]+;', "0" * size + "c"


@attack("characters of a span", 10_000)
def spans_alike(size):
    """A span that is compared with each one that begins at its end."""
    return ('start S; syntax S = x: A "b" y: A when (same(x, y)) "c" | A "b" A; syntax A = "a"+;',
            "a" * size + "b" + "a" * (2 * size))


@attack("size of an expression", 5_000)
def expression(size):
    """A long expression at each place."""
    return f'start S; syntax S = S "a" when ({summed(size)} > 0) | "a";', "a" * 5_000


def summed(size):
    """A sum of so many numbers, with few brackets open at once."""
    return "here" if size == 1 else f"({summed(size // 2)} + {summed(size - size // 2)})"


@attack("characters of a line", 50_000)
def tabs(size):
    """The column at each place of a line with tabs."""
    return 'start S; tabs 8; syntax S = S [a\\t] when (column(here) > 0) | ;', "a\t" * (size // 2)


@attack("line feeds", 50_000)
def lines(size):
    """The line at each place of a text of lines."""
    return 'start S; syntax S = S [a\\n] when (line(here) > 0) | ;', "a\n" * (size // 2)


@attack("buckets of instances", 50_000)
def colliding_instances(size):
    """Instances whose start and values meet in one bucket, made by the factors of the table."""
    buckets = 2 * VALUES
    inverse = pow(BY_ENVIRONMENT, -1, buckets)
    return (f"{COUNTED} syntax T = T \"a\" let e = (((1048576 - here) * {inverse}) mod {buckets}) "
            f"when ((0 < e) and (e <= {VALUES})) B(e - 1) | T \"b\" | ; syntax B(n: int) = ;",
            "x" * VALUES + "yy" + hit_places(size, lambda place: 0 < ((1048576 - place) * inverse) % buckets <= VALUES))


@attack("buckets of items", 20_000)
def colliding_items(size):
    """Items behind calls whose position and values meet in one bucket."""
    inverse = pow(SEVENTEENTHS // 2, -1, VALUES)
    return (f"{COUNTED} syntax T = T \"aa\" let n = (((((1048576 - here) div 2) * {inverse}) mod {VALUES}) - 1) B | ; syntax B = ;",
            "x" * VALUES + "yy" + "aa" * size)


def hit_places(size, is_hit):
    """A letter `a` or `b` for each place behind the counted ones: `a` where the place behind it is one that is hit."""
    return "".join("a" if is_hit(VALUES + 3 + place) else "b" for place in range(size))


# Ambiguity.


@attack("budget", 75)
def dense(size):
    """Dense ambiguity."""
    return 'start S; syntax S = S S S | S S | "a" | ;', "a" * size


@attack("budget", 100)
def pairs(size):
    """Pairs."""
    return 'start S; syntax S = S S | "a";', "a" * size


@attack("budget", 1_000)
def right_recursion(size):
    """Right recursion."""
    return 'start S; syntax S = "a" S | "a";', "a" * size


@attack("budget", 250, "query", "--what=spans", "--name=A")
def all_spans(size):
    """All spans of an input."""
    return 'start S; syntax S = A A A; syntax A = A "a" | ;', "a" * size


# Trees.


@attack("depth", 10, "trees", "--count=1", "--depth={size}")
def first_tree(size):
    """The first tree of a cyclic forest, of two to the depth nodes."""
    return 'start S; syntax S = S let q = (here) S | "a" | ;', "a"


@attack("declarations", 10, "trees", "--count=1")
def doubled(size):
    """Names that each call the next one twice."""
    return "start D0; " + "".join(f"syntax D{k} = D{k + 1} D{k + 1}; " for k in range(size)) + f"syntax D{size} = ;", ""


@attack("count", 20_000, "trees", "--count={size}")
def many_trees(_):
    """Many trees of pairs."""
    return 'start S; syntax S = S S | "a";', "a" * 40


@attack("characters of an input", 100_000, "trees")
def deep_tree(size):
    """A deep tree."""
    return LETTERS, "a" * size
