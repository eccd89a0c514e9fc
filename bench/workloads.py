"""The workloads: one plain grammar each, written once, and its inputs.

A grammar is a list of rules: a left side and the symbols of the right side. A symbol is the name of a nonterminal, or
`Chars`, one character of a set. All programs get the same grammar and read characters.
"""

import string

CODES = [9, 10, 13, *range(32, 256)]  # the bytes that inputs have


class Chars:
    """One character of a set, or one that isn't in it."""

    def __init__(self, chars, negated=False):
        self.chars, self.negated = chars, negated

    def codes(self):
        return [code for code in CODES if (chr(code) in self.chars) != self.negated]

    def key(self):
        return (self.negated, "".join(sorted(self.chars)))


def rules(text, **classes):
    """The rules of a text: lines `A = B c ... | ...`; a quoted word is its characters, a name of `classes` is a class."""
    found = []
    for line in text.strip().split("\n"):
        left, right = line.split(" = ", 1)
        for alternative in right.split(" | "):
            symbols = []
            for word in alternative.split():
                if word.startswith("'"):
                    symbols += [Chars(c) for c in word[1:-1]]
                elif word != "EMPTY":
                    symbols.append(classes.get(word, word))
            found.append((left.strip(), symbols))
    return found


LETTER = Chars(string.ascii_lowercase)
DIGIT = Chars(string.digits)
BLANK = Chars(" \t\n\r")

JSON = r"""
J = W V W
W = EMPTY | W blank
V = Object | Array | String | Number | 'true' | 'false' | 'null'
Object = '{' W '}' | '{' Members '}'
Members = Pair | Members ',' Pair
Pair = W String W ':' W V W
Array = '[' W ']' | '[' Elements ']'
Elements = W V W | Elements ',' W V W
String = '"' Chars '"'
Chars = EMPTY | Chars Char
Char = plain | '\' escape
Number = Digits Fraction Exponent | '-' Digits Fraction Exponent
Digits = digit | Digits digit
Fraction = EMPTY | '.' Digits
Exponent = EMPTY | e Sign Digits
Sign = EMPTY | sign
"""

# examples/json/grammar.ig as plain rules: layout stands before the first token and after each one.
JSON_OF_THE_RFC = r"""
J = W Value
W = EMPTY | W blank
Value = Object | Array | String W | Number W | 'true' W | 'false' W | 'null' W
Object = '{' W '}' W | '{' W Members '}' W
Members = Member | Members ',' W Member
Member = String W ':' W Value
Array = '[' W ']' W | '[' W Elements ']' W
Elements = Value | Elements ',' W Value
String = '"' Chars '"'
Chars = EMPTY | Chars Char
Char = plain | '\' Escape
Escape = escape | 'u' hex hex hex hex
Number = Minus Whole Fraction Exponent
Minus = EMPTY | '-'
Whole = '0' | nonzero | nonzero Digits
Digits = digit | Digits digit
Fraction = EMPTY | '.' Digits
Exponent = EMPTY | e Sign Digits
Sign = EMPTY | sign
"""

GRAMMARS = {
    "ambiguous": rules("S = S S | 'a'"),
    "left": rules("S = S 'a' | 'a'"),
    "right": rules("S = 'a' S | 'a'"),
    "strata": rules("E = E '+' T | E '-' T | T\nT = T '*' P | P\nP = A '^' P | A\nA = letter", letter=LETTER),
    "json": rules(JSON, blank=BLANK, plain=Chars('"\\', True), escape=Chars('"\\/bfnrt'), digit=DIGIT,
                  e=Chars("Ee"), sign=Chars("+-")),
}

RFC_JSON = rules(JSON_OF_THE_RFC, blank=BLANK, plain=Chars('"\\\t\n\r', True), escape=Chars('"\\/bfnrt'), digit=DIGIT,
                 nonzero=Chars("123456789"), hex=Chars(string.hexdigits), e=Chars("Ee"), sign=Chars("+-"))

# By hand: Iguana's notation and drivers/blocks.pl. No other of the programs takes it.
BLOCKS = r"""start P;
syntax P = align (offside Decl)*;
syntax Decl = Id "=" Id+;
lexical Id = [a-z]+ !>> [a-z];
layout W = [ \n]* !>> [ \n];
"""


def draws(number):
    """A stream of numbers that is the same everywhere."""
    while True:
        number = (number * 6364136223846793005 + 1442695040888963407) % 2**64
        yield number >> 33


def sum_input(size, number=1):
    """Letters with operators between them, `size` letters; the number decides which."""
    draw = draws(number)
    out = [chr(97 + next(draw) % 26)]
    for _ in range(size - 1):
        out += ["^*+-"[next(draw) % 4], chr(97 + next(draw) % 26)]
    return "".join(out)


def json_input(size):
    """A list of records, of at least `size` characters."""
    draw = draws(1)
    words = ["alpha", "beta", "a b c", "x\\n", '\\"q\\"', "path\\/to", "0", ""]
    records, length = [], 4
    while length < size:
        tags = ", ".join(f'"{words[next(draw) % 8]}"' for _ in range(next(draw) % 4))
        record = (f'  {{"id": {next(draw) % 1000000}, "name": "{words[next(draw) % 8]}", "ok": {["true", "false"][next(draw) % 2]}, '
                  f'"ratio": {next(draw) % 100}.{next(draw) % 1000}e-{next(draw) % 9}, "tags": [{tags}]}}')
        records.append(record)
        length += len(record) + 2
    return "[\n" + ",\n".join(records) + "\n]\n"


def blocks_input(size):
    """Declarations that go on over indented lines, of at least `size` characters."""
    out, length, k = [], 0, 0
    while length < size:
        lines = [f"{chr(97 + k % 26)}{chr(97 + k // 26 % 26)} = one two\n"]
        lines += [f"  more{' ' * (j % 3)} of it\n" for j in range(k % 4)]
        out += lines
        length += sum(map(len, lines))
        k += 1
    return "".join(out)


INPUTS = {"ambiguous": "a".__mul__, "left": "a".__mul__, "right": "a".__mul__, "strata": sum_input, "json": json_input,
          "blocks": blocks_input}
# The first size is so small that the time is that of the start.
SIZES = {"ambiguous": [1, 30, 100], "left": [1, 10000, 100000], "right": [1, 500, 1000], "strata": [1, 1000, 4000],
         "json": [1, 10000, 100000], "blocks": [1, 10000, 100000]}
