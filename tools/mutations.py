"""Grammars and inputs that were changed at random, from those of the gallery and of the rows."""

import os
import re

from grammar_tokens import tokenize
from row_text import read_rows

HERE = os.path.dirname(os.path.dirname(os.path.abspath(__file__)))
EXAMPLES, ROWS = os.path.join(HERE, "examples"), os.path.join(HERE, "rows")
EXAMPLE = re.compile(r"\| `([^`]+)` \| `([^`]+)` \| (?:\d+|infinite) \| (?:yes|no) \|")
MOST_GRAMMAR, MOST_INPUT = 20_000, 5_000  # bytes of a seed
SMALL = 400  # bytes of a grammar with which most texts of its literals may have trees
SHARES = (6, 12, 1)  # of the examples, the rows and what is refused
REFUSED = 3
LIMITS = [0, 1, 2, 9, 15, 16, 17, 31, 32, 33, 63, 64, 65, 255, 256, 4095, 4096, 4097, 65535, 65536, 2**31 - 1, 2**31, 2**32 - 1,
          2**32, 2**63 - 1, 2**63, 2**64 - 1, 2**64, 10**30]
PIECES = """* + ? | ; ( ) { } : > = ! \\ - when(true) when(false) when((here)>2) when((1)div(0)==1) when((column(here))==1)
    let~q=(here) let~q=(here)div(2) q: x: offside align ignore left right nonassoc start syntax lexical layout !>>[a-z] !<<[a-z]
    \\"a" "a" "a"? "a"* ("a"|"b") (|) ()? (|)* {"a"~","}* [a-z] [^a] $any $xid_start here begin( end( size( column( line( number(
    same( spells( >~"a" |"a"|""", """lexical~Q=[a-z]+; layout~Q=[~]*; syntax~Q=|Q; syntax~Q(n:int)=when(n>0)Q(n-1)|; é \u200b tabs
    return 0 1 9223372036854775807 9223372036854775808"""
PIECES = [piece.replace("~", " ") for part in PIECES for piece in part.split()]
CHARACTERS = ["a", "b", "+", "-", "(", ")", "\"", "\\", "\n", " ", "\t", "\r", "0", "1", ",", ";", "é", "\0", "\u2028", "\U0001f600"]


def read_seeds():
    """Pairs of a grammar and an input, as bytes: those of the examples, those of the rows, and those that rows refuse."""
    examples, rows, refused = [], [], []
    with open(os.path.join(EXAMPLES, "README.md"), encoding="utf-8") as file:
        for line in file:
            found = EXAMPLE.fullmatch(line.rstrip("\n"))
            if found:
                examples.append(tuple(fetch(os.path.join(EXAMPLES, name)) for name in found.groups()))
    for name in sorted(os.listdir(ROWS)):
        grammar = text = None
        if not name.endswith(".rows") or name.startswith("verify"):  # these have small grammars of their own
            continue
        for row in read_rows(os.path.join(ROWS, name)):
            grammar = row.texts["g"].data if row.texts["g"].data is not None else grammar
            text = row.texts["i"].data if row.texts["i"].data is not None else text
            (refused if row.status == REFUSED else rows).append((grammar or b"", text or b""))
    return [sorted({seed for seed in seeds if len(seed[0]) <= MOST_GRAMMAR and len(seed[1]) <= MOST_INPUT})
            for seeds in (examples, rows, refused)]


def fetch(path):
    with open(path, "rb") as file:
        return file.read()


def draw_case(draw, seeds):
    """A grammar and an input that came from one of the seeds."""
    grammar, text = draw.choice(draw.choices(seeds, SHARES)[0])
    way = draw.randrange(10)
    if way >= 2:
        grammar = changed_grammar(draw, grammar)
    if way >= 8 and len(grammar) <= SMALL:
        text = fresh_text(draw, grammar)
    elif way <= 2:
        for _ in range(turns(draw)):
            text = changed_text(draw, text, grammar)
    return grammar, text


def fresh_text(draw, grammar):
    """A text of some literals of the grammar, and of single letters."""
    pieces = re.findall(rb'"([^"\\]+)"', grammar) + [b"a"]
    return b"".join(draw.choices(pieces, k=draw.randrange(9)))


def turns(draw):
    """How many changes are made: mostly one or two."""
    return draw.choice((1, 1, 1, 2, 2, 3, 5))


def changed_grammar(draw, grammar):
    if draw.random() < 0.1:
        return changed_bytes(draw, grammar)
    try:
        text = grammar.decode("utf-8")
    except UnicodeDecodeError:
        return changed_bytes(draw, grammar)
    tokens, broken = tokenize(text)
    if broken is not None or not tokens:
        return changed_bytes(draw, grammar)
    words = [(token.kind, token.text) for token in tokens]
    changes = CHANGES if draw.random() < 0.3 else MILD_CHANGES
    for _ in range(turns(draw)):
        change = draw.choice(changes)
        change(draw, words, draw.randrange(len(words)))
        if not words:
            break
    return " ".join(word for _, word in words).encode("utf-8")


def drop(_, words, place):
    del words[place]


def double(_, words, place):
    words.insert(place, words[place])


def swap(draw, words, place):
    other = draw.choice((min(place + 1, len(words) - 1), draw.randrange(len(words))))
    words[place], words[other] = words[other], words[place]


def replace_alike(draw, words, place):
    """Another token of the same kind stands there, and a number is one at a limit."""
    kind = words[place][0]
    words[place] = (kind, str(draw.choice(LIMITS))) if kind == "number" else draw.choice([word for word in words if word[0] == kind])


def insert_piece(draw, words, place):
    words.insert(place, ("piece", draw.choice(PIECES)))


def replace_operand(draw, words, place):
    """A symbol stands in the place of another one: a name, a literal or a class; a number is another one."""
    places = [k for k in range(1, len(words)) if is_operand(words, k)] or [place]
    place = draw.choice(places)
    if words[place][0] == "number":
        replace_alike(draw, words, place)
    else:
        words[place] = draw.choice([words[k] for k in places if words[k][0] != "number"])


def is_operand(words, place):
    """Whether a symbol or a number stands there, as far as one sees from beside it."""
    kind, before, after = words[place][0], words[place - 1], words[place + 1:place + 2]
    if kind not in ("name", "literal", "class", "number") or after in ([("sign", ":")], [("sign", "=")]):
        return False
    return kind == "number" or before[0] != "keyword" and before[1] not in ("(", ",", "!>>", "!<<", "\\")


def copy_operand(draw, words, place):
    """A symbol stands before or behind another one, too."""
    places = [k for k in range(1, len(words)) if words[k][0] != "number" and is_operand(words, k)] or [place]
    words.insert(draw.choice(places) + draw.randrange(2), words[draw.choice(places)])


def insert_sign(draw, words, place):
    """What may follow a symbol follows one: an option, a list, a filter, or the end of an alternative."""
    places = [k for k in range(1, len(words)) if words[k][0] != "number" and is_operand(words, k)] or [place]
    words.insert(draw.choice(places) + 1, ("sign", draw.choice(("?", "*", "+", "|", "|", ">", '\\ "a"', "!>> [a-z]", "when (here > 1)"))))


def copy_range(draw, words, place):
    other = draw.randrange(len(words))
    words[other:other] = words[place:place + draw.randrange(1, 9)]


def drop_range(draw, words, place):
    del words[place:place + draw.randrange(1, 9)]


MILD_CHANGES = (replace_operand, copy_operand, insert_sign)  # of which mostly a grammar comes
CHANGES = (drop, double, swap, replace_alike, insert_piece, copy_range, drop_range)


def changed_bytes(draw, data):
    """Bytes that are flipped, dropped, or those of a character."""
    data = bytearray(data or b"a")
    for _ in range(turns(draw)):
        place, way = draw.randrange(len(data) + 1), draw.randrange(3)
        if way == 0 and place < len(data):
            data[place] ^= 1 << draw.randrange(8)
        elif way == 1:
            del data[place:place + 1]
        else:
            data[place:place] = draw.choice(CHARACTERS).encode("utf-8")
    return bytes(data)


def changed_text(draw, data, grammar):
    """An input with one change; what is put in comes mostly from the grammar's literals."""
    if draw.random() < 0.1:
        return changed_bytes(draw, data)
    text = data.decode("utf-8", "replace")
    place, way = draw.randrange(len(text) + 1), draw.randrange(8)
    size = draw.choice((1, 1, 1, 2, 5, 20))
    if way == 0:
        text = text[:place] + text[place + size:]
    elif way == 1:
        text = text[:place] + text[place:place + size] * 2 + text[place + size:]
    elif way == 2:
        text = text[:place] + text[place:place + 2][::-1] + text[place + 2:]
    elif way == 3:
        text = re.sub(r"\d+", lambda found: str(draw.choice(LIMITS)) if draw.random() < 0.5 else found[0], text)
    elif way == 4:
        text = text[:place]
    elif way == 5:
        text = (text + text)[:MOST_INPUT]
    else:
        literals = re.findall(rb'"([^"\\]+)"', grammar)
        piece = draw.choice(literals).decode("utf-8", "replace") if literals and way == 6 else draw.choice(CHARACTERS)
        text = text[:place] + piece + text[place:]
    return text.encode("utf-8")
