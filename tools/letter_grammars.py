"""Grammars of a few letters, drawn at random: they recur, they are ambiguous and cyclic; and texts of them."""

LETTERS = "ab"
NAMES = "STUVW"


class Grammar:
    """A grammar: for each nonterminal its alternatives, lists of letters and of numbers of nonterminals. Nonterminal 0
    is the start; those behind the declared ones stand for lists and options."""

    def __init__(self, draw):
        self.declared = draw.randint(1, len(NAMES))
        self.alternatives, self.texts = [[] for _ in range(self.declared)], []
        for number in range(self.declared):
            shown = []
            for _ in range(draw.randint(1, 3)):
                symbols = [self.symbol(draw) for _ in range(draw.choice((0, 1, 1, 2, 2, 3)))]
                self.alternatives[number].append([symbol for symbol, _ in symbols])
                shown.append(" ".join(text for _, text in symbols))
            self.texts.append(f"syntax {NAMES[number]} = {' | '.join(shown)};")

    def symbol(self, draw):
        """A symbol, and how it is written."""
        if draw.random() < 0.4:
            letter = draw.choice(LETTERS)
            symbol, text = letter, f'"{letter}"'
        else:
            symbol = draw.randrange(self.declared)
            text = NAMES[symbol]
        mark = draw.choice(("",) * 9 + ("*", "+", "?"))
        if not mark:
            return symbol, text
        number = len(self.alternatives)
        bodies = {"*": [[], [number, symbol]], "+": [[symbol], [number, symbol]], "?": [[], [symbol]]}
        self.alternatives.append(bodies[mark])
        return number, text + mark

    def text(self, start=0):
        """The grammar in the notation."""
        return f"start {NAMES[start]}; " + " ".join(self.texts)


def callees(symbols):
    """The nonterminals among symbols."""
    return [symbol for symbol in symbols if isinstance(symbol, int)]


def shortest(grammar):
    """The length of the shortest text of each nonterminal, and infinity where it has none."""
    lengths = [float("inf")] * len(grammar.alternatives)
    for _ in grammar.alternatives:
        lengths = [
            min(sum(lengths[s] if isinstance(s, int) else 1 for s in symbols) for symbols in alternatives)
            for alternatives in grammar.alternatives
        ]
    return lengths


def texts_of(grammar, longest):
    """The texts of each nonterminal up to a length: those of trees of height 1, 2, and so on, until no further one comes."""
    found = [set() for _ in grammar.alternatives]
    while True:
        grown = [set().union(*(joined(symbols, found, longest) for symbols in alternatives)) for alternatives in grammar.alternatives]
        if grown == found:
            return found
        found = grown


def joined(symbols, found, longest):
    """The texts of symbols one after another, up to a length."""
    texts = {""}
    for symbol in symbols:
        ends = found[symbol] if isinstance(symbol, int) else {symbol}
        texts = {text + end for text in texts for end in ends if len(text) + len(end) <= longest}
    return texts
