"""Reads grammar texts to find places: declarations, levels, alternatives, and symbols in preorder, with where they stand.

The program alone says whether a grammar is accepted. This reader knows the rules of docs/NOTATION.md, and numbers
declarations, alternatives and symbols as that page says, but it tests no scopes. Where the tokens stop following the
rules it says at which one, and what could have stood there.
"""

from grammar_tokens import literal_text, tokenize

MARKS = ("offside", "ignore", "align")
KINDS = ("syntax", "lexical", "layout")
SIDES = ("left", "right", "nonassoc")
VALUES = ("int", "bool", "span")
REPEATS = {"?": "opt", "*": "star", "+": "plus"}
OPERATORS = ("+", "-", "*", "<", "<=", ">", ">=", "==", "!=")
WORD_OPERATORS = ("div", "mod", "and", "or")
FUNCTIONS = {"begin": 1, "end": 1, "size": 1, "column": 1, "line": 1, "number": 1, "same": 2, "spells": 2}
FILTERS = ("!>>", "!<<", "\\")
MOST_OPEN = 64


class Stops(Exception):
    """The text can't be read: the place, what could have stood there, and what is being read, as a chain of `Open`."""

    def __init__(self, at, token, wanted, reading):
        super().__init__(f"at {at}: expected {', '.join(wanted)}")
        self.at, self.token, self.wanted, self.reading = at, token, wanted, reading


class Open:
    """What is being read: its kind, its name where it has one, and where it began."""

    def __init__(self, kind, at, name=None):
        self.kind, self.at, self.name = kind, at, name


class Expr:
    """An expression: `number`, `true`, `false`, `here`, `name`, `not`, `minus`, an operator, or `call` of a function."""

    def __init__(self, form, begin, end, parts=(), text=""):
        self.form, self.begin, self.end, self.parts, self.text = form, begin, end, tuple(parts), text


class Symbol:
    """A symbol of an alternative. `parts` are the symbols directly inside, those of all alternatives for a group."""

    def __init__(self, form, begin, end, parts=(), name=None, text=None):
        self.form, self.begin, self.end = form, begin, end
        self.parts, self.name, self.text = list(parts), name, text
        self.args, self.expr, self.filters, self.alternatives = [], None, [], []

    def preorder(self):
        """The symbol and those inside it."""
        yield self
        for part in self.parts:
            yield from part.preorder()

    def core(self):
        """The symbol without labels, marks and filters."""
        symbol = self
        while symbol.form in ("label", "filtered", *MARKS):
            symbol = symbol.parts[0]
        return symbol


class Alternative:
    """An alternative: its number over all levels, its symbols, and where it stands."""

    def __init__(self, number, begin):
        self.number, self.begin, self.end, self.symbols = number, begin, begin, []
        self.side, self.level = None, None

    def preorder(self):
        """All symbols, as they are numbered from 1."""
        for symbol in self.symbols:
            yield from symbol.preorder()


class Declaration:
    """A declaration: its number, kind, name, parameters (name, kind, place), and levels of alternatives."""

    def __init__(self, number, kind, name, begin, named_at):
        self.number, self.kind, self.name = number, kind, name
        self.begin, self.named_at, self.end = begin, named_at, begin
        self.params, self.levels = [], []

    @property
    def alternatives(self):
        return [alternative for _, level in self.levels for alternative in level]

    def preorder(self):
        for alternative in self.alternatives:
            yield from alternative.preorder()

    def added(self):
        """The symbols for which the passes add nonterminals, in order: that of `NAME#k` has the place k - 1."""
        found = []
        for symbol in self.preorder():
            if symbol.form in ("opt", "star", "plus", "sepplus", "group"):
                found.append(symbol)
            elif symbol.form == "sepstar":
                found += [symbol, symbol]
        return found


class Grammar:
    """A grammar text that was read: `start` is the token of its start symbol or None, `tabs` the width of tabs or None."""

    def __init__(self, text):
        self.text, self.start, self.tabs, self.declarations = text, None, None, []

    def named(self, name):
        """The first declaration of this name, or None."""
        return next((declaration for declaration in self.declarations if declaration.name == name), None)

    def layout(self):
        """The layout declaration, or None."""
        return next((declaration for declaration in self.declarations if declaration.kind == "layout"), None)

    def symbol_at(self, declaration, alternative, symbol):
        """What stands at these three numbers: a declaration, an alternative or a symbol; None for the start line."""
        if declaration == 0:
            return None
        found = self.declarations[declaration - 1]
        if alternative == 0:
            return found
        inside = found.alternatives[alternative - 1]
        return inside if symbol == 0 else list(inside.preorder())[symbol - 1]

    def of(self, part):
        """The text of a part."""
        return self.text[part.begin : part.end]


def hides_call(symbol, name):
    """Whether a call of the name stands under a filter, a mark, or parentheses alone: then it is no operand."""
    hidden = False
    while True:
        if symbol.form == "label":
            symbol = symbol.parts[0]
        elif symbol.form in ("filtered", *MARKS) or symbol.form == "group" and len(symbol.parts) == 1:
            symbol, hidden = symbol.parts[0], True
        else:
            return hidden and symbol.form == "call" and symbol.name == name


def operand_places(alternative):
    """The first and the last symbol of an alternative, guards and lets aside; none where it has one symbol."""
    symbols = [symbol for symbol in alternative.symbols if symbol.form not in ("guard", "let")]
    return [symbols[0], symbols[-1]] if len(symbols) > 1 else []


def read_grammar(text):
    """The grammar of a text; `Stops` where it can't be read."""
    return Reader(text).grammar()


def tab_width(text):
    """The width of tabs that a grammar says, where its text can be read; 1 where it says none."""
    try:
        tabs = read_grammar(text).tabs
    except Stops:
        tabs = None
    return tabs if tabs is not None and 1 <= tabs <= 16 else 1


class Reader:
    """Reads tokens from left to right; it never goes back."""

    def __init__(self, text):
        self.text = text
        self.tokens, self.broken = tokenize(text)
        self.next, self.reading, self.open = 0, [], 0

    # tokens

    def token(self):
        return self.tokens[self.next] if self.next < len(self.tokens) else None

    def is_sign(self, *signs):
        token = self.token()
        return token is not None and token.is_sign(*signs)

    def is_word(self, *words):
        token = self.token()
        return token is not None and token.is_word(*words)

    def is_kind(self, *kinds):
        token = self.token()
        return token is not None and token.kind in kinds

    def take(self):
        self.next += 1
        return self.tokens[self.next - 1]

    def end(self):
        """Where the last token that was taken ends."""
        return self.tokens[self.next - 1].end if self.next else 0

    def stop(self, *wanted):
        token = self.token()
        at = token.begin if token else len(self.text) if self.broken is None else self.broken
        raise Stops(at, token, wanted, list(self.reading))

    def sign(self, sign, *others):
        """Takes this sign; others are what could have stood there as well."""
        if not self.is_sign(sign):
            self.stop(f"`{sign}`", *others)
        return self.take()

    def word(self, *words):
        if not self.is_word(*words):
            self.stop(*(f"`{word}`" for word in words))
        return self.take()

    def name(self, *others):
        if not self.is_kind("name"):
            self.stop("a name", *others)
        return self.take()

    def opens(self, kind, at, name=None):
        self.reading.append(Open(kind, at, name))

    def closes(self):
        self.reading.pop()

    # declarations

    def grammar(self):
        grammar = Grammar(self.text)
        if self.is_word("start"):
            self.opens("start", self.token().begin)
            self.take()
            grammar.start = self.name()
            self.sign(";")
            self.closes()
        if self.is_word("tabs"):
            self.opens("tabs", self.token().begin)
            self.take()
            if not self.is_kind("number"):
                self.stop("a number")
            grammar.tabs = int(self.take().text)
            self.sign(";")
            self.closes()
        while self.token() is not None:
            if not self.is_word(*KINDS):
                before = [] if grammar.tabs is not None or grammar.declarations else ["`tabs`"] if grammar.start else ["`start`", "`tabs`"]
                self.stop(*before, "`syntax`", "`lexical`", "`layout`")
            grammar.declarations.append(self.declaration(len(grammar.declarations) + 1))
        if self.broken is not None:
            self.stop("`syntax`", "`lexical`", "`layout`")
        return grammar

    def declaration(self, number):
        first = self.take()
        self.opens("declaration", first.begin)
        if not self.is_kind("name", "head"):
            self.stop("a name")
        named = self.take()
        self.reading[-1].name = named.name
        found = Declaration(number, first.text, named.name, first.begin, named.begin)
        if named.kind == "head":
            self.opens("parameters", named.end - 1)
            found.params = self.params()
            self.closes()
        self.sign("=", *([] if named.kind == "head" else ["`(` directly after the name"]))
        found.levels.append(self.level(found))
        while self.is_sign(">"):
            self.take()
            found.levels.append(self.level(found))
        self.sign(";", "a symbol", "`|`", "`>`")
        found.end = self.end()
        self.closes()
        return found

    def params(self):
        found = [self.param()]
        while self.is_sign(","):
            self.take()
            found.append(self.param())
        self.sign(")", "`,`")
        return found

    def param(self):
        named = self.name()
        self.sign(":")
        return named.text, self.word(*VALUES).text, named.begin

    def level(self, declaration):
        side = self.take().text if self.is_word(*SIDES) else None
        number = sum(len(level) for _, level in declaration.levels)
        alternatives = [self.alternative(number + 1)]
        while self.is_sign("|"):
            self.take()
            alternatives.append(self.alternative(number + len(alternatives) + 1))
        for alternative in alternatives:
            alternative.side, alternative.level = side, len(declaration.levels) + 1
        return side, alternatives

    def alternative(self, number):
        token = self.token()
        found = Alternative(number, token.begin if token else len(self.text))
        while self.begins_symbol():
            found.symbols.append(self.symbol())
        if found.symbols:
            found.end = found.symbols[-1].end
        return found

    # symbols

    def begins_symbol(self):
        return (self.is_kind("literal", "class", "name", "head") or self.is_sign("(", "{")
                or self.is_word("when", "let", *MARKS))

    def symbol(self):
        token = self.token()
        if self.is_word("when"):
            self.take()
            return self.bracketed(Symbol("guard", token.begin, token.end))
        if self.is_word("let"):
            self.take()
            named = self.name()
            self.sign("=")
            return self.bracketed(Symbol("let", token.begin, token.end, name=named.text))
        if token.kind == "name" and self.next + 1 < len(self.tokens) and self.tokens[self.next + 1].is_sign(":"):
            self.next += 2
            inside = self.marked()
            return Symbol("label", token.begin, inside.end, [inside], name=token.text)
        return self.marked()

    def bracketed(self, symbol):
        """A guard or a let with its expression in parentheses."""
        self.enter("guard" if symbol.form == "guard" else "let", self.sign("(").begin)
        symbol.expr = self.expr()
        self.leave(")", *self.going_on(symbol.expr))
        symbol.end = self.end()
        return symbol

    def going_on(self, expr):
        """What besides a closing sign could stand after an expression: it may have one operator."""
        alone = expr.form in ("number", "true", "false", "here", "name", "call") or self.text[expr.begin] == "("
        return ["an operator"] if alone else []

    def enter(self, kind, at):
        self.open += 1
        self.opens(kind, at)
        if self.open > MOST_OPEN:
            self.stop("fewer brackets")

    def leave(self, sign, *others):
        self.sign(sign, *others)
        self.open -= 1
        self.closes()

    def marked(self):
        if self.is_word(*MARKS):
            token = self.take()
            inside = self.filtered()
            return Symbol(token.text, token.begin, inside.end, [inside])
        return self.filtered()

    def filtered(self):
        if self.is_sign("{"):
            symbol = self.separated()
        else:
            symbol = self.atom()
            if self.is_sign(*REPEATS):
                symbol = Symbol(REPEATS[self.take().text], symbol.begin, self.end(), [symbol])
        filters = []
        while self.is_sign(*FILTERS):
            sign = self.take()
            if not self.is_kind("literal", "class"):
                self.opens("filter", sign.begin, sign.text)
                self.stop("a literal", "a class")
            filters.append((sign.text, self.take()))
        if not filters:
            return symbol
        found = Symbol("filtered", symbol.begin, self.end(), [symbol])
        found.filters = filters
        return found

    def separated(self):
        begin = self.take().begin
        self.enter("list", begin)
        item = self.item("a symbol")
        separator = self.item("a separator")
        self.sign("}")
        self.open -= 1
        if not self.is_sign("*", "+"):
            self.stop("`*`", "`+`")
        self.closes()
        form = "sepstar" if self.take().text == "*" else "sepplus"
        return Symbol(form, begin, self.end(), [item, separator])

    def item(self, wanted):
        if not self.begins_symbol() or self.is_word("when", "let"):
            self.stop(wanted)
        return self.marked()

    def atom(self):
        token = self.token()
        if self.is_kind("literal"):
            self.take()
            return Symbol("literal", token.begin, token.end, text=literal_text(token.text))
        if self.is_kind("class"):
            self.take()
            return Symbol("class", token.begin, token.end, text=token.text)
        if self.is_kind("name"):
            self.take()
            return Symbol("call", token.begin, token.end, name=token.text)
        if self.is_kind("head"):
            return self.call()
        if self.is_sign("("):
            return self.group()
        return self.stop("a literal", "a class", "a name", "`(`", "`{`")

    def call(self):
        token = self.take()
        found = Symbol("call", token.begin, token.end, name=token.name)
        self.enter("arguments", token.end - 1)
        found.args.append(self.expr())
        while self.is_sign(","):
            self.take()
            found.args.append(self.expr())
        self.leave(")", "`,`", *self.going_on(found.args[-1]))
        found.end = self.end()
        return found

    def group(self):
        begin = self.take().begin
        self.enter("group", begin)
        alternatives = [self.alternative(1)]
        while self.is_sign("|"):
            self.take()
            alternatives.append(self.alternative(len(alternatives) + 1))
        self.leave(")", "a symbol", "`|`")
        found = Symbol("group", begin, self.end(), [symbol for inside in alternatives for symbol in inside.symbols])
        found.alternatives = alternatives
        return found

    # expressions

    def expr(self):
        token = self.token()
        if self.is_word("not") or self.is_sign("-"):
            self.take()
            inside = self.term()
            return Expr("not" if token.text == "not" else "minus", token.begin, inside.end, [inside])
        left = self.term()
        if self.is_sign(*OPERATORS) or self.is_word(*WORD_OPERATORS):
            sign = self.take()
            right = self.term()
            return Expr(sign.text, left.begin, right.end, [left, right])
        return left

    def term(self):
        token = self.token()
        if self.is_kind("number"):
            self.take()
            return Expr("number", token.begin, token.end, text=token.text)
        if self.is_word("true", "false", "here"):
            self.take()
            return Expr(token.text, token.begin, token.end)
        if self.is_kind("name"):
            self.take()
            return Expr("name", token.begin, token.end, text=token.text)
        if self.is_sign("("):
            self.take()
            self.enter("parentheses", token.begin)
            inside = self.expr()
            self.leave(")", *self.going_on(inside))
            inside.begin, inside.end = token.begin, self.end()
            return inside
        if self.is_kind("head") and token.name in FUNCTIONS:
            return self.function()
        return self.stop("a number", "a variable", "`true`", "`false`", "`here`", "a function", "`(`")

    def function(self):
        token = self.take()
        self.enter("function", token.end - 1)
        parts = [self.expr()]
        if FUNCTIONS[token.name] == 2:
            self.sign(",", *self.going_on(parts[0]))
            if token.name == "spells":
                if not self.is_kind("literal"):
                    self.stop("a literal")
                word = self.take()
                parts.append(Expr("word", word.begin, word.end, text=literal_text(word.text)))
            else:
                parts.append(self.expr())
        self.leave(")", *([] if token.name == "spells" else self.going_on(parts[-1])))
        return Expr("call", token.begin, self.end(), parts, token.name)
