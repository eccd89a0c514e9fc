"""The tokens of a grammar text, as docs/NOTATION.md says them, or the place where they break."""

import re

KEYWORDS = frozenset("""start syntax lexical layout left right nonassoc offside ignore align when let here true false and or
    not div mod int bool span tabs return""".split())
SIGNS = ("!>>", "!<<", "==", "!=", "<=", ">=", ";", "=", "|", ">", ":", ",", "(", ")", "{", "}", "?", "*", "+", "-", "\\", "<")
BLANK = re.compile(r"(?:[ \t\r\n]|//[^\n]*)*")
LITERAL = re.compile(r'"(?:[^"\\\n]|\\["\\nrt])+"')
CHAR = r"(?:[^\[\]^\-\\\n]|\\[\[\]^\-\\nrt])"
CLASS = re.compile(rf"\[\^?(?:{CHAR}(?:-{CHAR})?)+\]")
RANGE = re.compile(rf"({CHAR})(?:-({CHAR}))?")
NAMED_CLASS = re.compile(r"\$(?:any|xid_start|xid_continue)")
NUMBER = re.compile(r"0|[1-9][0-9]*")
UNESCAPED = {"n": "\n", "r": "\r", "t": "\t"}


class Token:
    """A token: its kind, its text, and where it begins and ends. A head has its parenthesis in its text."""

    def __init__(self, kind, text, begin):
        self.kind, self.text, self.begin, self.end = kind, text, begin, begin + len(text)

    @property
    def name(self):
        """The name of a name or a head."""
        return self.text[:-1] if self.kind == "head" else self.text

    def is_sign(self, *signs):
        return self.kind == "sign" and self.text in signs

    def is_word(self, *words):
        return self.kind == "keyword" and self.text in words


def is_start(char):
    """Whether a name may begin with the character (XID_Start)."""
    return char != "_" and char.isidentifier()


def is_continue(char):
    """Whether a name may go on with the character (XID_Continue)."""
    return ("a" + char).isidentifier()


def tokenize(text):
    """The tokens of a text, and None, or the place where neither a token nor a separator begins."""
    tokens, at = [], 0
    while True:
        at = BLANK.match(text, at).end()
        if at == len(text):
            return tokens, None
        token = token_at(text, at)
        if token is None:
            return tokens, at
        tokens.append(token)
        at = token.end


def token_at(text, at):
    """The longest token that begins at the place, or None."""
    char = text[at]
    if is_start(char):
        end = at + 1
        while end < len(text) and is_continue(text[end]):
            end += 1
        word = text[at:end]
        if word in KEYWORDS:
            return Token("keyword", word, at)
        return Token("head", word + "(", at) if text[end : end + 1] == "(" else Token("name", word, at)
    if char == '"':
        found = LITERAL.match(text, at)
        return Token("literal", found[0], at) if found else None
    if char == "[":
        found = CLASS.match(text, at)
        return Token("class", found[0], at) if found and not falling(found[0]) else None
    for kind, form in (("class", NAMED_CLASS), ("number", NUMBER)):
        found = form.match(text, at)
        if found:
            ends = found.end() == len(text) or not is_continue(text[found.end()])
            return Token(kind, found[0], at) if ends else None
    for sign in SIGNS:
        if text.startswith(sign, at):
            return Token("sign", sign, at)
    return None


def plain(char):
    """The character that a character or an escape of a literal or a class stands for."""
    return UNESCAPED.get(char[1], char[1]) if len(char) == 2 else char


def ranges_of(text):
    """The ranges of a class in brackets, as pairs of characters."""
    inner = text[1:-1].removeprefix("^")
    return [(plain(found[1]), plain(found[2] or found[1])) for found in RANGE.finditer(inner)]


def falling(text):
    """The first range of a class whose first character is greater than its second, as it is written; else None."""
    inner = text[1:-1].removeprefix("^")
    for found in RANGE.finditer(inner):
        if plain(found[1]) > plain(found[2] or found[1]):
            return found[0]
    return None


def literal_text(text):
    """The characters of a literal."""
    return re.sub(r"\\.", lambda found: plain(found[0]), text[1:-1])


def class_test(text):
    """A function that tells whether a character is in the class."""
    if text == "$any":
        return lambda char: True
    if text == "$xid_start":
        return is_start
    if text == "$xid_continue":
        return is_continue
    ranges, negated = ranges_of(text), text[1] == "^"
    return lambda char: any(first <= char <= last for first, last in ranges) != negated
