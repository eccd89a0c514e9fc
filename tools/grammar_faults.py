"""Why a grammar text can't be read from some place on: what stands there, and the likely causes, as people meet them.

`explain_syntax` gives a mark and lines. The place is the program's; this reader agrees with it, or else says nothing but
what stands there.
"""

import re
import unicodedata

from grammar_text import FILTERS, KINDS, MARKS, REPEATS, SIDES, VALUES, Stops, read_grammar
from grammar_tokens import CHAR, is_continue, plain, token_at, tokenize
from source_text import char_name, listed

LITERAL_ESCAPES = 'the escapes of a literal are `\\"`, `\\\\`, `\\n`, `\\r` and `\\t`'
CLASS_ESCAPES = "the escapes of a class are `\\[`, `\\]`, `\\^`, `\\-`, `\\\\`, `\\n`, `\\r` and `\\t`"
SHORT_CLASSES = {"d": "[0-9]", "w": "[A-Za-z0-9_]", "s": "[ \\t\\n\\r]", "D": "[^0-9]", "W": "[^A-Za-z0-9_]", "S": "[^ \\t\\n\\r]"}
NO_ESCAPE = re.compile(r'\\[^"\\nrt]')
DOUBLE_QUOTES, SINGLE_QUOTES = "“”„«»", "‘’‚`´"
ONE_CHAR = re.compile(CHAR)


def explain_syntax(source, at):
    """The end of the mark, a mark besides (begin and end) or None, and the lines that explain."""
    _, broken = tokenize(source.text)
    if broken is not None:
        if broken != at:
            return at + 1, None, [here_stands(source, at)]
        return explain_break(source, at)
    try:
        read_grammar(source.text)
    except Stops as stop:
        if stop.at == at:
            return explain_stop(source, stop)
    return at + 1, None, [here_stands(source, at)]


def here_stands(source, at):
    if at >= len(source.text):
        return "The text ends here."
    token = token_at(source.text, at)
    return f"Here stands {'`' + token.text + '`' if token else char_name(source.text[at])}."


# Where no token begins


def explain_break(source, at):
    char = source.text[at]
    for test, explain in BREAKS:
        if test(char):
            return explain(source, at)
    if unicodedata.category(char) in ("Zs", "Cf", "Cc", "Zl", "Zp"):
        return strange_blank(source, at)
    if is_continue(char):
        return at + 1, None, [f"{char_name(char)} can't begin a name: a name begins with a letter, and goes on with letters, digits"
                              " and `_`."]
    return at + 1, None, [f"{char_name(char)} begins no token. In a literal or a class it may stand: \"{char}\" or [{char}]."]


def explain_literal(source, at):
    """A `"` that begins no literal."""
    text = source.text
    line_end = text.find("\n", at)
    rest = text[at : len(text) if line_end < 0 else line_end]
    if rest.startswith('""'):
        return at + 2, None, ["This literal is empty, and a literal has at least one character.",
                              'What may be nothing is an empty alternative, as in `A = "a" | ;`, or an option, `"a"?`.']
    bad = NO_ESCAPE.search(rest.replace("\\\\", "  "))
    closed = re.match(r'"(?:[^"\\]|\\.)+"', rest)
    if closed and bad and bad.start() < closed.end():
        escape = rest[bad.start() : bad.end()]
        lines = [f"`{escape}` is no escape; {LITERAL_ESCAPES}.", escape_hint(escape, "a literal")]
        return at + closed.end(), (at + bad.start(), at + bad.end()), [line for line in lines if line]
    lines = ['This literal isn\'t closed: no `"` comes before the end of the line.']
    if '\\"' in rest:
        lines.append('`\\"` is a quote inside the literal; a backslash is written `\\\\`.')
    else:
        lines.append("A line feed in a literal is written `\\n`; a quote in it is written `\\\"`.")
    return at + len(rest), None, lines


def escape_hint(escape, inside):
    char = escape[1:]
    if char in SHORT_CLASSES:
        return f"In place of `{escape}` write the class {SHORT_CLASSES[char]}."
    if char in "uxU0":
        return "A character has no escape by its number: write the character itself."
    if char == "\n":
        return "A backslash at the end of a line joins nothing."
    return f"In {inside} `{char}` stands as it is." if char and not char.isalnum() else ""


def explain_class(source, at):
    """A `[` that begins no class."""
    text = source.text
    closing = class_end(text, at)
    if closing is None:
        return at + 1, None, ["This class isn't closed: no `]` comes before the end of the line.",
                              "A `]` in a class is written `\\]`, a `[` is written `\\[`, a line feed `\\n`."]
    written = text[at:closing]
    inner = written[1:-1]
    if inner in ("", "^"):
        return closing, None, ["This class is empty, and a class has at least one range."
                               + (" Any character is `$any`." if inner else "")]
    if text.startswith("[[:", at):
        return closing, None, ["There are no classes by name inside brackets: write their ranges, as in `[a-zA-Z]`.",
                               "Letters of all languages are `$xid_start`, and what a name may go on with is `$xid_continue`."]
    skip = 2 if written.startswith("[^") else 1
    return explain_ranges(source, at, at + skip, closing)


def explain_ranges(source, at, place, closing):
    """The first thing inside the brackets that is no range."""
    text = source.text
    while place < closing - 1:
        found = ONE_CHAR.match(text, place, closing - 1)
        if not found:
            return closing, (place, place + (2 if text[place] == "\\" else 1)), class_char_lines(text, place, closing)
        place = found.end()
        if text[place] == "-" and place < closing - 1:
            second = ONE_CHAR.match(text, place + 1, closing - 1)
            if not second:
                return closing, (place, place + 1), class_char_lines(text, place, closing)
            if plain(found[0]) > plain(second[0]):
                return closing, (found.start(), second.end()), [
                    f"The range `{found[0]}-{second[0]}` falls: {char_name(plain(found[0]))} (number {ord(plain(found[0]))}) comes after"
                    f" {char_name(plain(second[0]))} (number {ord(plain(second[0]))}).",
                    "The lesser character stands first; a `-` that is meant as itself is written `\\-`."]
            place = second.end()
    return closing, None, ["This is no class."]


def class_char_lines(text, place, closing):
    char = text[place]
    if char == "\\":
        escape = text[place : place + 2]
        hint = escape_hint(escape, "a class")
        return [f"`{escape}` is no escape; {CLASS_ESCAPES}."] + ([hint] if hint else [])
    if char == "-":
        return ["A `-` that is meant as itself is written `\\-` in a class; else it stands between two characters."]
    if char == "^":
        return ["A `^` is written `\\^` in a class, unless it stands first and says that all others are meant."]
    return [f"`{char}` is written `\\{char}` in a class."]


def class_end(text, at):
    """Where the class that begins here seems to end: behind the first `]` that no backslash stands before."""
    place = at + 1
    if text.startswith("[[:", at) and (found := re.compile(r"[^\n]*?:\]\]").match(text, at)):
        return found.end()
    while place < len(text) and text[place] != "\n":
        if text[place] == "]":
            return place + 1
        place += 2 if text[place] == "\\" else 1
    return None


def explain_quote(source, at):
    text = source.text
    char = text[at]
    if char == "'":
        found = re.compile(r"'((?:[^'\\\n]|\\.)*)'").match(text, at)
        if found and found[1] == "":
            return found.end(), None, ["A literal stands in double quotes, and has at least one character.",
                                       "What may be nothing is an empty alternative, or an option: `X?`."]
        if found:
            return found.end(), None, [f'A literal stands in double quotes: "{requoted(found[1])}".']
        return at + 1, None, ["A literal stands in double quotes; a `'` begins no token."]
    kind = "double" if char in DOUBLE_QUOTES else "single"
    return at + 1, None, [f"{char_name(char)} is a {kind} quotation mark of a text program. A literal stands in straight quotes: `\"`."]


def requoted(inner):
    """What stands between single quotes, as it is written between double ones."""
    return inner.replace("\\'", "'").replace('"', '\\"')


def explain_dollar(source, at):
    end = at + 1
    while end < len(source.text) and is_continue(source.text[end]):
        end += 1
    word = source.text[at:end]
    lines = [f"`{word}` is no class; those with a name are `$any`, `$xid_start` and `$xid_continue`."]
    if word == "$":
        lines.append("The end of the input needs no sign: a tree is of the whole input.")
    elif word[1:].isdigit():
        lines.append("There are no actions and no values of symbols: a label, `x: A`, binds a span.")
    return end, None, lines


def explain_number(source, at):
    end = at
    while end < len(source.text) and is_continue(source.text[end]):
        end += 1
    word = source.text[at:end]
    if word.isdigit():
        return end, None, [f"A number has no zero in front: {int(word)}."]
    return end, None, [f"`{word}` is neither a number nor a name: a name begins with a letter."]


def explain_hash(source, at):
    if source.text.startswith("#!", at):
        return at + 2, None, ["A grammar has no first line for a shell. Comments go from `//` to the end of the line."]
    return at + 1, None, ["A comment goes from `//` to the end of the line."]


def explain_slash(source, at):
    if source.text.startswith("/*", at):
        return at + 2, None, ["There are no comments from `/*` to `*/`: a comment goes from `//` to the end of the line."]
    return at + 1, None, ["A comment begins with two slashes. Regular expressions have no slashes: classes and literals are written"
                          " by themselves, as `[a-z]+`. A choice is `|`."]


def explain_dot(source, at):
    if source.text.startswith("..", at):
        return at + 2, None, ["A range of characters is a class: `[a-z]`."]
    return at + 1, None, ["Any character is `$any`, and any but a line feed is `[^\\n]`. A declaration ends with `;`."]


def explain_underscore(source, at):
    return at + 1, None, ["A name begins with a letter; `_` may stand in it from the second character on."]


def explain_bang(source, at):
    lines = ["`!` is a part of the signs `!>>`, `!<<` and `!=` alone.",
             "`X !>> P` asks that no match of P follows X, `X !<< P` that none ends where X begins."]
    return at + 1, None, lines


def explain_ampersand(source, at):
    if source.text.startswith("&&", at):
        return at + 2, None, ["In expressions it is `and`."]
    return at + 1, None, ["No symbol looks ahead without taking what it sees. `X !>> P` asks that no match of P follows X."]


def explain_tilde(source, at):
    return at + 1, None, ["Every character but some is `[^..]`, as `[^\\n]`. Every text but some is `X \\ \"text\"`."]


def explain_percent(source, at):
    if source.text.startswith("%%", at):
        return at + 2, None, ["There are no sections: a grammar is a start line and declarations."]
    found = re.compile(r"%[a-z-]+").match(source.text, at)
    word = found[0] if found else "%"
    hints = {"%left": "left", "%right": "right", "%nonassoc": "nonassoc", "%start": "start"}
    if word in hints and word != "%start":
        return at + len(word), None, [f"Levels are written in the declaration: `{hints[word]}` stands before the alternatives of a level,"
                                      " and `>` parts levels, of which the first binds tightest."]
    if word == "%start":
        return at + len(word), None, ["The start line is `start NAME;`, the first line of a grammar."]
    if word in ("%token", "%import", "%ignore", "%declare"):
        return at + len(word), None, [f"There is no `{word}`: words are declared by `lexical`, and what stands between them by `layout`."]
    return at + len(word), None, ["`%` begins no token. The remainder is `mod`."]


def explain_at(source, at):
    return at + 1, None, ["`@` begins no token. There are no annotations and no actions; a literal is written `\"@\"`."]


def byte_order_mark(source, at):
    return at + 1, None, ["A byte order mark stands here (U+FEFF), which can't be seen." + (
        " Save the file as UTF-8 without it." if at == 0 else " Delete it.")]


def strange_blank(source, at):
    return at + 1, None, [f"{char_name(source.text[at])} stands here. Between tokens stand blanks, tabs and ends of lines alone;"
                          " delete it, or write a blank."]


BREAKS = [
    (lambda char: char == '"', explain_literal),
    (lambda char: char == "[", explain_class),
    (lambda char: char in "'" + DOUBLE_QUOTES + SINGLE_QUOTES, explain_quote),
    (lambda char: char == "\ufeff", byte_order_mark),
    (lambda char: char == "$", explain_dollar),
    (lambda char: char.isascii() and char.isdigit(), explain_number),
    (lambda char: char == "#", explain_hash),
    (lambda char: char == "/", explain_slash),
    (lambda char: char == ".", explain_dot),
    (lambda char: char == "_", explain_underscore),
    (lambda char: char == "!", explain_bang),
    (lambda char: char == "&", explain_ampersand),
    (lambda char: char == "~", explain_tilde),
    (lambda char: char == "%", explain_percent),
    (lambda char: char == "@", explain_at),
    (lambda char: char == "]", lambda source, at: (at + 1, None, ["This `]` closes no class."])),
    (lambda char: char == "^", lambda source, at: (at + 1, None, ["`^` stands in a class alone, and first: `[^a-z]`."])),
]


# Where tokens stop following the rules


def explain_stop(source, stop):
    """The end of the mark, another mark or None, and lines."""
    token = stop.token
    end = token.end if token else stop.at + 1
    stands = f"`{token.text}`" if token else "the end of the text"
    lines, mark = stop_causes(source, stop)
    if not lines:
        lines = [f"{stands[0].upper()}{stands[1:]} can't stand here." if token else "The text ends too early."]
    lines = lines + [f"Here could stand {listed(stop.wanted, 'or')}{reading_said(source, stop)}."]
    return end, mark, lines


def reading_said(source, stop):
    """In what the tokens stop."""
    words = []
    for part in reversed(stop.reading):
        line = source.line_of(part.at)
        if part.kind == "declaration":
            words.append(f"in the declaration of {part.name} (line {line})" if part.name else "")
        elif part.kind == "start":
            words.append("in the start line")
        elif part.kind != "filter":
            words.append(f"in the {BRACKETS[part.kind]} of {source.said(part.at)}")
    words = [word for word in words if word]
    return f", {words[0]}" if words else ""


BRACKETS = {"group": "group", "list": "list", "arguments": "arguments", "parameters": "parameters", "guard": "guard", "let": "let",
            "parentheses": "parentheses", "function": "arguments"}


def stop_causes(source, stop):
    """What probably went wrong: lines, and another mark or None."""
    inside = stop.reading[-1].kind if stop.reading else "top"
    token = stop.token
    if inside == "top":
        return at_top(stop), None
    if token is not None and token.kind == "keyword" and "a name" in stop.wanted:
        return [f"`{token.text}` is a keyword, and can't be a name. Write it with a capital, or another word."], None
    if token is None:
        return at_end(source, stop)
    explain = {"start": in_start, "declaration": in_declaration, "parameters": in_parameters, "group": in_group, "list": in_list,
               "filter": in_filter}.get(inside, in_expression)
    return explain(source, stop)


def at_top(stop):
    token = stop.token
    if token is None:
        return []
    if token.is_word("start"):
        return ["The start line stands once, before all declarations."]
    if token.kind in ("name", "head"):
        return ["A declaration begins with its kind: `syntax`, `lexical` or `layout`."]
    if token.is_sign(";"):
        return ["One `;` ends a declaration; nothing stands between it and the next one."]
    return ["Declarations stand here, each from its kind to its `;`."]


def at_end(source, stop):
    """The text ends in a declaration or a bracket."""
    brackets = [part for part in stop.reading if part.kind in BRACKETS]
    if brackets:
        part = brackets[-1]
        return [f"The text ends, and the {BRACKETS[part.kind]} of {source.said(part.at)} aren't closed."
                if BRACKETS[part.kind].endswith("s") else
                f"The text ends, and the {BRACKETS[part.kind]} of {source.said(part.at)} isn't closed."], (part.at, part.at + 1)
    if stop.reading[-1].kind == "start":
        return ["The start line ends with `;`."], None
    return ["The last declaration isn't ended: a `;` is missing, perhaps."], None


def in_start(source, stop):
    token = stop.token
    if "a name" in stop.wanted and token.is_sign("=", ":"):
        return ["The start line is `start NAME;`, with nothing between."], None
    if token.kind == "head":
        return ["The start symbol has no parameters."], None
    return ["The start line is `start NAME;`: one name, and its `;`."], None


def in_declaration(source, stop):
    token, before = stop.token, previous(source, stop.at)
    if "`=`" in stop.wanted:
        return before_body(token), None
    if "a name" in stop.wanted:
        return ["A declaration is a kind, a name, `=`, alternatives and `;`."], None
    if token.is_word(*KINDS, "start"):
        return [f"`{token.text}` begins the next declaration: a `;` is missing before it."], (before.end - 1, before.end)
    if "`(`" in stop.wanted and before is not None and (before.is_word("when") or before.is_sign("=")):
        kind = "guard" if before.is_word("when") else "let"
        return [f"The expression of a {kind} stands in parentheses: {'`when (x == 1)`' if kind == 'guard' else '`let x = (1)`'}."], None
    if source.text.startswith("=>", stop.at):
        return ["There are no actions, and alternatives have no names: trees are all that a grammar gives."], None
    if token.is_sign("=") and before is not None and before.end == token.begin and not source.text[token.end : token.end + 1].isspace():
        return [f"A label stands with a colon before its symbol: `{before.text}: X`."], None
    if token.is_sign("=", ":") and before is not None and before.kind in ("name", "head") and not is_marked(source, before):
        return [f"`{before.text} {token.text}` looks like another declaration: the one before it ends with `;`, and each begins with"
                " `syntax`, `lexical` or `layout`."], None
    return in_alternative(source, stop), None


def is_marked(source, token):
    """Whether a mark stands before a token."""
    before = previous(source, token.begin)
    return before is not None and before.is_word(*MARKS)


def before_body(token):
    if token.is_sign("("):
        return ["Parameters stand directly after the name, without a blank: `NAME(n: int)`."]
    if token.is_sign(":"):
        return ["After the name stands `=`; `:` and `::=` aren't used."]
    if token.is_sign("-"):
        return ["After the name stands `=`, not `->`."]
    if token.is_sign("<"):
        return ["Parameters stand in parentheses, directly after the name: `NAME(n: int)`."]
    return ["A declaration is a kind, a name, `=`, alternatives and `;`."]


def in_alternative(source, stop):
    """A token that no symbol begins with, in an alternative."""
    token, before = stop.token, previous(source, stop.at)
    if token.is_sign(*REPEATS) and before is not None and before.is_sign(*REPEATS):
        return ["One of `?`, `*` and `+` stands after a symbol. There are no lazy and no greedy lists: `(X+)?` is a list in an option,"
                " and `X+ !>> [a-z]` ends where no letter follows."]
    if token.is_sign(*REPEATS) and before is not None and (before.is_sign(*FILTERS) or before.kind in ("literal", "class")):
        return [f"`{token.text}` stands directly after a literal, a class, a name or a parenthesis, before its filters:"
                f" `X{token.text} !>> [a-z]`."]
    if token.is_sign(*REPEATS):
        return [f"`{token.text}` stands after a symbol."]
    if token.is_word(*SIDES):
        return [f"`{token.text}` stands at the begin of a level: after the `=` of the declaration, or after `>`."]
    if token.kind == "number":
        return ["A number stands in expressions alone. A list of just so many is written out, or counted down by a parameter."]
    if token.is_sign(":"):
        return ["A label is a name directly before its symbol: `x: A`. It stands outside marks: `x: offside A`."]
    if token.is_sign("-"):
        return ["`X \\ \"text\"` is X without that text. A class without some characters is written by its ranges.",
                "A blank in a name isn't possible, and neither is a `-`."]
    if token.is_sign("<"):
        return ["Names stand without angle brackets, and a `<` that is read is a literal: `\"<\"`. In expressions `<` compares numbers."]
    if token.is_sign("==", "!=", "<=", ">="):
        return ["Comparisons stand in expressions: `when (size(x) == 1)`."]
    if token.is_sign(*FILTERS):
        return ["A filter stands after the symbol of which it is asked: `X !>> P`."]
    if token.is_sign("}"):
        return ["This `}` closes no list. There are no actions: trees are all that a grammar gives."]
    if token.is_sign(")"):
        return ["This `)` closes nothing."]
    if token.is_sign(","):
        return ["The symbols of an alternative stand side by side, without commas."]
    if token.kind == "keyword":
        return [f"`{token.text}` is a keyword, and can't be a name."]
    return []


def in_parameters(source, stop):
    token = stop.token
    if token.is_sign(")") and "a name" in stop.wanted:
        return ["Without parameters there are no parentheses."], None
    if "`int`" in stop.wanted:
        return [f"The kinds of parameters are {listed(f'`{value}`' for value in VALUES)}."], None
    if token.is_word(*VALUES):
        return ["A parameter is its name, `:` and its kind: `n: int`."], None
    return ["A parameter is its name, `:` and its kind: `n: int`; a comma stands between two."], None


def in_group(source, stop):
    token = stop.token
    if token.is_sign(">"):
        return ["Levels stand in a declaration alone, not inside parentheses: declare the operators by a name of their own."], None
    if token.is_sign(";") or token.is_word(*KINDS):
        part = stop.reading[-1]
        return [f"The group of {source.said(part.at)} isn't closed: a `)` is missing."], (part.at, part.at + 1)
    if token.is_word(*SIDES):
        return ["Levels and their sides stand in a declaration alone, not inside parentheses."], None
    lines = in_alternative(source, stop)
    before = previous(source, stop.at)
    if token.kind == "number" and before is not None and before.is_sign("("):
        lines = ["Arguments stand directly after the name, without a blank: `NAME(1)`."]
    return lines, None


def in_list(source, stop):
    token = stop.token
    if token.is_sign("}"):
        return ["A list in braces has two symbols, the item and the separator: `{X \",\"}*`. Without a separator it is `X*`, and what may"
                " be missing is `X?`."], None
    if token.kind == "number":
        return ["There is no list of just so many: write the symbols out, or count down by a parameter."], None
    if token.is_sign("|"):
        return ["An item that is a choice stands in parentheses: `{(A | B) \",\"}*`."], None
    if "`*`" in stop.wanted:
        return ["After the braces stands `*` or `+`: of no item or more, or of one or more."], None
    if token.is_sign(","):
        return ["A separator is a symbol: `{X \",\"}*`."], None
    if "`}`" in stop.wanted:
        return ["A list in braces has two symbols, the item and the separator; more than one symbol stands in parentheses:"
                " `{(A B) \",\"}*`."], None
    return ["A list in braces has two symbols, the item and the separator; guards and lets stand in parentheses."], None


def in_filter(source, stop):
    token = stop.token
    sign = stop.reading[-1].name
    if token.kind in ("name", "head"):
        return [f"Filters name literals and classes alone: write what {token.name} begins with, or several filters one after another,"
                f" as `X {sign} \"if\" {sign} \"then\"`."], None
    if token.is_sign("("):
        return [f"Filters name literals and classes alone; for a choice write several filters: `X {sign} \"a\" {sign} \"b\"`."], None
    return [f"After `{sign}` stands a literal or a class."], None


def in_expression(source, stop):
    token, part = stop.token, stop.reading[-1]
    if part.kind == "function" and "a literal" in stop.wanted:
        return ["`spells` compares with a literal; two spans are compared by `same(x, y)`."], None
    if is_operator(token) and "`)`" in stop.wanted:
        return ["An expression has one operator: each part that has one itself stands in parentheses, as `(a + b) + c`."], None
    if token.is_sign("="):
        return ["Values are compared by `==`."], None
    if token.is_sign("|"):
        return ["In expressions it is `or`."], None
    if token.is_sign(")") and part.kind == "arguments":
        return ["A call without arguments has no parentheses."], None
    if token.kind == "literal":
        return ["Texts are compared by `spells(x, \"text\")`, where x is a label, and `same(x, y)`."], None
    if token.kind == "head":
        return [f"There is no function `{token.name}`; the functions are begin, end, size, column, line, number, same and spells."], None
    if token.is_sign(";"):
        return [f"The {BRACKETS.get(part.kind, 'expression')} of {source.said(part.at)} {'are' if BRACKETS.get(part.kind, '').endswith('s') else 'is'}n't"
                " closed: a `)` is missing."], (part.at, part.at + 1)
    return [], None


def is_operator(token):
    return token.is_sign("+", "-", "*", "<", "<=", ">", ">=", "==", "!=") or token.is_word("div", "mod", "and", "or")


def previous(source, at):
    """The token before a place, or None."""
    tokens, _ = tokenize(source.text[:at])
    return tokens[-1] if tokens else None
