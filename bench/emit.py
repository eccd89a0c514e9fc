"""Each program's own grammar text, made from the rules of a workload."""

from workloads import CODES, Chars

CLASS_ESCAPES = {"[": r"\[", "]": r"\]", "^": r"\^", "-": r"\-", "\\": r"\\", "\n": r"\n", "\r": r"\r", "\t": r"\t"}
LITERAL_ESCAPES = {'"': r"\"", "\\": r"\\", "\n": r"\n", "\r": r"\r", "\t": r"\t"}
PATTERN_ESCAPES = {" ": " ", "\t": r"\t", "\n": r"\n", "\r": r"\r"}


def lefts(rules):
    """Each left side once, with its right sides."""
    found = {}
    for left, right in rules:
        found.setdefault(left, []).append(right)
    return found


def terminals(rules):
    """Each set of characters once: by key, a name and the set."""
    found = {}
    for _, right in rules:
        for symbol in right:
            if isinstance(symbol, Chars):
                found.setdefault(symbol.key(), (f"t{len(found)}", symbol))
    return found


def iguana(rules):
    def symbol(s):
        if not isinstance(s, Chars):
            return s
        if len(s.chars) == 1 and not s.negated:
            return f'"{LITERAL_ESCAPES.get(s.chars, s.chars)}"'
        return f"[{'^' if s.negated else ''}{''.join(CLASS_ESCAPES.get(c, c) for c in s.chars)}]"

    lines = [f"start {rules[0][0]};"]
    for left, rights in lefts(rules).items():
        lines.append(f"syntax {left} = {' | '.join(' '.join(map(symbol, right)) for right in rights)};")
    return "\n".join(lines) + "\n"


def marpa(rules):
    """Lines `term NAME CODE ..` and `rule LEFT RIGHT ..`, as drivers/marpa.pl reads them."""
    named = terminals(rules)
    lines = [f"rule {left} {' '.join(named[s.key()][0] if isinstance(s, Chars) else s for s in right)}" for left, right in rules]
    return "\n".join([f"term {name} {' '.join(map(str, chars.codes()))}" for name, chars in named.values()] + lines) + "\n"


def lark(rules):
    named = terminals(rules)

    def symbol(s):
        return named[s.key()][0].upper() if isinstance(s, Chars) else f"n_{s.lower()}"

    out = [f"start: n_{rules[0][0].lower()}"]
    for left, rights in lefts(rules).items():
        out.append(f"n_{left.lower()}: {' | '.join(' '.join(map(symbol, right)) for right in rights)}")
    for name, chars in named.values():
        body = "".join(c if c.isalnum() else PATTERN_ESCAPES.get(c, "\\" + c) for c in chars.chars)
        out.append(f"{name.upper()}: /[{'^' if chars.negated else ''}{body}]/")
    return "\n".join(out) + "\n"


def prolog(rules):
    """Tabled clauses over positions; drivers/tabled.pl has each character as a fact ch(Position, Code)."""
    named = terminals(rules)
    out = [f":- table {', '.join(f'n_{left.lower()}/2' for left in lefts(rules))}."]
    out += [f"c_{name}({code})." for name, chars in named.values() for code in chars.codes()]
    for left, rights in lefts(rules).items():
        for right in rights:
            places = ["I", *(f"P{k}" for k in range(1, len(right))), "J"]
            goals = []
            for k, s in enumerate(right):
                here, there = places[k], places[k + 1]
                if isinstance(s, Chars):
                    goals.append(f"ch({here}, X{k}), c_{named[s.key()][0]}(X{k}), {there} is {here} + 1")
                else:
                    goals.append(f"n_{s.lower()}({here}, {there})")
            out.append(f"n_{left.lower()}(I, J) :- {', '.join(goals)}." if right else f"n_{left.lower()}(I, I).")
    out.append(f"top(I, J) :- n_{rules[0][0].lower()}(I, J).")
    return "\n".join(out) + "\n"


def classes_of(rules):
    """Groups characters that no set of the grammar tells apart: by code a class, and by key the classes of a set."""
    named = terminals(rules)
    inside = {key: set(chars.codes()) for key, (_, chars) in named.items()}
    signatures, of_code = [], {}
    for code in CODES:
        signature = frozenset(key for key in named if code in inside[key])
        if signature:
            if signature not in signatures:
                signatures.append(signature)
            of_code[code] = signatures.index(signature)
    return of_code, {key: [k for k, signature in enumerate(signatures) if key in signature] for key in named}


def bison(rules):
    """A GLR grammar whose actions make a node for each reduction, and one more where derivations are merged."""
    named = terminals(rules)
    of_code, members = classes_of(rules)

    def symbol(s):
        if not isinstance(s, Chars):
            return f"n_{s.lower()}"
        found = members[s.key()]
        return f"C{found[0]}" if len(found) == 1 else named[s.key()][0]

    out = ['%{\n#include "forest.h"\n%}', "%glr-parser", "%define api.value.type {struct node *}"]
    out += [f"%token C{k} {300 + k}" for k in range(max(of_code.values()) + 1)]
    out += ["%start start", "%%", f"start: n_{rules[0][0].lower()} {{ result = $1; }} ;"]
    tag = 0
    for left, rights in lefts(rules).items():
        bodies = []
        for right in rights:
            tag += 1
            children = "".join(f", ${k + 1}" for k in range(len(right)))
            bodies.append(f"{' '.join(map(symbol, right)) or '%empty'} %merge <merge> {{ $$ = make({tag}, {len(right)}{children}); }}")
        out.append(f"n_{left.lower()}: {' | '.join(bodies)} ;")
    for key, (name, _) in named.items():
        if len(members[key]) > 1:
            out.append(f"{name}: {' | '.join(f'C{k} {{ $$ = $1; }}' for k in members[key])} ;")
    table = ", ".join(str(300 + of_code[code]) if code in of_code else "1" for code in range(256))
    return "\n".join([*out, "%%", f"const int classes[256] = {{{table}}};"]) + "\n"
