"""Names that the passes add, as `S#2`, said in words, as 'the second list of S'."""

from source_text import ordinal

KINDS = {"opt": "option", "star": "list", "plus": "list", "sepstar": "list", "sepplus": "list", "group": "group"}


def owner_of(grammar, name):
    """The declaration for which a name of the core grammar stands, and its symbol where the name is an added one."""
    base, sign, number = name.partition("#")
    declaration = grammar.named(base)
    if declaration is None or not sign:
        return declaration, None
    added = declaration.added()
    return declaration, added[int(number) - 1] if int(number) <= len(added) else None


def said_name(grammar, name):
    """A name in words."""
    if name == "$root":
        return "the whole input"
    declaration, symbol = owner_of(grammar, name)
    if symbol is None:
        return name
    kind = KINDS[symbol.form]
    alike = [each for k, each in enumerate(declaration.added())
             if KINDS[each.form] == kind and (k == 0 or declaration.added()[k - 1] is not each)]
    number = f"{ordinal(alike.index(symbol) + 1)} " if len(alike) > 1 else ""
    text = " ".join(grammar.of(symbol).split())
    return f"the {number}{kind} of {declaration.name}, `{text if len(text) <= 40 else text[:37] + '...'}`"
