"""Facts on the declarations of a grammar: which may be nothing, which have no tree, which nothing reaches, which words they have.

Where the program tells facts (`iguana analyse`), those are taken; else they are computed here. Guards, filters and columns
aren't looked at, so what is called possible may be impossible.
"""

from grammar_text import MARKS
from grammar_tokens import class_test, literal_text


class Facts:
    def __init__(self, grammar, told):
        self.grammar = grammar
        self.nullable, self.unproductive, self.unreachable = set(), set(), set()
        self.found_sites = None
        if told is None:
            self.compute()
        else:
            self.take(told)

    def take(self, told):
        """What the program tells: a line for each declaration, its name and the words that hold of it."""
        for line in told.splitlines():
            name, *words = line.split()
            for word in ("nullable", "unproductive", "unreachable"):
                if word in words:
                    getattr(self, word).add(name)

    def compute(self):
        names = [declaration.name for declaration in self.grammar.declarations]
        self.nullable = self.least(lambda symbol, found: self.may_be_empty(symbol, found))
        self.unproductive = set(names) - self.least(lambda symbol, found: self.has_tree(symbol, found))
        reached, waiting = set(), [self.grammar.start.text] if self.grammar.start else []
        if self.grammar.layout():
            waiting.append(self.grammar.layout().name)
        while waiting:
            name = waiting.pop()
            if name in reached or self.grammar.named(name) is None:
                continue
            reached.add(name)
            waiting += [symbol.name for symbol in self.grammar.named(name).preorder() if symbol.form == "call"]
        self.unreachable = set(names) - reached

    def least(self, holds):
        """The declarations of which some alternative has only symbols of which something holds, from the least on."""
        found, grown = set(), True
        while grown:
            grown = False
            for declaration in self.grammar.declarations:
                if declaration.name not in found and any(all(holds(symbol, found) for symbol in alternative.symbols)
                                                         for alternative in declaration.alternatives):
                    found.add(declaration.name)
                    grown = True
        return found

    def may_be_empty(self, symbol, found=None):
        """Whether a symbol may have nothing."""
        found = self.nullable if found is None else found
        if symbol.form in ("opt", "star", "sepstar", "guard", "let"):
            return True
        if symbol.form == "call":
            return symbol.name in found
        if symbol.form == "group":
            return any(all(self.may_be_empty(each, found) for each in alternative.symbols) for alternative in symbol.alternatives)
        if symbol.form in ("plus", "sepplus", "label", "filtered", *MARKS):
            return self.may_be_empty(symbol.parts[0], found)
        return False

    def has_tree(self, symbol, found):
        if symbol.form == "call":
            return symbol.name in found
        if symbol.form == "group":
            return any(all(self.has_tree(each, found) for each in alternative.symbols) for alternative in symbol.alternatives)
        if symbol.form in ("plus", "sepplus", "label", "filtered", *MARKS):
            return self.has_tree(symbol.parts[0], found)
        return True

    # corners

    def path_at(self, place, name, target):
        """The names that lead from one declaration to another, each the first or last symbol of the one before; or None."""
        paths, waiting = {name: [name]}, [name]
        while waiting:
            current = waiting.pop(0)
            declaration = self.grammar.named(current)
            if declaration is None or declaration.kind != "syntax":
                continue
            for callee in self.corners(declaration, place):
                if callee == target:
                    return paths[current] + [callee]
                if callee not in paths:
                    paths[callee] = paths[current] + [callee]
                    waiting.append(callee)
        return None

    def corners(self, declaration, place):
        """The names that may stand first (`begin`) or last (`end`) in a declaration."""
        found = []
        for alternative in declaration.alternatives:
            found += self.corners_of(alternative.symbols, place)
        return dict.fromkeys(found)

    def corners_of(self, symbols, place):
        found = []
        for symbol in symbols if place == "begin" else reversed(symbols):
            inner = symbol.core()
            if inner.form == "call":
                found.append(inner.name)
            elif inner.form == "group":
                for alternative in inner.alternatives:
                    found += self.corners_of(alternative.symbols, place)
            elif inner.parts:
                found += self.corners_of(inner.parts[:1], place)
            if not self.may_be_empty(symbol):
                break
        return found

    # circles

    def circle(self, name):
        """The shortest way from a declaration to itself by alternatives that have nothing else but what may be nothing; or None."""
        ways, waiting = {name: [name]}, [name]
        while waiting:
            current = waiting.pop(0)
            for callee in self.alone(self.grammar.named(current)):
                if callee == name:
                    return ways[current]
                if callee not in ways and self.grammar.named(callee) is not None:
                    ways[callee] = ways[current] + [callee]
                    waiting.append(callee)
        return None

    def alone(self, declaration):
        """The names that are called where all else may be nothing."""
        for alternative in declaration.alternatives:
            for k, symbol in enumerate(alternative.symbols):
                others = alternative.symbols[:k] + alternative.symbols[k + 1 :]
                if symbol.core().form == "call" and all(self.may_be_empty(other) for other in others):
                    yield symbol.core().name

    # words

    def may_begin(self, symbols, char):
        """Whether symbols one after another may begin with the character; layout isn't looked at."""
        return self.begins(symbols, char, set())

    def begins(self, symbols, char, seen):
        for symbol in symbols:
            if self.begins_one(symbol, char, seen):
                return True
            if not self.may_be_empty(symbol) or keeps_away(symbol, char):
                return False
        return False

    def begins_one(self, symbol, char, seen):
        if symbol.form == "literal":
            return symbol.text[0] == char
        if symbol.form == "class":
            return class_test(symbol.text)(char)
        if symbol.form == "call":
            declaration = self.grammar.named(symbol.name)
            if declaration is None or symbol.name in seen:
                return False
            seen.add(symbol.name)
            return any(self.begins(alternative.symbols, char, seen) for alternative in declaration.alternatives)
        if symbol.form == "group":
            return any(self.begins(alternative.symbols, char, seen) for alternative in symbol.alternatives)
        return self.begins(symbol.parts, char, seen) if symbol.form in ("sepstar", "sepplus") else self.begins(symbol.parts[:1], char, seen)

    def may_follow(self, name, char):
        """Whether the character may stand directly behind a declaration in some text; layout isn't looked at."""
        return self.follows(name, char, set())

    def follows(self, name, char, seen):
        if name in seen:
            return False
        seen.add(name)
        return any(site.name == name and behind(char, seen) for site, behind in self.sites())

    def sites(self):
        """All calls, each with a function that tells whether a character may stand behind it."""
        if self.found_sites is None:
            self.found_sites = [
                found for declaration in self.grammar.declarations for alternative in declaration.alternatives
                for found in self.sites_in(alternative.symbols, lambda char, seen, name=declaration.name: self.follows(name, char, seen))]
        return self.found_sites

    def sites_in(self, symbols, behind):
        """The calls in a sequence behind which something stands."""
        for k, symbol in enumerate(symbols):
            yield from self.sites_of(symbol, self.after(symbols[k + 1 :], behind))

    def after(self, rest, behind):
        nullable = all(self.may_be_empty(symbol) for symbol in rest)
        return lambda char, seen: self.may_begin(rest, char) or (
            nullable and not any(keeps_away(symbol, char) for symbol in rest) and behind(char, seen))

    def sites_of(self, symbol, behind):
        if symbol.form == "call":
            yield symbol, behind
        elif symbol.form == "group":
            for alternative in symbol.alternatives:
                yield from self.sites_in(alternative.symbols, behind)
        elif symbol.form == "filtered":
            yield from self.sites_of(symbol.parts[0], lambda char, seen: not keeps_away(symbol, char) and behind(char, seen))
        elif symbol.form in ("star", "plus"):
            yield from self.sites_of(symbol.parts[0], lambda char, seen: self.may_begin(symbol.parts, char) or behind(char, seen))
        elif symbol.form in ("sepstar", "sepplus"):
            item, separator = symbol.parts
            yield from self.sites_of(item, lambda char, seen: self.may_begin([separator, item], char) or behind(char, seen))
            yield from self.sites_of(separator, lambda char, seen: self.may_begin([item], char))
        elif symbol.parts:
            yield from self.sites_of(symbol.parts[0], behind)

    def covers(self, declaration, word):
        """Whether a declaration could be this whole word."""
        return len(word) in Words(self.grammar, word).ends_of(declaration, 0)


def keeps_away(symbol, char):
    """Whether a follow filter of a symbol keeps the character away from its end."""
    return symbol.form == "filtered" and any(
        sign == "!>>" and (literal_text(token.text) == char if token.kind == "literal" else class_test(token.text)(char))
        for sign, token in symbol.filters)


class Words:
    """Where symbols could end in a word; left recursion is followed once."""

    def __init__(self, grammar, word):
        self.grammar, self.word, self.open = grammar, word, set()

    def ends_of(self, declaration, at):
        if declaration is None or (declaration.name, at) in self.open:
            return set()
        self.open.add((declaration.name, at))
        found = {end for alternative in declaration.alternatives for end in self.after(alternative.symbols, at)}
        self.open.discard((declaration.name, at))
        return found

    def after(self, symbols, at):
        """Where the symbols one after another could end."""
        places = {at}
        for symbol in symbols:
            places = {end for place in places for end in self.ends(symbol, place)}
        return places

    def ends(self, symbol, at):
        form = symbol.form
        if form in ("guard", "let"):
            return {at}
        if form == "literal":
            return {at + len(symbol.text)} if self.word.startswith(symbol.text, at) else set()
        if form == "class":
            return {at + 1} if at < len(self.word) and class_test(symbol.text)(self.word[at]) else set()
        if form == "call":
            return self.ends_of(self.grammar.named(symbol.name), at)
        if form == "group":
            return {end for alternative in symbol.alternatives for end in self.after(alternative.symbols, at)}
        if form == "opt":
            return {at} | self.ends(symbol.parts[0], at)
        if form in ("star", "plus", "sepstar", "sepplus"):
            return self.repeated(symbol, at)
        if form == "filtered":
            return {end for end in self.ends(symbol.parts[0], at) if self.passes(symbol, at, end)}
        return self.ends(symbol.parts[0], at)

    def repeated(self, symbol, at):
        first = self.ends(symbol.parts[0], at)
        found, waiting = set(), list(first)
        while waiting:
            place = waiting.pop()
            if place in found:
                continue
            found.add(place)
            between = self.ends(symbol.parts[1], place) if len(symbol.parts) > 1 else {place}
            waiting += [end for middle in between for end in self.ends(symbol.parts[0], middle)]
        return found | ({at} if symbol.form in ("star", "sepstar") else set())

    def passes(self, symbol, begin, end):
        """Whether the filters of a symbol let it have this part of the word."""
        for sign, token in symbol.filters:
            if sign == "\\" and self.matches(token, begin) == end:
                return False
            if sign == "!>>" and self.matches(token, end) is not None:
                return False
            if sign == "!<<" and any(self.matches(token, place) == begin for place in range(begin)):
                return False
        return True

    def matches(self, token, at):
        """Where a match of a pattern from here ends, or None."""
        if token.kind == "literal":
            word = literal_text(token.text)
            return at + len(word) if self.word.startswith(word, at) else None
        return at + 1 if at < len(self.word) and class_test(token.text)(self.word[at]) else None
