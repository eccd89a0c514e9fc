"""Texts of a checkout, written with the names that crates, modules and files have now."""

import re

from room_crates import leaves, listed_uses
from room_names import new_name

WIDTH = 100
SEGMENT = r"[^\s.{}()\[\];,]+"
PATHS = (
    rf"(?P<antt>Rattle\.(?P<antt_crate>ig_\w+)\.(?P<kind>specs\.declared|specs\.contracts|specs|proofs)\.(?P<first>{SEGMENT}))"
    r"|(?P<file>(?<![\w/])(?:(?P<file_crates>crates/)?(?P<file_crate>ig_\w+)/)?(?P<file_path>(?:src|specs|proofs|must-fail)/[\w/+.-]*\w))"
    r"|(?P<path>\b(?P<path_crate>ig_\w+|crate)::(?P<path_first>\w+)(?:::(?P<path_second>\w+))?)"
    r"|(?P<word>\big_\w+\b)"
)
USES = r"(?P<use>^(?P<indent>[ \t]*)(?P<words>(?:pub(?:\(\w+\))? )?)use (?P<used>(?:ig_\w+|crate)\b[^;]*);)"
IN_CODE = re.compile(f"{USES}|{PATHS}", re.M)
IN_TEXT = re.compile(PATHS)
NAME = r"`?(?:crates/)?ig_\w+`?"


class Rewriter:
    """Writes texts of a checkout with the new names, by the crates that it has."""

    def __init__(self, crates):
        self.crates = crates

    def code(self, text, crate):
        """A source, a file of definitions or proofs, or an edit of this crate."""
        return tidy_lines(IN_CODE.sub(lambda found: self.replaced(found, crate), text), text)

    def document(self, text):
        """A text outside of crates."""
        return joined_names(IN_TEXT.sub(lambda found: self.replaced(found, None), text), text)

    def replaced(self, found, crate):
        """What stands for a path or a word."""
        if found.groupdict().get("use"):
            return self.use(found, crate)
        if found["antt"]:
            return self.antt(found)
        if found["file"]:
            return self.file(found, crate)
        if found["path"]:
            return self.path(found, crate)
        return new_name(found["word"])

    def antt(self, found):
        """The name of a module of definitions or proofs."""
        crate, kind, first = found["antt_crate"], found["kind"], found["first"]
        old, path = self.crates.get(crate), [first]
        if old and kind == "specs":
            path = [old.new_specs.get(first, first)]
        elif old:
            path = old.proof_path(first) if kind == "proofs" else old.declared_path(first)
        return ".".join(["Rattle", new_name(crate), kind, *path])

    def file(self, found, crate):
        """The path of a file, with its crate or without."""
        named, path = found["file_crate"], found["file_path"]
        old = self.crates.get(named) if named else crate
        if old:
            path = old.new_file(path)
        return (found["file_crates"] or "") + (new_name(named) + "/" if named else "") + path

    def path(self, found, crate):
        """A path of code."""
        named, first, second = found["path_crate"], found["path_first"], found["path_second"]
        words = [first] + ([second] if second else [])
        old = crate if named == "crate" else self.crates.get(named)
        if old is None:
            return found["path"]
        if first == "specs":
            words[1] = old.new_specs.get(second, second)
        own = crate is not None and new_name(crate.name) == new_name(old.name)
        if own and first != "specs":
            return "::".join(self.own_path(old, words, named == "crate"))
        return "::".join(["crate" if own else new_name(old.name), *words])

    def own_path(self, old, words, is_inside):
        """A path that leads to a part of the same new crate, from its root on."""
        first = words[0]
        if first in old.root.items and old.root_module:
            return ["crate", old.root_module, *words]
        if first in old.modules and (is_inside or first not in old.handed):
            return ["crate", old.module(first), *words[1:]]
        if is_inside or first not in old.handed:
            return ["crate", *words]
        path = old.handed[first]
        other = self.crates.get(path[0])
        if other is None:
            return ["crate", old.module(path[0]), *path[1:], *words[1:]]
        if new_name(other.name) == new_name(old.name):
            return self.own_path(other, [*path[1:], *words[1:]], False)
        return [new_name(other.name), *path[1:], *words[1:]]

    def use(self, found, crate):
        """A `use` item; it keeps its form where its paths do."""
        changed, same_form = [], True
        for path, alias in leaves(found["used"]):
            old = crate if path[0] == "crate" else self.crates.get(path[0])
            new = path
            if old is not None and crate is not None and new_name(old.name) == new_name(crate.name):
                new = self.own_path(old, path[1:], path[0] == "crate")
                if new[-1] != path[-1]:
                    alias = alias or path[-1]
            elif old is not None or path[0] != "crate":
                new = [new_name(path[0]), *path[1:]]
            same_form = same_form and new[1:] == path[1:]
            changed.append((new, alias))
        if same_form and len({path[0] for path, _ in changed}) == 1:
            return re.sub(r"use (?:ig_\w+|crate)\b", lambda _: f"use {changed[0][0][0]}", found["use"], count=1)
        return listed_uses(changed, found["words"], found["indent"])


def tidy_lines(text, before):
    """Lines that grew past the width: an import of definitions in two, a comment filled anew."""
    lines = text.split("\n")
    if all(len(line) <= WIDTH for line in lines):
        return text
    old = set(before.split("\n"))
    out, k = [], 0
    while k < len(lines):
        line, last = lines[k], k + 1
        ghost = re.fullmatch(r"(\s*ghost use [^{]*\.)\{([^}]*)\};", line)
        comment = re.match(r"(\s*//[/!]?) \S", line)
        part = [line]
        if len(line) > WIDTH and ghost and line not in old:
            part = split_import(ghost[1], [each.strip() for each in ghost[2].split(",")])
        elif comment:
            last = max(last, end_of_comment(lines, k, comment[1]))
            part = lines[k:last]
            if any(len(each) > WIDTH and each not in old for each in part):
                part = filled(comment[1], part)
        out += part
        k = last
    return "\n".join(out)


def end_of_comment(lines, k, mark):
    """The number of the line after a paragraph of a comment that begins with line k."""
    while k < len(lines) and re.match(re.escape(mark) + r" (?![-*#|]|```)\S", lines[k]):
        k += 1
    return k


def split_import(before, names):
    """An import of definitions, in as many lines as it takes."""
    lines, some = [], []
    for name in names:
        if some and len(f"{before}{{{', '.join(some + [name])}}};") > WIDTH:
            lines.append(f"{before}{{{', '.join(some)}}};")
            some = []
        some.append(name)
    return lines + [f"{before}{{{', '.join(some)}}};"]


def filled(mark, lines):
    """A paragraph of a comment, in lines that are as full as they may be."""
    words = " ".join(line[len(mark):].strip() for line in lines).split(" ")
    out, line = [], mark
    for word in words:
        if len(line) + 1 + len(word) > WIDTH and line != mark:
            out.append(line)
            line = mark
        line += " " + word
    return out + [line]


def joined_names(text, before):
    """Each name once, where a list of names has two that are one now."""
    kept, list_of_names = set(before.split("\n")), rf"{NAME}(?:(?:, and |, | and | or ){NAME})+"
    return "\n".join(line if line in kept else re.sub(list_of_names, named_once, line) for line in text.split("\n"))


def named_once(found):
    """A list of names, each of them once."""
    names = re.split(r"(, and |, | and | or )", found[0])
    out = {}
    for k in range(0, len(names), 2):
        out.setdefault(names[k], names[k - 1] if k else "")
    if len(out) * 2 - 1 == len(names):
        return found[0]
    (first, _), *others = out.items()
    if len(others) == 1:
        mark = names[-2] if "and" in names[-2] else others[0][1]
        return first + mark.replace(", and ", " and ") + others[0][0]
    return first + "".join(mark + name for name, mark in others)
