"""Reads files of worked rows, each a command with what it prints, and tries them.

A file of rows has blocks of lines, parted by empty lines; lines that begin with `#` are comments. A block is one run of
a command, in a folder with a grammar in the file `g`, an input in the file `i` and the text of a forest in the file `f`:

    $ WORDS     the command; else that of the row above
    g TEXT      a line of the grammar, `i TEXT` one of the input, `f TEXT` one of the forest's text; else the last ones
    @NAME TEXT  a line of another file of that name; else the last ones
    - LINE      a line that the last text of a forest has, but not here; `+ LINE` one in its place, or else at the end
    > TEXT      a line that out gets, whole; `>` alone where out gets nothing
    ~ TEXT      a line that out has somewhere, together with the `~` lines below it
    ! TEXT      a line that notes get, whole; without one they get nothing
    = STATUS    the status, where it isn't 0
    & WORDS     a command that ends the same, and that isn't refused for its words
    % WORDS     a command that ends as the next job of a list: out has the ends of all of these, as `batch` prints them
    * TREES     how many trees the forest has: none, one, a number, or more

Lines of a text are parted by a line feed, and out and notes end with one. Behind the marks of files, `>` and `~` may stand a
plus, where the text goes on without a line feed; `*`, where a range `FIRST..LAST` follows and the text comes once for each
number of it, in place of `{}`, without line feeds; and a backslash, where the text has the escapes of Python. The text of a
file ends with a line feed where its last line is its mark alone.
"""

import os
import re
import shlex

from forest_count import count_trees
from forest_text import read_forest
from job_lists import text_of_jobs

NO_PARSE = 1
USAGE = 2
LINE = re.compile(r"([$gif>~!=*&%+-]|@\w+)([+*]?)(\\?)(?: (.*))?")
RANGE = re.compile(r"(\d+)\.\.(\d+) (.*)")


class Text:
    """A text that is given line by line, as bytes."""

    def __init__(self):
        self.data = None

    def add(self, flag, escaped, line):
        """Adds what a line says."""
        if flag == "*":
            first, last, line = RANGE.fullmatch(line).groups()
            numbers = range(int(first), int(last) + 1)
        piece = line.encode("utf-8")
        if escaped:
            piece = piece.decode("unicode_escape").encode("latin-1")
        if flag == "*":
            piece = b"".join(piece.replace(b"{}", b"%d" % number) for number in numbers)
        if self.data is None:
            self.data = piece
        else:
            self.data += piece if flag else b"\n" + piece


class Row:
    """One run of the program, and how it ends."""

    def __init__(self, place, command):
        self.place, self.command = place, command
        self.texts = {mark: Text() for mark in "gif>~!"}
        self.status, self.trees, self.same = 0, None, None
        self.forest, self.changes = None, []
        self.files, self.jobs = {}, []

    def read(self, line):
        """Takes a line of the row."""
        mark, flag, escaped, text = LINE.fullmatch(line).groups("")
        if mark == "$":
            self.command = shlex.split(text)
        elif mark == "=":
            self.status = int(text)
        elif mark == "&":
            self.same = shlex.split(text)
        elif mark == "%":
            self.jobs.append(shlex.split(text))
        elif mark == "-":
            self.changes.append((text, []))
        elif mark == "+":
            if not self.changes:
                self.changes.append((None, []))
            self.changes[-1][1].append(text)
        elif mark == "*":
            self.trees = text
            self.status = NO_PARSE if text == "none" else 0
        elif mark[0] == "@":
            self.files.setdefault(mark[1:], Text()).add(flag, escaped, text)
        else:
            self.texts[mark].add(flag, escaped, text)

    def flaws(self, run, folder):
        """What is wrong with the run: `run` runs words in a folder."""
        for name in "gi":
            if self.texts[name].data is not None:
                write(folder, name, self.texts[name].data)
        for name, text in self.files.items():
            write(folder, name, text.data)
        if self.forest is not None:
            write(folder, "f", changed(self.forest.decode("utf-8"), self.changes).encode("utf-8"))
        said = run(self.command, folder)
        if self.same:
            yield from flaws_beside(said, run(self.same, folder))
            return
        if said.returncode != self.status:
            yield f"status {said.returncode} in place of {self.status}"
        if self.trees:
            yield from self.flaws_of_trees(said)
            return
        whole, piece, notes = (self.texts[mark].data for mark in ">~!")
        if self.jobs:
            ends = [run(words, folder) for words in self.jobs]
            whole = text_of_jobs([(end.returncode, end.stdout, end.stderr) for end in ends]).removesuffix(b"\n")
        if piece is not None:
            if piece not in said.stdout:
                yield f"out has no {piece!r}"
        elif said.stdout != (whole + b"\n" if whole else b""):
            yield f"out got {said.stdout[:200]!r}"
        if said.stderr != (notes + b"\n" if notes else b""):
            yield f"notes got {said.stderr!r}"

    def flaws_of_trees(self, said):
        """What is wrong with the number of trees."""
        if self.trees == "none":
            if not said.stderr.startswith(b"no parse at ") or said.stdout:
                yield f"notes got {said.stderr!r}"
        elif said.returncode == 0:
            number = count_trees(read_forest(said.stdout))
            if not is_meant(number, self.trees):
                yield f"the forest has {'no end of' if number is None else number} trees in place of {self.trees}"


def write(folder, name, data):
    """Writes a file."""
    with open(os.path.join(folder, name), "wb") as file:
        file.write(data)


def changed(text, changes):
    """The text with other lines in place of some, or else before its last line, which is empty."""
    lines = text.split("\n")
    for old, new in changes:
        at = lines.index(old) if old is not None else len(lines) - 1
        lines[at : at + (old is not None)] = new
    return "\n".join(lines)


def is_meant(number, trees):
    """Whether a number of trees, None where there is no end of them, is what a row says of it."""
    if trees == "more":
        return number != 1
    return number == (1 if trees == "one" else int(trees))


def flaws_beside(said, other):
    """What is wrong with a run that has to end as another one does."""
    if other.returncode == USAGE:
        yield "the other command is refused for its words"
    for what in ("returncode", "stdout", "stderr"):
        if getattr(said, what) != getattr(other, what):
            yield f"another {what} than the other command: {getattr(said, what)!r:.200}"


def read_rows(path):
    """The rows of a file."""
    rows, command, row, forest = [], [], None, None
    name = os.path.basename(path)
    with open(path, encoding="utf-8") as file:
        for number, line in enumerate(file, 1):
            line = line.rstrip("\n")
            if line.startswith("#"):
                continue
            if not line:
                row = None
                continue
            if row is None:
                row = Row(f"{name}:{number}", command)
                rows.append(row)
            row.read(line)
            command = row.command
            if row.texts["f"].data is not None:
                forest = row.texts["f"].data
            row.forest = forest
    return rows
