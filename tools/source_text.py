"""A text with its lines: where a place stands, and how it is shown with a mark below it."""

import bisect
import os
import sys
import unicodedata

MOST_SHOWN = 96  # characters of a line that are shown round a mark
LEAST_BEFORE = 32  # of these, how many stand before the mark


class Source:
    """A text under a name. Places are numbers of characters before it; lines and columns count from 1.

    A tab moves to the next column that is 1 plus a multiple of `tabs`."""

    def __init__(self, name, text, tabs=1):
        self.name, self.text, self.tabs = name, text, tabs
        self.starts = [0] + [k + 1 for k, char in enumerate(text) if char == "\n"]

    def place(self, at):
        """The line and the column of a place."""
        line = bisect.bisect_right(self.starts, at)
        return line, column_behind(self.text[self.starts[line - 1] : at], self.tabs)

    def at(self, line, column):
        """The place in this line and column."""
        at, here = self.starts[line - 1], 1
        while here < column and at < len(self.text):
            here = next_column(self.text[at], here, self.tabs)
            at += 1
        return at

    def line_of(self, at):
        """The number of the line of a place."""
        return bisect.bisect_right(self.starts, at)

    def line(self, number):
        """The text of a line, without its end."""
        begin = self.starts[number - 1]
        end = self.text.find("\n", begin)
        return self.text[begin:] if end < 0 else self.text[begin:end]

    def named(self, at):
        """The place as editors read it, each character as one column: `NAME:LINE:COLUMN`."""
        line = self.line_of(at)
        return f"{self.name}:{line}:{at - self.starts[line - 1] + 1}"

    def said(self, at):
        """The place in words."""
        line, column = self.place(at)
        return f"line {line}, column {column}"

    def marked(self, begin, end=None, number_width=0):
        """The line of a place, and a mark below the characters from there up to the end, as two lines."""
        line = self.line_of(begin)
        text, left = shortened(self.line(line), begin - self.starts[line - 1])
        column = begin - self.starts[line - 1] + 1 - left
        length = 1 if end is None else max(1, min(end - begin, len(text) - column + 1))
        label = str(line).rjust(number_width)
        before = "".join("\t" if char == "\t" else " " * width(char) for char in text[: column - 1])
        mark = "^" * max(1, sum(width(char) for char in text[column - 1 : column - 1 + length]))
        return [f"  {label} | {visible(text)}".rstrip(), f"  {' ' * len(label)} | {before}{mark}"]


def next_column(char, column, tabs):
    """The column behind a character that stands in this one."""
    return (column - 1) // tabs * tabs + tabs + 1 if char == "\t" else column + 1


def column_behind(text, tabs):
    """The column behind a text that begins a line."""
    if tabs == 1 or "\t" not in text:
        return len(text) + 1
    column = 1
    for char in text:
        column = next_column(char, column, tabs)
    return column


def shortened(line, column):
    """A line cut to what can be shown round a column, and how many characters are gone before it (less the dots)."""
    if len(line) <= MOST_SHOWN:
        return line, 0
    begin = max(0, min(column - LEAST_BEFORE, len(line) - MOST_SHOWN))
    end = min(len(line), begin + MOST_SHOWN)
    head, tail = "..." if begin else "", "..." if end < len(line) else ""
    return head + line[begin:end] + tail, begin - len(head)


def width(char):
    """How many columns of a terminal a character takes."""
    if unicodedata.combining(char):
        return 0
    return 2 if unicodedata.east_asian_width(char) in "WF" else 1


def visible(line):
    """A line whose control characters but tabs are shown as a mark of their own."""
    return "".join(char if char == "\t" or char.isprintable() or char == " " else "·" for char in line)


ESCAPES = {"\n": "\\n", "\r": "\\r", "\t": "\\t", "\\": "\\\\", '"': '\\"'}


def quoted(text, most=40):
    """A text as a literal of a grammar; a long one is cut in its middle."""
    if len(text) > most:
        text = text[: most - 12] + " ... " + text[-7:]
    return '"' + "".join(ESCAPES.get(char, char) for char in text) + '"'


def char_name(char):
    """A character in words: itself where it is seen, else its number and name."""
    if char in " \n\t\r":
        return {" ": "a blank", "\n": "the end of the line", "\t": "a tab", "\r": "a carriage return"}[char]
    name = unicodedata.name(char, "")
    if char.isascii() and char.isprintable():
        return quoted(char) if char != '"' else "a double quote"
    return f"{char if char.isprintable() else ''} U+{ord(char):04X} {name}".strip()


def listed(parts, last="and"):
    """Parts in words: `a, b and c`."""
    parts = list(parts)
    if len(parts) < 2:
        return "".join(parts)
    return f"{', '.join(parts[:-1])} {last} {parts[-1]}"


ORDINALS = ("first", "second", "third", "fourth", "fifth", "sixth", "seventh", "eighth", "ninth", "tenth")


def ordinal(number):
    """A number from 1 as an order: `first`, .., `11th`."""
    if number <= len(ORDINALS):
        return ORDINALS[number - 1]
    ending = {1: "st", 2: "nd", 3: "rd"}.get(number % 10, "th") if number % 100 not in (11, 12, 13) else "th"
    return f"{number}{ending}"


def say(*lines):
    """Prints lines; where nobody reads on, as behind `| head`, the rest is dropped."""
    try:
        print("\n".join(lines))
        sys.stdout.flush()
    except BrokenPipeError:
        os.dup2(os.open(os.devnull, os.O_WRONLY), sys.stdout.fileno())
