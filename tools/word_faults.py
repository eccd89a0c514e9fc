"""What is wrong with the words of a command, and with files and inputs, in words: statuses 2, 4, 6 to 10 and 126."""

import difflib
import os
import re

from source_text import Source, listed, ordinal

BUDGET = ("budget", 1, 4_000_000, "1,000,000")
OPTIONS = {
    "budget": BUDGET,
    "count": ("count", 1, 100_000, "20"),
    "depth": ("depth", 0, 1_000_000, "no bound"),
    "turn": ("turn", 1, 1_000_000, "1,000"),
}
CHOICES = {
    "what": ("question", ("ambiguous", "cyclic", "spans", "report")),
    "order": ("order", ("fifo", "lifo", "lowest", "plain")),
    "notation": ("notation", ("own", "w3c")),
}
CHOICES_OF_BATCH = {"order": ("order of jobs that take turns", ("fifo", "lifo", "lowest"))}
COMMANDS = {
    "check": (("G",), ("notation",)),
    "show": (("G",), ("notation",)),
    "core": (("G",), ("notation",)),
    "analyse": (("G",), ("notation",)),
    "forest": (("G", "I"), ("notation", "budget", "order")),
    "trees": (("G", "I"), ("notation", "budget", "order", "depth", "count", "after")),
    "query": (("G", "I"), ("notation", "budget", "order", "what", "name")),
    "load": (("SIZE", "NUMBER"), ("budget", "order")),
    "batch": (("LIST",), ("budget", "order", "turn")),
    "verify": (("G", "I", "F"), ("notation",)),
}
MOST_SIZE, MOST_NUMBER = 4000, (1 << 64) - 1
PLACES = {"G": "a grammar", "I": "an input", "F": "a forest", "LIST": "a list of jobs", "SIZE": "a number of operands",
          "NUMBER": "a number that decides which"}


def said_number(number):
    return f"{number:,}"


def explain_words(words):
    """Why the words are no command: lines, the first of which names the word."""
    if not words:
        return ["No command is named. The commands are " + listed(COMMANDS) + "."]
    name = words[0]
    if name not in COMMANDS:
        return unknown_command(name)
    places, options = COMMANDS[name]
    found, settings, fault = parts_of(words[1:])
    if fault:
        return [fault]
    for option, value in settings:
        fault = option_fault(name, option, value, options)
        if fault:
            return [fault]
    for option in options:
        if [each for each, _ in settings].count(option) > 1:
            return [f"`--{option}` stands twice."]
    return place_faults(name, found, places)


def unknown_command(name):
    near = difflib.get_close_matches(name.lower(), COMMANDS, 1, 0.5)
    lines = [f"`{name}` is no command. The commands are {listed(COMMANDS)}."]
    if name in ("-h", "--help", "help", "--version"):
        lines.append("The program has no help of its own; docs/COMMANDS.md has its commands, and each tool has `--help`.")
    elif name in ("parse", "run"):
        lines.append("`forest G I` parses the input I by the grammar G.")
    elif near:
        lines.append(f"`{near[0]}` was meant, perhaps.")
    return lines


def parts_of(words):
    """The positional words, the options with their values, and what is wrong with a word or None."""
    found, settings, rest = [], [], list(words)
    while rest:
        word = rest.pop(0)
        if word == "":
            return found, settings, "A word is empty: the name of a file has at least one character."
        if not word.startswith("-"):
            found.append(word)
        elif not word.startswith("--"):
            return found, settings, f"`{word}` begins with one `-`: options begin with two, and no file is read from `-`."
        elif word == "--":
            return found, settings, "`--` stands for nothing here: names of files can't begin with `-`; write `./-NAME`."
        else:
            name, joined, value = word[2:].partition("=")
            if not joined:
                if not rest:
                    return found, settings, f"A value is missing after `--{name}`."
                value = rest.pop(0)
            if value == "" or value.startswith("-"):
                return found, settings, f"`{value}` can't be the value of `--{name}`: a value isn't empty, and doesn't begin with `-`."
            settings.append((name, value))
    return found, settings, None


def option_fault(command, name, value, options):
    """What is wrong with an option, or None."""
    if name not in options:
        near = difflib.get_close_matches(name, options, 1, 0.6)
        known = listed(f"`--{option}`" for option in options)
        hint = f" `--{near[0]}` was meant, perhaps." if near else ""
        return f"`{command}` has no option `--{name}`; it has {known or 'none'}.{hint}"
    if name in OPTIONS:
        _, least, most, usual = OPTIONS[name]
        return number_fault(f"`--{name}`", value, least, most, usual)
    choices_of = {**CHOICES, **(CHOICES_OF_BATCH if command == "batch" else {})}
    if name in choices_of and value not in choices_of[name][1]:
        what, choices = choices_of[name]
        near = [] if value in CHOICES[name][1] else difflib.get_close_matches(value, choices, 1, 0.4)
        hint = f" `{near[0]}` was meant, perhaps." if near else ""
        return f"`{value}` is no {what}; `--{name}` has {listed(choices, 'or')}.{hint}"
    return None


def number_fault(what, value, least, most, usual=None):
    """What is wrong with a number, or None."""
    meant = f" (without it: {usual})" if usual else ""
    if not re.fullmatch("[0-9]+", value):
        return f"`{value}` is no number: {what} is a whole number from {said_number(least)} to {said_number(most)}{meant}."
    if not least <= int(value) <= most:
        return f"{what} is from {said_number(least)} to {said_number(most)}{meant}; {said_number(int(value))} is out of that."
    return None


def place_faults(command, found, places):
    """What is wrong with the positional words."""
    if len(found) < len(places):
        missing = places[len(found)]
        return [f"`{command}` wants {listed(PLACES[place] for place in places)}; {PLACES[missing]} is missing."]
    if len(found) > len(places):
        return [f"`{command}` takes {len(places)} word{'s' if len(places) > 1 else ''} besides options"
                f" ({listed(PLACES[place] for place in places)}); `{found[len(places)]}` is the {ordinal(len(places) + 1)}."]
    if command == "load":
        fault = number_fault("SIZE", found[0], 1, MOST_SIZE) or number_fault("NUMBER", found[1], 0, MOST_NUMBER)
        if fault:
            return [fault]
    return ["I see no fault in these words; docs/COMMANDS.md has the table of commands."]


def explain_unread(name):
    """Why a file can't be read, as far as one can see."""
    if os.path.isdir(name):
        return f"{name} is a folder."
    if not os.path.exists(name):
        folder = os.path.dirname(name) or "."
        if not os.path.isdir(folder):
            return f"There is no folder {folder}."
        near = difflib.get_close_matches(os.path.basename(name), os.listdir(folder), 1, 0.6)
        return f"There is no file {name}." + (f" There is {os.path.join(folder, near[0])}." if near else "")
    if not os.access(name, os.R_OK):
        return f"You may not read {name}."
    return f"{name} is there, but reading it failed."


def explain_bytes(name, data, at):
    """Where bytes are no UTF-8: lines."""
    source = Source(name, data[:at].decode("utf-8", "replace") + "�")
    place = len(source.text) - 1
    hint = "it looks like Latin-1 or Windows-1252" if 0xA0 <= data[at] else "no character has it here"
    if data[:2] in (b"\xff\xfe", b"\xfe\xff"):
        hint = "the file begins as UTF-16 does"
    return [f"{source.named(place)}: not UTF-8", *source.marked(place),
            f"Byte {at} is 0x{data[at]:02X}: {hint}. Save the file as UTF-8."]


def explain_cursor(words):
    """What is wrong with the word of `--after`: no tree has it as its cursor."""
    _, settings, _ = parts_of(words[1:])
    given = dict(settings)
    lines = [f"No tree that may be listed has the cursor `{given.get('after', '')}`."]
    if not re.fullmatch(r"only|[0-9]+(\.[0-9]+)*", given.get("after", "")):
        lines.append("A cursor is `only`, or numbers with points between them, as `trees` prints it at the begin of a line.")
    elif "depth" in given:
        lines.append(f"A tree that is higher than `--depth {given['depth']}` has none either.")
    lines.append("Copy the first word of a line that `trees` printed for the same grammar, input and depth.")
    return lines
