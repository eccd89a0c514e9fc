#!/usr/bin/env python3
"""Measures the program on the languages of examples/: examples.py [OPTION ..]

    --program FILE   the program, else `iguana` of this repository
    --only A,B       these languages alone
    --runs N         the least of N runs (else 3)
    --size N         characters of an input (else 10,000)
    --largest        instead, one run on an input that nearly needs the greatest budget

The input of a language is what its folder has as a good one, repeated until it has SIZE characters (else 10,000) as the
language permits it: elements of one list, operands of one sum, definitions one after another. Prints a table in
Markdown. Items are those that are reachable: how many is found by halving, as the least budget that is enough. Seconds
are processor time of the whole command with its output to a file, and memory is its peak.
"""

import argparse
import math
import os
import subprocess
import sys
import tempfile

from beside import least, write

HERE = os.path.dirname(os.path.abspath(__file__))
EXAMPLES = os.path.join(HERE, "..", "examples")
MOST = 4_000_000
SECONDS = 120


def repeated(text, size):
    return [text] * max(1, math.ceil(size / len(text)))


def message(value, size):
    """A bencoded list of copies of the value of a message, as a message."""
    values = "l" + "".join(repeated(value.split(":", 1)[1].removesuffix(","), size)) + "e"
    return f"{len(values)}:{values},"


GROWN = {
    "json": ("good.json", lambda text, size: "[" + ",".join(repeated(text, size)) + "]"),
    "xml": ("good.xml", lambda text, size: "<list>" + "".join(repeated(text, size)) + "</list>"),
    "where": ("good.txt", lambda text, size: "".join(repeated(text, size))),
    "operators": ("good.txt", lambda text, size: " + ".join(f"({text})" for text in repeated(text, size))),
    "bencode": ("good.txt", message),
    "else": ("good.txt", lambda text, size: "".join(repeated(text, size))),
}


def reachable(words, low=0):
    """The number of reachable items: the least budget that isn't answered with status 5. It is greater than `low`."""
    high = MOST
    while high - low > 1:
        middle = (low + high) // 2
        said = subprocess.run([*words, "--budget", str(middle)], stdout=subprocess.DEVNULL, stderr=subprocess.DEVNULL, check=False)
        low, high = (middle, high) if said.returncode == 5 else (low, middle)
    return high


def command(name, options):
    return [options.program, "forest", os.path.join(EXAMPLES, name, "grammar.ig")]


def grown(name, size):
    """An input of a language, of at least so many characters."""
    file, grow = GROWN[name]
    with open(os.path.join(EXAMPLES, name, file), encoding="utf-8", newline="") as opened:
        return grow(opened.read(), size)


def items_in_forest(path):
    with open(path, encoding="utf-8") as file:
        return int(file.readline().split()[2])


HEAD = ["Characters", "Items a character", "of these in the forest", "Seconds for 10,000 characters", "twice the input: times"]


def measure(name, options, folder):
    """The cells of a line of the table."""
    words, out = command(name, options), os.path.join(folder, "out")
    texts = [grown(name, size) for size in (2 * options.size, options.size)]
    paths = [write(folder, f"{name}-{k}", text) for k, text in enumerate(texts)]
    found = [least([*words, path, "--budget", str(MOST)], out, SECONDS, options.runs) for path in paths]
    length = len(texts[1])
    for said in found:
        if isinstance(said, str):
            return [f"{length:,}", said, "", "", ""]
    seconds = [time * 10000 / len(text) for (time, _), text in zip(found, texts)]
    return [f"{length:,}", f"{reachable([*words, paths[1]]) / length:.1f}", f"{items_in_forest(out) / length:.1f}",
            f"{seconds[1]:.3f}", f"{found[0][0] / found[1][0]:.2f}"]


HEAD_LARGEST = ["Characters", "Items", "Seconds", "Memory, MB", "Bytes an item", "Forest text, MB"]


def measure_largest(name, options, folder):
    """The cells of a line of the table, for an input with nearly as many items as the greatest budget."""
    words, out = command(name, options), os.path.join(folder, "out")
    trial = grown(name, options.size)
    each = reachable([*words, write(folder, "trial", trial)]) / len(trial)
    text = grown(name, int(MOST / each * 0.98) - len(grown(name, 1)))
    path = write(folder, name, text)
    found = least([*words, path, "--budget", str(MOST)], out, SECONDS, 1)
    if isinstance(found, str):
        return [f"{len(text):,}", found, "", "", "", ""]
    items = reachable([*words, path], int(each * len(text) * 0.95))
    return [f"{len(text):,}", f"{items:,}", f"{found[0]:.1f}", f"{found[1]:.0f}", f"{found[1] * 2**20 / items:.0f}",
            f"{os.path.getsize(out) / 2**20:.0f}"]


def main():
    parser = argparse.ArgumentParser(description=__doc__.split("\n", 1)[0])
    parser.add_argument("--program", default=os.path.join(HERE, "..", "iguana"))
    parser.add_argument("--only", default=",".join(GROWN))
    parser.add_argument("--runs", type=int, default=3)
    parser.add_argument("--size", type=int, default=10000)
    parser.add_argument("--largest", action="store_true")
    options = parser.parse_args()
    options.program = os.path.abspath(options.program)
    head, cells = (HEAD_LARGEST, measure_largest) if options.largest else (HEAD, measure)
    print(f"| Example | {' | '.join(head)} |\n{'|---' * (len(head) + 1)}|")
    with tempfile.TemporaryDirectory() as folder:
        for name in options.only.split(","):
            print("| " + " | ".join([name, *cells(name, options, folder)]) + " |", flush=True)


if __name__ == "__main__":
    sys.exit(main())
