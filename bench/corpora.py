#!/usr/bin/env python3
"""Runs the program on files that people wrote: corpora [--quick] [--program PATH] [--language NAME]..

Each language has a grammar in examples/ and files of Debian packages, which are fetched into a folder of the cache (by
apt-get, from the archives that this machine uses) and never into this repository. A file is copied as it is, under the
limits of a text. For each file `forest` and `query` are run. Prints a table in Markdown: files, lines, characters, items
of the forest a character, processor seconds and megabytes of memory a million characters, and how many files have one
tree, more, none, or more reachable items than the budget. What has none or more is listed with the note, or the first
ambiguous node. `--quick` takes the smaller files alone, for two minutes in all; `--plot FILE` draws time over size, a
point for each file. `--peers` runs other parsers on the same files, as far as they are installed, and prints a second
table: how many files each permits, its processor seconds for a million characters without its start, the seconds of its
start, and its peak memory over all files in one run.
"""

import argparse
import collections
import math
import os
import shutil
import subprocess
import sys
import tarfile
import tempfile
import time
import zipfile

from corpora_peers import rows_of_peers

HERE = os.path.dirname(os.path.dirname(os.path.abspath(__file__)))
CACHE = os.path.join(os.environ.get("XDG_CACHE_HOME", os.path.expanduser("~/.cache")), "iguana-corpora")
MOST_CHARACTERS = 1_048_576
MOST_BYTES = 4_194_304
BUDGET = 4_000_000
SECONDS = 300
QUICK_CHARACTERS = 12_000
QUICK_FILES = 12

Found = collections.namedtuple("Found", "name text")
Ran = collections.namedtuple("Ran", "status out note seconds megabytes")
Result = collections.namedtuple("Result", "name lines characters trees items seconds megabytes note")


# Fetching packages.


def quietly(words, folder):
    """Runs a command of the machine; where it fails, the script ends with what it said."""
    ran = subprocess.run(words, cwd=folder, stdout=subprocess.DEVNULL, stderr=subprocess.PIPE, text=True, errors="replace")
    if ran.returncode:
        hint = ", perhaps since `apt-get update` never ran" if words[0] == "apt-get" else ""
        sys.exit(f"corpora: {' '.join(words)} failed{hint}: {ran.stderr.strip()}")


def binary_package(name):
    """The folder with the files of a Debian package."""
    folder = os.path.join(CACHE, "packages", name)
    if not os.path.isdir(folder):
        with tempfile.TemporaryDirectory() as room:
            quietly(["apt-get", "download", name], room)
            os.makedirs(os.path.dirname(folder), exist_ok=True)
            quietly(["dpkg-deb", "-x", os.path.join(room, os.listdir(room)[0]), folder], room)
    return folder


def source_options():
    """What lets apt-get find source packages, whatever the machine's own lists are."""
    lists = os.path.join(CACHE, "lists")
    options = [f"Dir::Etc::sourcelist={CACHE}/sources.list", "Dir::Etc::sourceparts=/dev/null", f"Dir::State::lists={lists}"]
    words = [word for option in options for word in ("-o", option)]
    if not os.path.isdir(lists):
        os.makedirs(os.path.join(lists, "partial"))
        with open("/etc/os-release", encoding="utf-8") as file:
            release = dict(line.rstrip("\n").split("=", 1) for line in file if "=" in line)["VERSION_CODENAME"]
        with open(os.path.join(CACHE, "sources.list"), "w", encoding="utf-8") as file:
            print(f"deb-src http://deb.debian.org/debian {release} main", file=file)
        quietly(["apt-get", *words, "update"], CACHE)
    return words


def source_package(name):
    """The folder with the original files of a Debian source package."""
    folder = os.path.join(CACHE, "sources", name)
    if not os.path.isdir(folder):
        with tempfile.TemporaryDirectory() as room:
            quietly(["apt-get", *source_options(), "source", "--download-only", name], room)
            kept = os.path.join(room, "kept")
            for archive in os.listdir(room):
                if ".orig.tar." in archive and not archive.endswith(".asc"):
                    with tarfile.open(os.path.join(room, archive)) as packed:
                        packed.extractall(kept, filter="data")
            os.makedirs(os.path.dirname(folder), exist_ok=True)
            shutil.move(kept, folder)
    return folder


def texts(folder, ending, wanted=lambda text: True):
    """The files below the folder that end so, under the limits of a text."""
    for at, folders, names in sorted(os.walk(folder)):
        folders.sort()
        for name in sorted(names):
            path = os.path.join(at, name)
            if name.endswith(ending) and os.path.isfile(path) and os.path.getsize(path) <= MOST_BYTES:
                with open(path, "rb") as file:
                    text = file.read().decode("utf-8", "replace")
                if len(text) <= MOST_CHARACTERS and wanted(text):
                    yield Found(os.path.relpath(path, folder), text)


# The languages.


def json_files():
    return texts(os.path.join(binary_package("iso-codes"), "usr/share/iso-codes/json"), ".json")


def ocaml_files():
    return texts(os.path.join(binary_package("ocaml"), "usr/lib/ocaml"), ".ml")


def java_files():
    """The packages java.util and java.lang of the standard library, without those below them."""
    folder = os.path.join(CACHE, "java")
    if not os.path.isdir(folder):
        with zipfile.ZipFile(os.path.join(binary_package("openjdk-17-source"), "usr/lib/jvm/openjdk-17/lib/src.zip")) as packed:
            for name in packed.namelist():
                if os.path.dirname(name) in ("java.base/java/util", "java.base/java/lang") and name.endswith(".java"):
                    packed.extract(name, folder)
    return texts(folder, ".java")


HASKELL_SOURCES = ("alex", "cpphs", "happy", "haskell-hunit", "haskell-polyparse", "haskell-split", "haxml", "hscolour", "xmonad")


def haskell_files():
    """Programs and libraries that need no preprocessor."""
    for package in HASKELL_SOURCES:
        yield from texts(source_package(package), ".hs", lambda text: not text.startswith("#") and "\n#" not in text)


def python_files():
    """The modules of the standard library, without its packages."""
    for found in texts(os.path.join(binary_package("libpython3.11-stdlib"), "usr/lib/python3.11"), ".py"):
        if "/" not in found.name:
            yield found


# Packages of documents: stylesheets, catalogs, settings, keyboard layouts, and languages that an editor colours.
XML_DOCUMENTS = (
    ("docbook-xsl", "usr/share/xml/docbook/stylesheet/docbook-xsl/html", (".xml", ".xsl")),
    ("docbook-xsl", "usr/share/xml/docbook/stylesheet/docbook-xsl/manpages", (".xml", ".xsl")),
    ("docbook-xml", "usr/share/xml/docbook/schema/dtd", ".xml"),
    ("fontconfig-config", "usr/share/fontconfig/conf.avail", ".conf"),
    ("xkb-data", "usr/share/X11/xkb/rules", ".xml"),
    ("libgtksourceview-4-common", "usr/share/gtksourceview-4/language-specs", ".lang"),
)


def xml_files():
    """Whole documents, each once."""
    seen = set()
    for package, folder, endings in XML_DOCUMENTS:
        for found in texts(os.path.join(binary_package(package), folder), endings, lambda text: text not in seen):
            seen.add(found.text)
            yield Found(os.path.join(package, os.path.basename(folder), found.name), found.text)


LANGUAGES = {
    "JSON": (("examples/json/grammar.ig",), json_files),
    "Haskell": (("examples/haskell/grammar.ig",), haskell_files),
    "OCaml": (("examples/ocaml/grammar.ig",), ocaml_files),
    "Java": (("examples/java/grammar.ig",), java_files),
    "Python": (("examples/python/grammar.ig",), python_files),
    "XML": (("examples/xml10/grammar.ebnf", "--notation", "w3c"), xml_files),
    "XML by tags": (("examples/xml10/matched.ig",), xml_files),
}


# Running.


def run(words):
    """Runs a command, with its processor time and peak memory."""
    with tempfile.TemporaryFile() as out, tempfile.TemporaryFile() as notes:
        process = subprocess.Popen(words, stdout=out, stderr=notes)
        began = time.time()
        while True:
            pid, status, used = os.wait4(process.pid, os.WNOHANG)
            if pid:
                break
            if time.time() - began > SECONDS:
                process.kill()
            time.sleep(0.002)
        process.returncode = os.waitstatus_to_exitcode(status)
        out.seek(0)
        notes.seek(0)
        said = notes.read().decode("utf-8", "replace").strip()
        return Ran(process.returncode, out.read(4096), said, used.ru_utime + used.ru_stime, used.ru_maxrss / 1000)


def measure(program, grammar, found, room):
    """What the program says of one file."""
    path = os.path.join(room, "text")
    with open(path, "w", encoding="utf-8", newline="") as file:
        file.write(found.text)
    words = [*grammar[1:], os.path.join(HERE, grammar[0]), path, "--budget", str(BUDGET)]
    size = (found.text.count("\n"), len(found.text))
    forest = run([program, "forest", *words])
    if forest.status != 0:
        kind = {1: "none", 5: "budget"}.get(forest.status, "failed")
        return Result(found.name, *size, kind, 0, forest.seconds, forest.megabytes, forest.note)
    items = int(forest.out.split(b"\n", 1)[0].split()[2])
    answer = run([program, "query", *words]).out.decode("utf-8", "replace").split("\n")
    trees, note = ("one", "") if answer[0] == "ambiguous no" else ("more", answer[1] if len(answer) > 1 else "")
    return Result(found.name, *size, trees, items, forest.seconds, forest.megabytes, note)


def chosen(files, quick):
    """All files, or in a quick run some of the smaller ones, spread over their sizes."""
    files = sorted(files, key=lambda found: (len(found.text), found.name))
    if not quick:
        return files
    small = [found for found in files if len(found.text) <= QUICK_CHARACTERS]
    return small[:: max(1, math.ceil(len(small) / QUICK_FILES))]


# Telling.


def row(language, results):
    counts = collections.Counter(result.trees for result in results)
    parsed = [result for result in results if result.trees in ("one", "more")]
    lines, characters = sum(result.lines for result in results), sum(result.characters for result in results)
    millions = sum(result.characters for result in parsed) / 1e6 or 1
    large = [result for result in parsed if result.characters >= 10_000] or parsed
    memory = sum(result.megabytes for result in large) / (sum(result.characters for result in large) / 1e6 or 1)
    items = sum(result.items for result in parsed) / (millions * 1e6)
    seconds = sum(result.seconds for result in parsed) / millions
    return (
        f"| {language} | {len(results)} | {lines:,} | {characters:,} | {items:.1f} | {seconds:.1f} | {memory:,.0f} "
        f"| {counts['one']} | {counts['more']} | {counts['none']} | {counts['budget']} |"
    )


def plot(all_results, path):
    """Draws time over size, both by powers of ten: a point for each file, a colour for each language."""
    colours = ("#1f77b4", "#d62728", "#2ca02c", "#9467bd", "#ff7f0e", "#17becf", "#8c564b")
    points = [(language, result) for language, results in all_results.items() for result in results if result.trees in ("one", "more")]
    points = [(language, result.characters, max(result.seconds, 0.001)) for language, result in points if result.characters >= 100]
    left, right, low, high = 2, math.log10(MOST_CHARACTERS), -3, 2
    width, height, edge = 640, 420, 56

    def place(characters, seconds):
        x = edge + (math.log10(characters) - left) / (right - left) * (width - 2 * edge)
        y = height - edge - (math.log10(seconds) - low) / (high - low) * (height - 2 * edge)
        return f"{x:.1f}", f"{y:.1f}"

    lines = [f'<svg xmlns="http://www.w3.org/2000/svg" viewBox="0 0 {width} {height}" font-family="sans-serif" font-size="12">']
    lines.append(f'<rect width="{width}" height="{height}" fill="white"/>')
    for power in range(left, 7):
        x, y = place(10**power, 10**low)
        lines.append(f'<line x1="{x}" y1="{y}" x2="{x}" y2="{edge}" stroke="#ddd"/><text x="{x}" y="{float(y) + 18:.1f}" text-anchor="middle">{10**power:,}</text>')
    for power in range(low, high + 1):
        x, y = place(10**left, 10**power)
        lines.append(f'<line x1="{x}" y1="{y}" x2="{width - edge}" y2="{y}" stroke="#ddd"/><text x="{float(x) - 6:.1f}" y="{float(y) + 4:.1f}" text-anchor="end">{10**power:g}</text>')
    lines.append(f'<text x="{width / 2}" y="{height - 12}" text-anchor="middle">characters</text>')
    lines.append(f'<text x="14" y="{height / 2}" text-anchor="middle" transform="rotate(-90 14 {height / 2})">processor seconds</text>')
    for number, language in enumerate(all_results):
        colour = colours[number % len(colours)]
        lines.append(f'<text x="{edge + 12}" y="{edge + 6 + 16 * number}" fill="{colour}">{language}</text>')
        for x, y in (place(characters, seconds) for name, characters, seconds in points if name == language):
            lines.append(f'<circle cx="{x}" cy="{y}" r="2.5" fill="{colour}" fill-opacity="0.6"/>')
    lines.append("</svg>")
    with open(path, "w", encoding="utf-8") as file:
        print("\n".join(lines), file=file)


def main():
    parser = argparse.ArgumentParser(description="Runs the program on files that people wrote.")
    parser.add_argument("--program", default=os.path.join(HERE, "iguana"), help="the program, that of this repository by default")
    parser.add_argument("--language", action="append", choices=sorted(LANGUAGES), help="one of these alone; may be repeated")
    parser.add_argument("--quick", action="store_true", help="some of the smaller files alone")
    parser.add_argument("--peers", action="store_true", help="other parsers on the same files")
    parser.add_argument("--plot", metavar="FILE", help="an SVG of time over size")
    given = parser.parse_args()
    os.makedirs(CACHE, exist_ok=True)
    print("| | Files | Lines | Characters | Items a character | Seconds a million | MB a million | One tree | More | None | Budget |")
    print("|---|---|---|---|---|---|---|---|---|---|---|")
    all_results, others, beside = {}, [], []
    with tempfile.TemporaryDirectory() as room:
        for language in given.language or LANGUAGES:
            grammar, files = LANGUAGES[language]
            found_files = chosen(files(), given.quick)
            results = [measure(given.program, grammar, found, room) for found in found_files]
            print(row(language, results), flush=True)
            all_results[language] = results
            others += [(language, result) for result in results if result.trees != "one"]
            if given.peers:
                beside += rows_of_peers(language, found_files, run, room)
    if given.peers:
        print("\n| | Parser | Files | Permitted | Seconds a million | Start, seconds | MB |\n|---|---|---|---|---|---|---|")
        print("\n".join(beside), flush=True)
    for language, result in others:
        print(f"\n{language}: {result.name}, {result.characters:,} characters: {result.trees} {result.note}".rstrip(), end="")
    print()
    if given.plot:
        plot(all_results, given.plot)
    return 0


if __name__ == "__main__":
    sys.exit(main())
