"""Other parsers on the files of corpora.py, whatever of them is installed.

Marpa and Bison get the grammar of JSON by the same productions and read bytes. The others are deterministic parsers of
one language each, and stop after parsing: `json`, `ast` and `expat` of Python, `xmllint` (libxml2-utils), `javac`
(default-jdk-headless), `ocamlc` (ocaml), `haskell-src-exts` (ghc, libghc-src-exts-dev).
"""

import os
import shutil
import subprocess
import sys

import emit
from beside import works
from workloads import RFC_JSON

DRIVERS = os.path.join(os.path.dirname(os.path.abspath(__file__)), "drivers")
BY_PYTHON = {
    "json": "json.loads(text)",
    "ast": "ast.parse(text)",
    "xml.parsers.expat": "xml.parsers.expat.ParserCreate().Parse(text, True)",
}


def write(folder, name, text):
    path = os.path.join(folder, name)
    with open(path, "w", encoding="utf-8") as file:
        file.write(text)
    return path


# Each gives the words of a command before the names of files, or None where it isn't installed. It ends with status 0
# where all files are permitted.


def marpa(folder):
    if works(["perl", "-MMarpa::R2", "-e1"]):
        return ["perl", os.path.join(DRIVERS, "marpa.pl"), write(folder, "json.marpa", emit.marpa(RFC_JSON))]
    return None


def bison(folder):
    if not (works(["bison", "--version"]) and works(["gcc", "--version"])):
        return None
    grammar, built = write(folder, "grammar.y", emit.bison(RFC_JSON)), os.path.join(folder, "bison")
    subprocess.run(["bison", "-Wno-all", "-o", os.path.join(folder, "grammar.c"), grammar], check=True)
    subprocess.run(["gcc", "-O2", "-w", f"-I{folder}", f"-I{DRIVERS}", os.path.join(DRIVERS, "bison_main.c"), "-o", built], check=True)
    return [built]


def haskell(folder):
    built = os.path.join(folder, "haskell")
    words = ["ghc", "-v0", "-O", "-outputdir", folder, "-o", built, os.path.join(DRIVERS, "Haskell.hs")]
    return [built] if works(words) else None


def by_python(module):
    def make(_):
        return [sys.executable, "-c", f"import sys, {module}\nfor name in sys.argv[1:]:\n    text = open(name, 'rb').read()\n"
                f"    {BY_PYTHON[module]}"]

    return make


def installed(*words):
    return lambda _: list(words) if shutil.which(words[0]) else None


JAVAC = installed("javac", "-proc:none", "-XDshould-stop.ifNoError=PARSE", "-XDshould-stop.ifError=PARSE")
XML = (("expat", by_python("xml.parsers.expat")), ("xmllint", installed("xmllint", "--noout", "--nonet", "--huge")))

# For each language the ending of its files, and parsers with what makes their commands.
PEERS = {
    "JSON": (".json", (("Marpa, same grammar", marpa), ("Bison, same grammar", bison), ("json of Python", by_python("json")))),
    "Haskell": (".hs", (("haskell-src-exts", haskell),)),
    "OCaml": (".ml", (("ocamlc", installed("ocamlc", "-stop-after", "parsing")),)),
    "Java": (".java", (("javac", JAVAC),)),
    "Python": (".py", (("ast of Python", by_python("ast")),)),
    "XML": (".xml", XML),
}


def rows_of_peers(language, files, run, folder):
    """The lines of a table: how long the other parsers of a language take, with their start taken off."""
    ending, peers = PEERS.get(language, ("", ()))
    names = [write(folder, f"file{number}{ending}", found.text) for number, found in enumerate(files)]
    millions = sum(len(found.text) for found in files) / 1e6
    for peer, make in peers:
        words = make(folder)
        if words is None:
            continue
        start, whole = run(words), run([*words, *names])
        permitted, seconds = len(names), whole.seconds - start.seconds
        if whole.status != 0:
            alone = [run([*words, name]) for name in names]
            permitted, seconds = sum(one.status == 0 for one in alone), sum(one.seconds - start.seconds for one in alone)
        yield f"| {language} | {peer} | {len(names)} | {permitted} | {seconds / millions:.2f} | {start.seconds:.2f} | {whole.megabytes:,.0f} |"
