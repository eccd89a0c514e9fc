"""A checkout with the names that crates had, made one with today's: crates are renamed and joined."""

import os
import re
import shutil
import subprocess
import sys

from room_crates import crates_of, files_below, listed_uses, read, write
from room_names import CHANGES, JOINED, NEW_NAME, SENTENCES, new_name
from room_texts import Rewriter, tidy_lines

TODAY = os.path.join(os.path.dirname(os.path.abspath(__file__)), "..", "crates")
LISTS = ("specs/Lib.antt", "proofs/Lib.antt")


class Cannot(Exception):
    """Why names can't be brought over."""


# The list of crates


def dependencies(text):
    """The lines of crates.txt: each crate with what stands before the colon, and its libraries."""
    found = {}
    for line in text.split("\n"):
        head, colon, libraries = line.split("#")[0].partition(":")
        if colon:
            name, *settings = head.split()
            found[name] = (settings, libraries.split())
    return found


def new_dependencies(old):
    """The same of the new crates, in an order in which each stands after its libraries."""
    united, settings, place = {}, {}, {}
    for k, (name, (words, libraries)) in enumerate(old.items()):
        new = new_name(name)
        united.setdefault(new, set()).update(new_name(each) for each in libraries)
        settings.setdefault(new, []).extend(each for each in words if each not in settings.get(new, []))
        place[new] = k
    for new, libraries in united.items():
        libraries.discard(new)
    order, rest = [], set(place)
    while rest:
        ready = [name for name in rest if not united[name] & rest]
        if not ready:
            raise Cannot(f"these crates stand on one another: {' '.join(sorted(rest))}")
        order.append(min(ready, key=place.get))
        rest.discard(order[-1])
    known = {name: k for k, name in enumerate(order)}
    return {name: (settings[name], sorted(united[name], key=lambda each: (known.get(each, len(known)), each))) for name in order}


def crates_text(before):
    """The list of the new crates, with the comments that it had."""
    lines = [line for line in before.split("\n") if line.startswith("#")]
    for name, (settings, libraries) in new_dependencies(dependencies(before)).items():
        lines.append(" ".join([name, *settings]) + ":" + "".join(" " + each for each in libraries))
    return "\n".join(lines) + "\n"


# A joined crate


def opening(new, parts, rewriter):
    """What the root file of a joined crate opens with: what it does today, or else the docs of its parts."""
    today = os.path.join(TODAY, new, "src", "lib.rt")
    if os.path.exists(today):
        return [line for line in read(today).split("\n") if line.startswith("//!")]
    docs = []
    for part in sorted(parts, key=lambda part: part.name != new):  # its own name first
        if part.root.docs:
            docs += (["//!"] if docs else []) + rewriter.code("\n".join(part.root.docs), part).split("\n")
    return docs


def root_text(new, parts, rewriter):
    """The root file of a joined crate."""
    modules, uses = [], []
    for part in parts:
        modules += [(part.module(name), before, attribute) for name, before, attribute in part.root.modules]
        if part.root.rest and part.root_module:
            modules.append((part.root_module, "", None))
            uses += [([part.root_module, item], None) for item in part.root.items]
        for name, path in part.handed.items():
            is_crate = path[0] in rewriter.crates
            if not is_crate or new_name(path[0]) != new:
                first = new_name(path[0]) if is_crate else part.module(path[0])
                uses.append(([first, *path[1:]], name))
    lines = opening(new, parts, rewriter) + ["#![tactic(auto)]", ""]
    for name, before, attribute in sorted(modules):
        lines += ([attribute] if attribute else []) + [f"{before}mod {name};"]
    return tidy_lines("\n".join([*lines, "", listed_uses(uses, "pub ")]) + "\n", "")


def root_module_text(part):
    """The module that gets what stood in a root file."""
    return "\n".join(part.root.docs[:1]) + "\n\n" + part.root.rest + "\n"


def renamed_list(text, renames):
    """A list of files of definitions or proofs, with their new names."""
    return re.sub(r"\bmod (\w+)", lambda found: f"mod {renames.get(found[1], found[1])}", text)


def lists_of_files(parts):
    """The lists of a joined crate, each of those of its parts."""
    for kind in LISTS:
        text = ""
        for part in parts:
            if kind in part.files:
                renames = part.new_specs if kind == LISTS[0] else part.new_proofs
                text += renamed_list(read(os.path.join(part.folder, kind)), renames)
        if text.strip():
            yield kind, text


def edit_text(text, part, rewriter):
    """An edit that must fail."""
    lines = []
    for line in text.split("\n"):
        key, mark, value = line.partition(": ")
        if key == "file":
            value = part.new_file(value)
        elif key in ("old", "new"):
            space = value[: len(value) - len(value.lstrip(" "))]
            value = space + rewriter.code(value[len(space):], part).replace("\n", " ")
        lines.append(key + mark + value)
    return "\n".join(lines)


def file_text(path, part, rewriter):
    """The text of a file of a crate, or its bytes where nothing in it is renamed."""
    at = os.path.join(part.folder, path)
    if path == part.root_file and part.root_module:
        return rewriter.code(root_module_text(part), part)
    if path.endswith((".rt", ".antt")):
        return rewriter.code(read(at), part)
    if path.endswith(".edit"):
        return edit_text(read(at), part, rewriter)
    with open(at, "rb") as file:
        return file.read()


def new_crate(new, parts, rewriter):
    """The files of a new crate, by their paths in it."""
    files, of = {}, {}
    if len(parts) > 1:
        files["src/lib.rt"] = root_text(new, parts, rewriter)
        files.update(lists_of_files(parts))
    for part in parts:
        for path in part.files:
            is_made = path in LISTS or path == part.root_file and not part.root_module
            if len(parts) > 1 and is_made:
                continue
            to = part.new_file(path)
            if to in of:
                raise Cannot(f"{new} would have {to} twice, of {of[to]} and {part.name}: name it in tools/room_names.py")
            of[to] = part.name
            files[to] = file_text(path, part, rewriter)
            if f"{new}/{to}" in SENTENCES:
                files[to] = files[to].replace(*SENTENCES[f"{new}/{to}"])
    return files


# A checkout


def lay_out(top):
    """Gives the files of crates their layout, where `rattle` is there."""
    rattle = os.environ.get("RATTLE") or shutil.which("rattle")
    if not rattle:
        print("rooms: there is no rattle, so files aren't laid out", file=sys.stderr)
        return
    folder = os.path.join(top, "crates")
    files = [os.path.join(folder, each) for each in files_below(folder) if each.endswith((".rt", ".antt"))]
    for k in range(0, len(files), 200):
        ran = subprocess.run([rattle, "fmt", "--write", *files[k : k + 200]], capture_output=True, text=True, check=False)
        if ran.returncode:
            raise Cannot(f"rattle fmt: {ran.stdout}{ran.stderr}")


def is_text(path):
    """Whether a file has UTF-8."""
    try:
        read(path)
    except UnicodeDecodeError:
        return False
    return True


def grouped(crates):
    """The new crates of a checkout, each with its parts, lowest first."""
    groups = {new: [crates[each] for each in parts if each in crates] for new, parts in JOINED.items()}
    groups = {new: parts for new, parts in groups.items() if parts}
    groups.update({new_name(name): [crate] for name, crate in crates.items() if name not in CHANGES})
    return groups


def rewrite_checkout(top):
    """Renames and joins the crates of a checkout in place, and renames them in its documents."""
    crates = crates_of(top)
    if not any(name in NEW_NAME and new_name(name) != name for name in crates):
        raise Cannot("the base has today's names")
    rewriter = Rewriter(crates)
    made = {new: new_crate(new, parts, rewriter) for new, parts in grouped(crates).items()}
    for path in files_below(top):
        at = os.path.join(top, path)
        if not path.startswith("crates/") and is_text(at):
            text = read(at)
            after = crates_text(text) if path == "crates.txt" else rewriter.document(text)
            if after != text:
                write(at, after)  # the file keeps its mode
    shutil.rmtree(os.path.join(top, "crates"))
    for new, files in made.items():
        for path, text in files.items():
            write(os.path.join(top, "crates", new, path), text)
    lay_out(top)
