"""A crate of a checkout: its modules, what its root file hands out, its files of definitions and proofs."""

import os
import re

from room_names import CHANGES, JOINED, new_name

ITEM = r"^(?:pub(?:\(\w+\))? )?(?:const )?(?:fn|struct|enum|trait|type|const|static) (\w+)"


def read(path):
    """The text of a file, with its line ends."""
    with open(path, encoding="utf-8", newline="") as file:
        return file.read()


def write(path, text):
    """Writes a text, or bytes, into a file, and makes its folder."""
    os.makedirs(os.path.dirname(path) or ".", exist_ok=True)
    with open(path, "wb") as file:
        file.write(text if isinstance(text, bytes) else text.encode("utf-8"))


def files_below(folder):
    """The files of a folder as paths from it, without what `rt` and `git` keep there."""
    for here, folders, names in os.walk(folder):
        folders[:] = sorted(each for each in folders if each not in ("out", ".git", "__pycache__") and not os.path.islink(os.path.join(here, each)))
        for name in sorted(names):
            yield os.path.relpath(os.path.join(here, name), folder)


def crates_of(top):
    """The crates of a checkout, by their names."""
    folder = os.path.join(top, "crates")
    names = [name for name in sorted(os.listdir(folder)) if os.path.isdir(os.path.join(folder, name, "src"))]
    return {name: Crate(os.path.join(folder, name), name) for name in names}


class Root:
    """A root file in its parts: docs, modules with what stands before each, `pub use` items, and the rest."""

    def __init__(self, text):
        self.docs, self.modules, self.uses, rest = [], [], [], []
        lines = iter(text.split("\n"))
        attribute = None
        for line in lines:
            module = re.fullmatch(r"((?:pub(?:\(\w+\))? )?)mod (\w+);", line)
            if line.startswith("//!"):
                self.docs.append(line)
            elif line == "#[cfg(test)]":
                attribute = line
            elif module:
                self.modules.append((module[2], module[1], attribute))
                attribute = None
            elif line.startswith("pub use "):
                while not line.rstrip().endswith(";"):
                    line += "\n" + next(lines)
                self.uses.append(line)
            elif not line.startswith("#!["):
                rest.append(line)
        self.rest = "\n".join(rest).strip("\n")
        self.items = set(re.findall(ITEM, self.rest, re.M))


class Crate:
    """A crate as it stands under its old name, and where its parts go."""

    def __init__(self, folder, name):
        self.name, self.folder = name, folder
        self.files = list(files_below(folder))
        self.root_file = next((each for each in ("src/lib.rt", "src/main.rt") if each in self.files), None)
        self.root = Root(read(os.path.join(folder, self.root_file)) if self.root_file else "")
        below = [each[len("src/"):] for each in self.files if each.startswith("src/") and each != self.root_file]
        self.modules = {each.split("/")[0].removesuffix(".rt") for each in below} | {each[0] for each in self.root.modules}
        self.specs, self.proofs = self.definitions("specs"), self.definitions("proofs")
        self.handed = {}
        for use in self.root.uses:
            for path, alias in leaves(re.sub(r"^pub use |;$", "", use.strip())):
                self.handed[alias or path[-1]] = path
        change = CHANGES.get(name, {})
        self.new_modules, self.new_specs, self.new_proofs = (change.get(each, {}) for each in ("mods", "specs", "proofs"))
        self.root_module = change.get("root")

    def definitions(self, kind):
        """The files of `specs` or of `proofs`, without the list of them."""
        return {each[len(kind) + 1:-len(".antt")] for each in self.files if re.fullmatch(rf"{kind}/\w+\.antt", each)} - {"Lib"}

    def is_joined(self):
        """Whether it is one of several parts of a crate."""
        return len(JOINED.get(new_name(self.name), {})) > 1

    def module(self, name):
        """The name that a module has now."""
        return self.new_modules.get(name, name)

    def new_file(self, path):
        """Where a file of this crate goes in its new one."""
        kind, *parts = path.split("/")
        if kind in ("specs", "proofs") and len(parts) == 1:
            renamed = self.new_specs if kind == "specs" else self.new_proofs
            name = parts[0].removesuffix(".antt")
            return f"{kind}/{renamed.get(name, name)}.antt"
        if kind == "proofs":
            return "/".join([kind, *self.proof_path(parts[0]), *parts[1:]])
        if kind == "src" and path != self.root_file:
            return "/".join([kind, self.module(parts[0].removesuffix(".rt")) + (".rt" if len(parts) == 1 else ""), *parts[1:]])
        if path == self.root_file and self.root_module:
            return f"src/{self.root_module}.rt"
        return path

    def proof_path(self, first):
        """The path below `proofs` of what stands under this name: a file, a module, or a function of the root file."""
        if first in self.proofs:
            return [self.new_proofs.get(first, first)]
        return self.declared_path(first)

    def declared_path(self, first):
        """The path of a module, or of what stands in the root file."""
        if first in self.modules or not self.root_module:
            return [self.module(first)]
        return [self.root_module, first]


def leaves(text):
    """The paths of a `use`: each as its words, with the name that it is given."""
    text = text.strip()
    at = text.find("{")
    if at < 0:
        path, _, alias = (each.strip() for each in text.partition(" as "))
        return [(path.split("::"), alias or None)]
    before = [each for each in text[:at].split("::") if each.strip()]
    depth, parts = 0, [""]
    for char in text[at + 1 : text.rindex("}")]:
        depth += (char == "{") - (char == "}")
        if char == "," and depth == 0:
            parts.append("")
        else:
            parts[-1] += char
    return [(before + path, alias) for part in parts if part.strip() for path, alias in leaves(part)]


def listed_uses(paths, words, indent=""):
    """`use` items of these paths, one for each module."""
    groups = {}
    for path, alias in paths:
        groups.setdefault(tuple(path[:-1]), set()).add(path[-1] + (f" as {alias}" if alias and alias != path[-1] else ""))
    lines = []
    for before in sorted(groups):
        names = sorted(groups[before])
        inside = () if names == ["self"] else (names[0] if len(names) == 1 else "{" + ", ".join(names) + "}",)
        lines.append(f"{indent}{words}use {'::'.join((*before, *inside))};")
    return "\n".join(lines)
