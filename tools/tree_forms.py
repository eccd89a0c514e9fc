"""Writes trees, which are given as rows: as indented lists, S-expressions, JSON and pictures, and two side by side."""

import difflib
import html
import json

CELL, LINE, GAP = 7.3, 46, 14  # of a picture: the width of a character, the height of a level, what parts two boxes
MOST_IN_BOX = 24  # characters of a text in a picture
ABRIDGED = 48  # characters of a text in a list


def quoted(text, most=None):
    """A text in quotes, with escapes for what can't be seen; in the middle of a long one are dots."""
    if most is not None and len(text) > most:
        text = text[:most - most // 3 - 1] + "…" + text[len(text) - most // 3:]
    text = json.dumps(text, ensure_ascii=False)
    return "".join(char if char.isprintable() else f"\\u{ord(char):04x}" for char in text)


def line_of(row, spans=False, most=ABRIDGED):
    """What a row says: its label, its name, its text."""
    words = [f"{row.label}:"] * (row.label is not None) + [row.name] * bool(row.name)
    words += [f"{row.begin}..{row.end}"] * spans
    words += [] if row.text is None else [quoted(row.text, most)]
    return " ".join(words)


def as_list(rows, spans=False):
    return "".join(f"{'  ' * row.depth}{line_of(row, spans, None)}\n" for row in rows)


def atom(name):
    """A name as an S-expression has it: between bars where other characters than those of a name are in it."""
    plain = name.replace(".", "").replace("$", "").replace("_", "").isalnum()
    return name if plain else "|" + name.replace("\\", "\\\\").replace("|", "\\|") + "|"


def as_sexpr(rows, spans=False):
    """One line: `(NAME PART ..)` for a node, `"TEXT"` for a token; a label and a colon stand before a part."""
    out, open_parts = [], 0
    for row in rows:
        out.append(")" * (open_parts - row.depth) + " " * bool(row.depth))
        open_parts = row.depth
        out.append(f"{row.label}: " if row.label else "")
        place = f" {row.begin}..{row.end}" if spans else ""
        if row.name:
            out.append(f"({atom(row.name)}{place}" + (f" {quoted(row.text)}" if row.text is not None else ""))
            open_parts += 1
        else:
            out.append(quoted(row.text))
    return "".join(out) + ")" * open_parts + "\n"


def as_json(rows, cursor):
    """One line: the cursor and the tree, in which a node has children and all others have their text."""
    out, open_parts, last = [f'{{"cursor": {json.dumps(cursor)}, "tree": '], 0, None
    for row in rows:
        out.append("]}" * (open_parts - row.depth) + ", " * (last is not None and row.depth <= last))
        open_parts = last = row.depth
        said = {"label": row.label, "name": row.name or None, "kind": row.kind, "begin": row.begin, "end": row.end,
                "text": row.text}
        said = json.dumps({name: value for name, value in said.items() if value is not None}, ensure_ascii=False)
        if row.text is None:
            said = said[:-1] + ', "children": ['
            open_parts += 1
        out.append(said)
    return "".join(out) + "]}" * open_parts + "}\n"


STYLE = """
text { font: 12px ui-monospace, Menlo, Consolas, monospace; text-anchor: middle; fill: #1f2328 }
rect { fill: #eef3f8; stroke: #8aa0b4 } .word rect { fill: #e6f4ea; stroke: #6aa57a } .token rect { fill: none; stroke: none }
.list rect { fill: #f3eefb; stroke: #a593c8 } line { stroke: #8aa0b4 } .text { fill: #8a3b12 } .label { fill: #57606a }
@media (prefers-color-scheme: dark) {
  svg { background: #16191d } text { fill: #e6e9ec } rect { fill: #23303c; stroke: #5d7386 } line { stroke: #5d7386 }
  .word rect { fill: #1d3325; stroke: #4d7a5a } .list rect { fill: #2d2740; stroke: #75649c } .text { fill: #f0b27a }
  .label { fill: #9aa4ae }
}"""


def as_picture(rows):
    """An SVG of the tree: parents stand above their children."""
    rows = list(rows)
    parents, path = [], []
    for k, row in enumerate(rows):
        del path[row.depth:]
        parents.append(path[-1] if path else None)
        path.append(k)
    labels = [box_lines(row) for row in rows]
    own = [max(len(text) for _, text in label) * CELL + 14 for label in labels]
    below = [0.0] * len(rows)
    for k in range(len(rows) - 1, -1, -1):
        if parents[k] is not None:
            below[parents[k]] += max(own[k], below[k]) + GAP * (below[parents[k]] > 0)
    lefts, middles = place(parents, own, below)
    height = (max(row.depth for row in rows) + 1) * LINE + 24
    width = max(left + size for left, size in zip(lefts, own)) + GAP
    lines, boxes = [], []
    for k, row in enumerate(rows):
        top = row.depth * LINE + 12
        if parents[k] is not None:
            lines.append(f'<line x1="{middles[parents[k]]:.1f}" y1="{top - LINE + 32}" x2="{middles[k]:.1f}" y2="{top}"/>')
        boxes.append(box(row, labels[k], middles[k], own[k], top))
    return (f'<svg xmlns="http://www.w3.org/2000/svg" width="{width:.0f}" height="{height}" '
            f'viewBox="0 0 {width:.0f} {height}">\n<style>{STYLE}\n</style>\n' + "\n".join(lines + boxes) + "\n</svg>\n")


def place(parents, own, below):
    """For each box its left side and its middle: the children of a box stand centred below it."""
    lefts, middles, free = [], [], {}
    for k, parent in enumerate(parents):
        start = free.get(parent, GAP)
        room = max(own[k], below[k])
        free[parent] = start + room + GAP
        free[k] = start + (room - below[k]) / 2
        middles.append(start + room / 2)
        lefts.append(start + (room - own[k]) / 2)
    return lefts, middles


def box_lines(row):
    """The one or two lines of a box: pairs of a class and a text."""
    name = (f"{row.label}: " if row.label else "") + row.name
    lines = [("name", name)] * bool(name)
    return lines if row.text is None else [*lines, ("text", quoted(row.text, MOST_IN_BOX))]


def box(row, lines, middle, width, top):
    out = [f'<g class="{row.kind}"><title>{row.begin}..{row.end}</title>'
           f'<rect x="{middle - width / 2:.1f}" y="{top}" width="{width:.1f}" height="32" rx="5"/>']
    for k, (kind, text) in enumerate(lines):
        down = top + (20 if len(lines) == 1 else 13 + 14 * k)
        out.append(f'<text class="{kind}" x="{middle:.1f}" y="{down}">{html.escape(visible(text))}</text>')
    return "".join(out) + "</g>"


def visible(text):
    """A text without the characters that XML can't have."""
    return "".join(char if char.isprintable() else "\ufffd" for char in text)


def side_by_side(left, right, width):
    """Two trees by rows in two columns: `<` marks what is in the left one alone, `>` what is in the right one."""
    columns = [[("  " * row.depth + line_of(row), (row.label, row.name, row.begin, row.end)) for row in rows]
               for rows in (left, right)]
    room = min(width // 2 - 2, max(len(text) for text, _ in columns[0]))
    rest = max(20, width - room - 3)
    same = difflib.SequenceMatcher(None, *([key for _, key in column] for column in columns), autojunk=False)
    out = []
    for what, i, j, k, m in same.get_opcodes():
        if what == "equal":
            out += [(columns[0][i + n][0], " ", columns[1][k + n][0]) for n in range(j - i)]
        else:
            out += [(text, "<", "") for text, _ in columns[0][i:j]] + [("", ">", text) for text, _ in columns[1][k:m]]
    return "".join(f"{cut(a, room):<{room}} {mark} {cut(b, rest)}".rstrip() + "\n" for a, mark, b in out)


def cut(text, room):
    return text if len(text) <= room else text[:room - 1] + "…"
