"""Where a budget went: how far it came, how the items grow, and which declarations have most of them."""

import math

from core_items import Items, read_core
from source_text import listed

SAMPLE = 60_000  # of how many items the declarations are counted
NEAR = 32  # how exactly the part of an input is found that a budget is enough for
MOST_BUDGET = 4_000_000


def explain_budget(run, fits, budget, source):
    """How far the input came, and where the items are: lines.

    `run(words)` gives what the program prints of the grammar or None, `fits(length, budget)` whether the items of a
    prefix are within a budget.
    """
    text, tenth = source.text, max(1, budget // 10)
    some, most = longest(fits, len(text), tenth), longest(fits, len(text), budget)
    lines = [f"{budget:,} items are enough for {said_length(source, most)}, of {len(text):,};",
             f"a tenth of them for {said_length(source, some)}."]
    if some and most > some:
        power = math.log(budget / tenth) / math.log(most / some)
        lines += growth_lines(power, budget, len(text), most)
    core_text = run(["core"])
    if core_text is not None:
        lines += count_lines(read_core(core_text), source)
    return lines


def longest(fits, length, budget):
    """The length of the longest prefix whose items are within a budget, but for a few hundredths of it."""
    low, high = 0, length
    while high - low > max(1, low // NEAR):
        middle = (low + high + 1) // 2
        if fits(middle, budget):
            low = middle
        else:
            high = middle
    return low


def said_length(source, length):
    if length == 0:
        return "no character"
    return f"about the first {length:,} character{'s' if length > 1 else ''} (to {source.said(length)})"


def growth_lines(power, budget, length, most):
    """How the items grow with the text: as this power of its length."""
    if power < 1.25:
        wanted = 1.2 * budget * (length / most) ** max(1.0, power)
        fit = f"about {int(wanted // 1000 + 1) * 1000:,} would do" if wanted <= MOST_BUDGET else "the whole input wants more than there can be"
        return [f"The items grow in step with the text: {fit} (`--budget` takes up to {MOST_BUDGET:,})."]
    kind = "faster than the text" if power < 1.7 else "as its square" if power < 2.4 else "as its cube, or faster"
    return [f"Ten times the items are enough for {10 ** (1 / power):.1f} times the text: they grow {kind}.",
            "That comes of ambiguity (see `tools/query`), and of right recursion over long inputs (see `tools/lint`)."]


def count_lines(core, source):
    """The declarations with the most items, in the first part of the text."""
    items = Items(core, source.text, SAMPLE, source.tabs)
    counts = {}
    for nonterminal, number in zip(core, items.counts):
        name = nonterminal.name.partition("#")[0]
        counts[name] = counts.get(name, 0) + number
    first = sorted((name for name in counts if name != "$root"), key=lambda name: (-counts[name], name))[:5]
    total = sum(counts.values())
    parts = [f"{name} {100 * counts[name] / total:.0f} %" for name in first if counts[name] * 50 >= total]
    return [f"Of {'all' if items.whole else 'the first'} {min(total, SAMPLE):,} items most are of {listed(parts)}."]
