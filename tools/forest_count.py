"""Counts the trees of a forest, without unfolding them."""

from itertools import chain, compress, repeat
from math import inf
from operator import add, eq, gt, mul, sub

from forest_columns import pick_at

NOTHING = -1  # stands for what a way lacks of two parts, behind all parts: it has one tree


def is_ambiguous(forest):
    """Whether there is a choice anywhere."""
    return forest.has_choices


def count_trees(forest):
    """The number of trees of the root; None where a part leads back to itself, so that there is no end of them.

    A node has the trees of its alternatives together. An item has, for each of its ways, those of the item before
    times those of the node that it took.
    """
    cyclic = may_lead_back(forest)
    if not cyclic and not is_ambiguous(forest):
        return 1
    starts, left, right = ways_of_parts(forest)
    root = forest.item_count + forest.root
    trees = [*([None] * (forest.item_count + forest.node_count) if cyclic else trees_without_choice(forest)), 1]
    entered, stack = set(), [root]
    while stack:
        part = stack[-1]
        if trees[part] is not None:
            stack.pop()
            continue
        ways = slice(starts[part], starts[part + 1])
        below = left[ways] + right[ways]
        found = list(map(trees.__getitem__, below))
        if None not in found:
            trees[part] = sum(map(mul, found, found[len(found) // 2 :]))
        elif part in entered:
            return None
        else:
            entered.add(part)
            stack += [inner for inner in below if trees[inner] is None]
    return trees[root]


def ways_of_parts(forest):
    """Items and then nodes are parts, numbered on: where the ways of each begin, and of all ways the two parts they have."""
    left, right = forest.before + forest.complete, [NOTHING] * (len(forest.before) + len(forest.complete))
    for way in forest.begun():
        left[way] = NOTHING
    for way, node in zip(forest.takers, forest.taken):
        right[way] = forest.item_count + node
    return [*forest.first_way[:-1], *map(add, forest.first_line, repeat(len(forest.before)))], left, right


def may_lead_back(forest):
    """Whether names let a node lead back to itself: then each one that it goes by took a node with its own span."""
    below, above = {}, {}
    for one, other in same_spans(forest):
        below.setdefault(one, []).append(other)
        above[other] = above.get(other, 0) + 1
    waiting = [one for one in below if one not in above]
    while waiting:  # those to which nothing leads are taken away
        for other in below.pop(waiting.pop(), ()):
            above[other] -= 1
            if not above[other]:
                waiting.append(other)
    return bool(below)


def same_spans(forest):
    """Pairs of names of nodes: those of each node and of one with the same span that it took, and maybe further ones.

    All else that the node took is empty. So each key of items is asked whether one of them took a node behind nothing,
    and whether one took nothing.
    """
    keys, of_takers = forest.for_ways(forest.item_keys), pick_at(forest.takers)
    is_first = map(eq, of_takers(forest.middles), of_takers(forest.for_ways(forest.item_begins)))
    taken = {}
    for key, node in set(compress(zip(of_takers(keys), pick_at(forest.taken)(forest.node_keys)), is_first)):
        taken.setdefault(key, []).append(forest.node_names[node])
    took_nothing = set(compress(keys, map(eq, forest.middles, forest.for_ways(forest.item_ends))))
    pairs = set()
    for last in set(pick_at(forest.complete)(forest.item_keys)):
        key, name = last, forest.item_names[last][:2]
        pairs.update((name, other) for other in taken.get(key, ()))
        while key in took_nothing and key != forest.keys_before[key]:
            key = forest.keys_before[key]
            pairs.update((name, other) for other in taken.get(key, ()))
    return pairs


def trees_without_choice(forest):
    """For each item and then each node how many trees it has where no choice lies within its span: one; else None."""
    spans = [*zip(forest.item_begins, forest.item_ends), *zip(forest.node_begins, forest.node_ends)]
    numbers = chain(*(map(sub, starts[1:], starts) for starts in (forest.first_way, forest.first_line)))
    first_end = {}  # of the choices that begin at a place or behind it, the first end
    for begin, end in compress(spans, map(gt, numbers, repeat(1))):
        first_end[begin] = min(end, first_end.get(begin, inf))
    end = inf
    for begin in sorted(set(forest.item_begins), reverse=True):
        end = first_end[begin] = min(end, first_end.get(begin, inf))
    return [None if first_end[begin] <= end else 1 for begin, end in spans]
