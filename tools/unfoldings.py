"""What a forest unfolds to, by its text alone: its trees up to a height, how large they are, and what leads back to itself."""

from operator import add

from forest_text import NO_NODE


class Unfolding:
    """A forest with its ways, each with the leaf that it has besides what stands below it, or none. Items and nodes are
    counted together, items first."""

    def __init__(self, forest):
        self.forest, self.first_node = forest, forest.item_count
        self.is_leaf = [word == "leaf" for word in forest.words_of_ways()]

    def ways(self, part):
        """For each way of the part all that it has below it."""
        forest, k = self.forest, part - self.first_node
        if k >= 0:
            return [(forest.complete[line],) for line in forest.lines(k)]
        befores = [() if forest.before[way] == part else (forest.before[way],) for way in forest.ways_of(part)]
        nodes = [() if forest.child[way] == NO_NODE else (self.first_node + forest.child[way],) for way in forest.ways_of(part)]
        return list(map(add, befores, nodes))

    def trees_by_height(self, most):
        """For each height from 0 to `most` how many trees of the root are no higher, and the parts of the largest of these.

        A leaf has the height 0, and a node one more than its highest child, or 1 where it has none.
        """
        forest, found = self.forest, []
        in_order = sorted(range(forest.item_count), key=lambda k: forest.item(k).dot)  # an item follows from one of a lower dot
        nodes, items = [(0, 0)] * forest.node_count, [(0, 0)] * forest.item_count
        for _ in range(most + 1):
            found.append(nodes[forest.root])
            for item in in_order:
                items[item] = self.of_item(item, items, nodes)
            nodes = [self.of_node(node, items) for node in range(forest.node_count)]
        return found

    def of_item(self, item, items, nodes):
        """How many lists of children an item has, and the parts of the largest one."""
        number = largest = 0
        for way in self.forest.ways_of(item):
            child = self.forest.child[way]
            before = items[self.forest.before[way]] if self.forest.before[way] != item else (1, 0)
            last = (1, self.is_leaf[way]) if child == NO_NODE else nodes[child]
            if before[0] and last[0]:
                number += before[0] * last[0]
                largest = max(largest, before[1] + last[1])
        return number, largest

    def of_node(self, node, items):
        """How many trees a node has, and the parts of the largest one."""
        parts = [items[self.forest.complete[line]] for line in self.forest.lines(node)]
        number = sum(part[0] for part in parts)
        return number, 1 + max(part[1] for part in parts) if number else 0

    def largest_tree(self):
        """The parts of the largest tree, where there is no cycle."""
        first = self.first_node
        sizes, stack = [None] * (first + self.forest.node_count), [first + self.forest.root]
        while stack:
            part = stack[-1]
            ways = self.ways(part)
            waiting = [inner for way in ways for inner in way if sizes[inner] is None]
            if waiting:
                stack += waiting
                continue
            stack.pop()
            leaves = [1] * len(ways) if part >= first else [self.is_leaf[way] for way in self.forest.ways_of(part)]
            sizes[part] = max(leaf + sum(sizes[inner] for inner in way) for leaf, way in zip(leaves, ways))
        return sizes[first + self.forest.root]

    def ambiguous_nodes(self):
        """The nodes with several ways: several alternatives, or several ways of an item that their children are read from."""
        return [node for node in range(self.forest.node_count)
                if len(self.forest.lines(node)) > 1 or self.has_choice(self.forest.complete[self.forest.first_line[node]])]

    def has_choice(self, item):
        """Whether an item, or one before it, has several ways."""
        while len(self.forest.ways_of(item)) == 1:
            before = self.forest.before[self.forest.first_way[item]]
            if before == item:
                return False
            item = before
        return True

    def cyclic_nodes(self):
        """The nodes that lead back to themselves, by Tarjan's strongly connected components."""
        number, low, found, path, on_path = {}, {}, set(), [], set()
        stack = [(self.first_node + self.forest.root, None)]
        while stack:
            part, inner = stack.pop()
            if inner is None:
                if part in number:
                    continue
                number[part] = low[part] = len(number)
                path.append(part)
                on_path.add(part)
                inner = [one for way in self.ways(part) for one in way]
                stack.append((part, inner))
                stack += [(one, None) for one in inner if one not in number]
                continue
            low[part] = min([low[part], *(low[one] for one in inner if one in on_path)])
            if low[part] == number[part]:
                place = path.index(part) if path[-1] != part else len(path) - 1
                group, path[place:] = path[place:], []
                on_path.difference_update(group)
                if len(group) > 1:
                    found.update(one - self.first_node for one in group if one >= self.first_node)
        return found
