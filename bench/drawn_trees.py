"""Drawn specifications, for the scripts that time plans and that compare their memory with a plain search, and for a test.

python3 drawn_trees.py wide FOLDER COUNT    trees of 32 operations over 6 to 24 indexes, every fourth dense, one for each seed
python3 drawn_trees.py small FOLDER COUNT   trees of up to 7 operations, each with a file of its least memory, which is
                                            found by trying all fusions
python3 drawn_trees.py cuts COUNT           the rows of crates/tests_job/src/job/pieces.rt: formulas of a few operations, each
                                            with a limit of memory, and the pieces that it is cut into, which are found by
                                            trying all fusions of each piece and all sets of cuts

A drawn text has the same tree for the same seed on every machine.
"""

import itertools
import os
import random
import sys

EXTENTS = [2, 3, 5, 7]
TENSORS = 31
RANK = 8


class Retry(Exception):
    """The drawn tree breaks a limit."""


class Draw:
    """One tree: its tensors, and its nodes as (loops, dims, operands), where an operand is a node's number or None."""

    def __init__(self, rng, indexes, both, sums, loops):
        self.rng = rng
        self.names = list(range(indexes))
        self.ranges = [rng.randrange(len(EXTENTS)) for _ in self.names]
        self.both, self.sums, self.loops = both, sums, loops
        self.tensors, self.nodes = [], []

    def leaf(self, dims):
        if len(dims) > RANK:
            raise Retry
        order = sorted(dims)
        self.rng.shuffle(order)
        self.tensors.append(order)
        return f"T{len(self.tensors) - 1}[{','.join(f'i{i}' for i in order)}]", None

    def node(self, loops, dims, operands):
        self.nodes.append((frozenset(loops), frozenset(dims), operands))
        return len(self.nodes) - 1

    def tree(self, dims, operations):
        if operations == 0:
            return self.leaf(dims)
        spare = [i for i in self.names if i not in dims]
        room = min(self.loops - len(dims), len(spare))
        if operations == 1:
            room = min(room, RANK - len(dims))
        if room > 0 and self.rng.random() < self.sums:
            summed = self.rng.sample(spare, self.rng.randint(1, min(3, room)))
            text, operand = self.tree(dims | set(summed), operations - 1)
            number = self.node(dims | set(summed), dims, [operand])
            return f"sum{{{','.join(f'i{i}' for i in summed)}}}({text})", number
        left_count = self.rng.randint(0, operations - 1)
        left_dims, right_dims = self.split(dims)
        left_text, left = self.tree(left_dims, left_count)
        right_text, right = self.tree(right_dims, operations - 1 - left_count)
        return f"({left_text} * {right_text})", self.node(dims, dims, [left, right])

    def split(self, dims):
        left, right = set(), set()
        for index in sorted(dims):
            drawn = self.rng.random()
            if drawn < (1 + self.both) / 2:
                left.add(index)
            if drawn < self.both or drawn >= (1 + self.both) / 2:
                right.add(index)
        return left, right

    def text(self, operations):
        root = set(self.rng.sample(self.names, self.rng.randint(1, min(7, len(self.names)))))
        formula, _ = self.tree(root, operations)
        if len(self.tensors) > TENSORS:
            raise Retry
        ranges = lambda dims: ",".join(f"R{self.ranges[i]}" for i in dims)
        lines = [f"range R{k} {extent}" for k, extent in enumerate(EXTENTS)]
        lines += [f"index R{self.ranges[i]} i{i}" for i in self.names]
        lines += [f"tensor T{k}[{ranges(dims)}]" for k, dims in enumerate(self.tensors)]
        lines += [f"tensor S[{ranges(sorted(root))}]"]
        lines += [f"S[{','.join(f'i{i}' for i in sorted(root))}] = {formula}"]
        return "\n".join(lines) + "\n"


def drawn(seed, operations, indexes, both, sums, loops):
    rng = random.Random(seed)
    while True:
        draw = Draw(rng, indexes, both, sums, loops)
        try:
            return draw, draw.text(operations)
        except Retry:
            continue


def wide(seed):
    if seed % 4 == 0:
        return drawn(seed, 32, 10, 0.75, 0.25, 10)
    indexes = [6, 8, 10, 12, 14, 16, 18, 20, 24][seed % 9]
    return drawn(seed, 32, indexes, [0.3, 0.5, 0.7][seed % 3], [0.25, 0.35, 0.45][seed // 3 % 3], 10)


def small(seed):
    operations = 1 + seed % 7
    return drawn(seed, operations, 3 if operations > 5 else 4, 0.6, 0.35, 4)


def scope(nodes, parents, fused, index, start):
    """The nodes to which every edge of the path from a node fuses the index."""
    seen, waiting = {start}, [start]
    while waiting:
        at = waiting.pop()
        near = [operand for operand in nodes[at][2] if operand is not None and index in fused[operand]]
        if parents[at] is not None and index in fused[at]:
            near.append(parents[at])
        for other in near:
            if other not in seen:
                seen.add(other)
                waiting.append(other)
    return seen


def is_legal(nodes, parents, fused):
    """Whether any two scopes are disjoint or one contains the other: at each node, of each two of its loops."""
    for number, (loops, _, _) in enumerate(nodes):
        scopes = [scope(nodes, parents, fused, index, number) for index in loops]
        for one, other in itertools.combinations(scopes, 2):
            if not (one <= other or other <= one):
                return False
    return True


def least_memory(draw):
    """The least memory of all legal fusions, each of which is tried unless it takes no less than one that was found."""
    nodes = draw.nodes
    parents = [None] * len(nodes)
    for number, (_, _, operands) in enumerate(nodes):
        for operand in operands:
            if operand is not None:
                parents[operand] = number
    choices = [sorted(sizes(draw, dims), key=lambda choice: choice[0]) for _, dims, _ in nodes[:-1]]
    best = [sum(choice[-1][0] for choice in choices) + 1]
    fused = [frozenset()] * len(nodes)

    def go(number, taken):
        if taken + len(choices) - number >= best[0]:
            return
        if number == len(choices):
            if is_legal(nodes, parents, fused):
                best[0] = taken
            return
        for size, chosen in choices[number]:
            fused[number] = chosen
            go(number + 1, taken + size)
        fused[number] = frozenset()

    go(0, 0)
    return best[0]


def sizes(draw, dims):
    for count in range(len(dims) + 1):
        for chosen in itertools.combinations(sorted(dims), count):
            size = 1
            for index in dims - set(chosen):
                size *= EXTENTS[draw.ranges[index]]
            yield size, frozenset(chosen)


class Formula:
    """A formula over these tensors that computes a matrix over the first two indexes."""

    indexes = "ijkl"
    ranges = [0, 1, 2, 3]
    tensors = {"A": "ik", "B": "jl", "D": "kl", "F": "ij", "G": "jk", "P": "k", "Q": "l"}

    def __init__(self, rng):
        self.rng = rng
        while True:
            self.nodes, self.reads = [], []
            self.text, dims, _ = self.draw(rng.randint(2, 5))
            if dims == {0, 1}:
                break

    def draw(self, operations):
        if operations == 0:
            name = self.rng.choice(sorted(self.tensors))
            of = self.tensors[name]
            return f"{name}[{','.join(of)}]", {self.indexes.index(it) for it in of}, name
        if self.rng.random() < 0.5:
            text, dims, operand = self.draw(operations - 1)
            summed = sorted(i for i in dims if i >= 2 and self.rng.random() < 0.8)
            if summed:
                inner = text if isinstance(operand, str) else text[1:-1]
                return self.node(f"(sum{{{','.join(self.indexes[i] for i in summed)}}}({inner}))", dims, dims - set(summed), [operand])
            operations -= 1
        else:
            count = self.rng.randint(0, operations - 1)
            text, dims, operand = self.draw(count)
            operations -= 1 + count
        other_text, other_dims, other = self.draw(max(operations, 0))
        both = dims | other_dims
        return self.node(f"({text} {self.rng.choice('**+-')} {other_text})", both, both, [operand, other])

    def node(self, text, loops, dims, operands):
        self.nodes.append((frozenset(loops), frozenset(dims), [None if isinstance(it, str) else it for it in operands]))
        self.reads.append([it for it in operands if isinstance(it, str)])
        return text, dims, len(self.nodes) - 1

    def piece(self, root, cut):
        """The nodes of a piece, and the cut nodes below it."""
        inside, edge, waiting = [root], [], [root]
        while waiting:
            for operand in self.nodes[waiting.pop()][2]:
                if operand is not None:
                    (edge if operand in cut else inside).append(operand)
                    if operand not in cut:
                        waiting.append(operand)
        return sorted(inside), sorted(edge)

    def roots(self, cut):
        return [v for v in range(len(self.nodes)) if v in cut or v + 1 == len(self.nodes)]

    def least(self, root, cut, known):
        inside, _ = self.piece(root, cut - {root})
        if tuple(inside) not in known:
            part = type("Part", (), {})()
            part.ranges = self.ranges
            number = {v: k for k, v in enumerate(inside)}
            part.nodes = [(loops, dims, [number.get(it) for it in operands]) for loops, dims, operands in (self.nodes[v] for v in inside)]
            known[tuple(inside)] = least_memory(part)
        return known[tuple(inside)]

    def elements(self, dims):
        size = 1
        for index in dims:
            size *= EXTENTS[self.ranges[index]]
        return size

    def tiles(self, root, cut):
        """The elements of all arrays of a piece, over tiles of one element."""
        inside, edge = self.piece(root, cut - {root})
        read = {name for v in inside for name in self.reads[v]}
        arrays = [{self.indexes.index(it) for it in self.tensors[name]} for name in read] + [self.nodes[v][1] for v in [*edge, root]]
        return sum(self.elements(dims) for dims in arrays)

    def cuts(self, limit, known):
        """The cuts for a limit; of all sets of cuts some meet it only where these do, and none of these is idle."""
        meets = lambda cut: all(self.least(r, cut, known) <= limit for r in self.roots(cut))
        last = len(self.nodes) - 1
        cut = frozenset(range(last))
        for v in range(last):
            if v in cut:
                root = next(r for r in self.roots(cut - {v}) if v in self.piece(r, cut - {v, r})[0])
                if self.least(root, cut - {v}, known) <= limit:
                    cut = cut - {v}
        sets = [frozenset(it) for n in range(last + 1) for it in itertools.combinations(range(last), n)]
        assert meets(cut) == any(meets(it) for it in sets) and not any(meets(cut - {v}) for v in cut)
        return cut


def cut_rows(count):
    for seed in range(count):
        rng = random.Random(seed)
        while True:
            formula, known = Formula(rng), {}
            whole = formula.least(len(formula.nodes) - 1, frozenset(), known)
            if whole > 0 or seed % 10 == 0:
                break
        limit = rng.randint(0, whole)
        cut = formula.cuts(limit, known)
        pieces = [f"piece {v} memory {formula.least(v, cut, known)} tiles {formula.tiles(v, cut)}" for v in formula.roots(cut)]
        print(f"R[i,j] = {formula.text[1:-1]};{limit};{'/'.join(pieces)}")


def main():
    if sys.argv[1] == "cuts":
        cut_rows(int(sys.argv[2]))
        return
    kind, folder, count = sys.argv[1], sys.argv[2], int(sys.argv[3])
    os.makedirs(folder, exist_ok=True)
    for seed in range(count):
        draw, text = wide(seed) if kind == "wide" else small(seed)
        with open(f"{folder}/{seed:03}.tce", "w") as out:
            out.write(text)
        if kind == "small":
            with open(f"{folder}/{seed:03}.least", "w") as out:
                out.write(f"memory {least_memory(draw)}\n")


if __name__ == "__main__":
    main()
