"""The orders in which the loops of a run go.

The program lets loops of one scope of a fusion change places where its reads cost less by that, by a model of its own
(`crates/tce_job`: `ordering.rt`, `reads.rt` and `references.rt`). This is the same model with the same search, so that both take the
same orders.
"""
from __future__ import annotations

from collections.abc import Sequence
from dataclasses import replace
from itertools import combinations, count
from math import prod

from cabunlit.language import Reference, Sum, dims
from cabunlit.nest import Tree
from cabunlit.reports import Node
from cabunlit.specification import Specification

ROUNDS = 4
# Orders whose reads cost less by less than this part are not taken, and a read costs as much as so many words more.
PART, CALL = 16, 256
MOST = 2**64 - 1

Orders = list[tuple[str, ...]]


class _Touched:
    """What the loops so far touch through a reference: tiles that are different, and those that are read."""

    __slots__ = ("number", "leaf", "indexes", "cost", "tiles", "reads", "stays")

    def __init__(self, number: int, leaf: int, indexes: frozenset[str], cost: int) -> None:
        self.number, self.leaf, self.indexes, self.cost = number, leaf, indexes, cost
        self.tiles = self.reads = 1
        self.stays = True


class _Loops:
    """What stands in the loops of one node so far."""

    def __init__(self, frames: int, touched: list[_Touched]) -> None:
        self.frames, self.touched, self.is_over = frames, touched, False

    def join(self, other: _Loops) -> None:
        """What stood in the loops of another node stands in these from here on."""
        self.touched = sorted([*self.touched, *other.touched], key=lambda it: it.number)
        self.is_over |= other.is_over

    def settle(self) -> None:
        """The same tiles count once."""
        found: list[_Touched] = []
        for it in self.touched:
            if not any(it.leaf == other.leaf and it.tiles == other.tiles for other in found):
                found.append(it)
        self.touched = found
        self._look()
        if self.is_over:
            for it in found:
                it.stays &= not it.indexes

    def turn(self, turns: int, index: str | None) -> None:
        """Goes through a loop; one over the elements of a block has no index."""
        for it in self.touched:
            if index in it.indexes:
                it.tiles = min(MOST, it.tiles * turns)
                it.reads = min(MOST, it.reads * turns)
            elif not it.stays:
                it.reads = min(MOST, it.reads * turns)
        self._look()
        if self.is_over and turns > 1:
            for it in self.touched:
                it.stays &= index not in it.indexes

    def _look(self) -> None:
        self.is_over |= sum(it.tiles for it in self.touched) > self.frames


class Model:
    """What the reads of a run cost, by the orders of its loops.

    Loops that stand directly in one another go block by block. They are gone through from the innermost ones outwards, with what
    all operations inside touch: as long as that is held, each tile is read once, and after that only the tiles stay that each
    further turn touches again.

    Parameters
    ----------
    spec : Specification
        Of one formula.
    tree : Tree
    nodes : sequence of Node
        Those of a plan.
    frames : int
        How many tiles are held.
    """

    def __init__(self, spec: Specification, tree: Tree, nodes: Sequence[Node], frames: int) -> None:
        self.frames = frames
        indexes = {i for it in nodes for i in it.loops}
        self.tiles = {i: spec.range_of(i).tiles for i in indexes}
        self.elements = {i: spec.range_of(i).edge for i in indexes}
        self.joints = [len(it.fused) for it in nodes]
        number, tensors, names = count(), list(spec.tensors), list(spec.indexes)

        def leaf_of(it: Reference, moves: int) -> tuple[int, int, frozenset[str], int]:
            """A reference, its tensor and the indexes at its positions as one number, as the program has it."""
            leaf = tensors.index(it.tensor) + 1
            for i in it.indexes:
                leaf = (32 * leaf + names.index(i) + 1) % 2**64
            return next(number), leaf, frozenset(it.indexes), min(MOST, moves * self._cost_of(it))

        self.leaves = [[leaf_of(it, 1) for it in tree.operands[v] if isinstance(it, Reference)] for v in range(len(nodes))]
        # (a tile of the result is read and written)
        self.leaves[-1].append(leaf_of(tree.formula.result, 2))
        holders = _holders(tree, self.joints)
        self.rows = [not isinstance(it, Sum) and bool(dims(it) - set(node.fused)) for it, node in zip(tree.operations, nodes)]
        self.held: list[dict[int, list[int]]] = [{} for _ in nodes]
        for v, holder in enumerate(holders):
            if holder is not None:
                self.held[holder].setdefault(self.joints[v], []).append(v)
                self.rows[holder] |= self.rows[v]

    def cost(self, orders: Orders) -> int:
        """What all reads cost where the nodes' loops go in these orders."""
        found: list[_Loops] = []
        for v, order in enumerate(orders):
            found.append(_Loops(self.frames, [_Touched(*it) for it in self.leaves[v]]))
            self._go_through(v, order, found)
        return min(MOST, sum(it.cost * it.reads for it in found[-1].touched))

    def _cost_of(self, leaf: Reference) -> int:
        return min(MOST, prod(self.elements[i] for i in leaf.indexes) + CALL)

    def _go_through(self, v: int, order: tuple[str, ...], found: list[_Loops]) -> None:
        """Goes through the loops of a node that the one that uses it has not, from the innermost one on."""
        loops, joint, inner, has_rows = found[v], self.joints[v], len(order), False
        loops.settle()
        for depth in range(len(order), joint - 1, -1):
            standing = self.held[v].get(depth, [])
            if not standing and depth != joint:
                continue
            nest = order[depth:inner]
            if not has_rows:
                loops.turn(min(MOST, prod(self.elements[i] for i in nest)), None)
            for index in reversed(nest):
                if has_rows:
                    loops.turn(self.elements[index], None)
                loops.turn(self.tiles[index], index)
            inner = depth
            for u in standing:
                loops.join(found[u])
                has_rows |= self.rows[u]
            loops.settle()


def _holders(tree: Tree, joints: Sequence[int]) -> list[int | None]:
    """In whose loops the code of each node stands: the nearest above it that does not share more of its loops."""
    holders: list[int | None] = []
    for v, joint in enumerate(joints):
        holder = tree.parent(v)
        while holder is not None and joint < joints[holder]:
            holder = tree.parent(holder)
        holders.append(holder)
    return holders


def _tops(tree: Tree, nodes: Sequence[Node]) -> list[dict[str, int]]:
    """Of each node and loop the highest node of the loop's scope."""
    tops: list[dict[str, int]] = [{} for _ in nodes]
    for v in reversed(range(len(nodes))):
        parent = tree.parent(v)
        for i in nodes[v].loops:
            tops[v][i] = tops[parent][i] if parent is not None and i in nodes[v].fused else v
    return tops


def _exchanged(orders: Orders, tops: Sequence[dict[str, int]], v: int, pair: tuple[str, str]) -> Orders:
    """Both loops in each other's place, in the scope that has node `v` at the top."""
    turned = {pair[0]: pair[1], pair[1]: pair[0]}
    return [tuple(turned.get(i, i) for i in order) if tops[w].get(pair[0]) == v else order for w, order in enumerate(orders)]


def _carries(tree: Tree, nodes: Sequence[Node], orders: Orders) -> bool:
    """Whether each node begins with the loops that it shares with the one that uses it."""
    for v, order in enumerate(orders):
        parent, depth = tree.parent(v), len(nodes[v].fused)
        if set(order[:depth]) != set(nodes[v].fused) or (parent is not None and order[:depth] != orders[parent][:depth]):
            return False
    return True


def running_orders(spec: Specification, tree: Tree, nodes: Sequence[Node], frames: int) -> tuple[Node, ...]:
    """The nodes of a plan with their loops in the orders of a run.

    Parameters
    ----------
    spec : Specification
        Of one formula.
    tree : Tree
    nodes : sequence of Node
        Those of a plan.
    frames : int
        How many tiles are held.
    """
    model, tops = Model(spec, tree, nodes, frames), _tops(tree, nodes)
    best: Orders = [it.loops for it in nodes]
    before = least = model.cost(best)
    for _ in range(ROUNDS):
        known = best
        for v in range(len(nodes)):
            for outer, inner in combinations(range(len(best[v])), 2):
                i, j = best[v][outer], best[v][inner]
                if tops[v][i] != v or any((it.get(i) == v) != (it.get(j) == v) for it in tops):
                    continue
                tried = _exchanged(best, tops, v, (i, j))
                cost = model.cost(tried)
                if cost < least or (cost == least and model.tiles[i] == 1 < model.tiles[j]):
                    best, least = tried, cost
        if best is known:
            break
    if least not in (before, min(least, before - before // PART)) or not _carries(tree, nodes, best):
        return tuple(nodes)
    return tuple(replace(it, loops=order) for it, order in zip(nodes, best))
