"""Which bands go term by term.

Where the node that a band carries is a sum of tensors and of products of two, each with its factor, the program computes each block of
it term by term (`crates/tce_walk`: `combination.rt`, `summands.rt` and `values.rt`). These are the same conditions, and the terms come
in the same order.
"""
from __future__ import annotations

from collections.abc import Iterable, Sequence
from dataclasses import dataclass
from math import prod

from cabunlit.language import Binary, Constant, Expression, Reference, Sum, dims
from cabunlit.nest import Clear, Compute, Loop, Step, Tree
from cabunlit.reports import Node
from cabunlit.specification import Specification
from cabunlit.walking import band_of, carrier_of, is_tail, straight

MOST_TERMS, MOST_LOOPS, MOST_VOLUME = 16, 10, 2**90
# So many elements a block must have in the mean.
LEAST_ELEMENTS = 4
WORDS = 2**64


@dataclass(frozen=True)
class Term:
    """The sum of a tensor, or of a product of two, over some loops, and how often it is taken."""

    factor: int
    loops: tuple[str, ...]
    operand: int | Expression

    @property
    def place(self) -> tuple[int, int]:
        """Terms go by this: the more twos divide the factor, the earlier."""
        return (-64 if self.factor == 0 else 1 - (self.factor & -self.factor).bit_length(), self.factor)


def terms_of(spec: Specification, tree: Tree, nodes: Sequence[Node], loops: Sequence[Loop], body: Sequence[Step]) -> list[Term]:
    """The terms of a band's node in the order of a run; none where the band does not go term by term, as with operations alone."""
    if straight(body):
        return []
    carrier, names = carrier_of(body), [it.index for it in loops]
    kept = dims(tree.operations[carrier])
    if set(names) != kept or kept & set(nodes[carrier].fused) or not _is_coarse(spec, names):
        return []
    most = _Values(spec, tree, nodes, carrier).touches(body)
    terms = sorted(_summands(spec, tree, carrier, 1), key=lambda it: it.place)
    if most is None or len(terms) > MOST_TERMS or sum(3 * _blocks(spec, it.loops) for it in terms) > most:
        return []
    return terms if all(_is_term(spec, tree, names, it) for it in terms) else []


def _blocks(spec: Specification, loops: Iterable[str]) -> int:
    return prod(spec.range_of(i).tiles for i in loops)


def _volume(spec: Specification, loops: Iterable[str]) -> int:
    return prod(map(spec.extent, loops))


def _is_coarse(spec: Specification, loops: Sequence[str]) -> bool:
    return LEAST_ELEMENTS * _blocks(spec, loops) <= _volume(spec, loops) <= MOST_VOLUME


def _summands(spec: Specification, tree: Tree, operand: int | Expression, factor: int) -> list[Term]:
    """What an operand is the sum of, taken so often."""
    if not isinstance(operand, int):
        return [Term(factor, (), operand)]
    it, operands = tree.operations[operand], tree.operands[operand]
    if isinstance(it, Sum):
        over = dims(it.operand) - dims(it)
        return [Term(factor, tuple(i for i in spec.indexes if i in over), operands[0])]
    left, right = operands
    if it.kind == "product":
        if isinstance(left, Constant):
            return _summands(spec, tree, right, factor * left.value % WORDS)
        if isinstance(right, Constant):
            return _summands(spec, tree, left, factor * right.value % WORDS)
        return [Term(factor, (), operand)]
    sign = 1 if it.kind == "add" else -1
    return _summands(spec, tree, left, factor) + _summands(spec, tree, right, sign * factor % WORDS)


def tensors_of(tree: Tree, term: Term) -> list[Reference]:
    """The tensor of a term, or the two of its product; none where it is neither."""
    found: Sequence[int | Expression] = [term.operand]
    if isinstance(term.operand, int):
        it = tree.operations[term.operand]
        found = tree.operands[term.operand] if isinstance(it, Binary) and it.kind == "product" else []
    tensors = [it for it in found if isinstance(it, Reference)]
    return tensors if len(tensors) == len(found) else []


def _is_term(spec: Specification, tree: Tree, loops: Sequence[str], term: Term) -> bool:
    """Whether a term can be added up inside the loops, over others of its own."""
    tensors, all_loops = tensors_of(tree, term), [*loops, *term.loops]
    return (bool(tensors) and len(set(all_loops)) == len(all_loops) <= MOST_LOOPS and _volume(spec, all_loops) <= MOST_VOLUME
            and all(set(it.indexes) <= set(all_loops) for it in tensors))


@dataclass(frozen=True)
class _Values:
    """Whether a body leaves the values of its nodes, whatever stood in their places."""

    spec: Specification
    tree: Tree
    nodes: Sequence[Node]
    carrier: int

    def touches(self, body: Sequence[Step]) -> int | None:
        """At most so many it touches, if it leaves that of the node that carries."""
        known: set[int] = set()
        touches, steps = 0, list(body)
        while steps:
            step = steps.pop(0)
            if isinstance(step, Clear):
                loop = steps.pop(0) if steps else None
                if not isinstance(loop, Loop) or not self._adds_up(loop, step.node):
                    return None
                found, inside = band_of(loop)
                touches += 3 * _blocks(self.spec, [it.index for it in found])
                known -= {straight(inside)[0]}
                known.add(step.node)
            elif isinstance(step, Compute) and not isinstance(self.tree.operations[step.node], Sum):
                if any(isinstance(it, int) and it not in known for it in self.tree.operands[step.node]):
                    return None
                touches += 3
                known.add(step.node)
            else:
                return None
        return touches if self.carrier in known else None

    def _adds_up(self, loop: Loop, v: int) -> bool:
        """Whether loops are a tail that adds up the sum `v` of products of tensors."""
        loops, body = band_of(loop)
        inside, it = straight(body), self.tree.operations[v]
        if not is_tail(self.tree, body) or len(inside) != 2 or inside[1] != v or self.carrier in inside:
            return False
        return (all(isinstance(x, Reference) for x in self.tree.operands[inside[0]]) and dims(it) <= set(self.nodes[v].fused)
                and isinstance(it, Sum) and {one.index for one in loops} == dims(it.operand) - dims(it))
