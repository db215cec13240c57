"""Which loops of a nest run together.

The program runs a loop as a tail, as a band or turn by turn (`crates/tce_walk`: `search.rt`, `band_search.rt` and `running.rt`),
and the operations of a band's block over tiles that are held, or one after the other (`crates/tce_exec`: `body.rt`). These are the
same decisions.
"""
from __future__ import annotations

from collections.abc import Sequence
from dataclasses import dataclass

from cabunlit.language import Binary, Constant, Sum, dims
from cabunlit.nest import Clear, Compute, Loop, Step, Tree
from cabunlit.reports import Node
from cabunlit.specification import Specification

MAX_LINKS = 8


def band_of(loop: Loop) -> tuple[list[Loop], list[Step]]:
    """Loops that stand directly in one another, and what stands in the last."""
    found = [loop]
    while len(found[-1].body) == 1 and isinstance(found[-1].body[0], Loop):
        found.append(found[-1].body[0])
    return found, found[-1].body


def straight(body: Sequence[Step]) -> list[int]:
    """The nodes of a body that has operations alone; else none."""
    nodes = [it.node for it in body if isinstance(it, Compute)]
    return nodes if len(nodes) == len(body) else []


def is_tail(tree: Tree, body: Sequence[Step]) -> bool:
    """Whether a body is one operation without a constant, or a product with the sum that takes it."""
    nodes = straight(body)
    if not 1 <= len(nodes) <= 2 or any(isinstance(it, Constant) for it in tree.operands[nodes[0]]):
        return False
    first = tree.operations[nodes[0]]
    return len(nodes) == 1 or (isinstance(first, Binary) and first.kind == "product" and nodes[1] == tree.parent(nodes[0])
                               and isinstance(tree.operations[nodes[1]], Sum))


def is_held(operations: int, tiles: int, frames: int) -> bool:
    """Whether the operations of a body run over the tiles that they touch in a block, each touched once: where all of them are
    held at once, and the operations are few."""
    return operations <= MAX_LINKS and tiles <= frames


def is_band(spec: Specification, tree: Tree, nodes: Sequence[Node], loop: Loop) -> bool:
    """Whether the loops that begin with this one, directly in one another, run block by block."""
    loops, body = band_of(loop)
    is_cut = any(spec.range_of(it.index).tiles > 1 for it in loops[1:])
    if not is_cut and isinstance(body[0], Loop):
        return False
    inside = _nodes(body)
    claim = _Claim(tree, nodes, tuple(it.index for it in loops), carrier_of(body), inside)
    known = set(range(len(nodes))) - inside
    return claim.passes(body, known) and known >= set(range(len(nodes))) - {claim.carrier}


def carrier_of(body: Sequence[Step]) -> int:
    """The node that carries what the turns round a body leave: the last one that it writes."""
    return max(_nodes(body))


def _nodes(body: Sequence[Step]) -> set[int]:
    """The nodes that a body writes."""
    found: set[int] = set()
    for it in body:
        found |= _nodes(it.body) if isinstance(it, Loop) else {it.node}
    return found


@dataclass(frozen=True)
class _Claim:
    """The loops of a band, the node that carries what its turns leave, and the nodes that it writes."""

    tree: Tree
    nodes: Sequence[Node]
    loops: tuple[str, ...]
    carrier: int
    inside: set[int]

    def passes(self, body: Sequence[Step], known: set[int]) -> bool:
        """Whether turns may go in another order; the nodes that are written become known."""
        for it in body:
            if isinstance(it, Loop):
                if it.index in self.loops or not self.passes(it.body, known):
                    return False
                continue
            if not (self._may_clear(it.node) if isinstance(it, Clear) else self._may_compute(it.node, known)):
                return False
            if it.node != self.carrier:
                known.add(it.node)
        return True

    def _may_clear(self, v: int) -> bool:
        return v != self.carrier and isinstance(self.tree.operations[v], Sum)

    def _may_compute(self, v: int, known: set[int]) -> bool:
        if any(isinstance(it, int) and it not in known for it in self.tree.operands[v]):
            return False
        if isinstance(self.tree.operations[v], Sum):
            return v == self.carrier or v in known
        kept = set(dims(self.tree.operations[v])) - set(self.nodes[v].fused)
        return set(self.loops) <= kept if v == self.carrier else not kept
