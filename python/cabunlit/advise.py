"""Edges of tiles and a budget for a memory, by simulated reads."""
from __future__ import annotations

import os
from collections.abc import Callable, Collection, Iterator, Sequence
from dataclasses import dataclass
from math import prod

from cabunlit.contraction import even_edge
from cabunlit.errors import FormulaError, NotEnoughMemory
from cabunlit.memory import budget_of, bytes_of
from cabunlit.plan import Plan, as_specification, plan
from cabunlit.simulate import Reads
from cabunlit.specification import Range, Specification, judge

PathLike = str | os.PathLike[str]
TARGETS = (4, 8, 12, 16, 24, 32, 48, 64, 96, 128, 192, 256, 384, 512, 768, 1024, 4096, 65536)
FOLLOWED = 100_000
CLOSE = 1.25
# A read of a tile costs as much as so many bytes, and a touch of one as much as these.
READ_BYTES, TOUCH_BYTES = 4096, 64


@dataclass(frozen=True)
class Advice:
    """Edges and a budget.

    Attributes
    ----------
    spec : Specification
        With the edges.
    edges : dict of str to int
        Of each range.
    budget : int
        Words of 8 bytes, for each formula.
    plans : tuple of Plan
        Of each formula.
    reads : tuple of Reads
        Of each formula with this budget.
    """

    spec: Specification
    edges: dict[str, int]
    budget: int
    plans: tuple[Plan, ...]
    reads: tuple[Reads, ...]

    @property
    def bytes(self) -> int:
        """The bytes that are read."""
        return sum(it.bytes for it in self.reads)

    @property
    def cost(self) -> float:
        """Reads and touches, as bytes."""
        return sum(it.bytes + READ_BYTES * it.tiles + TOUCH_BYTES * it.touches for it in self.reads)

    def describe(self) -> str:
        """The edges, the budget and the reads, as a line of text."""
        edges = ", ".join(f"{name} {edge}" for name, edge in self.edges.items())
        return f"edges {edges}; budget {self.budget} words; reads {sum(it.tiles for it in self.reads)} tiles, {self.bytes} bytes"


def advise(spec: Specification | str | PathLike, memory: int | str | None = None, *, fixed: Collection[str] = (),
           program: PathLike | None = None) -> Advice:
    """Finds edges and a budget with few reads.

    Parameters
    ----------
    spec : Specification, str or path
        Of one formula or several.
    memory : int, str or None
        Bytes for the tiles and the intermediates of a formula, as for `memory.bytes_of`.
    fixed : collection of str, optional
        Ranges whose edges are to stay.
    program : path, optional
        Where `tce` is.

    Returns
    -------
    Advice

    Raises
    ------
    NotEnoughMemory
        Where no edges leave room for three tiles.
    TceError

    Examples
    --------
    >>> found = advise('''range N 1000
    ... index N i j k
    ... tensor A[N,N]
    ... tensor B[N,N]
    ... tensor C[N,N]
    ... C[i,j] = sum{k}(A[i,k] * B[k,j])''', "1 MiB")
    >>> 1 < found.edges["N"] <= 1000 and 8 * found.budget <= 2**20
    True
    """
    found = as_specification(spec, program)
    unknown = set(fixed) - set(found.ranges)
    if unknown:
        raise FormulaError(f"fixed has {sorted(map(str, unknown))}, which are no ranges")
    judge(found.text(), program)
    plans = [plan(found.alone(k), program) for k in range(len(found.formulas))]
    return advise_plans(found, plans, bytes_of(memory), fixed)


def advise_plans(spec: Specification, plans: Sequence[Plan], memory: int, fixed: Collection[str] = ()) -> Advice:
    """The advice for formulas whose plans are there."""
    free = [name for name, it in spec.ranges.items() if name not in fixed and it.extent > 1]
    limit = max(1000, FOLLOWED // len(plans))
    tried: dict[tuple[int, ...], Advice | None] = {}

    def of(edges: dict[str, int]) -> Advice | None:
        key = tuple(edges.values())
        if key not in tried:
            tried[key] = _judged(spec, plans, edges, memory, limit)
        return tried[key]

    kept = {name: it.edge for name, it in spec.ranges.items()}
    for target in TARGETS:
        of(kept | {name: edge_near(spec.ranges[name], target) for name in free})
    if not any(tried.values()):
        for target in (2, 3):
            of(kept | {name: edge_near(spec.ranges[name], target) for name in free})
    best = _best(tried.values())
    if best is None:
        largest = max(prod(2 if name in free else spec.ranges[name].edge for name in positions)
                      for positions in spec.tensors.values())
        budget_of(memory, max(it.memory for it in plans), largest)
        raise NotEnoughMemory(f"{memory} bytes are too few for three tiles of any edges")
    for _ in range(3):
        before = best
        for name in free:
            for edge in neighbours(spec.ranges[name], best.edges[name]):
                of(best.edges | {name: edge})
            best = _best(tried.values()) or best
        if best.edges == before.edges:
            break
    return best


def edge_near(of: Range, target: int) -> int:
    """An edge of about so much, never 1 where the extent is larger."""
    edge = even_edge(of.extent, min(target, of.extent))
    return max(edge, min(2, of.extent))


def neighbours(of: Range, edge: int) -> Iterator[int]:
    """Shorter and longer edges than one."""
    for factor in (1 / 4, 1 / 2, 2 / 3, 3 / 2, 2, 4):
        yield edge_near(of, max(2, round(edge * factor)))


def _judged(spec: Specification, plans: Sequence[Plan], edges: dict[str, int], memory: int,
            limit: int) -> Advice | None:
    """What edges cost, or None where tiles are too large."""
    made = spec.with_edges(edges)
    if any(made.tile_words(name) > 2**20 or made.tile_words(name) * made.tiles(name) > 2**48 for name in made.tensors):
        return None
    cut = [it.with_edges(edges) for it in plans]
    try:
        budgets = [budget_of(memory, it.memory, max(map(it.spec.tile_words, it.names))) for it in cut]
    except NotEnoughMemory:
        return None
    budgets = [min(budget, it.full_budget) for budget, it in zip(budgets, cut)]
    reads = tuple(it.reads(budget, limit) for it, budget in zip(cut, budgets))
    return Advice(made, edges, max(budgets), tuple(cut), reads)


def _best(tried: Collection[Advice | None]) -> Advice | None:
    """Among those that read about the least, the one that costs least."""
    found = [it for it in tried if it is not None]
    if not found:
        return None
    least = min(it.bytes for it in found)
    cost: Callable[[Advice], float] = lambda it: it.cost
    return min((it for it in found if it.bytes <= CLOSE * least), key=cost)
