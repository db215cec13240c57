"""Plans: the fusion that the program finds for a formula, with its loops, its costs and its reads."""
from __future__ import annotations

import os
from dataclasses import dataclass
from functools import cached_property
from math import prod

from cabunlit.errors import FormulaError, NotEnoughMemory
from cabunlit.language import dims, loops
from cabunlit.nest import Step, Tree, nest_of, nest_text
from cabunlit.program import run_text
from cabunlit.reports import Node, read_report
from cabunlit.simulate import EXACT_TOUCHES, Reads, Simulation
from cabunlit.specification import Specification

PathLike = str | os.PathLike[str]


@dataclass(frozen=True)
class Plan:
    """The report of `plan`, and what follows from it.

    Attributes
    ----------
    spec : Specification
        Of one formula.
    nodes : tuple of Node
        The operations with their loops, fused sets and sizes.
    memory : int
        The elements of all intermediates together.

    Examples
    --------
    >>> found = plan(Specification({"N": (8, 4)}, {"N": "i j"}, {"A": "N N", "V": "N"}, "V[i] = sum{j}(A[i,j])"))
    >>> print(found.describe(), end="")
    node 0 sum: 64 turns, the result
    memory: 0 elements, 0 bytes
    reads: 6 tiles, 576 bytes, each 1.5 times
    """

    spec: Specification
    nodes: tuple[Node, ...]
    memory: int

    @cached_property
    def tree(self) -> Tree:
        """The operations with their operands."""
        return Tree.of(self.spec.formula)

    @cached_property
    def nest(self) -> list[Step]:
        """The loop nest."""
        return nest_of(self.tree, self.nodes)

    def nest_text(self) -> str:
        """The loop nest as indented text."""
        return nest_text(self.tree, self.nest)

    def turns(self, node: int | None = None) -> int:
        """How many turns a node's loops make, or those of all nodes together."""
        if node is None:
            return sum(self.turns(it.number) for it in self.nodes)
        return prod(self.spec.extent(i) for i in loops(self.tree.operations[node]))

    def whole_size(self, node: int) -> int:
        """The elements of a node's values without fusion."""
        return prod(self.spec.extent(i) for i in dims(self.tree.operations[node]))

    @property
    def memory_bytes(self) -> int:
        """The bytes of all intermediates together."""
        return 8 * self.memory

    @property
    def names(self) -> tuple[str, ...]:
        """The operands and the result."""
        return (*self.spec.formula.operands(), self.spec.formula.result.tensor)

    @property
    def least_budget(self) -> int:
        """The words of three of the largest tiles."""
        return 3 * max(map(self.spec.tile_words, self.names))

    @property
    def full_budget(self) -> int:
        """The words with which every tile is held."""
        return max(3, sum(map(self.spec.tiles, self.names))) * max(map(self.spec.tile_words, self.names))

    @property
    def file_bytes(self) -> int:
        """The bytes of all array files together."""
        return sum(map(self.spec.file_bytes, self.names))

    def reads(self, budget: int | None = None, limit: int = EXACT_TOUCHES) -> Reads:
        """The tiles that a run reads.

        Parameters
        ----------
        budget : int, optional
            Words of 8 bytes for tiles; else those with which every tile is held.
        limit : int, optional
            How many touches are followed one by one.

        Returns
        -------
        Reads

        Raises
        ------
        NotEnoughMemory
            Where the budget is below three tiles, so that there is no run.
        """
        words = self.full_budget if budget is None else budget
        if words < self.least_budget:
            raise NotEnoughMemory(f"{words} words are less than three of the largest tiles take: give {self.least_budget} or more")
        return Simulation(self.spec, self.tree, self.nodes, words, limit).run()

    def with_edges(self, edges: dict[str, int]) -> Plan:
        """The same plan over other tiles, on which the fusion does not depend."""
        return Plan(self.spec.with_edges(edges), self.nodes, self.memory)

    def describe(self, budget: int | None = None) -> str:
        """Nodes with their turns and sizes, memory and reads, as lines of text."""
        lines = []
        for it in self.nodes:
            kept = "the result" if it.size is None else f"keeps {it.size} of {self.whole_size(it.number)} elements"
            lines.append(f"node {it.number} {it.kind}: {self.turns(it.number)} turns, {kept}")
        found = self.reads(budget)
        about = "" if found.exact else "about "
        lines += [f"memory: {self.memory} elements, {self.memory_bytes} bytes",
                  f"reads: {about}{found.tiles} tiles, {found.bytes} bytes, each {found.times:.1f} times"]
        return "\n".join(lines) + "\n"

    def _repr_svg_(self) -> str:
        from cabunlit.draw import fusion_graph
        return fusion_graph(self)


def plan(spec: Specification | str | PathLike, program: PathLike | None = None, seconds: float | None = None) -> Plan:
    """Has the program find a fusion with the least memory.

    Parameters
    ----------
    spec : Specification, str or path
        Of one formula: a specification, its text, or a file's name that ends in `.tce`.
    program : path, optional
        Where `tce` is.
    seconds : float, optional
        After so many the search is ended, which raises `ProgramKilled`.

    Returns
    -------
    Plan

    Raises
    ------
    FileNotFoundError
    TceError
        Where the program refuses it.

    Examples
    --------
    >>> found = plan('''range N 128 tile 32
    ... index N i j k
    ... tensor A[N,N]
    ... tensor B[N,N]
    ... tensor C[N,N]
    ... C[i,j] = sum{k}(A[i,k] * B[k,j])''')
    >>> found.memory, found.turns(), found.reads(3072).tiles
    (1, 4194304, 128)
    >>> print(found.nest_text(), end="")
    for i, j, k:
        node 0 = A[i,k] * B[k,j]
        C[i,j] += node 0
    """
    found = as_specification(spec, program)
    found.formula
    report = read_report(run_text(["plan"], found.text(), program=program, seconds=seconds))[0]
    return Plan(found, report.nodes, report.memory)


def as_specification(spec: Specification | str | PathLike, program: PathLike | None = None) -> Specification:
    """A specification, of one, of a text, or of a file's name that ends in `.tce`."""
    if isinstance(spec, Specification):
        return spec
    if not isinstance(spec, (str, os.PathLike)):
        raise FormulaError(f"{spec!r} is no formula: give a text, a file's name that ends in .tce, or a Specification")
    text = os.fspath(spec)
    if text.endswith(".tce") and "\n" not in text:
        # (what is no text is left to the program to refuse)
        with open(text, encoding="utf-8", errors="surrogateescape", newline="") as file:
            text = file.read()
    return Specification.parse(text, program)
