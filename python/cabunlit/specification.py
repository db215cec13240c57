"""Specifications: ranges, indexes, tensors and formulas, built by calls or read from a text."""
from __future__ import annotations

import operator
import os
import re
from collections.abc import Iterable, Mapping, Sequence
from dataclasses import dataclass, field, replace
from math import prod
from typing import SupportsIndex, TypeVar

from cabunlit.errors import BudgetTooSmall, CabunlitError, FormulaError
from cabunlit.language import Formula, loops, operations, parse_formula
from cabunlit.program import run_text

Names = str | Iterable[str]
Declared = TypeVar("Declared")


@dataclass(frozen=True)
class Range:
    """How many numbers an index takes, and how long tiles are along it."""

    extent: int
    edge: int = 1

    @property
    def tiles(self) -> int:
        """How many tiles there are along it."""
        return -(-self.extent // self.edge)


def _declared(names: Mapping[str, Declared], name: str) -> Declared:
    """What a name stands for."""
    if name not in names:
        raise FormulaError(f"{name} is not declared: declare it in front of the formula")
    return names[name]


def _names(names: Names) -> tuple[str, ...]:
    return tuple(names.replace(",", " ").split() if isinstance(names, str) else names)


@dataclass
class Specification:
    """Declarations, and one formula, or several for `batch`.

    Parameters
    ----------
    ranges : mapping of str to int or (int, int)
        Extents, or extents and edges of tiles.
    indexes : mapping of str to names
        The indexes of each range.
    tensors : mapping of str to names
        The ranges of each tensor's positions.
    formulas : str or sequence of str
        Texts as `C[i,j] = sum{k}(A[i,k] * B[k,j])`.

    Raises
    ------
    FormulaError
        Where a formula cannot be read. What the language refuses beside that is refused by the program: see `check`.

    Examples
    --------
    >>> spec = Specification({"N": (4, 2)}, {"N": "i j k"}, {"A": "N N", "B": "N N", "C": "N N"},
    ...                      "C[i,j] = sum{k}(A[i,k]*B[k,j])")
    >>> print(spec.text(), end="")
    range N 4 tile 2
    index N i j k
    tensor A[N,N]
    tensor B[N,N]
    tensor C[N,N]
    C[i,j] = sum{k}(A[i,k] * B[k,j])
    >>> Specification.parse(spec.text()) == spec
    True
    """

    ranges: dict[str, Range] = field(default_factory=dict)
    indexes: dict[str, str] = field(default_factory=dict)
    tensors: dict[str, tuple[str, ...]] = field(default_factory=dict)
    formulas: list[Formula] = field(default_factory=list)

    def __init__(self, ranges: Mapping[str, int | tuple[int, int] | Range] | None = None,
                 indexes: Mapping[str, Names] | None = None, tensors: Mapping[str, Names] | None = None,
                 formulas: str | Formula | Sequence[str | Formula] = ()) -> None:
        self.ranges, self.indexes, self.tensors, self.formulas = {}, {}, {}, []
        for name, of in (ranges or {}).items():
            found = of if isinstance(of, Range) else Range(*of) if isinstance(of, tuple) else Range(of)
            self.add_range(name, found.extent, found.edge)
        for name, found_names in (indexes or {}).items():
            self.add_index(name, *_names(found_names))
        for name, positions in (tensors or {}).items():
            self.add_tensor(name, *_names(positions))
        for formula in [formulas] if isinstance(formulas, (str, Formula)) else formulas:
            self.add_formula(formula)

    def add_range(self, name: str, extent: int, edge: int = 1) -> Specification:
        """Declares a range; an edge of 1 makes each element a tile of its own."""
        if not isinstance(extent, SupportsIndex) or not isinstance(edge, SupportsIndex):
            raise FormulaError(f"range {name} has the extent {extent!r} and the edge {edge!r}: give whole numbers")
        self.ranges[name] = Range(operator.index(extent), operator.index(edge))
        return self

    def add_index(self, of: str, *names: str) -> Specification:
        """Declares indexes of a range."""
        self.indexes.update(dict.fromkeys(names, of))
        return self

    def add_tensor(self, name: str, *positions: str) -> Specification:
        """Declares a tensor with the range of each position."""
        self.tensors[name] = tuple(positions)
        return self

    def add_formula(self, formula: str | Formula) -> Specification:
        """Adds a formula behind the others."""
        self.formulas.append(parse_formula(formula) if isinstance(formula, str) else formula)
        return self

    @classmethod
    def parse(cls, text: str, program: str | os.PathLike[str] | None = None) -> Specification:
        """Reads a text.

        Parameters
        ----------
        text : str
            The lines of a specification.
        program : path, optional
            Where `tce` is.

        Raises
        ------
        SpecificationError
            With the program's own line, where the text is no specification.
        """
        try:
            return _read(text)
        except (FormulaError, KeyError, ValueError) as error:
            judge(text, program)
            raise CabunlitError(f"the program accepts this text, which is not understood here: {error}") from error

    @classmethod
    def from_einsum(cls, subscripts: str, *shapes: Sequence[int], optimize: object = "greedy",
                    chunks: object = "auto", names: Sequence[str] | None = None) -> Specification:
        """The specification of an einsum with a path of `numpy.einsum_path` or opt_einsum.

        Parameters
        ----------
        subscripts : str
            As for `numpy.einsum`: implicit outputs, ellipses and upper case too.
        *shapes : sequences of int
            The shape of each operand.
        optimize : str, bool or list, optional
            As for `numpy.einsum_path`, or a path: `['einsum_path', (0, 1), ..]` or a list of tuples.
        chunks : "auto", int or mapping of labels to int
            The edges of tiles; "auto" takes edges of about 64 that divide the extents well.
        names : sequence of str, optional
            The operands' names; else `X0`, `X1` and so on. The result is `Y`.

        Examples
        --------
        >>> print(Specification.from_einsum("aB,Bc", (2, 3), (3, 4), chunks=2).text(), end="")
        range N0 2 tile 2
        range N1 3 tile 2
        range N2 4 tile 2
        index N0 a
        index N1 B
        index N2 c
        tensor X0[N0,N1]
        tensor X1[N1,N2]
        tensor Y[N0,N2]
        Y[a,c] = sum{B}(X0[a,B] * X1[B,c])
        """
        from cabunlit.contraction import Contraction
        return Contraction.of(subscripts, shapes, optimize).specification(chunks, names)

    def text(self) -> str:
        """The canonical text, with one formula a line."""
        lines = [f"range {name} {it.extent}" + (f" tile {it.edge}" if it.edge != 1 else "")
                 for name, it in self.ranges.items()]
        last = None
        for name, of in self.indexes.items():
            if of == last:
                lines[-1] += f" {name}"
            else:
                lines.append(f"index {of} {name}")
            last = of
        lines += [f"tensor {name}[{','.join(of)}]" for name, of in self.tensors.items()]
        return "\n".join([*lines, *(it.text() for it in self.formulas), ""])

    def check(self, program: str | os.PathLike[str] | None = None) -> Specification:
        """Lets the program read the text, and returns the specification.

        Raises
        ------
        SpecificationError
            With the program's own line.
        """
        judge(self.text(), program)
        return self

    @property
    def formula(self) -> Formula:
        """The formula, where there is one alone."""
        if len(self.formulas) != 1:
            count = f"there are {len(self.formulas)}: use batch" if self.formulas else "there is none"
            raise FormulaError(f"one formula is wanted here, and {count}")
        return self.formulas[0]

    def extent(self, index: str) -> int:
        """The extent of an index's range."""
        return self.range_of(index).extent

    def range_of(self, index: str) -> Range:
        """The range of an index."""
        return _declared(self.ranges, _declared(self.indexes, index))

    def shape(self, tensor: str) -> tuple[int, ...]:
        """The extents of a tensor's positions."""
        return tuple(it.extent for it in self._ranges_of(tensor))

    def chunks(self, tensor: str) -> tuple[int, ...]:
        """The edges of a tensor's tiles."""
        return tuple(it.edge for it in self._ranges_of(tensor))

    def _ranges_of(self, tensor: str) -> list[Range]:
        return [_declared(self.ranges, it) for it in _declared(self.tensors, tensor)]

    def tile_words(self, tensor: str) -> int:
        """The words of a tensor's tile."""
        return prod(self.chunks(tensor))

    def tiles(self, tensor: str) -> int:
        """How many tiles a tensor has."""
        return prod(it.tiles for it in self._ranges_of(tensor))

    def file_bytes(self, tensor: str) -> int:
        """The length of a tensor's array file in bytes."""
        return 16 + 16 * len(self.tensors[tensor]) + 8 * self.tiles(tensor) * self.tile_words(tensor)

    def inputs(self) -> tuple[str, ...]:
        """The operands that are no earlier result, by first use."""
        found: dict[str, None] = {}
        made: set[str] = set()
        for it in self.formulas:
            found.update(dict.fromkeys(name for name in it.operands() if name not in made))
            made.add(it.result.tensor)
        return tuple(found)

    def results(self) -> tuple[str, ...]:
        """The results, each once, in order."""
        return tuple(dict.fromkeys(it.result.tensor for it in self.formulas))

    def alone(self, number: int) -> Specification:
        """The specification of one formula, counted from 0, with what it needs of the declarations."""
        formula = self.formulas[number]
        tensors = {*formula.operands(), formula.result.tensor}
        used = set(formula.result.indexes) | {i for it in operations(formula.expression) for i in loops(it)}
        kept = {name: of for name, of in self.tensors.items() if name in tensors}
        ranges = {of for positions in kept.values() for of in positions} | {_declared(self.indexes, i) for i in used}
        made = Specification()
        made.ranges = {name: it for name, it in self.ranges.items() if name in ranges}
        made.indexes = {name: of for name, of in self.indexes.items() if name in used}
        made.tensors, made.formulas = kept, [formula]
        return made

    def with_edges(self, edges: Mapping[str, int]) -> Specification:
        """The same with other edges of ranges."""
        if any(it < 1 for it in edges.values()):
            raise FormulaError(f"{dict(edges)} are no edges of at least 1")
        made = Specification()
        made.ranges = {name: replace(it, edge=edges.get(name, it.edge)) for name, it in self.ranges.items()}
        made.indexes, made.tensors = dict(self.indexes), dict(self.tensors)
        made.formulas = list(self.formulas)
        return made


def _read(text: str) -> Specification:
    """A specification of a text that is one."""
    spec = Specification()
    for line in text.split("\n"):
        line = line.removesuffix("\r").split("#")[0].strip(" \t")
        words = line.split()
        if not words:
            continue
        if "=" in line:
            spec.add_formula(line)
        elif spec.formulas:
            raise ValueError(f"a declaration stands behind a formula: {line}")
        elif words[0] in ("range", "index", "tensor") and _is_known(spec, words):
            raise ValueError(f"declared twice: {line}")
        elif words[0] == "range" and len(words) in (3, 5):
            spec.add_range(words[1], int(words[2]), int(words[4]) if len(words) == 5 else 1)
        elif words[0] == "index" and len(words) > 2:
            spec.add_index(words[1], *words[2:])
        elif found := re.fullmatch(r"tensor\s+(\w+)\s*\[([\w\s,]*)\]", line):
            spec.add_tensor(found[1], *_names(found[2]))
        else:
            raise ValueError(f"no line of a specification: {line}")
    for formula in spec.formulas:
        for name in (*formula.operands(), formula.result.tensor):
            spec.shape(name)
        for it in operations(formula.expression):
            for index in loops(it):
                spec.range_of(index)
    if not spec.formulas:
        raise ValueError("there is no formula")
    return spec


def _is_known(spec: Specification, words: list[str]) -> bool:
    """Whether a line declares what is declared."""
    if words[0] == "range":
        return len(words) > 1 and words[1] in spec.ranges
    if words[0] == "index":
        return len(set(words[2:])) < len(words[2:]) or any(it in spec.indexes for it in words[2:])
    return re.split(r"[\s\[]", " ".join(words[1:]))[0] in spec.tensors


def judge(text: str, program: str | os.PathLike[str] | None = None) -> None:
    """Lets the program read a text, without searching a fusion.

    Raises
    ------
    SpecificationError
        With the program's own line.
    """
    several = sum("=" in line.split("#")[0] for line in text.splitlines()) > 1
    try:
        run_text(["batch" if several else "run", "0"], text, program=program)
    except BudgetTooSmall:
        pass
