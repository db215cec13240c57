"""How a formula is cut along an index into formulas of its pieces."""
from __future__ import annotations

import operator
from collections.abc import Sequence
from dataclasses import dataclass
from typing import Any, SupportsIndex

import numpy

from cabunlit.errors import FormulaError
from cabunlit.language import Binary, Constant, Expression, Formula, Reference, Sum, rename
from cabunlit.specification import Range, Specification
from cabunlit.tiles import Array


@dataclass(frozen=True)
class Slice:
    """A tensor of a piece: what it is a part of, and at which positions it is cut; at none it is the whole."""

    name: str
    of: str
    positions: tuple[int, ...]


@dataclass(frozen=True)
class CutFormula:
    """A formula cut along an index.

    Attributes
    ----------
    spec : Specification
        Of the whole.
    index : str
    summed : bool
        Whether the pieces' results are added, and not put side by side.
    formula : Formula
        Of each piece.
    slices : tuple of Slice
        The operands of each piece.
    other : str
        The name that the index has where another sum adds up over it; empty where none does.
    """

    spec: Specification
    index: str
    summed: bool
    formula: Formula
    slices: tuple[Slice, ...]
    other: str

    @classmethod
    def of(cls, spec: Specification, index: str) -> CutFormula:
        """Cuts a formula along an index of its result, or one over which its outermost sum adds up.

        Raises
        ------
        FormulaError
            Where the index is neither.
        """
        formula, whole = spec.formula, spec.formula.expression
        summed = index not in formula.result.indexes
        if summed and not (isinstance(whole, Sum) and index in whole.indexes):
            raise FormulaError(f"{index} is neither an index of the result nor one of the outermost sum: cut along another index")
        inside = whole.operand if summed and isinstance(whole, Sum) else whole
        other = next(f"i{k}" for k in range(100) if f"i{k}" not in spec.indexes)
        made = _Cutter(spec, index, other)
        expression = made.cut(inside)
        if summed and isinstance(whole, Sum):
            expression = Sum(whole.indexes, expression)
        return cls(spec, index, summed, Formula(formula.result, expression), tuple(made.slices), other if made.other else "")

    def bounds(self, pieces: int) -> list[tuple[int, int]]:
        """Where each piece begins and ends: whole tiles, and at the end what is left of one.

        Raises
        ------
        FormulaError
            Where there are fewer whole tiles than pieces.
        """
        of = self.spec.range_of(self.index)
        tiles = of.extent // of.edge
        if not isinstance(pieces, SupportsIndex) or not 1 <= operator.index(pieces) <= tiles:
            raise FormulaError(f"{self.index} has {tiles} whole tiles, so there are 1 to {tiles} pieces and not {pieces}: "
                               "write the arrays in shorter chunks along it")
        ends = [tiles * k // pieces * of.edge for k in range(pieces)] + [of.extent]
        return list(zip(ends, ends[1:]))

    def piece(self, start: int, stop: int) -> Specification:
        """The specification of one piece."""
        spec, made = self.spec, Specification()
        name = next(f"P{k}" for k in range(100) if f"P{k}" not in spec.ranges)
        made.ranges = {name: Range(stop - start, spec.range_of(self.index).edge), **spec.ranges}
        made.indexes = {self.index: name, **{it: of for it, of in spec.indexes.items() if it != self.index}}
        if self.other:
            made.indexes[self.other] = spec.indexes[self.index]
        for it in self.slices:
            made.tensors[it.name] = tuple(name if d in it.positions else of for d, of in enumerate(spec.tensors[it.of]))
        result = self.formula.result
        made.tensors[result.tensor] = tuple(made.indexes[it] for it in result.indexes)
        made.formulas = [self.formula]
        return made.alone(0)


class _Cutter:
    """Gives what has the index other tensors, and other sums over it another index."""

    def __init__(self, spec: Specification, index: str, other: str) -> None:
        self.index, self.other_name, self.other = index, other, False
        self.slices: list[Slice] = []
        self.taken = set(spec.tensors)

    def cut(self, it: Expression) -> Expression:
        if isinstance(it, Constant):
            return it
        if isinstance(it, Reference):
            positions = tuple(d for d, i in enumerate(it.indexes) if i == self.index)
            return Reference(self.named(it.tensor, positions), it.indexes)
        if isinstance(it, Sum):
            if self.index not in it.indexes:
                return Sum(it.indexes, self.cut(it.operand))
            self.other = True
            inner = rename(it.operand, {self.index: self.other_name})
            return Sum(tuple(self.other_name if i == self.index else i for i in it.indexes), self.cut(inner))
        return Binary(it.kind, self.cut(it.left), self.cut(it.right))

    def named(self, tensor: str, positions: tuple[int, ...]) -> str:
        """The name of a tensor that is cut at some positions: its own for the first use."""
        for it in self.slices:
            if (it.of, it.positions) == (tensor, positions):
                return it.name
        name = tensor if all(it.of != tensor for it in self.slices) else \
            next(f"T{k}" for k in range(100) if f"T{k}" not in self.taken)
        self.taken.add(name)
        self.slices.append(Slice(name, tensor, positions))
        return name


class Sliced:
    """An array from some number on along some positions, of which regions are taken."""

    def __init__(self, array: Any, positions: Sequence[int], start: int, stop: int) -> None:
        self.array, self.positions, self.start = array, tuple(positions), start
        self.shape = tuple(stop - start if d in self.positions else n for d, n in enumerate(array.shape))
        self.dtype = array.dtype

    def __getitem__(self, region: tuple[slice, ...]) -> Array:
        shifted = tuple(slice(it.start + self.start, it.stop + self.start) if d in self.positions else it
                        for d, it in enumerate(region))
        return numpy.asarray(self.array[shifted])


def sum_formulas(result: Reference, parts: Sequence[str], most: int = 16) -> list[Formula]:
    """Formulas that add arrays, so many at a time.

    Examples
    --------
    >>> [it.text() for it in sum_formulas(Reference("E", ()), ["p0", "p1", "p2"], 2)]
    ['E1[] = p0[] + p1[]', 'E[] = p2[] + E1[]']
    """
    left = list(parts)
    formulas: list[Formula] = []
    while True:
        taken, left = left[:most], left[most:]
        expression: Expression = Reference(taken[0], result.indexes)
        for name in taken[1:]:
            expression = Binary("add", expression, Reference(name, result.indexes))
        if not left:
            if len(taken) == 1:
                expression = Binary("product", Constant(1), expression)
            return [*formulas, Formula(result, expression)]
        name = f"{result.tensor[:12]}{len(formulas) + 1}"
        formulas.append(Formula(Reference(name, result.indexes), expression))
        left.append(name)
