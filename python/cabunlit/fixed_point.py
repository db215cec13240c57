"""Real numbers as scaled integers: scales, the bound that excludes an overflow, and the error of a result.

A number `x` is kept as the nearest whole number to `s * x`. In a product scales multiply; in a sum or difference both sides
must have one scale.
"""
from __future__ import annotations

import operator
import os
from collections.abc import Mapping
from dataclasses import dataclass
from fractions import Fraction
from math import ceil
from typing import Any, SupportsIndex

import numpy
import numpy.typing

from cabunlit.errors import ArrayError, FormulaError, OverflowPossible
from cabunlit.language import Constant, Expression, Reference, Sum, parse_formula, references
from cabunlit.plan import as_specification
from cabunlit.specification import Specification

LIMIT = 2**63
Floats = numpy.typing.NDArray[numpy.float64]
Words = numpy.typing.NDArray[numpy.int64]
Magnitude = int | float | Fraction | Floats


@dataclass(frozen=True)
class Scale:
    """One scale for all operands of a formula, and what follows from it.

    Attributes
    ----------
    operand : int
        What operands are multiplied by, a power of 2.
    result : int
        What the result is multiplied by.
    bound : int
        What the magnitude of a scaled element of the result may come to; below 2^63.
    error : float
        How far an element of the result, divided by its scale, is from the formula's value over the real numbers, at most.
        The rounding of that last division to a float64 comes on top.
    """

    operand: int
    result: int
    bound: int
    error: float


def magnitude_bound(formula: str | Specification, magnitudes: Mapping[str, Magnitude]) -> Fraction:
    """The largest magnitude that an element of the result may have.

    Each operand is replaced by its largest magnitude, each constant by its own as a signed number; what is added or subtracted
    is added, and a sum multiplies by its terms.

    Parameters
    ----------
    formula : str or Specification
        A specification; or a formula alone, where the magnitudes are arrays, which tell the extents.
    magnitudes : mapping of str to number or array
        The largest magnitude of each operand.

    Returns
    -------
    fractions.Fraction

    Raises
    ------
    FormulaError
        Where a magnitude is missing.

    Examples
    --------
    >>> int(magnitude_bound("E[] = sum{i}(A[i] * (B[i] - 2))", {"A": numpy.array([1, -3]), "B": numpy.array([4, 5])}))
    42
    """
    expression, extents = _expression(formula, magnitudes)
    return _bound(expression, _largest(magnitudes), extents)


def _expression(formula: str | Specification, magnitudes: Mapping[str, Any]) -> tuple[Expression, Mapping[str, int]]:
    if isinstance(formula, Specification) or "\n" in formula.strip() or formula.endswith(".tce"):
        spec = as_specification(formula)
        return spec.formula.expression, {it: spec.extent(it) for it in spec.indexes}
    found = parse_formula(formula)
    extents: dict[str, int] = {}
    for it in references(found.expression):
        shape = getattr(magnitudes.get(it.tensor), "shape", ())
        if shape and len(shape) != len(it.indexes):
            raise ArrayError(f"operand {it.tensor} has {len(shape)} dimensions, and {len(it.indexes)} indexes in the formula")
        for index, n in zip(it.indexes, shape):
            if extents.setdefault(index, n) != n:
                raise ArrayError(f"index {index} has the extent {extents[index]}, and {n} in operand {it.tensor}")
    return found.expression, extents


def _largest(magnitudes: Mapping[str, Magnitude]) -> dict[str, Fraction]:
    found = {}
    for name, it in magnitudes.items():
        if not isinstance(it, (int, float, Fraction)):
            _refuse_kind(numpy.asarray(it), f"operand {name}: ")
        largest = it if isinstance(it, (int, float, Fraction)) else max(abs(numpy.max(it).item()), abs(numpy.min(it).item()))
        if largest != largest or largest in (float("inf"), float("-inf")):
            raise ArrayError(f"operand {name} has an element that is no number")
        found[name] = abs(Fraction(largest))
    return found


def _refuse_kind(array: numpy.typing.NDArray[Any], operand: str = "") -> None:
    """Raises where elements are no real numbers, or where there are none."""
    if array.dtype.kind not in "fiub":
        raise ArrayError(f"{operand}elements are real numbers, not {array.dtype}: take the real and the imaginary parts one by one, "
                         "or astype(float)")
    if not array.size:
        raise ArrayError(f"{operand}there are no elements: a sum over none is 0")


def _shown(bound: int) -> str:
    return str(bound) if bound < 2**80 else f"about 2^{bound.bit_length()}"


def _bound(it: Expression, largest: Mapping[str, Fraction], extents: Mapping[str, int]) -> Fraction:
    if isinstance(it, Constant):
        return Fraction(min(it.value, 2**64 - it.value))
    if isinstance(it, Reference):
        if it.tensor not in largest:
            raise FormulaError(f"the magnitude of {it.tensor} is missing")
        return largest[it.tensor]
    if isinstance(it, Sum):
        unknown = [i for i in it.indexes if i not in extents]
        if unknown:
            raise FormulaError(f"the extent of {unknown[0]} is not known: give arrays, or a specification")
        times = 1
        for index in it.indexes:
            times *= extents[index]
        return times * _bound(it.operand, largest, extents)
    left, right = _bound(it.left, largest, extents), _bound(it.right, largest, extents)
    return left * right if it.kind == "product" else left + right


def degree(it: Expression) -> int:
    """How many operands each term multiplies: the result's scale is the operands' to this power.

    Parameters
    ----------
    it : Expression

    Returns
    -------
    int

    Raises
    ------
    FormulaError
        Where terms that are added multiply different numbers of operands, so that they would have different scales.

    Examples
    --------
    >>> degree(parse_formula("E[] = sum{i}(2 * A[i] * B[i] - A[i] * A[i])").expression)
    2
    """
    if isinstance(it, (Constant, Reference)):
        return int(isinstance(it, Reference))
    if isinstance(it, Sum):
        return degree(it.operand)
    left, right = degree(it.left), degree(it.right)
    if it.kind == "product":
        return left + right
    if left != right:
        raise FormulaError(f"terms of {left} and of {right} operands are added and would have different scales: multiply "
                           "the shorter ones by an operand that holds the number 1")
    return left


def scale_for(formula: str | Specification, bounds: Mapping[str, Magnitude], bits: int | None = None) -> Scale:
    """The largest scale with which no element of the result can overflow.

    Parameters
    ----------
    formula : str or Specification
        As for `magnitude_bound`.
    bounds : mapping of str to number or array
        Each operand, or the largest magnitude of its elements, as real numbers.
    bits : int, optional
        At most so many bits behind the binary point; else as many as there is room for, at most 52.

    Returns
    -------
    Scale

    Raises
    ------
    OverflowPossible
        Where the bound is not below 2^63 even with whole numbers, or, where `bits` is given, with that scale.
    FormulaError
        Where terms that are added would have different scales, or `bits` is none.
    ArrayError
        Where an operand has no elements, no real ones, or another shape than the formula.

    Examples
    --------
    >>> scale_for("E[] = sum{i}(A[i] * A[i])", {"A": numpy.array([0.5, -0.25])}, bits=10).result
    1048576
    """
    if bits is not None and (not isinstance(bits, SupportsIndex) or operator.index(bits) < 0):
        raise FormulaError(f"bits={bits!r} is no number of bits: give a whole number from 0 on")
    expression, extents = _expression(formula, bounds)
    power, largest = degree(expression), _largest(bounds)
    for count in [operator.index(bits)] if bits is not None else range(52, -1, -1):
        scale = 2**count
        scaled = {name: Fraction(ceil(it * scale)) for name, it in largest.items()}
        bound = ceil(_bound(expression, scaled, extents))
        if bound < LIMIT:
            half = Fraction(1, 2 * scale)
            wider = _bound(expression, {name: it + half for name, it in largest.items()}, extents)
            error = wider - _bound(expression, largest, extents)
            return Scale(scale, scale**power, bound, float(error) * (1 + 2**-50))
    raise OverflowPossible(f"an element of the result may come to {_shown(bound)}, and 2^63 is {LIMIT}: take fewer bits, smaller operands, "
                           "or sums of fewer terms", bound)


def to_fixed(array: Any, scale: Scale | int) -> Words:
    """Real numbers as the nearest whole numbers of a scale.

    Parameters
    ----------
    array : array of floats
    scale : Scale or int

    Returns
    -------
    array of int64

    Raises
    ------
    ArrayError
        Where an element is no real number.
    OverflowPossible
        Where a scaled element is not below 2^63.

    Examples
    --------
    >>> to_fixed([0.5, -0.24], 4)
    array([ 2, -1])
    """
    factor = scale.operand if isinstance(scale, Scale) else scale
    given = numpy.asarray(array)
    _refuse_kind(given)
    whole = given.dtype.kind in "iu"
    # (whole numbers above 2^53 would be rounded as float64)
    found = given if whole else numpy.rint(given.astype(numpy.float64) * factor)
    if not numpy.isfinite(found).all():
        raise ArrayError("an element is no number, or infinite")
    largest = max(abs(found.max().item()), abs(found.min().item())) * (factor if whole else 1)
    if largest >= LIMIT:
        raise OverflowPossible(f"a scaled element comes to {largest:.3g}, and 2^63 is {LIMIT}: take a smaller scale", int(largest))
    return numpy.ascontiguousarray(found.astype("<i8") * (factor if whole else 1))


def from_fixed(array: Any, scale: Scale | int) -> Floats:
    """The result's words as real numbers.

    Parameters
    ----------
    array : array or TiledArray of int64
    scale : Scale or int
        Of a `Scale` that of the result.

    Returns
    -------
    array of float64

    Raises
    ------
    ArrayError
        Where the words are no whole numbers.

    Examples
    --------
    >>> float(from_fixed(numpy.array(3), 4))
    0.75
    """
    factor = scale.result if isinstance(scale, Scale) else scale
    found = numpy.asarray(array)
    if found.dtype.kind not in "iu":
        raise ArrayError(f"scaled numbers are whole numbers, not {found.dtype}")
    return numpy.asarray(found.astype("<i8").astype(numpy.float64) / float(factor))


def read_bound(spec: Specification | str | os.PathLike[str], magnitudes: Mapping[str, Magnitude]) -> int:
    """The bound of a specification whose operands are scaled already.

    Parameters
    ----------
    spec : Specification, str or path
        Of one formula.
    magnitudes : mapping of str to number or array
        The largest magnitude of each operand's words, or these.

    Returns
    -------
    int
        What the magnitude of an element of the result may come to.

    Raises
    ------
    OverflowPossible
        Where it is not below 2^63.

    Examples
    --------
    >>> read_bound("range N 1024\\nindex N i\\ntensor K[N]\\ntensor E[]\\nE[] = sum{i}(K[i] * K[i])", {"K": 78643})
    6333154763776
    """
    found = ceil(magnitude_bound(as_specification(spec), magnitudes))
    if found >= LIMIT:
        raise OverflowPossible(f"an element of the result may come to {_shown(found)}, and 2^63 is {LIMIT}: choose smaller scales", found)
    return found
