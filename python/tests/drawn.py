"""Drawn formulas and arrays, and what numpy makes of them."""
import numpy
from hypothesis import strategies as some

from cabunlit.language import Binary, Constant, Formula, Reference, Sum, dims

INDEXES = "ijkl"


def words(draw, shape, dtype="<i8"):
    """An array of words of all 64 bits."""
    seed = draw(some.integers(0, 2**32 - 1))
    return numpy.random.default_rng(seed).integers(0, 2**64, shape, dtype="<u8").view(dtype)


@some.composite
def expressions(draw, depth=2):
    """An expression over tensors whose names end in their indexes."""
    kind = draw(some.integers(0, 5)) if depth else 0
    if kind <= 1:
        indexes = tuple(draw(some.lists(some.sampled_from(INDEXES), max_size=2)))
        return Reference(f"T{draw(some.integers(0, 1))}{''.join(indexes)}", indexes)
    if kind == 2:
        inner = draw(expressions(depth - 1))
        over = sorted(dims(inner))
        taken = tuple(draw(some.lists(some.sampled_from(over), min_size=1, unique=True))) if over else ()
        return Sum(taken, inner) if taken else inner
    left = draw(expressions(depth - 1))
    right = draw(expressions(depth - 1) | some.integers(0, 2**64 - 1).map(Constant))
    return Binary(("product", "add", "sub")[kind - 3], left, right)


@some.composite
def formulas(draw, depth=2):
    """A formula, its operands, and the edge of each index."""
    expression = draw(expressions(depth))
    if isinstance(expression, Reference):
        expression = Binary("product", Constant(1), expression)
    indexes = tuple(draw(some.permutations(sorted(dims(expression)))))
    extents = {it: draw(some.integers(1, 4)) for it in INDEXES}
    chunks = {it: draw(some.integers(1, extents[it])) for it in INDEXES}
    found = Formula(Reference("R", indexes), expression)
    arrays = {}
    for it in sorted(set(names_of(expression))):
        arrays[it] = words(draw, tuple(extents[i] for i in it[2:]))
    return found, arrays, extents, chunks


def names_of(it):
    """The tensors in an expression."""
    if isinstance(it, Reference):
        return [it.tensor]
    if isinstance(it, Sum):
        return names_of(it.operand)
    return names_of(it.left) + names_of(it.right) if isinstance(it, Binary) else []


def value(formula, arrays, extents):
    """The formula's values by numpy, modulo 2^64."""
    array, labels = _value(formula.expression, arrays, extents)
    return array.transpose([labels.index(it) for it in formula.result.indexes])


def _value(it, arrays, extents):
    if isinstance(it, Constant):
        return numpy.array(it.value, "<u8").view("<i8"), ()
    if isinstance(it, Reference):
        out = tuple(dict.fromkeys(it.indexes))
        numbers = {name: k for k, name in enumerate(out)}
        return numpy.einsum(arrays[it.tensor], [numbers[i] for i in it.indexes], [numbers[i] for i in out]), out
    if isinstance(it, Sum):
        array, labels = _value(it.operand, arrays, extents)
        axes = tuple(k for k, name in enumerate(labels) if name in it.indexes)
        return array.sum(axis=axes, dtype="<i8"), tuple(name for name in labels if name not in it.indexes)
    left, right = _value(it.left, arrays, extents), _value(it.right, arrays, extents)
    out = tuple(dict.fromkeys((*left[1], *right[1])))
    a, b = (array.transpose([labels.index(i) for i in out if i in labels]).reshape([extents[i] if i in labels else 1 for i in out])
            for array, labels in (left, right))
    made = {"product": numpy.multiply, "add": numpy.add, "sub": numpy.subtract}[it.kind](a, b)
    return numpy.broadcast_to(made, [extents[i] for i in out]), out
