"""A formula cut into several: with named intermediates, or into single operations."""
from __future__ import annotations

from collections.abc import Iterator

from cabunlit.errors import FormulaError
from cabunlit.language import Binary, Constant, Expression, Formula, Reference, Sum, dims, references
from cabunlit.specification import Specification


class _Splitter:
    """Collects the formulas of one that is cut."""

    def __init__(self, spec: Specification, every: bool) -> None:
        self.spec = Specification()
        self.spec.ranges, self.spec.indexes = dict(spec.ranges), dict(spec.indexes)
        self.spec.tensors = dict(spec.tensors)
        self.every = every
        self.known: dict[Expression, Reference] = {}
        self.names = _fresh(spec, "S")

    def named(self, it: Expression) -> Reference:
        """A tensor with an expression's values, each expression once."""
        if it not in self.known:
            own = dims(it)
            if len(own) > 8:
                raise FormulaError(f"an intermediate has {len(own)} indexes, and a tensor has at most 8: factor the formula")
            indexes = tuple(i for i in self.spec.indexes if i in own)
            found = Reference(next(self.names), indexes)
            self.spec.tensors[found.tensor] = tuple(self.spec.indexes[i] for i in indexes)
            self.spec.formulas.append(Formula(found, it))
            self.known[it] = found
        return self.known[it]

    def operand(self, it: Expression) -> Expression:
        """An expression as an operand: what is to be a formula of its own has a name."""
        if isinstance(it, (Reference, Constant)):
            return it
        inside = self.inside(it)
        return self.named(inside) if self.every or isinstance(it, Sum) else inside

    def inside(self, it: Expression) -> Expression:
        """An expression whose operands are tensors, numbers or, with named intermediates alone, what has no sum."""
        if isinstance(it, Sum):
            product = isinstance(it.operand, Binary) and (it.operand.kind == "product" or not self.every)
            return Sum(it.indexes, self.inside(it.operand) if product else self.operand(it.operand))
        if isinstance(it, Binary):
            return Binary(it.kind, self.operand(it.left), self.operand(it.right))
        return it


def _fresh(spec: Specification, letter: str) -> Iterator[str]:
    """Names of tensors that are not declared."""
    count = 0
    while True:
        count += 1
        if f"{letter}{count}" not in spec.tensors:
            yield f"{letter}{count}"


def _split(spec: Specification, every: bool) -> Specification:
    made = _Splitter(spec, every)
    for formula in spec.formulas:
        made.known = {it: name for it, name in made.known.items() if formula.result.tensor not in
                      {x.tensor for x in references(it)}}
        made.spec.formulas.append(Formula(formula.result, made.inside(formula.expression)))
    return made.spec


def singles(spec: Specification) -> Specification:
    """The same formulas with one operation each: a product with the sum round it, or any other operation alone.

    Raises
    ------
    FormulaError
        Where an intermediate has more than 8 indexes.

    Examples
    --------
    >>> spec = Specification({"N": (4, 2)}, {"N": "i j k"}, {"A": "N N", "C": "N N"}, "C[i,j] = sum{k}(A[i,k] * A[k,j]) - A[j,i]")
    >>> print(*(it.text() for it in singles(spec).formulas), sep="\\n")
    S1[i,j] = sum{k}(A[i,k] * A[k,j])
    C[i,j] = S1[i,j] - A[j,i]
    """
    return _split(spec, True)


def with_names(spec: Specification) -> Specification:
    """The same formulas, where each sum inside another operation has a name and is computed once.

    Examples
    --------
    >>> spec = Specification({"N": (4, 2)}, {"N": "i j"}, {"A": "N N", "E": ""}, "E[] = sum{i}(A[i,i]) * (sum{j}(A[j,j]) + 1 - 2)")
    >>> print(*(it.text() for it in with_names(spec).formulas), sep="\\n")
    S1[] = sum{i}(A[i,i])
    S2[] = sum{j}(A[j,j])
    E[] = S1[] * (S2[] + 1 - 2)
    """
    return _split(spec, False)
