"""Formulas as trees: what they say, their operations, and their canonical text.

This reads what the program reads, so that a formula can be planned, bounded and cut here. What the language refuses is
refused by the program itself, with its own line.
"""
from __future__ import annotations

import re
from collections.abc import Iterator, Mapping
from dataclasses import dataclass

from cabunlit.errors import FormulaError

WORDS = {"range", "tile", "index", "tensor", "sum"}
NAME = re.compile(r"[A-Za-z][A-Za-z0-9_]{0,15}\Z")
SIGNS = {"product": "*", "add": "+", "sub": "-"}
KINDS = {sign: kind for kind, sign in SIGNS.items()}


@dataclass(frozen=True)
class Reference:
    """A tensor at some indexes, as `A[i,k]`."""

    tensor: str
    indexes: tuple[str, ...]


@dataclass(frozen=True)
class Constant:
    """A word from 0 to 2^64 - 1."""

    value: int


@dataclass(frozen=True)
class Sum:
    """`sum{k,l}(..)`."""

    indexes: tuple[str, ...]
    operand: Expression


@dataclass(frozen=True)
class Binary:
    """Two expressions; the kind is `product`, `add` or `sub`."""

    kind: str
    left: Expression
    right: Expression


Expression = Reference | Constant | Sum | Binary
Operation = Sum | Binary


@dataclass(frozen=True)
class Formula:
    """A result and what it is made of."""

    result: Reference
    expression: Expression

    def text(self) -> str:
        """The formula's line in canonical form.

        Examples
        --------
        >>> parse_formula("C[i] = ((A[i])*(B[i] *2))").text()
        'C[i] = A[i] * (B[i] * 2)'
        """
        return f"{_reference(self.result)} = {canonical(self.expression)}"

    def operands(self) -> tuple[str, ...]:
        """The names of the tensors on the right, each once, by first use."""
        return tuple(dict.fromkeys(it.tensor for it in references(self.expression)))


def parse_formula(text: str) -> Formula:
    """Reads a formula.

    Parameters
    ----------
    text : str
        One line, as `C[i,j] = sum{k}(A[i,k] * B[k,j])`.

    Returns
    -------
    Formula

    Raises
    ------
    FormulaError
        Where the text is no formula.
    """
    reader = _Reader(text)
    result = reader.reference()
    reader.take("=")
    expression = reader.expression()
    if reader.token:
        reader.refuse()
    return Formula(result, expression)


class _Reader:
    """Reads tokens from left to right."""

    def __init__(self, text: str) -> None:
        self.text = text
        self.tokens = re.findall(r"[A-Za-z][A-Za-z0-9_]*|[0-9]+|\S", text)
        self.at = 0
        self.open = 0

    @property
    def token(self) -> str:
        return self.tokens[self.at] if self.at < len(self.tokens) else ""

    def refuse(self) -> None:
        raise FormulaError(f"bad text at {self.token or 'the end'!r} of {self.text.strip()!r}: {_mending(self.token)}")

    def take(self, token: str) -> None:
        if self.token != token:
            self.refuse()
        self.at += 1

    def name(self) -> str:
        name = self.token
        if not NAME.match(name) or name in WORDS:
            self.refuse()
        self.at += 1
        return name

    def names(self, close: str) -> tuple[str, ...]:
        """Names with commas between them, and the bracket behind them."""
        found: list[str] = []
        while self.token != close:
            if found:
                self.take(",")
            found.append(self.name())
        self.take(close)
        return tuple(found)

    def reference(self) -> Reference:
        name = self.name()
        self.take("[")
        return Reference(name, self.names("]"))

    def expression(self) -> Expression:
        left = self.term()
        while self.token in ("+", "-"):
            kind = KINDS[self.token]
            self.at += 1
            left = Binary(kind, left, self.term())
        return left

    def term(self) -> Expression:
        left = self.factor()
        while self.token == "*":
            self.at += 1
            left = Binary("product", left, self.factor())
        return left

    def inside(self) -> Expression:
        self.take("(")
        self.open += 1
        if self.open > 64:
            self.refuse()
        found = self.expression()
        self.take(")")
        self.open -= 1
        return found

    def factor(self) -> Expression:
        if self.token == "(":
            return self.inside()
        if self.token == "sum":
            self.at += 1
            self.take("{")
            indexes = self.names("}")
            return Sum(indexes, self.inside())
        if self.token.isascii() and self.token.isdigit():
            value = int(self.token)
            if value >= 2**64 or str(value) != self.token:
                self.refuse()
            self.at += 1
            return Constant(value)
        return self.reference()


def _mending(token: str) -> str:
    """What to do about a token that cannot stand where it stands."""
    if token in WORDS:
        return f"{token} is reserved, so take another name, or write its own form"
    if len(token) > 16 and token[0].isalpha():
        return "a name has at most 16 letters"
    if token.isdigit() and token.isascii():
        return f"write * between factors, and numbers from 0 to {2**64 - 1} without zeros in front"
    if token in ("_", ".") or not token.isascii():
        return "names have the letters a to z and A to Z, digits and _ alone, a letter first, and numbers no point"
    return "write formulas as C[i,j] = sum{k}(A[i,k] * B[k,j])"


def _reference(it: Reference) -> str:
    return f"{it.tensor}[{','.join(it.indexes)}]"


def _level(it: Expression) -> int:
    """How tightly an expression's last operator binds."""
    if isinstance(it, Binary):
        return 2 if it.kind == "product" else 1
    return 3


def canonical(it: Expression) -> str:
    """An expression with no more parentheses than it needs.

    Examples
    --------
    >>> canonical(parse_formula("C[] = (A[] - (B[] + 1)) * (2)").expression)
    '(A[] - (B[] + 1)) * 2'
    """
    if isinstance(it, Reference):
        return _reference(it)
    if isinstance(it, Constant):
        return str(it.value)
    if isinstance(it, Sum):
        return f"sum{{{','.join(it.indexes)}}}({canonical(it.operand)})"
    own = _level(it)
    left, right = canonical(it.left), canonical(it.right)
    left = f"({left})" if _level(it.left) < own else left
    right = f"({right})" if _level(it.right) <= own else right
    return f"{left} {SIGNS[it.kind]} {right}"


def parts(it: Expression) -> tuple[Expression, ...]:
    """The operands of an expression, the left one first."""
    if isinstance(it, Sum):
        return (it.operand,)
    return (it.left, it.right) if isinstance(it, Binary) else ()


def references(it: Expression) -> Iterator[Reference]:
    """The tensors in an expression, from left to right."""
    if isinstance(it, Reference):
        yield it
    for part in parts(it):
        yield from references(part)


def operations(it: Expression) -> list[Operation]:
    """The operations in the order of a report's nodes: operands in front of what uses them, the left one first."""
    found = [operation for part in parts(it) for operation in operations(part)]
    return [*found, it] if isinstance(it, (Sum, Binary)) else found


def dims(it: Expression) -> frozenset[str]:
    """The indexes of an expression's values.

    Examples
    --------
    >>> sorted(dims(parse_formula("C[i,j] = sum{k}(A[i,k] * B[k,j])").expression))
    ['i', 'j']
    """
    if isinstance(it, Reference):
        return frozenset(it.indexes)
    found: frozenset[str] = frozenset().union(*map(dims, parts(it)))
    return found - frozenset(it.indexes) if isinstance(it, Sum) else found


def loops(it: Operation) -> frozenset[str]:
    """The indexes over which an operation runs."""
    return dims(it.operand) if isinstance(it, Sum) else dims(it)


def rename(it: Expression, names: Mapping[str, str], tensors: Mapping[Reference, Reference] | None = None) -> Expression:
    """The same expression with other names of its free indexes, and other references; an index that a sum inside adds up
    over is that sum's own and stays."""
    if isinstance(it, Constant):
        return it
    if isinstance(it, Reference):
        found = (tensors or {}).get(it, it)
        return Reference(found.tensor, tuple(names.get(i, i) for i in found.indexes))
    if isinstance(it, Sum):
        inner = {old: new for old, new in names.items() if old not in it.indexes}
        return Sum(it.indexes, rename(it.operand, inner, tensors))
    return Binary(it.kind, rename(it.left, names, tensors), rename(it.right, names, tensors))
