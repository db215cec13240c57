"""The loop nest of a plan: which operations run in which loops, and in which sequence."""
from __future__ import annotations

from collections.abc import Sequence
from dataclasses import dataclass, field

from cabunlit.language import Binary, Expression, Formula, Operation, Reference, Sum, canonical, operations, parts
from cabunlit.reports import Node


@dataclass
class Loop:
    """A loop over all numbers of an index, and what stands in it."""

    index: str
    body: list[Step] = field(default_factory=list)


@dataclass(frozen=True)
class Clear:
    """The kept values of a sum become 0."""

    node: int


@dataclass(frozen=True)
class Compute:
    """The operation of one node."""

    node: int


Step = Loop | Clear | Compute


@dataclass(frozen=True)
class Tree:
    """The operations of a formula, numbered, with their operands.

    Attributes
    ----------
    formula : Formula
    operations : tuple
        Sums and pairs, in the order of a report.
    operands : tuple of tuples
        Of each operation its operands: numbers of operations, references or constants.
    """

    formula: Formula
    operations: tuple[Operation, ...]
    operands: tuple[tuple[int | Expression, ...], ...]

    @classmethod
    def of(cls, formula: Formula) -> Tree:
        """The tree of a formula."""
        found = operations(formula.expression)
        operands: list[tuple[int | Expression, ...]] = []
        stack: list[int] = []
        for number, it in enumerate(found):
            inner = sum(isinstance(part, (Sum, Binary)) for part in parts(it))
            taken = stack[len(stack) - inner:]
            del stack[len(stack) - inner:]
            rest = iter(taken)
            operands.append(tuple(next(rest) if isinstance(part, (Sum, Binary)) else part for part in parts(it)))
            stack.append(number)
        return cls(formula, tuple(found), tuple(operands))

    def parent(self, node: int) -> int | None:
        """The operation that uses a node's values."""
        return next((v for v, it in enumerate(self.operands) if node in [x for x in it if isinstance(x, int)]), None)

    def below(self, node: int) -> set[int]:
        """A node with all operations that lead to it."""
        return {node}.union(*(self.below(it) for it in self.operands[node] if isinstance(it, int)))

    def named(self, operand: int | Expression) -> str:
        """How a text names an operand."""
        return f"node {operand}" if isinstance(operand, int) else canonical(operand)

    def says(self, node: int) -> str:
        """The operation of a node as a line of text."""
        sign = {"product": "*", "add": "+", "sub": "-"}
        it, operands = self.operations[node], [self.named(x) for x in self.operands[node]]
        root = node == len(self.operations) - 1
        result = self.formula.result
        target = canonical(Reference(result.tensor, result.indexes)) if root else f"node {node}"
        if isinstance(it, Sum):
            return f"{target} += {operands[0]}"
        return f"{target} = {operands[0]} {sign[it.kind]} {operands[1]}"


def nest_of(tree: Tree, nodes: Sequence[Node]) -> list[Step]:
    """The loops in which a plan runs, as the program makes them.

    A node's operands run in front of it where the loops that they share are open, and a sum's values are cleared there.
    """
    return _loops(tree, nodes, len(nodes) - 1, 0)


def _loops(tree: Tree, nodes: Sequence[Node], v: int, depth: int) -> list[Step]:
    """The loops of a node from a depth on."""
    steps = _inside(tree, nodes, v, depth)
    if depth < len(nodes[v].loops):
        return [*steps, Loop(nodes[v].loops[depth], _loops(tree, nodes, v, depth + 1))]
    return [*steps, Compute(v)]


def _inside(tree: Tree, nodes: Sequence[Node], v: int, depth: int) -> list[Step]:
    """What stands of a node's operands at a depth."""
    steps: list[Step] = []
    for operand in tree.operands[v]:
        if not isinstance(operand, int):
            continue
        joint = len(nodes[operand].fused)
        if depth < joint:
            steps += _inside(tree, nodes, operand, depth)
        elif depth == joint:
            clear: list[Step] = [Clear(operand)] if nodes[operand].kind == "sum" else []
            steps += [*clear, *_loops(tree, nodes, operand, depth)]
    return steps


def nest_text(tree: Tree, steps: Sequence[Step], indent: int = 0) -> str:
    """The nest as indented text, loops that stand directly in one another on one line.

    Examples
    --------
    >>> from cabunlit.language import parse_formula
    >>> tree = Tree.of(parse_formula("C[i] = sum{k}(A[i,k])"))
    >>> print(nest_text(tree, nest_of(tree, [Node(0, "sum", ("i", "k"), (), None)])), end="")
    for i, k:
        C[i] += A[i,k]
    """
    lines = ""
    for step in steps:
        if isinstance(step, Loop):
            names, body = [step.index], step.body
            while len(body) == 1 and isinstance(body[0], Loop):
                names.append(body[0].index)
                body = body[0].body
            lines += " " * indent + f"for {', '.join(names)}:\n" + nest_text(tree, body, indent + 4)
        elif isinstance(step, Clear):
            lines += " " * indent + f"node {step.node} = 0\n"
        else:
            lines += " " * indent + tree.says(step.node) + "\n"
    return lines
