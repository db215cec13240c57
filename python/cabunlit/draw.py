"""Pictures of a plan, as SVG: the fusion graph, and bars of memory."""
from __future__ import annotations

from collections.abc import Sequence
from html import escape
from math import log10

from cabunlit.nest import Tree
from cabunlit.plan import Plan

ROW, COLUMN = 44, 34
# The names of operations take as much room as they need, within limits, and a letter of theirs so much at most.
LEFT, LETTER = (330, 700), 7
INK, SOFT, CHAIN, FREE = "#1f2933", "#66727f", "#0b62a8", "#ffffff"
STYLE = (f"font-family:'DejaVu Sans',Verdana,sans-serif;font-size:11px;fill:{INK}")


def shown_number(n: int) -> str:
    """A number with a prefix, of at most six letters.

    Examples
    --------
    >>> shown_number(999), shown_number(1234567), shown_number(10**30)
    ('999', '1.23M', '1e+30')
    """
    if n < 10_000:
        return str(n)
    for unit, size in (("k", 10**3), ("M", 10**6), ("G", 10**9), ("T", 10**12), ("P", 10**15)):
        if n < 1000 * size:
            return f"{n / size:.3g}{unit}"
    return f"{n:.0e}"


def _text(x: float, y: float, says: str, extra: str = "") -> str:
    return f'<text x="{x:.0f}" y="{y:.0f}"{extra}>{escape(says)}</text>'


def _svg(width: float, height: float, parts: Sequence[str], label: str) -> str:
    return (f'<svg xmlns="http://www.w3.org/2000/svg" viewBox="0 0 {width:.0f} {height:.0f}" width="{width:.0f}" '
            f'height="{height:.0f}" role="img" aria-label="{escape(label)}" style="{STYLE}">' + "".join(parts) + "</svg>")


def _depth(tree: Tree, node: int) -> int:
    """How many operations use a node's values one after the other."""
    depth, at = 0, tree.parent(node)
    while at is not None:
        depth, at = depth + 1, tree.parent(at)
    return depth


def _columns(plan: Plan) -> dict[str, int]:
    """A column for each index of a loop, those of the outermost loops first."""
    places: dict[str, list[int]] = {}
    for node in plan.nodes:
        for at, index in enumerate(node.loops):
            places.setdefault(index, []).append(at)
    order = sorted(places, key=lambda it: (-len(places[it]), sum(places[it]) / len(places[it]), it))
    return {index: k for k, index in enumerate(order)}


def fusion_graph(plan: Plan) -> str:
    """The fusion graph: a row of points for each operation, one point for each loop, and a line where a loop is shared.

    The result stands at the top, and each operation below the one that uses its values. Points of one index stand in one
    column, so that a scope is a chain of points with lines between them. Below the name of an operation stands how many elements
    its values have, and how many are kept of them.

    Parameters
    ----------
    plan : Plan

    Returns
    -------
    str
        SVG, which needs nothing else; its width and height are in pixels.

    Examples
    --------
    >>> from cabunlit import plan
    >>> found = plan(Specification({"N": 4}, {"N": "i j"}, {"A": "N N", "V": "N"}, "V[i] = sum{j}(A[i,j])"))
    >>> fusion_graph(found)[:4], fusion_graph(found).count("<circle")
    ('<svg', 2)
    """
    columns, tree = _columns(plan), plan.tree
    rows = {node.number: k for k, node in enumerate(reversed(plan.nodes))}
    left = min(max(LEFT[0], *(_indent(tree, it.number) + LETTER * len(_name(plan, it.number)) + 18 for it in plan.nodes)), LEFT[1])
    upright = all(len(index) <= 4 for index in columns)
    top = 30 if upright else 18 + 8 * max(map(len, columns))
    height = top + ROW * len(rows) + 10
    width = left + COLUMN * max(1, len(columns)) + 20
    lines, points = [], []
    for index, column in columns.items():
        x, y = _x(left, column), top - 16
        turned = "" if upright else f' transform="rotate(-90 {x + 4} {y})"'
        extra = f' text-anchor="{"middle" if upright else "start"}" fill="{SOFT}"{turned}'
        points.append(_text(x if upright else x + 4, y, index, extra))
    for node in plan.nodes:
        y = _y(rows[node.number], top)
        parent = tree.parent(node.number)
        points += _named(plan, node.number, y, left)
        for index in node.loops:
            fused = index in node.fused
            fill = CHAIN if fused or _carries(plan, node.number, index) else FREE
            points.append(f'<circle cx="{_x(left, columns[index])}" cy="{y}" r="4.5" fill="{fill}" stroke="{CHAIN}"/>')
            if fused and parent is not None:
                lines.append(_edge(_x(left, columns[index]), y, _y(rows[parent], top)))
    stripes = [f'<rect x="0" y="{_y(k, top) - ROW / 2:.0f}" width="{width}" height="{ROW}" fill="#f4f6f8"/>'
               for k in range(0, len(rows), 2)]
    return _svg(width, height, [*stripes, *lines, *points], "fusion graph")


def _x(left: int, column: int) -> int:
    return left + COLUMN * column + COLUMN // 2


def _y(row: int, top: int) -> int:
    return top + ROW * row + ROW // 2


def _carries(plan: Plan, node: int, index: str) -> bool:
    """Whether an operand shares the loop with a node."""
    return any(isinstance(it, int) and index in plan.nodes[it].fused for it in plan.tree.operands[node])


def _edge(x: int, y: int, above: int) -> str:
    """A line from a point to the one of the operation that uses the values; it goes round rows between them."""
    if y - above <= ROW:
        return f'<path d="M{x} {y}V{above}" stroke="{CHAIN}" stroke-width="2.5" fill="none"/>'
    bend = min(13, 6 + (y - above) // ROW)
    return (f'<path d="M{x} {y}C{x - bend} {y - ROW / 2:.0f} {x - bend} {above + ROW / 2:.0f} {x} {above}" stroke="{CHAIN}" '
            'stroke-width="2" fill="none"/>')


def _indent(tree: Tree, number: int) -> int:
    return 8 + 7 * min(_depth(tree, number), 12)


def _name(plan: Plan, number: int) -> str:
    """An operation with its operands."""
    tree = plan.tree
    return f"{number} {plan.nodes[number].kind}: {', '.join(tree.named(it) for it in tree.operands[number])}"


def _named(plan: Plan, number: int, y: int, left: int) -> list[str]:
    """The name of a node, its operation and its sizes."""
    node, indent, whole = plan.nodes[number], _indent(plan.tree, number), _name(plan, number)
    room = (left - indent - 10) // LETTER
    first = whole if len(whole) <= room else whole[:room - 1] + "…"
    size = "the result"
    if node.size is not None:
        size = f"{shown_number(plan.whole_size(number))} elements, {shown_number(node.size)} kept"
    second = f"{shown_number(plan.turns(number))} turns; {size}"
    return [_text(indent, y - 4, first), _text(indent, y + 11, second, f' fill="{SOFT}"')]


def memory_bars(plan: Plan) -> str:
    """Bars of each intermediate: its values without fusion, and what is kept of them, by their logarithms.

    Parameters
    ----------
    plan : Plan

    Returns
    -------
    str
        SVG, which needs nothing else; its width and height are in pixels.

    Examples
    --------
    >>> from cabunlit import plan
    >>> text = "E[] = sum{i}(A[i] * A[i])"
    >>> "16 to 1<" in memory_bars(plan(Specification({"N": 16}, {"N": "i"}, {"A": "N", "E": ""}, text)))
    True
    """
    inner = [node for node in plan.nodes if node.size is not None]
    most = max([plan.whole_size(node.number) for node in inner], default=1)
    room, parts = 420, []
    for row, node in enumerate(inner):
        y = 16 + 26 * row
        whole = plan.whole_size(node.number)
        parts.append(_text(8, y + 12, f"node {node.number}"))
        for size, fill, low in ((whole, "#d6e0ea", 0), (node.size or 0, CHAIN, 9)):
            length = max(2.0, room * _digits(size) / _digits(most))
            parts.append(f'<rect x="80" y="{y + low}" width="{length:.0f}" height="8" rx="2" fill="{fill}"/>')
        parts.append(_text(80 + room + 16, y + 12, f"{shown_number(whole)} to {shown_number(node.size or 0)}"))
    return _svg(680, 26 + 26 * len(inner), parts, "memory of intermediates")


def _digits(n: int) -> float:
    return 1 + log10(n) if n > 0 else 0.0
