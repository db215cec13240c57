"""A report as one page of HTML that needs nothing else."""
from __future__ import annotations

from html import escape

from cabunlit.draw import fusion_graph, memory_bars, shown_number
from cabunlit.language import Binary, Expression, Sum, canonical, parts
from cabunlit.plan import Plan

STYLE = """
:root { color-scheme: light; }
body { font: 15px/1.5 'DejaVu Sans', Verdana, sans-serif; color: #1f2933; max-width: 1200px; margin: 24px auto; padding: 0 24px }
h1 { font-size: 22px; } h2 { font-size: 17px; margin-top: 32px; }
pre, code { font: 13px/1.5 'DejaVu Sans Mono', monospace; }
pre { background: #f4f6f8; padding: 12px; border-radius: 6px; white-space: pre-wrap; overflow-wrap: anywhere; }
table { border-collapse: collapse; width: 100%; }
th, td { text-align: left; vertical-align: top; padding: 3px 12px 3px 0; border-bottom: 1px solid #e4e9ee; }
.figure { overflow-x: auto; }
ul.tree, ul.tree ul { list-style: none; padding-left: 14px; border-left: 1px solid #c6d0da; } ul.tree { border: 0; padding: 0; }
ul.tree li { overflow-wrap: anywhere; }
"""


def report_page(plan: Plan, budget: int | None = None) -> str:
    """One page with the formula, its tree, the fusion graph, the loop nest, sizes and costs.

    Parameters
    ----------
    plan : Plan
    budget : int, optional
        Words for tiles; else the tables have the least budget, and the one that holds every tile.

    Returns
    -------
    str
        HTML.

    Examples
    --------
    >>> from cabunlit import plan
    >>> found = plan(Specification({"N": 4}, {"N": "i j"}, {"A": "N N", "V": "N"}, "V[i] = sum{j}(A[i,j])"))
    >>> report_page(found)[:15], "<h2>Loop nest" in report_page(found)
    ('<!DOCTYPE html>', True)
    """
    formula = plan.spec.formula
    sections = [
        f"<h1>{escape(formula.result.tensor)}</h1><pre>{escape(formula.text())}</pre>",
        f"<p>{len(plan.nodes)} operations, {shown_number(plan.turns())} turns; intermediates of {shown_number(plan.memory)} "
        f"elements ({shown_number(plan.memory_bytes)} bytes); files of {shown_number(plan.file_bytes)} bytes.</p>",
        f"<h2>Tree</h2><ul class=\"tree\">{_tree(formula.expression, [len(plan.nodes)])}</ul>",
        "<h2>Fusion graph</h2><p>A point is a loop of an operation; a line joins it with the same loop of the operation that uses "
        f"the values, where they share it.</p><div class=\"figure\">{fusion_graph(plan)}</div>",
        f"<h2>Loop nest</h2><pre>{escape(plan.nest_text())}</pre>",
        f"<h2>Operations</h2>{_operations(plan)}",
        f"<h2>Memory of intermediates</h2><div class=\"figure\">{memory_bars(plan)}</div>",
        f"<h2>Arrays</h2>{_arrays(plan)}",
        f"<h2>Reads</h2>{_reads(plan, budget)}",
        f"<h2>Specification</h2><pre>{escape(plan.spec.text())}</pre>",
    ]
    page = (f"<!DOCTYPE html>\n<html lang=\"en\"><head><meta charset=\"utf-8\"><title>{escape(formula.text()[:80])}</title>"
            f"<style>{STYLE}</style></head><body>\n" + "\n".join(sections) + "\n</body></html>\n")
    # (so that it is the same page whatever the encoding of the output)
    return page.encode("ascii", "xmlcharrefreplace").decode("ascii")


def _tree(it: Expression, count: list[int]) -> str:
    """A list of an expression's operations; numbers go down from the root, as a report counts them."""
    if not isinstance(it, (Sum, Binary)):
        return f"<li><code>{escape(canonical(it))}</code></li>"
    count[0] -= 1
    number = count[0]
    says = f"sum over {', '.join(it.indexes)}" if isinstance(it, Sum) else it.kind
    inner = [_tree(part, count) for part in reversed(parts(it))]
    return f"<li>{number} {escape(says)}<ul>{''.join(reversed(inner))}</ul></li>"


def _table(heads: list[str], rows: list[list[str]]) -> str:
    lines = [_cells("th", heads), *(_cells("td", row) for row in rows)]
    return "<table>" + "".join(f"<tr>{it}</tr>" for it in lines) + "</table>"


def _cells(tag: str, row: list[str]) -> str:
    return "".join(f"<{tag}>{escape(it)}</{tag}>" for it in row)


def _operations(plan: Plan) -> str:
    rows = [[str(it.number), it.kind, ", ".join(it.loops) or "-", ", ".join(it.fused) or "-", str(plan.turns(it.number)),
             str(plan.whole_size(it.number)), "result" if it.size is None else str(it.size)] for it in plan.nodes]
    return _table(["node", "kind", "loops", "fused", "turns", "elements", "kept"], rows)


def _arrays(plan: Plan) -> str:
    spec = plan.spec
    rows = [[name, " x ".join(map(str, spec.shape(name))) or "a number", " x ".join(map(str, spec.chunks(name))) or "1",
             str(spec.tiles(name)), str(spec.file_bytes(name))] for name in plan.names]
    return _table(["array", "extents", "tiles of", "tiles", "bytes of its file"], rows)


def _reads(plan: Plan, budget: int | None) -> str:
    middle = min(plan.full_budget, 8 * plan.least_budget // 3)
    words = [budget] if budget is not None else sorted({plan.least_budget, middle, plan.full_budget})
    rows = []
    for it in words:
        found = plan.reads(it)
        rows.append([str(it), str(found.tiles), str(found.bytes), f"{found.times:.1f}", "" if found.exact else "sampled"])
    return _table(["budget in words", "tiles read", "bytes read", "times each", ""], rows)
