"""Pictures and pages, looked at in a real browser."""
import json
import os
import re
import shutil
import struct
import subprocess
import tempfile
from pathlib import Path
from xml.etree import ElementTree

import pytest

from cabunlit import Specification, plan
from cabunlit.draw import fusion_graph, memory_bars
from cabunlit.page import report_page
from cabunlit.plan import Plan
from cabunlit.reports import Node
from cabunlit.specification import Range

EXAMPLES = Path(__file__).resolve().parent.parent.parent / "examples"
BROWSER = shutil.which("chromium")
LOOK = """<script>
const found = [], boxes = [...document.querySelectorAll("svg")].map(svg => [...svg.querySelectorAll("text")]);
for (const texts of boxes) for (let a = 0; a < texts.length; a++) for (let b = 0; b < a; b++) {
  const p = texts[a].getBoundingClientRect(), q = texts[b].getBoundingClientRect();
  const dx = Math.min(p.right, q.right) - Math.max(p.left, q.left), dy = Math.min(p.bottom, q.bottom) - Math.max(p.top, q.top);
  if (dx > 0.5 && dy > 3) found.push(texts[a].textContent + " / " + texts[b].textContent);
}
for (const bar of document.querySelectorAll("rect[rx]")) for (const text of bar.parentNode.querySelectorAll("text")) {
  const p = bar.getBoundingClientRect(), q = text.getBoundingClientRect();
  if (p.right > q.left && q.right > p.left && p.bottom > q.top && q.bottom > p.top) found.push("a bar / " + text.textContent);
}
const sizes = [...document.querySelectorAll("text")].map(it => it.getBoundingClientRect());
const graph = document.querySelector("svg").getBoundingClientRect();
document.body.setAttribute("data-look", JSON.stringify({overlaps: found, right: Math.max(...sizes.map(it => it.right)),
  height: Math.min(...sizes.map(it => it.height)), width: graph.right, scroll: document.documentElement.scrollWidth}));
</script>"""


def look(html, folder):
    """What a browser of 1,280 pixels makes of a page, and its picture."""
    (folder / "page.html").write_text(html.replace("</body>", LOOK + "</body>"), encoding="utf-8")
    words = [BROWSER, "--headless", "--no-sandbox", "--disable-gpu", "--disable-dev-shm-usage", "--window-size=1280,1600"]
    # (the browser makes a socket among temporary files, whose path must be short)
    room = tempfile.mkdtemp(dir="/tmp")
    try:
        said = subprocess.run([*words, f"--user-data-dir={room}/profile", "--dump-dom", f"--screenshot={folder}/page.png",
                               (folder / "page.html").as_uri()], capture_output=True, text=True, timeout=300,
                              env={**os.environ, "TMPDIR": room})
    finally:
        shutil.rmtree(room, ignore_errors=True)
    found = re.search(r"data-look=\"([^\"]*)\"", said.stdout)
    assert found, said.stderr[-2000:]
    return json.loads(found[1].replace("&quot;", '"').replace("&amp;", "&").replace("&gt;", ">").replace("&lt;", "<"))


def largest_plan():
    """A plan of 32 operations of 10 loops each."""
    indexes = [f"index_{chr(97 + k)}_of_16ch"[:16] for k in range(10)]
    first, second = f"Long_name_of_A[{','.join(indexes[:8])}]", f"B[{','.join(indexes[2:])}]"
    formula = f"R[] = sum{{{','.join(indexes)}}}({' * '.join([first] * 15 + [second] * 17)})"
    spec = Specification({"N": (100, 10)}, {"N": indexes}, {"Long_name_of_A": ["N"] * 8, "B": ["N"] * 8, "R": ""}, formula)
    nodes = [Node(k, "product", tuple(indexes), tuple(indexes[:k % 11]), 100**(10 - k % 11)) for k in range(31)]
    return Plan(spec, (*nodes, Node(31, "sum", tuple(indexes), (), None)), sum(it.size for it in nodes))


@pytest.mark.skipif(BROWSER is None, reason="there is no chromium")
def test_the_largest_graph_is_readable(own_folder):
    found = largest_plan()
    html = f"<!DOCTYPE html><html><body>{fusion_graph(found)}{memory_bars(found)}</body></html>"
    seen = look(html, own_folder)
    assert seen["overlaps"] == [] and seen["right"] <= 1280 and seen["height"] >= 9 and seen["width"] <= 1280


@pytest.mark.skipif(BROWSER is None, reason="there is no chromium")
def test_the_page_of_the_largest_tree_fits(own_folder):
    found = largest_plan()
    found.spec.ranges["N"] = Range(100, 100)  # (one tile, so that its reads are followed at once)
    seen = look(report_page(found), own_folder)
    assert seen["overlaps"] == [] and seen["scroll"] <= 1280 and seen["height"] >= 9
    assert report_page(found).isascii() and "&#8230;" in report_page(found)


@pytest.mark.skipif(BROWSER is None, reason="there is no chromium")
def test_a_page_in_a_browser(own_folder):
    seen = look(report_page(plan(EXAMPLES / "four/small.tce")), own_folder)
    assert seen["overlaps"] == [] and seen["scroll"] <= 1280
    with open(own_folder / "page.png", "rb") as file:
        assert struct.unpack(">II", file.read(24)[16:]) == (1280, 1600)


@pytest.mark.parametrize("name", ["four/small", "outer/one", "spill/sums", "trace/trace", "residual/ladder"])
def test_pictures_are_svg(name):
    found = plan(EXAMPLES / f"{name}.tce")
    graph = ElementTree.fromstring(fusion_graph(found))
    circles = [it for it in graph if it.tag.endswith("circle")]
    edges = [it for it in graph if it.tag.endswith("path")]
    assert len(circles) == sum(len(it.loops) for it in found.nodes)
    assert len(edges) == sum(len(it.fused) for it in found.nodes)
    ElementTree.fromstring(memory_bars(found))
    assert found._repr_svg_() == fusion_graph(found) and "…" not in fusion_graph(found)


def test_a_page_needs_nothing_else():
    html = report_page(plan(EXAMPLES / "four/small.tce"), 1000)
    assert "http" not in html.replace("http://www.w3.org/2000/svg", "") and "<script" not in html
    for part in ("Tree", "Fusion graph", "Loop nest", "Operations", "Memory of intermediates", "Arrays", "Reads"):
        assert f"<h2>{part}" in html
