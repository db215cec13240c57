"""The command `python3 -m cabunlit`: `info`, `report` and `pieces`."""
from __future__ import annotations

import argparse
import os
import sys
from collections.abc import Iterable, Sequence
from pathlib import Path

import numpy

from cabunlit.arrays import open_array
from cabunlit.errors import ArrayError, CabunlitError
from cabunlit.heads import is_pairs, read_head, read_pairs
from cabunlit.page import report_page
from cabunlit.pieces import Cut, cut, join, run_piece
from cabunlit.plan import plan
from cabunlit.progress import show
from cabunlit.tiles import Array, bands

BLOCK = 1 << 15


def info(path: str) -> str:
    """What a file holds.

    Parameters
    ----------
    path : str
        A `.tca`, `.sym` or `.cert` file.

    Returns
    -------
    str

    Raises
    ------
    ArrayError
        Where it is no such file, or not finished.

    Examples
    --------
    >>> from cabunlit import write_array
    >>> _ = write_array(path, numpy.arange(6).reshape(2, 3), 2)
    >>> print(info(path))
    A.tca: an array file of the first version
    extents 2 3
    edges 2 2
    tiles 2 (1 2), 2 elements of padding
    8 bytes an element, 112 bytes
    as signed numbers from 0 to 5
    """
    if path.endswith(".cert"):
        return _certificate(path)
    if is_pairs(path):
        return _pairs(path)
    head = read_head(path)
    array = open_array(path)
    version = "first" if head.form == "TCARRAY1" else "second"
    tiles = int(numpy.prod(array.numblocks, dtype=object))
    padding = tiles * int(numpy.prod(head.chunks, dtype=object)) - array.size
    blocks = (array[band.region] for band in bands(array.shape, array.chunks, array.dtype.itemsize))
    return "\n".join([f"{path}: an array file of the {version} version", f"extents {_list(head.shape)}", f"edges {_list(head.chunks)}",
                      f"tiles {tiles} ({_list(array.numblocks)}), {padding} elements of padding",
                      f"{head.width} bytes an element, {os.path.getsize(path)} bytes", _limits(blocks)])


def _pairs(path: str) -> str:
    """What a file of pairs holds. Its head tells the extents only where it has no others than those of the pair."""
    first, second, sign, stored = read_pairs(path)
    turned = "antisymmetric" if sign else "symmetric"
    try:
        extents = f"extents {_list(read_head(path).shape)}"
    except ArrayError:
        extents = "extents that its head does not tell"
    words = numpy.memmap(path, "<i8", "r", 32, stored) if stored else numpy.zeros(0, "<i8")
    blocks = (words[at:at + BLOCK] for at in range(0, stored, BLOCK))
    return "\n".join([f"{path}: a file of pairs, {turned} in the positions {first} and {second}", extents,
                      f"{stored} words stored, {os.path.getsize(path)} bytes", _limits(blocks)])


def _list(numbers: Sequence[int]) -> str:
    return " ".join(map(str, numbers)) or "-"


def _limits(blocks: Iterable[Array]) -> str:
    """The least and the largest element, one block after the other."""
    pairs = [(int(block.min()), int(block.max())) for block in blocks]
    return f"as signed numbers from {min(a for a, _ in pairs)} to {max(b for _, b in pairs)}" if pairs else "no elements"


def _certificate(path: str) -> str:
    lines = Path(path).read_text(encoding="ascii", errors="replace").splitlines()
    memory = next((it for it in lines if it.startswith("memory ")), None)
    if memory is None or lines[0] != "tce certificate 1" or lines[-1] != "end":
        raise CabunlitError(f"{path} is no certificate, or not finished")
    nodes = [it for it in lines if it.startswith("node ")]
    rows = sum(it.startswith("row ") for it in lines)
    return "\n".join([f"{path}: a certificate of {len(nodes)} operations", *nodes, memory,
                      f"{rows} rows in {sum(it.startswith('table ') for it in lines)} tables"])


def _parser() -> argparse.ArgumentParser:
    parser = argparse.ArgumentParser(prog="python3 -m cabunlit", description=__doc__)
    verbs = parser.add_subparsers(dest="verb", required=True)
    verb = verbs.add_parser("info", help="what a .tca, .sym or .cert file holds")
    verb.add_argument("file", nargs="+")
    verb = verbs.add_parser("report", help="a page of HTML with the plan of a specification")
    verb.add_argument("spec")
    verb.add_argument("--budget", type=int, help="words for tiles")
    verb = verbs.add_parser("pieces", help="a formula in pieces, as for an array of jobs")
    pieces = verb.add_subparsers(dest="step", required=True)
    verb = pieces.add_parser("cut", help="makes a folder with a part of the formula in each piece-K")
    verb.add_argument("spec")
    verb.add_argument("index")
    verb.add_argument("count", type=int)
    verb.add_argument("--folder", default="pieces")
    verb = pieces.add_parser("run", help="runs one piece, by default that of SLURM_ARRAY_TASK_ID, or all that are not done")
    verb.add_argument("folder")
    verb.add_argument("number", nargs="?", type=int)
    verb.add_argument("--memory", help="as 512MiB")
    verb = pieces.add_parser("join", help="puts the results together")
    verb.add_argument("folder")
    verb.add_argument("--out")
    return parser


def _pieces(words: argparse.Namespace) -> str:
    if words.step == "cut":
        made = cut(words.spec, words.index, words.count, folder=words.folder)
        return f"{words.folder}: pieces 0 to {len(made.bounds) - 1}"
    if words.step == "join":
        return f"wrote {join(words.folder, words.out).path}"
    task = os.environ.get("SLURM_ARRAY_TASK_ID", "")
    if words.number is None and task and not task.isdecimal():
        raise CabunlitError(f"SLURM_ARRAY_TASK_ID is {task!r} and no number of a piece: give one behind the folder")
    number = words.number if words.number is not None else int(task) if task else None
    numbers = [number] if number is not None else Cut.load(words.folder).missing()
    for it in numbers:
        run_piece(words.folder, it, words.memory)
    return "\n".join(f"piece {it} is done" for it in numbers) or "all pieces are done"


def main(words: Sequence[str] | None = None) -> int:
    """Runs a command and returns its exit status: 0, or 1 with a line on standard error."""
    found = _parser().parse_args(words)
    try:
        if found.verb == "info":
            show("\n\n".join(map(info, found.file)))
        elif found.verb == "report":
            if not found.spec.endswith(".tce"):
                raise CabunlitError(f"{found.spec} is no specification: the name of one ends in .tce")
            show(report_page(plan(found.spec), found.budget))
        else:
            show(_pieces(found))
    except (CabunlitError, OSError) as error:
        show(f"cabunlit: {error}", sys.stderr)
        return 1
    return 0
