"""The program's reports, read."""
from __future__ import annotations

import re
from dataclasses import dataclass

from cabunlit.errors import CabunlitError


@dataclass(frozen=True)
class Node:
    """One operation of a formula, as a report has it.

    Attributes
    ----------
    number : int
        Counted from 0: operands in front of what uses them, the left one first.
    kind : str
        `product`, `sum`, `add` or `sub`.
    loops : tuple of str
        The nest of loops, outermost first.
    fused : tuple of str
        The loops that it shares with the operation that uses its values.
    size : int or None
        The elements that are kept of it; None of the last one, whose values are the result.
    """

    number: int
    kind: str
    loops: tuple[str, ...]
    fused: tuple[str, ...]
    size: int | None


@dataclass(frozen=True)
class Report:
    """What a command says of one formula.

    Attributes
    ----------
    nodes : tuple of Node
    memory : int
        The elements of all intermediates together.
    tiles : int
        The words that were taken for tiles; 0 of a plan.
    wrote : tuple of (str, int)
        Each file that was made, with its bytes.
    """

    nodes: tuple[Node, ...]
    memory: int
    tiles: int = 0
    wrote: tuple[tuple[str, int], ...] = ()


def _set(text: str) -> tuple[str, ...]:
    return () if text == "-" else tuple(text.split(","))


def _node(line: str) -> Node:
    found = re.fullmatch(r"node (\d+) (\w+) loops (\S+) (?:fused (\S+) size (\d+)|result)", line)
    if not found:
        raise CabunlitError(f"no line of a report: {line!r}")
    number, kind, loops, fused, size = found.groups()
    return Node(int(number), kind, _set(loops), _set(fused or "-"), int(size) if size else None)


def read_report(text: str) -> list[Report]:
    """The parts of a report, one for each formula or piece.

    Parameters
    ----------
    text : str
        What `plan`, `run`, `batch` or `spill` printed.

    Returns
    -------
    list of Report

    Raises
    ------
    CabunlitError
        Where it is no report.

    Examples
    --------
    >>> read_report('''tce run 1
    ... node 0 product loops i,j result
    ... memory 0
    ... tiles 3
    ... wrote C.tca 80
    ... ''')[0].wrote
    (('C.tca', 80),)
    """
    lines = text.splitlines()
    if not lines or not lines[0].startswith("tce "):
        raise CabunlitError(f"no report of tce: {text[:80]!r}: have program= or CABUNLIT_TCE name tce")
    groups: list[list[str]] = [[]]
    for line in lines[1:]:
        if re.match(r"formula \d+$", line) or line.startswith("piece "):
            groups.append([])
        groups[-1].append(line)
    return [_part(it) for it in groups if it]


def _part(lines: list[str]) -> Report:
    nodes, memory, tiles, wrote = [], 0, 0, []
    for line in lines:
        words = line.split()
        if words[0] == "node":
            nodes.append(_node(line))
        elif words[0] == "memory":
            memory = int(words[1])
        elif words[0] == "tiles":
            tiles = int(words[1])
        elif words[0] == "wrote":
            wrote.append((words[1], int(words[2])))
        elif words[0] == "piece":
            memory, tiles = int(words[3]), int(words[5])
    return Report(tuple(nodes), memory, tiles, tuple(wrote))
