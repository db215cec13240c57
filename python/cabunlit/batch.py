"""Several formulas in order, whose results may be kept and are then not done again: `batch`."""
from __future__ import annotations

import hashlib
import os
from collections.abc import Mapping
from pathlib import Path
from typing import Any

from cabunlit.arrays import TiledArray, open_array
from cabunlit.evaluate import check_operands, result_type, specified
from cabunlit.heads import is_whole
from cabunlit.language import Formula, loops, operations, parse_formula
from cabunlit.memory import budget_of, bytes_of
from cabunlit.plan import Plan, plan
from cabunlit.progress import Progress, show
from cabunlit.specification import Specification, judge
from cabunlit.strategy import FOLLOWED, cost_line
from cabunlit.workspace import Workspace, as_operand, move
from cabunlit.writing import refuse_place

PathLike = str | os.PathLike[str]
# The attribute of a result's file that tells how it was made.
MARK = "user.cabunlit"


def batch(text: Specification | str | PathLike, arrays: Mapping[str, Any] | None = None, *, folder: PathLike | None = None,
          memory: int | str | None = None, chunks: Any = "auto", resume: bool = False, explain: bool = False,
          progress: bool = False, program: PathLike | None = None, **named: Any) -> dict[str, TiledArray]:
    """Evaluates several formulas in order; a result may be an operand of every later one.

    Parameters
    ----------
    text : Specification, str or path
        As for `evaluate`, with a formula a line.
    arrays : mapping of str to arrays, optional
        The operands. Those that are not given are the files `NAME.tca` in the folder.
    folder : path, optional
        Where results are kept, as `NAME.tca`; else they go with the arrays that are returned.
    resume : bool, optional
        Whether results in the folder that are whole, newer than their operands and, as far as their files tell, of the same
        formula, extents and operands are kept. Operands that are no files have no time, so what they lead to is done again.
    explain : bool, optional
        Whether it is printed what each formula costs, with its loop nest, and which results are kept.
    memory, chunks, progress, program
        As for `evaluate`.

    Returns
    -------
    dict of str to TiledArray
        Each result. Those in front of a formula that fails, or of an interrupt, are in the folder.

    Raises
    ------
    As `evaluate`.

    Examples
    --------
    >>> done = batch('''B[i] = 2 * A[i]
    ... E[] = sum{i}(A[i] * B[i])''', A=numpy.arange(3))
    >>> int(done["E"][()])
    10
    """
    home = None if folder is None else Path(folder).absolute()
    sources = {name: as_operand(it, name) for name, it in {**(arrays or {}), **named}.items()}
    if home is not None:
        sources = {**_found(text, home, sources), **sources}
    spec, _ = specified(text, sources, chunks, program)
    judge(spec.text(), program)
    check_operands(spec, sources)
    room = bytes_of(memory)
    plans = [plan(spec.alone(k), program) for k in range(len(spec.formulas))]
    budgets = [min(it.full_budget, budget_of(room, it.memory, it.least_budget // 3)) for it in plans]
    files = {name: Path(it.path) if isinstance(it, TiledArray) else None for name, it in sources.items()}
    kept = _kept(spec, home, dict(files)) if resume and home is not None else set()
    if home is not None:
        for name in spec.results():
            refuse_place(home / f"{name}.tca")
    if explain:
        show("\n".join(_described(it, budget, len(plans), k in kept) for k, (it, budget) in enumerate(zip(plans, budgets))))
    beside = None if home is None else home / "results"
    with Workspace(program, beside) as place, Progress("formulas", len(plans), progress) as shown:
        for name in spec.inputs():
            place.put(name, sources[name], spec)
        for number, (part, budget) in enumerate(zip(plans, budgets)):
            name = spec.formulas[number].result.tensor
            made = place.folder / f"{name}.tca"
            if number not in kept:
                place.drop(name)  # (a link there leads to an operand, or to an earlier result of this name)
                place.run(["run", str(budget)], part.spec)
                if home is not None:
                    _mark(made, _origin(spec, spec.formulas[number], files))
                    move(made, home / f"{name}.tca")
            if home is not None:
                files[name] = home / f"{name}.tca"
                place.drop(name)
                made.symlink_to(home / f"{name}.tca")
            shown.done(name, number in kept)
        dtype = result_type(sources[it] for it in spec.inputs())
        if home is not None:
            return {name: open_array(home / f"{name}.tca", dtype) for name in spec.results()}
        return {name: _taken(place, name, dtype) for name in spec.results()}


def _taken(place: Workspace, name: str, dtype: str) -> TiledArray:
    found = place.take(name, None, dtype)
    assert isinstance(found, TiledArray)
    return found


def _described(part: Plan, budget: int, count: int, kept: bool) -> str:
    """What a formula costs, with its loop nest, unless its result is kept."""
    if kept:
        return f"{part.spec.formula.text()}: kept"
    reads = part.reads(budget, max(2000, FOLLOWED // count))
    return f"{cost_line(part, budget, reads)}\n{part.nest_text().rstrip()}"


def _found(text: Specification | str | PathLike, home: Path, sources: Mapping[str, Any]) -> dict[str, TiledArray]:
    """The operands that are files in a folder."""
    lines = text.text() if isinstance(text, Specification) else os.fspath(text)
    if lines.endswith(".tce") and "\n" not in lines:
        lines = Path(lines).read_text(encoding="utf-8", errors="surrogateescape")
    formulas = [parse_formula(it.split("#")[0]) for it in lines.splitlines() if "=" in it.split("#")[0]]
    wanted = Specification(formulas=formulas).inputs()
    return {name: open_array(home / f"{name}.tca") for name in wanted
            if name not in sources and (home / f"{name}.tca").exists()}


def _kept(spec: Specification, home: Path, files: dict[str, Path | None]) -> set[int]:
    """The formulas whose results are whole, newer than their operands, and of no other origin."""
    kept: set[int] = set()
    results = [it.result.tensor for it in spec.formulas]
    for number, formula in enumerate(spec.formulas):
        name = formula.result.tensor
        path = home / f"{name}.tca"
        whole = results.count(name) == 1 and is_whole(path) and _is_of(path, spec, name)
        operands = [files.get(it) for it in formula.operands()]
        if whole and all(it and _time(it) <= _time(path) for it in operands) and _may_be(path, _origin(spec, formula, files)):
            kept.add(number)
        files[name] = path if number in kept else None
    return kept


def _is_of(path: Path, spec: Specification, name: str) -> bool:
    found = open_array(path)
    return found.shape == spec.shape(name) and found.chunks == spec.chunks(name)


def _time(path: Path) -> int:
    return os.stat(path).st_mtime_ns


def _origin(spec: Specification, formula: Formula, files: Mapping[str, Path | None]) -> str:
    """What tells a result from one of another formula, of other extents or of other operands."""
    indexes = sorted({i for it in operations(formula.expression) for i in loops(it)} | set(formula.result.indexes))
    lines = [formula.text(), *(f"{it} {spec.extent(it)}" for it in indexes)]
    for name in formula.operands():
        path = files[name]
        found = os.stat(path) if path else None
        # (times alone do not tell files that were written within one tick of the system's clock)
        lines.append(f"{name} {found.st_ino} {found.st_size} {found.st_mtime_ns}" if found else name)
    return hashlib.blake2b("\n".join(lines).encode(), digest_size=16).hexdigest()


def _mark(path: Path, origin: str) -> None:
    """Has a file tell its origin, where the disk keeps attributes of files."""
    try:
        os.setxattr(path, MARK, f"{_time(path)} {origin}".encode())
    except OSError:
        pass


def _may_be(path: Path, origin: str) -> bool:
    """Whether a file tells this origin, or tells none: one that was written again since it was marked is not the marked one."""
    try:
        time, found = os.getxattr(path, MARK).decode("ascii", "replace").split()
    except (OSError, ValueError):
        return True
    return time != str(_time(path)) or found == origin
