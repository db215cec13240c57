"""A formula cut along an index into pieces that run anywhere: processes of this machine, dask, MPI, or jobs of a queue.

A cut is a folder: `pieces.json` says what was cut, and `piece-K` holds the specification of a piece, its operands and, once it
is done, its result. Nothing that stands there before is removed.
"""
from __future__ import annotations

import json
import os
from collections.abc import Mapping
from concurrent.futures import Executor, Future, as_completed
from contextlib import ExitStack
from dataclasses import asdict
from pathlib import Path
from typing import Any

import numpy

from cabunlit.arrays import SymmetricArray, TiledArray, create_array, open_array
from cabunlit.cutfolder import MANIFEST, Cut, stamp
from cabunlit.cutting import CutFormula, Slice, Sliced, sum_formulas
from cabunlit.errors import ArrayError, CabunlitError, FormulaError, PiecesFailed, disk_fault
from cabunlit.interrupts import later_interrupts, remove_folder
from cabunlit.memory import budget_of, bytes_of
from cabunlit.plan import as_specification, plan
from cabunlit.program import run_program, temporary_folder, write_text
from cabunlit.progress import Progress
from cabunlit.specification import Specification, judge
from cabunlit.tiles import bands
from cabunlit.workspace import AnyOrder, Workspace, as_operand, move
from cabunlit.writing import write_source

PathLike = str | os.PathLike[str]


def cut(spec: Specification | str | PathLike, index: str, pieces: int, arrays: Mapping[str, Any] | None = None, *,
        folder: PathLike = "pieces", program: PathLike | None = None) -> Cut:
    """Cuts a formula along an index.

    Parameters
    ----------
    spec : Specification, str or path
        Of one formula.
    index : str
        An index of the result, in any position of the operands; or one over which the outermost sum adds up, whose pieces are
        added in the end.
    pieces : int
        At most as many as whole tiles along the index.
    arrays : mapping of str to arrays, optional
        The operands; those that are not given are the files `NAME.tca` of the current folder.
    folder : path, optional
        Is made. Where it holds this very cut already, nothing is done.
    program : path, optional
        Where `tce` is.

    Returns
    -------
    Cut

    Raises
    ------
    FileExistsError
        Where the folder is there and holds something else: it is left as it is.
    FormulaError, ArrayError, TceError
        `DiskFault`, a `TceError`, where the folder cannot be written. Nothing is left of it then.

    Examples
    --------
    >>> spec = Specification({"N": (4, 2)}, {"N": "i j k"}, {"A": "N N", "B": "N N", "C": "N N"},
    ...                      "C[i,j] = sum{k}(A[i,k] * B[k,j])")
    >>> A = numpy.arange(16).reshape(4, 4)
    >>> made = cut(spec, "j", 2, {"A": A, "B": A}, folder=folder)
    >>> made.bounds
    ((0, 2), (2, 4))
    >>> run_pieces(made)
    >>> bool((numpy.asarray(join(made)) == A @ A).all())
    True
    """
    found = as_specification(spec, program)
    judge(found.text(), program)
    formula = CutFormula.of(found, index)
    bounds = tuple(formula.bounds(pieces))
    given = dict(arrays or {})
    missing = [it for it in found.inputs() if it not in given and not os.path.exists(f"{it}.tca")]
    if missing:
        raise FormulaError("; ".join(f"operand {it} is missing: give it, or make {it}.tca here" for it in missing))
    sources = {name: as_operand(given[name], name) if name in given else open_array(f"{name}.tca") for name in found.inputs()}
    for name, it in sources.items():
        if tuple(it.shape) != found.shape(name):
            raise ArrayError(f"operand {name} has the shape {tuple(it.shape)}, and the formula wants {found.shape(name)}")
    unsigned = {numpy.dtype(it.dtype).kind for it in sources.values()} == {"u"}
    made = Cut(os.path.abspath(folder), found.text(), index, bounds, "<u8" if unsigned else "<i8",
               {name: stamp(it) for name, it in sources.items()})
    if os.path.exists(folder):
        try:
            known = Cut.load(folder)
        except ArrayError:
            known = None
        if known != made:
            raise FileExistsError(f"{os.fspath(folder)} is there and holds another cut, or something else: give another folder=")
        return known
    _make(made, formula, sources)
    return made


def _make(made: Cut, formula: CutFormula, sources: Mapping[str, Any]) -> None:
    """Makes the folder of a cut; what was written of it goes where it cannot be finished."""
    home = Path(made.folder)
    with ExitStack() as ending:
        with later_interrupts():
            try:
                home.mkdir()
            except FileExistsError:
                raise
            except OSError as error:
                raise disk_fault(error, home) from error
            ending.callback(remove_folder, home)
        try:
            _fill(home, made, formula, sources)
        except OSError as error:
            raise disk_fault(error, home) from error
        ending.pop_all()


def _fill(home: Path, made: Cut, formula: CutFormula, sources: Mapping[str, Any]) -> None:
    """Writes what a cut's folder holds; what tells that it is one comes last."""
    for number, (start, stop) in enumerate(made.bounds):
        place = made.place(number)
        place.mkdir()
        spec = formula.piece(start, stop)
        for it in formula.slices:
            path = place / f"{it.name}.tca"
            if it.positions:
                source = Sliced(sources[it.of], it.positions, start, stop)
                write_source(path, source, spec.chunks(it.name), None, False)
            else:
                path.symlink_to(_whole(home, it, sources[it.of], formula.spec))
        (place / "piece.tce").write_text(spec.text(), encoding="ascii")
    found = {key: value for key, value in asdict(made).items() if key != "folder"}
    part = home / f"{MANIFEST}.part"
    part.write_text(json.dumps(found, indent=1), encoding="ascii")
    os.replace(part, home / MANIFEST)


def _whole(home: Path, it: Slice, source: Any, spec: Specification) -> Path:
    """The file of an operand that is not cut, written once where there is none yet."""
    chunks = spec.chunks(it.of)
    if isinstance(source, TiledArray):
        source.refuse_change()
    if isinstance(source, TiledArray) and not isinstance(source, SymmetricArray) and source.chunks == chunks:
        return Path(source.path)
    path = home / f"{it.of}.tca"
    if not path.exists():
        write_source(path, AnyOrder(source), chunks, None, False)
    return path


def run_piece(folder: PathLike, number: int, memory: int | str | None = None, program: PathLike | None = None) -> int:
    """Runs one piece, unless it is done; its result stands once it is whole.

    Two runs of one piece at a time harm nothing: each works in a folder of its own.

    Parameters
    ----------
    folder : path
        Of the cut.
    number : int
        Of the piece, counted from 0.
    memory : int, str or None, optional
        Bytes for its tiles and intermediates; else half of what the system has, divided by its processors.
    program : path, optional
        Where `tce` is.

    Returns
    -------
    int
        The number.

    Raises
    ------
    FileChanged
        Where an operand's file to which the piece is linked is no longer the one that was cut.
    TceError, ProgramKilled, NotEnoughMemory
        `DiskFault`, a `TceError`, also where the piece's folder is not there or cannot be written.
    """
    made = Cut.load(folder)
    if not 0 <= number < len(made.bounds):
        raise ArrayError(f"{os.fspath(folder)} has the pieces 0 to {len(made.bounds) - 1}, and not {number}")
    if made.is_done(number):
        return number
    made.refuse_change(number)
    place = made.place(number)
    try:
        spec = Specification.parse((place / "piece.tce").read_text(encoding="ascii"))
    except OSError as error:
        raise disk_fault(error, place / "piece.tce") from error
    found = plan(spec, program)
    room = bytes_of(memory) if memory is not None else bytes_of(None) // (os.cpu_count() or 1)
    budget = min(found.full_budget, budget_of(room, found.memory, found.least_budget // 3))
    with temporary_folder(place, "attempt-") as attempt:
        for name in spec.inputs():
            (attempt / f"{name}.tca").symlink_to((place / f"{name}.tca").resolve())
        write_text(attempt / "piece.tce", spec.text())
        run_program(["run", "piece.tce", str(budget)], attempt, program=program, text=spec.text())
        result = f"{spec.formula.result.tensor}.tca"
        move(attempt / result, place / result)
    return number


def run_pieces(made: Cut | PathLike, executor: Executor | None = None, *, memory: int | str | None = None, retries: int = 2,
               progress: bool = False, program: PathLike | None = None) -> None:
    """Runs all pieces that are not done.

    Parameters
    ----------
    made : Cut or path
        A cut, or its folder.
    executor : concurrent.futures.Executor, optional
        Where pieces run: processes, `dask.distributed.Client.get_executor()`, `mpi4py.futures.MPIPoolExecutor`; else here, one
        after the other.
    memory : int, str or None, optional
        Bytes for each piece.
    retries : int, optional
        How often a piece is handed out again whose worker was lost.
    progress : bool, optional
        Whether pieces are told as they are done.
    program : path, optional
        Where `tce` is, on the machine of each worker.

    Raises
    ------
    PiecesFailed
        With the numbers of those that are not done; a later call does these alone.
    ArrayError
        Where the folder holds no cut.

    Examples
    --------
    >>> spec = Specification({"N": (4, 2)}, {"N": "i"}, {"A": "N", "C": "N"}, "C[i] = 2 * A[i]")
    >>> made = cut(spec, "i", 2, {"A": numpy.arange(4)}, folder="twice")
    >>> made.missing(), run_pieces("twice", memory="1 MiB"), made.missing()
    ([0, 1], None, [])
    """
    found = made if isinstance(made, Cut) else Cut.load(made)
    left = found.missing()
    failed: dict[int, BaseException] = {}
    with Progress("pieces", len(found.bounds), progress) as shown:
        for number in set(range(len(found.bounds))) - set(left):
            shown.done(f"piece {number}", True)
        for turn in range(retries + 1):
            failed = _turn(found, left, executor, memory, program, shown)
            left = [it for it, error in failed.items() if not isinstance(error, CabunlitError)]
            if not left:
                break
    if failed:
        first = next(iter(failed.values()))
        numbers = tuple(sorted(failed))
        raise PiecesFailed(f"pieces {', '.join(map(str, numbers))} were not done: {type(first).__name__}: {first}\n"
                           "Those that are done are kept; call again.", numbers) from first


def _turn(made: Cut, left: list[int], executor: Executor | None, memory: int | str | None, program: PathLike | None,
          shown: Progress) -> dict[int, BaseException]:
    """Hands out each of the pieces once, and returns those that failed."""
    errors: dict[int, BaseException] = {}
    where = None if program is None else os.fspath(program)
    futures: dict[Future[int], int] = {}
    try:
        for number in left:
            if executor is None:
                _here(made.folder, number, memory, where, shown, errors)
            else:
                futures[executor.submit(run_piece, made.folder, number, memory, where)] = number
        for future in as_completed(futures):
            error = future.exception()
            if error is None:
                shown.done(f"piece {futures[future]}")
            else:
                errors[futures[future]] = error
    except RuntimeError as error:  # (an executor that is broken takes no more)
        errors.update({number: error for number in left if number not in errors})
    except BaseException:
        for future in futures:
            future.cancel()
        raise
    return {number: errors.get(number, RuntimeError("it was not finished")) for number in left if not made.is_done(number)}


def _here(folder: str, number: int, memory: int | str | None, program: str | None, shown: Progress,
          errors: dict[int, BaseException]) -> None:
    """Runs a piece in this process."""
    try:
        run_piece(folder, number, memory, program)
        shown.done(f"piece {number}")
    except CabunlitError as error:
        errors[number] = error


def join(made: Cut | PathLike, out: PathLike | None = None, *, memory: int | str | None = None,
         program: PathLike | None = None) -> TiledArray:
    """Puts the results of the pieces together: side by side, or added modulo 2^64 by the program.

    Parameters
    ----------
    made : Cut or path
        A cut, or its folder.
    out : path, optional
        Where the result is kept; else as `NAME.tca` in the folder.
    memory : int, str or None, optional
        Bytes for the addition.
    program : path, optional
        Where `tce` is.

    Returns
    -------
    TiledArray

    Raises
    ------
    PiecesFailed
        Where pieces are not done.
    ArrayError
        Where the folder holds no cut.
    DiskFault
        Where the result cannot be written. Nothing is left of it then.

    Examples
    --------
    >>> spec = Specification({"N": (4, 2)}, {"N": "i"}, {"A": "N", "C": "N"}, "C[i] = 2 * A[i]")
    >>> run_pieces(cut(spec, "i", 2, {"A": numpy.arange(4)}, folder="doubled"))
    >>> join("doubled", "C.tca")[:]
    array([0, 2, 4, 6])
    """
    found = made if isinstance(made, Cut) else Cut.load(made)
    missing = found.missing()
    if missing:
        raise PiecesFailed(f"pieces {', '.join(map(str, missing))} are not done: run them first", tuple(missing))
    formula = found.formula
    name = formula.formula.result.tensor
    target = Path(out) if out is not None else Path(found.folder) / f"{name}.tca"
    parts = [open_array(found.place(it) / f"{name}.tca", found.dtype) for it in range(len(found.bounds))]
    if formula.summed:
        _add(formula, parts, target, memory, program)
    else:
        axis = formula.formula.result.indexes.index(found.index)
        with create_array(target, formula.spec.shape(name), formula.spec.chunks(name), found.dtype) as writer:
            for part, (start, _) in zip(parts, found.bounds):
                for band in bands(part.shape, part.chunks, 8):
                    region = tuple(slice(it.start + start, it.stop + start) if d == axis else it
                                   for d, it in enumerate(band.region))
                    writer[region] = part[band.region]
    for left in Path(found.folder).glob("piece-*/attempt-*"):  # (of workers that were killed)
        remove_folder(left)
    return open_array(target, found.dtype)


def _add(formula: CutFormula, parts: list[TiledArray], target: Path, memory: int | str | None,
         program: PathLike | None) -> None:
    """Has the program add arrays."""
    whole = formula.spec
    result = formula.formula.result
    names = [f"p{k}" for k in range(len(parts))]
    spec = Specification(dict(whole.ranges), formulas=sum_formulas(result, names))
    spec.indexes = {it: whole.indexes[it] for it in result.indexes}
    spec.tensors = {it: whole.tensors[result.tensor] for it in [*names, *(x.result.tensor for x in spec.formulas)]}
    with Workspace(program, target) as place:
        for name, part in zip(names, parts):
            place.put(name, part, spec)
        for number in range(len(spec.formulas)):
            alone = spec.alone(number)
            largest = max(map(alone.tile_words, alone.tensors))
            place.run(["run", str(budget_of(bytes_of(memory), 32, largest))], alone)
        move(place.folder / f"{result.tensor}.tca", os.path.realpath(target))
