"""A formula of the language on arrays of numpy and array files: `evaluate` and `spill`."""
from __future__ import annotations

import operator
import os
from collections.abc import Callable, Collection, Iterable, Mapping, Sequence
from math import prod
from pathlib import Path
from typing import Any, SupportsIndex

import numpy

from cabunlit.arrays import TiledArray
from cabunlit.contraction import even_edge
from cabunlit.errors import ArrayError, FormulaError, SpecificationError
from cabunlit.language import Formula, Reference, loops, parse_formula, references
from cabunlit.memory import budget_of, bytes_of
from cabunlit.nest import Tree
from cabunlit.plan import as_specification
from cabunlit.progress import Progress, show, watcher
from cabunlit.specification import Range, Specification, judge
from cabunlit.strategy import Choice, candidates, choose
from cabunlit.tiles import Array
from cabunlit.workspace import Out, Workspace, as_operand, check_out, chosen_edges

PathLike = str | os.PathLike[str]
CAN_BE_CUT = ("more than 32 operations", "limit of indexes", "limit of tensors", "limit of ranges")


def evaluate(text: Specification | str | PathLike, arrays: Mapping[str, Any] | None = None, *, memory: int | str | None = None,
             chunks: Any = "auto", out: Out = None, strategy: str = "auto", disk: int | None = None, explain: bool = False,
             progress: bool = False, program: PathLike | None = None, **named: Any) -> TiledArray | Array:
    """Evaluates a formula.

    Parameters
    ----------
    text : Specification, str or path
        A formula alone, as `C[i,j] = sum{k}(A[i,k] * B[k,j])`, of which the operands tell the extents; or a specification, its
        text, or a file's name that ends in `.tce`.
    arrays : mapping of str to arrays, optional
        The operands, which may also be given by name behind all else: arrays of numpy of `<i8`, `<u8` or `<i4`, `TiledArray`s,
        dask arrays.
    memory : int, str or None, optional
        Bytes for tiles and intermediates, as `"64 MiB"`; else half of what the system has.
    chunks : "auto", int or mapping of index to int, optional
        The edges of tiles of a formula alone. Files keep their own.
    out : path, array, numpy.ndarray or None, optional
        A path to keep the result at, an array to be filled, `numpy.ndarray` itself for a new array; else the answer is a
        `TiledArray` whose file goes with it.
    strategy : str, optional
        `whole`, `named`, `single`, or `auto`: the one that is simulated to cost least.
    disk : int, optional
        Bytes that intermediates may take on disk.
    explain : bool, optional
        Whether the strategies, and the loop nest, are printed.
    progress : bool, optional
        Whether formulas are told as they are done.
    program : path, optional
        Where `tce` is.

    Returns
    -------
    TiledArray or numpy.ndarray

    Raises
    ------
    ArrayError
        Where an operand has another type of elements or shape.
    FormulaError, NotEnoughMemory, TceError, ProgramKilled

    Examples
    --------
    >>> A = numpy.arange(6).reshape(2, 3)
    >>> evaluate("C[i,j] = sum{k}(A[i,k] * A[j,k])", A=A, out=numpy.ndarray)
    array([[ 5, 14],
           [14, 50]])
    """
    sources = {name: as_operand(it, name) for name, it in {**(arrays or {}), **named}.items()}
    spec, free = specified(text, sources, chunks, program)
    formula = spec.formula
    _judge(spec, strategy, program)
    check_operands(spec, sources)
    target = check_out(out, spec.shape(formula.result.tensor))
    ways = candidates(spec, strategy)
    choice, said = choose(ways, bytes_of(memory), free, disk, program)
    if explain:
        nests = [f"{it.spec.formula.text()}\n{it.nest_text()}" for it in choice.plans]
        show("\n".join([*said, *nests]))
    with Workspace(program, target) as place, Progress("formulas", len(choice.plans), progress) as shown:
        return run_choice(place, choice, sources, out, shown)


def run_choice(place: Workspace, choice: Choice, sources: Mapping[str, Any], out: Out, shown: Progress) -> TiledArray | Array:
    """Runs the formulas of a choice in a workspace, and takes the last one's result."""
    spec, reports = choice.spec, []
    place.refuse_without_room(spec, sources)
    for name in spec.inputs():
        place.put(name, sources[name], spec)
    for number, (part, budget) in enumerate(zip(choice.plans, choice.budgets)):
        reports.append(place.run(["run", str(budget)], part.spec))
        later = {name for it in spec.formulas[number + 1:] for name in it.operands()}
        for name in set(part.spec.formula.operands()) - later:
            place.drop(name)
        shown.done(part.spec.formula.result.tensor)
    return place.take(spec.formulas[-1].result.tensor, out, result_type(sources.values()), "".join(reports))


def result_type(sources: Iterable[Any]) -> str:
    """`<u8` where all operands have no sign, else `<i8`."""
    kinds = {numpy.dtype(it.dtype).kind for it in sources}
    return "<u8" if kinds == {"u"} else "<i8"


def _judge(spec: Specification, strategy: str, program: PathLike | None) -> None:
    """Lets the program read a formula; what a cut mends is none of its faults where it may be cut."""
    try:
        judge(spec.text(), program)
    except SpecificationError as error:
        if strategy == "whole" or not any(it in error.line for it in CAN_BE_CUT):
            raise


def check_operands(spec: Specification, sources: Mapping[str, Any]) -> None:
    """Raises where an operand is missing, is none of the formulas', or has another shape.

    Raises
    ------
    FormulaError, ArrayError
    """
    wanted = spec.inputs()
    missing, extra = [it for it in wanted if it not in sources], [it for it in sources if it not in wanted]
    if missing or extra:
        raise FormulaError("; ".join([*(f"operand {it} is missing: give {it}=" for it in missing),
                                      *(f"{it} is no operand of the formula" for it in extra)]))
    for name in wanted:
        if tuple(sources[name].shape) != spec.shape(name):
            raise ArrayError(f"operand {name} has the shape {tuple(sources[name].shape)}, and the formula wants {spec.shape(name)}")


def specified(text: Specification | str | PathLike, sources: Mapping[str, Any], chunks: Any,
              program: PathLike | None) -> tuple[Specification, set[str]]:
    """The specification, and the ranges whose edges may be chosen.

    Raises
    ------
    FormulaError, ArrayError
    """
    alone = isinstance(text, str) and not text.endswith(".tce") and not any(
        it.split()[:1] and it.split()[0] in ("range", "index", "tensor") for it in text.splitlines())
    if not alone:
        if not isinstance(chunks, str) or chunks != "auto":
            raise FormulaError("a specification has its own tiles: leave chunks= out, or write them in its ranges")
        return as_specification(text, program), set()
    lines = [it for it in str(text).splitlines() if it.split("#")[0].strip()]
    return from_formulas([parse_formula(it.split("#")[0]) for it in lines], sources, chunks)


def from_formulas(formulas: Sequence[Formula], sources: Mapping[str, Any], chunks: Any) -> tuple[Specification, set[str]]:
    """Declarations for formulas, by the shapes of their operands; and the ranges whose edges may be chosen.

    Raises
    ------
    FormulaError
        Where an index has two extents, or none.
    """
    extents: dict[str, int] = {}
    edges: dict[str, int] = {}
    results = {it.result.tensor for it in formulas}
    uses = [it for formula in formulas for it in references(formula.expression)]
    for use in uses:
        if use.tensor in results and use.tensor not in sources:
            continue
        if use.tensor not in sources:
            raise FormulaError(f"operand {use.tensor} is missing: give {use.tensor}=")
        _note(use, sources[use.tensor], extents, edges)
    names = list(dict.fromkeys(i for formula in formulas for use in (formula.result, *references(formula.expression))
                               for i in use.indexes))
    unknown = [it for it in names if it not in extents]
    if unknown:
        raise FormulaError(f"index {unknown[0]} stands in no operand, so its extent is not known: write a specification")
    rank = max([len(it.indexes) for it in uses] + [len(it.result.indexes) for it in formulas], default=0)
    usual = {0: 64, 1: 4096, 2: 64, 3: 32, 4: 16}.get(rank, 4)
    given = chosen_edges(chunks, names)
    spec, free = Specification(), set()
    of_key: dict[tuple[int, int, bool], str] = {}
    for it in names:
        fixed = it in edges or it in given
        edge = edges.get(it, min(given.get(it, even_edge(extents[it], usual)), extents[it]))
        key = (extents[it], edge, fixed)
        if key not in of_key:
            of_key[key] = f"N{len(of_key)}"
            spec.ranges[of_key[key]] = Range(extents[it], edge)
        if not fixed:
            free.add(of_key[key])
        spec.add_index(of_key[key], it)
    for use in [*uses, *(it.result for it in formulas)]:
        positions = tuple(spec.indexes[i] for i in use.indexes)
        if spec.tensors.setdefault(use.tensor, positions) != positions:
            _join(spec, use, free)
    for it, edge in given.items():
        if it not in edges and spec.range_of(it).edge != min(edge, extents[it]):
            raise FormulaError(f"chunks has the edge {edge} of {it}, which stands in an operand where an index of the edge "
                               f"{spec.range_of(it).edge} stands too: give both one edge")
    spec.formulas = list(formulas)
    return spec, free & set(spec.ranges)


def _note(use: Reference, source: Any, extents: dict[str, int], edges: dict[str, int]) -> None:
    """What an operand tells of its indexes."""
    if len(source.shape) != len(use.indexes):
        raise ArrayError(f"operand {use.tensor} has {len(source.shape)} dimensions, and {len(use.indexes)} indexes in the formula")
    for d, (index, n) in enumerate(zip(use.indexes, source.shape)):
        if extents.setdefault(index, int(n)) != n:
            raise ArrayError(f"index {index} has the extent {extents[index]}, and {n} in operand {use.tensor}")
        if isinstance(source, TiledArray) and type(source) is TiledArray:
            edges.setdefault(index, source.chunks[d])


def _join(spec: Specification, use: Reference, free: Collection[str]) -> None:
    """Makes the ranges of one tensor's positions under different indexes one, with an edge that is fixed, where one is."""
    for at, index in enumerate(use.indexes):
        kept, gone = spec.tensors[use.tensor][at], spec.indexes[index]
        if kept == gone:
            continue
        if spec.ranges[kept].extent != spec.ranges[gone].extent:
            raise ArrayError(f"{use.tensor} stands with indexes of different extents")
        if kept in free and gone not in free:
            kept, gone = gone, kept
        spec.indexes = {i: kept if of == gone else of for i, of in spec.indexes.items()}
        spec.tensors = {name: tuple(kept if it == gone else it for it in of) for name, of in spec.tensors.items()}
        del spec.ranges[gone]


def spill(text: Specification | str | PathLike, arrays: Mapping[str, Any] | None = None, *, limit: int,
          memory: int | str | None = None, chunks: Any = "auto", out: Out = None, explain: bool = False, progress: bool = False,
          program: PathLike | None = None, **named: Any) -> TiledArray | Array:
    """Evaluates a formula in pieces, none of which keeps more than so many elements of intermediates.

    Parameters
    ----------
    limit : int
        Elements.
    text, arrays, memory, chunks, out, progress, program
        As for `evaluate`.
    explain : bool, optional
        Whether the pieces are printed.

    Returns
    -------
    TiledArray or numpy.ndarray

    Raises
    ------
    PieceTooLarge
        Where no cuts meet the limit.
    As `evaluate`.

    Examples
    --------
    >>> int(spill("E[] = sum{i}(A[i]) * sum{j}(A[j])", A=numpy.arange(4), limit=2, out=numpy.ndarray))
    36
    """
    sources = {name: as_operand(it, name) for name, it in {**(arrays or {}), **named}.items()}
    if not isinstance(limit, SupportsIndex) or operator.index(limit) < 0:
        raise FormulaError(f"limit={limit!r} is no number of elements: give a whole number from 0 on")
    spec, _ = specified(text, sources, chunks, program)
    name = spec.formula.result.tensor
    judge(spec.text(), program)
    check_operands(spec, sources)
    target = check_out(out, spec.shape(name))
    with Workspace(program, target) as place, Progress("pieces", None, progress) as shown:
        for it in spec.inputs():
            place.put(it, sources[it], spec)
        files: Callable[[], Iterable[Path]] = lambda: [*place.folder.glob("spill-*.tca"), place.folder / f"{name}.tca"]
        largest = max(map(spec.tile_words, (*spec.inputs(), name)))
        budget = budget_of(bytes_of(memory), limit, largest)
        watch = watcher(files, shown, lambda names: _share(spec, names)) if progress else None
        report = place.run(["spill", str(budget), str(limit)], spec, watch)
        if explain:
            show(report)
        return place.take(name, out, result_type(sources.values()), report)


def _share(spec: Specification, names: set[str]) -> float:
    """The part of all iterations that is done where the files of these names are whole: `spill-V` has the values of operation V."""
    tree = Tree.of(spec.formula)
    turns = [prod(map(spec.extent, loops(it))) for it in tree.operations]
    roots = [int(it.removeprefix("spill-")) if it.startswith("spill-") else len(turns) - 1 for it in names]
    return sum(turns[it] for it in set().union(*map(tree.below, roots))) / sum(turns)
