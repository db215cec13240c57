"""`einsum` as numpy has it, over arrays that may be larger than memory."""
from __future__ import annotations

import os
from collections.abc import Mapping, Sequence
from typing import Any

from cabunlit.arrays import SymmetricArray, TiledArray
from cabunlit.contraction import Contraction, from_sublists
from cabunlit.errors import FormulaError
from cabunlit.evaluate import run_choice
from cabunlit.memory import bytes_of
from cabunlit.progress import Progress, show
from cabunlit.specification import Specification
from cabunlit.strategy import Choice, choose, cost_line
from cabunlit.tiles import Array
from cabunlit.workspace import Narrowed, Out, Workspace, as_operand, check_out, chosen_edges

PathLike = str | os.PathLike[str]


def einsum(subscripts: Any, *operands: Any, optimize: Any = "greedy", memory: int | str | None = None, chunks: Any = "auto",
           out: Out = None, disk: int | None = None, explain: bool = False, progress: bool = False,
           program: PathLike | None = None) -> TiledArray | Array:
    """Contracts arrays along labels, modulo 2^64.

    Parameters
    ----------
    subscripts : str or array
        As for `numpy.einsum`: `"ij,jk->ik"`, `"ij,jk"`, `"...ij,...jk"`; or operands and lists of labels in turn.
    *operands : arrays
        Arrays of numpy of `<i8`, `<u8` or `<i4`, `TiledArray`s or dask arrays.
    optimize : str, bool or path, optional
        As for `numpy.einsum_path`; a path of opt_einsum too.
    memory : int, str or None, optional
        Bytes for tiles and intermediates, as `"64 MiB"`; else half of what the system has.
    chunks : "auto", int or mapping of label to int, optional
        The edges of tiles. Files keep their own where they agree.
    out : path, array, numpy.ndarray or None, optional
        A path to keep the result at, an array to be filled, `numpy.ndarray` itself for a new array; else the answer is a
        `TiledArray` whose file goes with it.
    disk : int, optional
        Bytes that intermediates may take on disk.
    explain : bool, optional
        Whether the path is printed as `numpy.einsum_path` prints it, with bytes, turns and tiles read.
    progress : bool, optional
        Whether contractions are told as they are done.
    program : path, optional
        Where `tce` is.

    Returns
    -------
    TiledArray or numpy.ndarray

    Raises
    ------
    ArrayError
        Where an operand has another type of elements.
    FormulaError
        Where the subscripts, the shapes or the path do not fit.
    NotEnoughMemory
        Where the memory is below three tiles.
    TceError, ProgramKilled

    Examples
    --------
    >>> A, B = numpy.arange(6).reshape(2, 3), numpy.arange(12).reshape(3, 4)
    >>> einsum("ij,jk", A, B, out=numpy.ndarray)
    array([[20, 23, 26, 29],
           [56, 68, 80, 92]])
    >>> numpy.asarray(einsum("ii->i", numpy.eye(3, dtype=int)))
    array([1, 1, 1])
    """
    if not isinstance(subscripts, str):
        subscripts, found = from_sublists([subscripts, *operands])
        operands = tuple(found)
    names = [f"X{k}" for k in range(len(operands))]
    sources = [as_operand(it, name) for name, it in zip(names, operands)]
    contraction = Contraction.of(subscripts, [tuple(it.shape) for it in sources], optimize)
    sources = [Narrowed(it, gone) if gone else it for it, gone in zip(sources, contraction.dropped)]
    target = check_out(out, tuple(contraction.extents[it] for it in contraction.output))
    edges, free = _edges(contraction, sources, chunks)
    names = _names(contraction, sources, edges)
    ways = _ways(contraction, edges, names)
    free_ranges = {ways["whole"].indexes[contraction.names()[it]] for it in free}
    fixed_ranges = {ways["whole"].indexes[contraction.names()[it]] for it in contraction.labels if it not in free}
    choice, said = choose(_possible(ways), bytes_of(memory), free_ranges - fixed_ranges, disk, program)
    if explain:
        show(explanation(contraction, choice, said))
    given = dict(zip(names, sources))
    with Workspace(program, target) as place, Progress("contractions", len(choice.plans), progress) as shown:
        return run_choice(place, choice, given, out, shown)


def _names(contraction: Contraction, sources: Sequence[Any], edges: Mapping[str, int]) -> list[str]:
    """A name for each operand; an array that stands twice, with the same edges, has one."""
    every = contraction.edges(edges)
    names: dict[tuple[int, ...], str] = {}
    keys = [(id(it), *(every[label] for label in of)) for it, of in zip(sources, contraction.operands)]
    for key in keys:
        names.setdefault(key, f"X{len(names)}")
    return [names[key] for key in keys]


def _edges(contraction: Contraction, sources: Sequence[Any], chunks: Any) -> tuple[dict[str, int], set[str]]:
    """The edge of each label, and the labels whose edges may be chosen: files keep theirs, the first one's where they differ."""
    found = chosen_edges(chunks, contraction.labels)
    for of, source in zip(contraction.operands, sources):
        if isinstance(source, TiledArray) and not isinstance(source, SymmetricArray):
            for label, edge in zip(of, source.chunks):
                found.setdefault(label, edge)
    return found, set(contraction.labels) - set(found)


def _ways(contraction: Contraction, edges: dict[str, int], names: Sequence[str]) -> dict[str, Specification]:
    """One formula, and one for each item of the path."""
    whole = contraction.specification(edges, names)
    named = contraction.specification(edges, names, named=True)
    return {"whole": whole} if len(named.formulas) == 1 else {"whole": whole, "named": named}


def _possible(ways: Mapping[str, Specification]) -> dict[str, Specification]:
    """The ways that are within the limits of one specification; formulas of one item each are run one by one.

    Raises
    ------
    FormulaError
        Where an array has too many dimensions.
    """
    for spec in ways.values():
        for name, positions in spec.tensors.items():
            if len(positions) > 8:
                raise FormulaError(f"{name} has {len(positions)} dimensions, and a tensor at most 8: take another path, "
                                   "or contract a part first")
    whole = ways["whole"]
    if "named" in ways and (len(whole.indexes) > 24 or len(whole.ranges) > 16 or len(whole.tensors) > 32):
        return {"named": ways["named"]}
    return dict(ways)


def explanation(contraction: Contraction, choice: Choice, said: Sequence[str]) -> str:
    """What `numpy.einsum_path` prints, and what a run costs."""
    lines = map(cost_line, choice.plans, choice.budgets, choice.reads)
    return "\n".join([contraction.describe(), "", *said, *lines])
