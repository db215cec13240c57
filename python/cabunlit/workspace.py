"""A temporary folder in which the program runs, and the arrays that go in and come out."""
from __future__ import annotations

import errno
import operator
import os
import shutil
import tempfile
from collections.abc import Callable, Collection, Mapping, Sequence
from pathlib import Path
from types import TracebackType
from typing import Any, SupportsIndex

import numpy

from cabunlit.arrays import SymmetricArray, TiledArray, open_array, owned
from cabunlit.errors import ArrayError, FileChanged, FormulaError, NotEnoughDisk, TceError, disk_fault
from cabunlit.interrupts import later_interrupts
from cabunlit.program import run_program, temporary_folder, write_text
from cabunlit.specification import Specification
from cabunlit.tiles import Array
from cabunlit.writing import refuse_elements, refuse_mask, refuse_place, refuse_unknown, write_source

PathLike = str | os.PathLike[str]
Out = PathLike | Array | type | None


class Narrowed:
    """An array without axes of extent 1, of which regions are taken."""

    def __init__(self, array: Any, axes: Sequence[int]) -> None:
        self.array, self.axes = array, tuple(axes)
        self.shape = tuple(n for d, n in enumerate(array.shape) if d not in self.axes)
        self.dtype = array.dtype

    def __getitem__(self, region: tuple[slice, ...]) -> Array:
        rest = iter(region)
        full = tuple(slice(None) if d in self.axes else next(rest) for d in range(len(self.array.shape)))
        return numpy.asarray(self.array[full]).squeeze(self.axes)


class AnyOrder:
    """An array of numpy in whatever order its elements lie."""

    def __init__(self, array: Any) -> None:
        self.array, self.shape, self.dtype = array, tuple(array.shape), array.dtype

    def __getitem__(self, region: tuple[slice, ...]) -> Array:
        return numpy.asarray(self.array[region])


def as_operand(source: Any, name: str) -> Any:
    """An operand as something with a shape and a type of elements.

    Raises
    ------
    ArrayError
        Where its elements are no words.
    """
    found = source if all(hasattr(source, it) for it in ("shape", "dtype", "__getitem__")) else numpy.asarray(source)
    try:
        refuse_elements(numpy.dtype(found.dtype))
        refuse_mask(found)
        refuse_unknown(found.shape)
    except ArrayError as error:
        raise ArrayError(f"operand {name}: {error}") from None
    if any(not 1 <= n < 2**32 for n in found.shape):
        none = "no elements: a sum over none is 0" if 0 in found.shape else "an extent above 2^32 - 1: take parts of it"
        raise ArrayError(f"operand {name} of the shape {tuple(found.shape)} has {none}")
    return found


def chosen_edges(chunks: Any, names: Collection[str]) -> dict[str, int]:
    """The edges that are given: none by `"auto"`, one for all, or one for each of some labels or indexes.

    Raises
    ------
    FormulaError

    Examples
    --------
    >>> chosen_edges(4, "ij"), chosen_edges({"j": 2}, "ij")
    ({'i': 4, 'j': 4}, {'j': 2})
    """
    if isinstance(chunks, str) and chunks == "auto":
        return {}
    given = dict(chunks) if isinstance(chunks, Mapping) else dict.fromkeys(names, chunks)
    unknown = set(given) - set(names)
    if unknown:
        raise FormulaError(f"chunks has {sorted(map(str, unknown))}, which are no labels")
    if any(not isinstance(it, SupportsIndex) or operator.index(it) < 1 for it in given.values()):
        raise FormulaError(f"chunks={chunks!r} is neither \"auto\", nor an edge of at least 1, nor such edges by label")
    return {it: operator.index(edge) for it, edge in given.items()}


class Workspace:
    """A folder of a run, which is gone at the end of its `with`.

    Parameters
    ----------
    program : path, optional
        Where `tce` is.
    beside : path, optional
        The file beside which the folder is made, so that a result is moved there and not copied.
    """

    def __init__(self, program: PathLike | None = None, beside: PathLike | None = None) -> None:
        parent = None if beside is None else os.path.dirname(os.path.abspath(beside))
        self._made = temporary_folder(parent, ".cabunlit-" if beside else "cabunlit-")
        self.folder = self._made.__enter__()
        self.program = program
        self.opened: list[TiledArray] = []

    def __enter__(self) -> Workspace:
        return self

    def __exit__(self, kind: type[BaseException] | None, error: BaseException | None, trace: TracebackType | None) -> None:
        self._made.__exit__(None, None, None)

    def refuse_without_room(self, spec: Specification, sources: Mapping[str, Any]) -> None:
        """Looks whether the operands that are no files in these tiles, and the last result, fit on the disk.

        Raises
        ------
        NotEnoughDisk
        """
        result = spec.formulas[-1].result.tensor
        written = [it for it in spec.inputs() if not _is_linked(sources[it], spec.chunks(it))]
        due, free = sum(map(spec.file_bytes, [*written, result])), shutil.disk_usage(self.folder).free
        if due > free:
            raise NotEnoughDisk(f"{', '.join([*written, result])} take {due} bytes as files, and the disk of {self.folder} has {free}: "
                                "have out= or TMPDIR name a disk with more room")

    def put(self, name: str, source: Any, spec: Specification) -> None:
        """Has an operand's array file stand in the folder: by a link, where it is a file in these tiles already.

        Raises
        ------
        ArrayError
            Where its shape is not that of the tensor.
        FileChanged
        """
        due, chunks = spec.shape(name), spec.chunks(name)
        if tuple(source.shape) != due:
            raise ArrayError(f"operand {name} has the shape {tuple(source.shape)}, and the formula wants {due}")
        place = self.folder / f"{name}.tca"
        if isinstance(source, TiledArray):
            self.opened.append(source)
            source.refuse_change()
            if _is_linked(source, chunks):
                place.symlink_to(source.path)
                return
        plain = isinstance(source, numpy.ndarray)
        write_source(place, AnyOrder(source) if plain else source, chunks, None, False)

    def run(self, words: Sequence[str], spec: Specification, watch: Callable[[], None] | None = None) -> str:
        """Runs the program on a specification: its words are a command's without SPEC, which comes second."""
        text = spec.text()
        write_text(self.folder / "s.tce", text)
        try:
            report = run_program([words[0], "s.tce", *words[1:]], self.folder, program=self.program, text=text, watch=watch)
        except TceError as error:
            self._refuse_change(error)
            raise
        self._refuse_change()
        return report

    def _refuse_change(self, cause: TceError | None = None) -> None:
        """Raises where a file is no longer the one that was opened, whatever the program says of it."""
        changed = [it.path for it in self.opened if it.changed()]
        if changed:
            raise FileChanged(f"{', '.join(changed)} was changed while the program read it: open it and run again") from cause

    def drop(self, name: str) -> None:
        """Removes an intermediate's file."""
        (self.folder / f"{name}.tca").unlink(missing_ok=True)

    def take(self, name: str, out: Out, dtype: str, report: str = "") -> TiledArray | Array:
        """Takes a result out of the folder.

        Parameters
        ----------
        name : str
            The tensor.
        out : path, array, type or None
            A path to keep the file at; an array of numpy to be filled; `numpy.ndarray` for a new one; or None for a
            `TiledArray` whose file is removed with it.
        dtype : str
            How the words are read.
        """
        place = self.folder / f"{name}.tca"
        if isinstance(out, type):
            return numpy.asarray(open_array(place, dtype))
        if isinstance(out, numpy.ndarray):
            out[...] = numpy.asarray(open_array(place, dtype)).reshape(out.shape)
            return out
        if out is not None:
            target = os.path.realpath(os.fspath(out))
            move(place, target)
            found = open_array(target, dtype)
        else:
            with later_interrupts():
                target = _temporary(self.folder.parent)
                move(place, target)
                found = owned(open_array(target, dtype))
        found.report = report
        return found


def _is_linked(source: Any, chunks: Sequence[int]) -> bool:
    """Whether an operand is a file in these tiles already."""
    return isinstance(source, TiledArray) and not isinstance(source, SymmetricArray) and source.chunks == tuple(chunks)


def _temporary(folder: Path) -> str:
    try:
        handle, name = tempfile.mkstemp(".tca", "cabunlit-", folder)
    except OSError as error:
        raise disk_fault(error, folder) from error
    os.close(handle)
    return name


def move(place: PathLike, target: PathLike) -> None:
    """Moves a file over another one, whole at every moment, also to another disk.

    Raises
    ------
    ArrayError
        Where something else than a file stands there.
    DiskFault
    """
    refuse_place(target)
    try:
        os.replace(place, target)
    except OSError as error:
        if error.errno != errno.EXDEV:
            raise disk_fault(error, target) from error
        part = f"{os.fspath(target)}.part"
        try:
            shutil.copyfile(place, part)
            os.replace(part, target)
        except OSError as again:
            Path(part).unlink(missing_ok=True)
            raise disk_fault(again, target) from again


def check_out(out: Out, shape: Sequence[int]) -> PathLike | None:
    """The path among the kinds of `out`, after a look whether an array fits.

    Raises
    ------
    ArrayError
    """
    if isinstance(out, type):
        if not issubclass(out, numpy.ndarray):
            raise ArrayError(f"out={out!r}: give a path, an array, or numpy.ndarray")
        return None
    if isinstance(out, numpy.ndarray):
        refuse_elements(out.dtype)
        if tuple(out.shape) != tuple(shape) or out.dtype.itemsize != 8:
            raise ArrayError(f"out has the shape {out.shape} of {out.dtype}, and the result {tuple(shape)} of 8 bytes")
        if not out.flags.writeable:
            raise ArrayError("out cannot be written: give an array that can, or numpy.ndarray for a new one")
        return None
    if out is not None and not isinstance(out, (str, os.PathLike)):
        raise ArrayError(f"out={out!r}: give a path, an array, or numpy.ndarray")
    if out is not None:
        refuse_place(out)
    return out
