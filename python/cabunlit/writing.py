"""Array files written in bounded memory, their heads last."""
from __future__ import annotations

import errno
import itertools
import operator
import os
import tempfile
from collections.abc import Iterator, Sequence
from math import prod
from types import TracebackType
from typing import Any, SupportsIndex

import numpy

from cabunlit.errors import ArrayError, disk_fault
from cabunlit.heads import head_bytes
from cabunlit.interrupts import later_interrupts
from cabunlit.tiles import BAND_BYTES, Array, bands, counts_of, is_in_rows, regions, write_rows

PathLike = str | os.PathLike[str]
# What is to be done with elements of another kind.
MENDED = {"f": "scale them (fixed_point), or take astype(\"<i8\")", "b": "take astype(\"<i8\")",
          "c": "take the real and the imaginary parts, scaled (fixed_point)", "O": "take numpy.asarray(.., dtype=\"<i8\")",
          "U": "take an array, or open_array of a file's name", "S": "take an array, or open_array of a file's name",
          "V": "take one of its fields"}


def refuse_elements(dtype: numpy.dtype[Any]) -> None:
    """Raises where elements of a type cannot stand in an array file."""
    if dtype.kind not in "iu":
        raise ArrayError(f"elements are whole numbers, not {dtype}: {MENDED.get(dtype.kind, 'take whole numbers')}")
    if dtype.newbyteorder("<") != dtype:
        raise ArrayError(f"elements of {dtype.str} have their highest byte first: take astype(\"<{dtype.str[1:]}\")")
    if dtype.str not in ("<i8", "<u8", "<i4"):
        raise ArrayError(f"elements have 8 bytes, or 4 with a sign, not {dtype}: take astype(\"<i8\")")


def refuse_mask(array: Any) -> None:
    """Raises where elements are masked: what stands under a mask is no number."""
    if isinstance(array, numpy.ma.MaskedArray) and numpy.ma.is_masked(array):
        raise ArrayError("elements are masked: take filled(0), or another number for them")


def edges_of(shape: Sequence[int], chunks: SupportsIndex | Sequence[SupportsIndex]) -> tuple[int, ...]:
    """The edges of an array's tiles, at most its extents.

    Raises
    ------
    ArrayError
        Where the array or its tiles pass a limit.

    Examples
    --------
    >>> edges_of((100, 3), 8)
    (8, 3)
    """
    given: Any = chunks
    try:
        alone = isinstance(given, SupportsIndex) and not isinstance(given, numpy.ndarray)
        wanted = [operator.index(it) for it in ([given] * len(shape) if alone else given)]
    except TypeError:
        wanted = []
    if len(wanted) != len(shape) or any(e < 1 for e in wanted):
        raise ArrayError(f"chunks={chunks!r} is no edge of at least 1 for each of the {len(shape)} dimensions")
    if len(shape) > 8 or any(not isinstance(n, SupportsIndex) or not 1 <= operator.index(n) < 2**32 for n in shape):
        raise ArrayError(f"an array has at most 8 dimensions of 1 to 2^32 - 1, not {tuple(shape)}")
    edges = tuple(int(min(e, n)) for e, n in zip(wanted, shape))
    if prod(edges) > 2**20:
        raise ArrayError(f"a tile of {edges} has more than 2^20 elements: choose shorter chunks")
    if prod(edges) * prod(counts_of(shape, edges)) > 2**48:
        raise ArrayError("an array has at most 2^48 elements with its padding")
    return edges


def refuse_place(path: PathLike) -> None:
    """Raises where a file that may not be written stands, or something else than a file: these are not replaced.

    Raises
    ------
    ArrayError
        Where it is a folder or a device.
    DiskFault
        Where it may not be written.
    """
    if os.path.exists(path) and not os.path.isfile(path):
        raise ArrayError(f"{os.fspath(path)} is there and is no file: give another path")
    if os.path.exists(path) and not os.access(path, os.W_OK):
        raise disk_fault(PermissionError(errno.EACCES, os.strerror(errno.EACCES)), path)


class ArrayWriter:
    """An array file that is being written beside the place where it is to stand.

    It is moved there when it is whole: an array that was opened there before stays as it is.
    """

    def __init__(self, path: PathLike, shape: tuple[int, ...], chunks: int | Sequence[int], dtype: numpy.dtype[Any],
                 flush: bool) -> None:
        refuse_elements(dtype)
        self.shape, self.chunks, self.dtype = shape, edges_of(shape, chunks), dtype
        self.head = head_bytes(shape, self.chunks, dtype.itemsize)
        self.path, self.flush = os.path.realpath(path), flush
        refuse_place(self.path)
        self._tiles: Array | None = None
        self._process = os.getpid()
        tile = prod(self.chunks) * dtype.itemsize
        self.length = len(self.head) + prod(counts_of(shape, self.chunks)) * tile
        try:
            with later_interrupts():
                self._file, self._name = tempfile.mkstemp(".part", ".cabunlit-", os.path.dirname(self.path))
        except OSError as error:
            raise disk_fault(error, self.path) from error
        try:
            os.truncate(self._file, self.length)
        except OSError as error:
            self.abandon()
            raise disk_fault(error, self.path) from error

    def __enter__(self) -> ArrayWriter:
        return self

    def __exit__(self, kind: type[BaseException] | None, error: BaseException | None, _: TracebackType | None) -> None:
        if kind is None:
            self.finish()
            return
        self.abandon()
        if isinstance(error, OSError) and error.errno in (errno.ENOSPC, errno.EDQUOT, errno.EIO, errno.EFBIG):
            raise disk_fault(error, self.path) from error

    def tiles(self) -> Array:
        """All elements in the order of the file, to be set."""
        if self._file < 0:
            raise ArrayError(f"{self.path} is finished, or given up: begin it anew by create_array")
        if self._tiles is None:
            os.posix_fallocate(self._file, 0, self.length)
            tiled = (*counts_of(self.shape, self.chunks), *self.chunks)
            self._tiles = numpy.memmap(self._name, self.dtype, "r+", len(self.head), tiled)
        return self._tiles

    def __setitem__(self, region: tuple[slice, ...] | slice, values: Array) -> None:
        """Sets a region, given by a slice with step 1 for each dimension."""
        keys = region if isinstance(region, tuple) else (region,)
        if len(keys) != len(self.shape) or not all(isinstance(it, slice) for it in keys):
            raise ArrayError(f"{region!r} is no region: give a slice for each of the {len(self.shape)} dimensions")
        found = [it.indices(n) for it, n in zip(keys, self.shape)]
        refuse_mask(values)
        values = numpy.asarray(values)
        refuse_elements(values.dtype)
        due = tuple(max(0, stop - start) for start, stop, _ in found)
        if values.dtype.itemsize != self.dtype.itemsize:
            raise ArrayError(f"a block of {values.dtype} does not fit elements of {self.dtype}: take astype(\"{self.dtype.str}\")")
        if values.shape != due or any(step != 1 for *_, step in found):
            raise ArrayError(f"a block of shape {values.shape} does not fit a region of {due}")
        write_rows(self.tiles(), self.chunks, [start for start, _, _ in found], values.view(self.dtype.str))

    def write_bands(self, source: Any, most: int = BAND_BYTES) -> None:
        """Writes all elements of something that gives regions, one band of at most so many bytes after the other. Padding is zeros
        already, and rows that stand as the file has them are written as they are."""
        buffer = numpy.empty(0, self.dtype)
        for band in bands(self.shape, self.chunks, self.dtype.itemsize, most):
            words, at = prod(band.counts) * prod(band.edges), len(self.head) + band.first * self.dtype.itemsize
            rows = numpy.asarray(source[band.region])
            if rows.size == words and rows.flags.c_contiguous and is_in_rows(band.counts, band.edges):
                self._put(rows.reshape(-1), at)
                continue
            if len(buffer) < words:
                buffer = numpy.zeros(words, self.dtype)
            part = buffer[:words].reshape((*band.counts, *band.edges))
            if rows.size != words:
                part[...] = 0
            write_rows(part, band.edges, [0] * len(self.shape), rows)
            self._put(buffer[:words], at)

    def _put(self, words: Array, at: int) -> None:
        rest = memoryview(words.data).cast("B")
        while rest:
            done = os.pwrite(self._file, rest, at)
            rest, at = rest[done:], at + done

    def finish(self) -> None:
        """Writes the head, and has the file stand, unless that is done."""
        if self._file < 0:
            return
        try:
            if isinstance(self._tiles, numpy.memmap):
                self._tiles.flush()
            if self.flush:
                os.fdatasync(self._file)
            os.pwrite(self._file, self.head, 0)
            os.fchmod(self._file, 0o666 & ~_umask())
            os.replace(self._name, self.path)
        except OSError as error:
            self.abandon()
            raise disk_fault(error, self.path) from error
        os.close(self._file)
        self._tiles, self._file = None, -1

    def __del__(self) -> None:
        # (a process that was forked has a copy of the writer, and leaves the file alone)
        if hasattr(self, "_file") and self._process == os.getpid():
            self.abandon()

    def abandon(self) -> None:
        """Removes what was written, unless the file stands."""
        if self._file < 0:
            return
        with later_interrupts():
            os.close(self._file)
            self._tiles, self._file = None, -1
            try:
                os.unlink(self._name)
            except OSError:
                pass


def _umask() -> int:
    """What the process takes from the rights of new files. It is read and not set and set back, which two threads could mix up."""
    try:
        with open("/proc/self/status", encoding="ascii", errors="replace") as lines:
            return next(int(it.split()[1], 8) for it in lines if it.startswith("Umask:"))
    except (OSError, StopIteration):
        return 0o077


def refuse_unknown(shape: Sequence[Any]) -> None:
    """Raises where extents of a dask array are not known."""
    if any(n != n for n in shape):
        raise ArrayError(f"the shape {tuple(shape)} has extents that are not known: call compute_chunk_sizes() of the dask array")


def source_of(array: Any) -> tuple[tuple[int, ...], numpy.dtype[Any]]:
    """The shape and the type of something to be written, or why it is refused.

    Raises
    ------
    ArrayError
    """
    if not hasattr(array, "shape") or not hasattr(array, "dtype"):
        raise ArrayError(f"{type(array).__name__} is no array: take numpy.asarray(.., dtype=\"<i8\")")
    refuse_elements(numpy.dtype(array.dtype))
    refuse_mask(array)
    flags = getattr(array, "flags", None)
    if flags is not None and flags.f_contiguous and not flags.c_contiguous:
        raise ArrayError("the array is in Fortran order: take numpy.ascontiguousarray(..)")
    refuse_unknown(array.shape)
    return tuple(int(n) for n in array.shape), numpy.dtype(array.dtype)


def write_source(path: PathLike, array: Any, chunks: int | Sequence[int], shape: Sequence[int] | None,
                 flush: bool) -> numpy.dtype[Any]:
    """Writes an array file of any source that `write_array` takes, and returns the type of its elements."""
    if hasattr(array, "shape"):
        extents, dtype = source_of(array)
        if shape is not None and tuple(shape) != extents:
            raise ArrayError(f"the array has the shape {extents}, not {tuple(shape)}")
        with ArrayWriter(path, extents, chunks, dtype, flush) as writer:
            if hasattr(array, "dask"):
                _write_lazy(writer, array)
            else:
                writer.write_bands(array)
        return dtype
    if shape is None or not hasattr(array, "__iter__"):
        raise ArrayError(f"{type(array).__name__} is no array; of blocks give shape=")
    return _write_blocks(path, iter(array), chunks, tuple(int(n) for n in shape), flush)


def _write_lazy(writer: ArrayWriter, array: Any) -> None:
    """Computes each chunk of a dask array once."""
    ends = [list(itertools.accumulate(it)) for it in array.chunks]
    for number in itertools.product(*(range(len(it)) for it in ends)):
        region = tuple(slice(end[k] - of[k], end[k]) for k, end, of in zip(number, ends, array.chunks))
        writer[region] = numpy.asarray(array.blocks[number] if number else array)


def _write_blocks(path: PathLike, blocks: Iterator[Any], chunks: int | Sequence[int], shape: tuple[int, ...],
                  flush: bool) -> numpy.dtype[Any]:
    """Writes blocks as they come, one for each tile."""
    first = next(blocks, None)
    if first is None:
        raise ArrayError("there are no blocks")
    first = numpy.asarray(first)
    with ArrayWriter(path, shape, chunks, first.dtype, flush) as writer:
        found = itertools.chain([first], blocks)
        for region in regions(shape, writer.chunks):
            block = next(found, None)
            if block is None:
                raise ArrayError(f"there are too few blocks: that of {region} is wanted")
            source_of(block)
            writer[region] = block
        if next(found, None) is not None:
            raise ArrayError(f"there are more blocks than the tiles of {shape} in {writer.chunks}")
    return first.dtype
