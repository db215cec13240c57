"""Array files as arrays: opened without a copy, written in bounded memory.

Elements are words of 64 bits modulo 2^64; whether they are read as signed or unsigned is the reader's choice.
"""
from __future__ import annotations

import os
import weakref
from collections.abc import Iterator, Sequence
from math import prod
from typing import Any

import numpy

from cabunlit.errors import ArrayError, FileChanged
from cabunlit.heads import Head, read_head
from cabunlit.keys import Key, expanded, opened
from cabunlit.tiles import Array, Region, counts_of, read_rows, regions
from cabunlit.writing import ArrayWriter, write_source

PathLike = str | os.PathLike[str]


class TiledArray:
    """An array file, seen as an array of numpy. Only what is asked for is read.

    Attributes
    ----------
    path : str
        The file.
    shape : tuple of int
        The extents.
    chunks : tuple of int
        The edges of the tiles.
    dtype : numpy.dtype
        `<i8`, or what was asked for; `<i4` of a file with four bytes an element.
    report : str
        What the program said where it made this array, else empty.

    Examples
    --------
    >>> tiled = write_array(path, numpy.arange(12).reshape(3, 4), (2, 2))
    >>> tiled
    TiledArray('A.tca', shape=(3, 4), chunks=(2, 2), dtype=int64)
    >>> tiled[1:, 2]
    array([ 6, 10])
    >>> int(numpy.asarray(tiled).sum())
    66
    """

    def __init__(self, path: PathLike, head: Head, dtype: numpy.dtype[Any]) -> None:
        self.path = os.path.abspath(path)
        self.shape, self.chunks, self.dtype = head.shape, head.chunks, dtype
        self.report = ""
        # (a temporary file is there as long as the array that owns it)
        self._base: TiledArray | None = None
        self._head = head
        self._stamp = _stamp(self.path)
        self._tiles = self._open()

    def _open(self) -> Array:
        """The elements in the file's order: tiles of each dimension, and then their edges."""
        tiled = (*counts_of(self.shape, self.chunks), *self.chunks)
        return numpy.memmap(self.path, self.dtype, "r", self._head.length, tiled)

    @property
    def ndim(self) -> int:
        """How many dimensions there are."""
        return len(self.shape)

    @property
    def size(self) -> int:
        """How many elements there are."""
        return prod(self.shape)

    @property
    def nbytes(self) -> int:
        """The bytes of the elements, without padding."""
        return self.size * self.dtype.itemsize

    @property
    def numblocks(self) -> tuple[int, ...]:
        """How many tiles each dimension has."""
        return counts_of(self.shape, self.chunks)

    def __repr__(self) -> str:
        name = os.path.basename(self.path)
        return f"{type(self).__name__}({name!r}, shape={self.shape}, chunks={self.chunks}, dtype={self.dtype})"

    def __len__(self) -> int:
        if not self.shape:
            raise TypeError("an array without dimensions has no length")
        return self.shape[0]

    def __int__(self) -> int:
        """The element of an array that has one alone."""
        if self.size != 1:
            raise TypeError(f"an array of the shape {self.shape} is no number")
        return int(self.__array__().reshape(()))

    def view(self, dtype: object) -> TiledArray:
        """The same file read as other numbers of as many bytes, as `"<u8"`.

        Raises
        ------
        ArrayError
            Where the numbers have another length, or are no whole numbers.
        """
        found = numpy.dtype(dtype)  # type: ignore[call-overload]
        if found.kind not in "iu" or found.itemsize != self.dtype.itemsize or found.newbyteorder("<") != found:
            raise ArrayError(f"{self.path} has {self.dtype.itemsize}-byte words and cannot be read as {found}: "
                             f"take <i{self.dtype.itemsize} or <u{self.dtype.itemsize}")
        made = type(self)(self.path, self._head, found)
        made._base = self
        return made

    def __reduce__(self) -> tuple[Any, ...]:
        """Another process opens the file."""
        return open_array, (self.path, self.dtype.str, self.shape)

    def __dask_tokenize__(self) -> object:
        return type(self).__name__, self.path, self._stamp, self.dtype.str

    def changed(self) -> bool:
        """Whether the file is no longer the one that was opened."""
        try:
            return _stamp(self.path) != self._stamp
        except OSError:
            return True

    def refuse_change(self) -> None:
        """Raises `FileChanged` where the file is no longer the one that was opened."""
        if self.changed():
            raise FileChanged(f"{self.path} is no longer the file that was opened: open it again")

    def __array__(self, dtype: object = None, copy: bool | None = None) -> Array:
        if copy is False:
            raise ValueError("the elements of a file are copied to be an array: leave copy= out")
        self.refuse_change()
        out = numpy.empty(self.shape, self.dtype)
        self._read([0] * self.ndim, out)
        self.refuse_change()
        return out if dtype is None else out.astype(dtype)  # type: ignore[call-overload]

    def _read(self, starts: Sequence[int], out: Array) -> None:
        """Fills an array with the elements that begin at these coordinates."""
        read_rows(self._tiles, self.chunks, starts, out)

    def __getitem__(self, key: Key) -> Any:
        self.refuse_change()
        keys = expanded(key, self.shape)
        found = self._block(keys) if all(isinstance(it, int) or isinstance(it, range) and it.step == 1 for it in keys) \
            else self._gather(opened(keys))
        self.refuse_change()
        return found[()]

    def _block(self, keys: Sequence[Any]) -> Array:
        """The elements at numbers and at ranges without steps."""
        ranges = [it if isinstance(it, range) else range(it, it + 1) for it in keys]
        out = numpy.empty([len(it) for it in ranges], self.dtype)
        self._read([it.start for it in ranges], out)
        return out.squeeze(tuple(d for d, it in enumerate(keys) if isinstance(it, int)))

    def _gather(self, numbers: Sequence[Array]) -> Array:
        """The elements at these numbers, of which each dimension has an array."""
        where = [it // edge for it, edge in zip(numbers, self.chunks)]
        inside = [it % edge for it, edge in zip(numbers, self.chunks)]
        return numpy.asarray(self._tiles[(*where, *inside)])

    def tiles(self) -> Iterator[tuple[Region, Array]]:
        """The region and the elements of each tile, in the order of the file."""
        for region in regions(self.shape, self.chunks):
            yield region, numpy.asarray(self[region])

    def __iter__(self) -> Iterator[Array]:
        """The elements of each tile, in the order of the file."""
        return (block for _, block in self.tiles())

    def to_dask(self) -> Any:
        """A dask array with the tiles as its chunks. What is computed is read then.

        Returns
        -------
        dask.array.Array
        """
        import dask.array
        return dask.array.from_array(self, chunks=self.chunks, asarray=True, fancy=False)


class SymmetricArray(TiledArray):
    """A file that stores each symmetric or antisymmetric pair once, seen as the whole array.

    Attributes
    ----------
    pair : tuple of int
        The two positions.
    antisymmetric : bool
        Whether an exchange of the two turns the sign.

    Examples
    --------
    >>> with open("S.sym", "wb") as file:  # (elements 5, 6 and 7 of a symmetric matrix, at (0, 0), (0, 1) and (1, 1))
    ...     file.write(b"TCSYMM01" + numpy.array([0, 1, 0, 5, 6, 7], "<u8").tobytes())
    56
    >>> numpy.asarray(open_array("S.sym"))
    array([[5, 6],
           [6, 7]])
    """

    @property
    def pair(self) -> tuple[int, int]:
        """The two positions."""
        return self._head.pair

    @property
    def antisymmetric(self) -> bool:
        """Whether an exchange of the two turns the sign."""
        return self._head.antisymmetric

    def _open(self) -> Array:
        others = [n for d, n in enumerate(self.shape) if d not in self._head.pair]
        return numpy.memmap(self.path, self.dtype, "r", self._head.length, (*others, self._head.stored))

    def _read(self, starts: Sequence[int], out: Array) -> None:
        out[...] = self._gather(numpy.ix_(*(numpy.arange(s, s + n) for s, n in zip(starts, out.shape))))

    def _gather(self, numbers: Sequence[Array]) -> Array:
        first, second = (numbers[p] for p in self.pair)
        low, high = numpy.minimum(first, second), numpy.maximum(first, second)
        place = high * (high - 1) // 2 + low if self.antisymmetric else high * (high + 1) // 2 + low
        others = [it for d, it in enumerate(numbers) if d not in self.pair]
        same = low == high
        if not self.antisymmetric:
            return numpy.asarray(self._tiles[(*others, place)])
        if self._head.stored == 0:
            return numpy.zeros(numpy.broadcast_shapes(*(it.shape for it in numbers)), self.dtype)
        found = numpy.asarray(self._tiles[(*others, numpy.where(same, 0, place))])
        found = numpy.where(same, numpy.zeros((), self.dtype), found)
        return numpy.where(first > second, numpy.negative(found), found)


def _stamp(path: str) -> tuple[int, int, int, int]:
    found = os.stat(path)
    return found.st_dev, found.st_ino, found.st_size, found.st_mtime_ns


def open_array(path: PathLike, dtype: object = None, shape: Sequence[int] | None = None) -> TiledArray:
    """Opens an array file without copying it.

    Parameters
    ----------
    path : path
        A `.tca` file of either version, or a `.sym` file.
    dtype : dtype, optional
        `"<i8"` (the default) or `"<u8"`; of files with four bytes an element `"<i4"`, which they are.
    shape : sequence of int, optional
        The extents of a `.sym` file of more than two dimensions, which its head does not tell.

    Returns
    -------
    TiledArray

    Raises
    ------
    FileNotFoundError
    ArrayError
        Where it is no finished array file, with what to do.

    Examples
    --------
    >>> write_array(path, numpy.arange(4), 2) is not None
    True
    >>> open_array(path, "<u8").dtype
    dtype('uint64')
    """
    head = read_head(path, shape)
    kind = SymmetricArray if head.pair != (0, 0) else TiledArray
    opened = kind(path, head, numpy.dtype(f"<i{head.width}"))
    return opened if dtype is None else opened.view(dtype)


def create_array(path: PathLike, shape: int | Sequence[int], chunks: int | Sequence[int], dtype: object = "<i8",
                 flush: bool = True) -> ArrayWriter:
    """Begins an array file of zeros, whose regions are then set in any order.

    Parameters
    ----------
    path : path
        Where it is to stand. What stands there stays until the new file is whole.
    shape : int or sequence of int
        The extents.
    chunks : int or sequence of int
        The edges of the tiles.
    dtype : dtype, optional
        `<i8` or `<u8`; `<i4` makes a file with four bytes an element.
    flush : bool, optional
        Whether elements are on the disk before the head is written, which comes last.

    Returns
    -------
    ArrayWriter
        For `with`: at its end the head is written and the file stands; after an exception nothing is left.

    Examples
    --------
    >>> with create_array(path, (4, 4), 2) as writer:
    ...     writer[1:3, :] = numpy.ones((2, 4), "<i8")
    >>> int(numpy.asarray(open_array(path)).sum())
    8
    """
    extents = (shape,) if isinstance(shape, int) else tuple(shape)
    return ArrayWriter(path, extents, chunks, numpy.dtype(dtype), flush)  # type: ignore[call-overload]


def write_array(path: PathLike, array: Any, chunks: int | Sequence[int], *, shape: Sequence[int] | None = None,
                flush: bool = True) -> TiledArray:
    """Writes an array file in bounded memory, its head last.

    Parameters
    ----------
    path : path
        Where it is to stand. What stands there stays until the new file is whole.
    array : numpy.ndarray, numpy.memmap, TiledArray, dask array or iterable of blocks
        Elements of `<i8`, `<u8` or `<i4`, in rows. Blocks are those of the tiles, in the order of the file.
    chunks : int or sequence of int
        The edges of the tiles, cut to the extents.
    shape : sequence of int, optional
        The extents, of blocks alone.
    flush : bool, optional
        Whether elements are on the disk before the head is written.

    Returns
    -------
    TiledArray
        The file, opened.

    Raises
    ------
    ArrayError
        Floats, big-endian numbers, Fortran order, other lengths of numbers and wrong shapes: nothing is converted in silence.
    DiskFault
        Where there is no room, or writing is not permitted. Nothing is left then.

    Examples
    --------
    >>> write_array(path, numpy.ones(3), 2)
    Traceback (most recent call last):
    ...
    cabunlit.errors.ArrayError: elements are whole numbers, not float64: scale them (fixed_point), or take astype("<i8")
    """
    dtype = write_source(path, array, chunks, shape, flush)
    return open_array(path, dtype)


def owned(array: TiledArray) -> TiledArray:
    """Has the file of an array removed with the array itself."""
    weakref.finalize(array, _remove, array.path, os.getpid())
    return array


def _remove(path: str, process: int) -> None:
    # (a process that was forked has a copy of the array, and leaves the file alone)
    if os.getpid() != process:
        return
    try:
        os.unlink(path)
    except OSError:
        pass
