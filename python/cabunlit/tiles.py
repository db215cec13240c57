"""Elements between arrays in rows and arrays in tiles: only copies, whole regions at a time."""
from __future__ import annotations

import itertools
from collections.abc import Iterator, Sequence
from dataclasses import dataclass
from math import prod
from typing import Any

import numpy
import numpy.typing

Array = numpy.typing.NDArray[Any]
Region = tuple[slice, ...]
BAND_BYTES = 1 << 20
RUN_BYTES = range(128, 2049)


@dataclass(frozen=True)
class Segment:
    """Numbers of one dimension that lie alike in their tiles: whole tiles, or a part of one."""

    tiles: slice
    inside: slice
    at: int
    length: int


def segments(start: int, stop: int, edge: int) -> list[Segment]:
    """The numbers from `start` to `stop`, cut into whole tiles and at most two parts of tiles.

    Examples
    --------
    >>> [(it.tiles, it.at, it.length) for it in segments(1, 7, 2)]
    [(slice(0, 1, None), 0, 1), (slice(1, 3, None), 1, 4), (slice(3, 4, None), 5, 1)]
    """
    found, at = [], start
    while at < stop:
        tile, inside = divmod(at, edge)
        whole = (stop - at) // edge if inside == 0 else 0
        end = at + whole * edge if whole else min(stop, (tile + 1) * edge)
        last = tile + (whole or 1)
        found.append(Segment(slice(tile, last), slice(inside, edge if whole else inside + end - at), at - start, end - at))
        at = end
    return found


def pairs(tiled: Array, edges: Sequence[int], starts: Sequence[int], rows: Array) -> Iterator[tuple[Array, Array]]:
    """Views of the same elements in tiles and in rows, which a copy can take as they are.

    Parameters
    ----------
    tiled : array of shape (tiles of each dimension.., edges..)
    edges : sequence of int
        The edges of the tiles.
    starts : sequence of int
        Where `rows` begins among the elements of `tiled`.
    rows : array
        One dimension for each edge.

    Yields
    ------
    pair of arrays
        The first is a part of `tiled`, the second one of `rows`, of one shape.
    """
    rank = len(edges)
    if 0 in rows.shape:
        return
    cuts = [segments(start, start + n, edge) for start, n, edge in zip(starts, rows.shape, edges)]
    order = [axis for d in range(rank) for axis in (d, rank + d)]
    for found in itertools.product(*cuts):
        where: Any = (..., *(it.tiles for it in found), *(it.inside for it in found))
        part = tiled[where].transpose(order)
        among: Any = (..., *(slice(it.at, it.at + it.length) for it in found))
        flat = rows[among]
        yield part, flat.reshape(part.shape)


def copy(target: Array, source: Array) -> None:
    """Copies elements of one type. Short runs of neighbours are moved as one item each, which takes less time."""
    if target.ndim and target.dtype == source.dtype:
        run = target.shape[-1] * target.itemsize
        if run in RUN_BYTES and target.strides[-1] == source.strides[-1] == target.itemsize:
            target, source = target.view(f"V{run}"), source.view(f"V{run}")
    target[...] = source


def read_rows(tiled: Array, edges: Sequence[int], starts: Sequence[int], rows: Array) -> None:
    """Copies elements that stand in tiles into rows, which begin at `starts`."""
    for part, flat in pairs(tiled, edges, starts, rows):
        copy(flat, part)


def write_rows(tiled: Array, edges: Sequence[int], starts: Sequence[int], rows: Array) -> None:
    """Copies rows, which begin at `starts`, into tiles."""
    for part, flat in pairs(tiled, edges, starts, rows):
        copy(part, flat)


def counts_of(shape: Sequence[int], edges: Sequence[int]) -> tuple[int, ...]:
    """How many tiles each dimension has.

    Examples
    --------
    >>> counts_of((5, 4), (2, 4))
    (3, 1)
    """
    return tuple(-(-n // edge) for n, edge in zip(shape, edges))


def regions(shape: Sequence[int], edges: Sequence[int]) -> Iterator[Region]:
    """The region of each tile, in the order of a file."""
    numbers = itertools.product(*map(range, counts_of(shape, edges)))
    for number in numbers:
        yield tuple(slice(t * e, min(n, t * e + e)) for t, e, n in zip(number, edges, shape))


def is_in_rows(counts: Sequence[int], edges: Sequence[int]) -> bool:
    """Whether elements in tiles stand in the order of rows: no tile of several numbers is followed by several tiles further inside.

    Examples
    --------
    >>> is_in_rows((3, 1), (2, 5)), is_in_rows((1, 3), (2, 5)), is_in_rows((4, 3), (1, 5))
    (True, False, True)
    """
    return not any(edge > 1 and max(counts[d + 1:], default=1) > 1 for d, edge in enumerate(edges))


@dataclass(frozen=True)
class Band:
    """Elements that stand one after the other in a file: neighbouring tiles, or a part of one.

    Attributes
    ----------
    first : int
        The number of the first element in the file.
    counts : tuple of int
        How many tiles there are along each dimension.
    edges : tuple of int
        Their edges; of a part of a tile its own.
    region : tuple of slices
        The elements of the array among them.
    """

    first: int
    counts: tuple[int, ...]
    edges: tuple[int, ...]
    region: Region


def bands(shape: Sequence[int], edges: Sequence[int], width: int, most: int = BAND_BYTES) -> Iterator[Band]:
    """An array in bands of at most so many bytes, or of one element. Parts of tiles that are padding alone are left out.

    Examples
    --------
    >>> [(it.first, it.counts) for it in bands((8, 8), (2, 4), 8, 256)]
    [(0, (2, 2)), (32, (2, 2))]
    >>> [(it.first, it.edges) for it in bands((3, 8), (4, 8), 8, 128)]
    [(0, (2, 8)), (16, (2, 8))]
    """
    counts, tile = counts_of(shape, edges), prod(edges)
    most //= width
    if tile > most:
        yield from _parts(shape, edges, most)
        return
    depth = len(shape)
    while depth and prod(counts[depth - 1:]) * tile <= most:
        depth -= 1
    depth = max(depth - 1, 0)
    inner = prod(counts[depth + 1:])
    step = max(1, most // (inner * tile))
    first = 0
    for outer in itertools.product(*map(range, counts[:depth])):
        for begin in range(0, counts[depth], step) if depth < len(counts) else [0]:
            took = min(step, counts[depth] - begin) if depth < len(counts) else 1
            numbers = [(t, t + 1) for t in outer]
            if depth < len(counts):
                numbers += [(begin, begin + took), *((0, n) for n in counts[depth + 1:])]
            region = tuple(slice(a * e, min(n, b * e)) for (a, b), e, n in zip(numbers, edges, shape))
            yield Band(first, tuple(b - a for a, b in numbers), tuple(edges), region)
            first += took * inner * tile


def _parts(shape: Sequence[int], edges: Sequence[int], most: int) -> Iterator[Band]:
    """The same where a tile is larger than a band."""
    rank, depth = len(shape), len(shape) - 1
    steps = [prod(edges[d + 1:]) for d in range(rank)]
    while depth and steps[depth - 1] <= most:
        depth -= 1
    rows = max(1, most // steps[depth])
    part = (*(1 for _ in range(depth)), min(rows, edges[depth]), *edges[depth + 1:])
    for number, tile in enumerate(regions(shape, edges)):
        for outer in itertools.product(*(range(it.stop - it.start) for it in tile[:depth])):
            for begin in range(0, tile[depth].stop - tile[depth].start, rows):
                inside = (*outer, begin)
                took = (*part[:depth], min(rows, edges[depth] - begin), *part[depth + 1:])
                starts = [it.start + at for it, at in zip(tile, (*inside, *(0 for _ in part[depth + 1:])))]
                region = tuple(slice(at, min(at + n, it.stop)) for at, n, it in zip(starts, took, tile))
                first = number * prod(edges) + sum(at * step for at, step in zip(inside, steps))
                yield Band(first, (1,) * rank, took, region)
