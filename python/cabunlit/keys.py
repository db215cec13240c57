"""What `array[key]` asks for, as numpy has it: numbers, slices, lists and masks."""
from __future__ import annotations

import operator
from collections.abc import Sequence
from typing import Any, SupportsIndex

import numpy

from cabunlit.tiles import Array

Key = Any


def expanded(key: Key, shape: tuple[int, ...]) -> list[int | range | Array]:
    """A key as one number, range or array of numbers for each dimension.

    Raises
    ------
    IndexError

    Examples
    --------
    >>> expanded((-1, ..., slice(None, None, 2)), (3, 4, 5))
    [2, range(0, 4), range(0, 5, 2)]
    """
    keys = [_read(it) for it in (key if isinstance(key, tuple) else (key,))]
    dots = [k for k, it in enumerate(keys) if it is Ellipsis]
    rest = len(shape) - sum(it.ndim if _is_mask(it) else it is not Ellipsis for it in keys)
    if rest < 0 or len(dots) > 1:
        raise IndexError(f"too many indexes: the array has {len(shape)} dimensions")
    at = dots[0] if dots else len(keys)
    keys[at:at + len(dots)] = [slice(None)] * rest
    found: list[int | range | Array] = []
    for it in keys:
        extents = shape[len(found):]
        if _is_mask(it):
            if it.shape != extents[:it.ndim]:
                raise IndexError(f"a mask of the shape {it.shape} stands for extents of {extents[:it.ndim]}")
            found += it.nonzero()
        else:
            found.append(range(*it.indices(extents[0])) if isinstance(it, slice) else _counted(it, extents[0]))
    return found


def _is_mask(it: Any) -> bool:
    return isinstance(it, numpy.ndarray) and it.dtype == bool


def _read(it: Any) -> Any:
    """One part of a key: an ellipsis, a slice, a whole number, or an array of whole numbers or truth values."""
    if it is Ellipsis or isinstance(it, slice):
        return it
    if isinstance(it, SupportsIndex) and not isinstance(it, (bool, numpy.bool_, numpy.ndarray)):
        return operator.index(it)
    found = numpy.asarray(it)
    if found.size == 0 and not isinstance(it, numpy.ndarray):
        found = found.astype("<i8")
    if found.dtype.kind not in "iub" or (found.ndim == 0 and found.dtype == bool):
        raise IndexError(f"{it!r} is no index: take whole numbers, slices, lists of numbers or masks")
    return found if found.ndim else int(found)


def _counted(it: Any, extent: int) -> Any:
    """Numbers counted from 0."""
    least, most = (it, it) if isinstance(it, int) else (it.min(initial=0), it.max(initial=-1))
    if least < -extent or most >= extent:
        raise IndexError(f"index {least if least < -extent else most} is out of bounds for an extent of {extent}")
    return it % extent


def opened(keys: Sequence[int | range | Array]) -> list[Array]:
    """Arrays of numbers, one for each dimension, that have the shape of the result between them.

    Lists go side by side. They stand where they stood, where they are next to one another, and else in front.

    Raises
    ------
    IndexError

    Examples
    --------
    >>> [it.shape for it in opened([range(2), numpy.array([0, 1, 2]), 5])]
    [(2, 1), (3,), ()]
    """
    lists = [d for d, it in enumerate(keys) if not isinstance(it, range)]
    try:
        rank = len(numpy.broadcast_shapes(*(numpy.shape(keys[d]) for d in lists)))
    except ValueError as error:
        raise IndexError(f"lists of different lengths do not go side by side: take numpy.ix_(..): {error}") from None
    at = lists[0] if lists and lists[-1] - lists[0] < len(lists) else 0
    last = len(keys) - len(lists) + rank - 1
    found, ranges = [], 0
    for it in keys:
        if isinstance(it, range):
            axis = ranges if ranges < at else ranges + rank
            found.append(numpy.arange(it.start, it.stop, it.step).reshape((-1,) + (1,) * (last - axis)))
            ranges += 1
        else:
            found.append(numpy.reshape(it, numpy.shape(it) + (1,) * (last + 1 - at - rank if rank else 0)))
    return found
