"""How the blocks of a band follow one another.

The program goes through the blocks of a band's loops group by group (`crates/tce_walk`: `grouping.rt`). A group has some blocks of the
first loop, one of the second and all of the others, so that what those of the first loop share is read once. These are the same
decisions.
"""
from __future__ import annotations

from collections.abc import Iterable, Sequence
from dataclasses import dataclass
from math import prod

from cabunlit.specification import Specification


@dataclass(frozen=True)
class Reading:
    """A tensor that each block of a band reads, and the loops inside the block over which it is read."""

    tensor: str
    indexes: frozenset[str]
    inside: frozenset[str]


def group_sizes(spec: Specification, loops: Sequence[str], readings: Sequence[Reading], frames: int) -> list[int]:
    """How many blocks a group has along each loop."""
    blocks = [spec.range_of(i).tiles for i in loops]
    if len(loops) < 2 or blocks[0] < 2 or blocks[1] < 2:
        return blocks
    first = _first_size(spec, loops, readings, frames)
    return blocks if first < 2 else [min(first, blocks[0]), 1, *blocks[2:]]


def _first_size(spec: Specification, loops: Sequence[str], readings: Sequence[Reading], frames: int) -> int:
    """As many blocks of the first loop as the frames hold, where these share tiles that would be read again for each of them. Where each
    reading depends on the first two loops, two blocks of one tensor may be the same with both loops exchanged: then two."""
    row, column, *others = loops
    if all({row, column} <= it.indexes for it in readings):
        return 2 if len({it.tensor for it in readings}) < len(readings) else 0
    shared, own = [it for it in readings if row not in it.indexes], [it for it in readings if row in it.indexes]
    if not shared or _tiles(spec, readings, [column, *others]) + prod(_blocks(spec, [column, *others])) <= frames:
        return 0
    # (an eighth of the frames is left to what comes in between)
    return max(0, frames - frames // 8 - _tiles(spec, shared, others)) // (_tiles(spec, own, others) + prod(_blocks(spec, others)))


def _tiles(spec: Specification, readings: Sequence[Reading], loops: Sequence[str]) -> int:
    """The tiles that are read along some loops."""
    return sum(prod(_blocks(spec, it.indexes & (it.inside | set(loops)))) for it in readings)


def _blocks(spec: Specification, loops: Iterable[str]) -> list[int]:
    return [spec.range_of(i).tiles for i in loops]
