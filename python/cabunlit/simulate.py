"""How many tiles a run reads, by its loops over tiles that are held in the order of their last use.

The loops of a nest touch tiles; a touched tile is the last used; where no frame is free, the tile that was used longest ago goes.
Loops go in the orders that `cabunlit.orders` finds, and those that `cabunlit.walking` tells go block by block: all elements of a
block of tiles come before the next block. Where a body's operations run over held tiles, each tile is touched once a block. Where
`cabunlit.terms` finds terms, each block is computed term by term, and the body runs once behind all blocks.

Elements of one tile touch the same tiles again, so a loop over them is run twice, and what the second turn reads is counted for
all others: that is exact, since the tiles held after two turns are the same.
"""
from __future__ import annotations

from collections.abc import Callable, Sequence
from dataclasses import dataclass
from functools import partial
from math import prod

from cabunlit.grouping import Reading, group_sizes
from cabunlit.holes import ResultFile
from cabunlit.language import Reference, Sum, references
from cabunlit.nest import Clear, Compute, Loop, Step, Tree, nest_of
from cabunlit.orders import running_orders
from cabunlit.reports import Node
from cabunlit.specification import Specification
from cabunlit.terms import Term, tensors_of, terms_of
from cabunlit.walking import band_of, carrier_of, is_band, is_held, is_tail, straight

EXACT_TOUCHES = 1_000_000
SAMPLES = 3


@dataclass(frozen=True)
class Reads:
    """What a run reads and writes.

    Attributes
    ----------
    tiles : int
        Tiles read, each as often as it is read.
    bytes : int
        Their bytes, in files of 8 bytes an element, without those parts of a result's tiles that are known to be zeros yet.
    written : int
        Bytes of tiles written.
    touches : int
        How often a tile is touched.
    steps : int
        Operations that are done one by one: those of bodies that run neither as one operation nor term by term.
    least : int
        The tiles of all operands: each read once.
    exact : bool
        Whether every loop was followed; else the further turns of some were counted as the last that was followed.
    """

    tiles: int
    bytes: int
    written: int
    touches: int
    steps: int
    least: int
    exact: bool

    @property
    def times(self) -> float:
        """How often each tile of the operands is read, in the mean."""
        return self.tiles / max(1, self.least)


@dataclass(frozen=True)
class _Touch:
    """A tile of an array: the first one's key, what each index adds to it, and whether it is the result's."""

    key: int
    steps: tuple[tuple[str, int], ...]
    array: int
    result: bool


# The loops of a term, and what each of their blocks touches.
_Terms = list[tuple[list[Loop], list[_Touch]]]


@dataclass(frozen=True)
class _Band:
    """Loops that run block by block, their body, and what it touches once a block, if it does not go element by element; or terms,
    by which the blocks go. And how many blocks a group has along each loop, where blocks go group by group."""

    loops: list[Loop]
    body: list[Step]
    touches: list[_Touch] | None
    terms: _Terms
    sizes: list[int] | None


class _Frames:
    """The tiles that are held, and what was counted."""

    def __init__(self, frames: int, tile_bytes: Sequence[int], result: ResultFile) -> None:
        self.frames, self.tile_bytes, self.result = frames, tile_bytes, result
        self.held: dict[int, bool] = {}
        self.reads = self.bytes = self.writes = self.touches = self.steps = 0

    def touch(self, key: int, array: int, result: bool) -> None:
        self.touches += 1
        if self.held.pop(key, None) is None:
            if len(self.held) >= self.frames:
                gone = next(iter(self.held))
                if self.held.pop(gone):
                    self.writes += 1
                    self.result.write(gone)
            size = self.result.read(key) if result else self.tile_bytes[array]
            self.reads += size > 0
            self.bytes += size
        self.held[key] = result

    def counts(self) -> list[int]:
        return [self.reads, self.bytes, self.writes, self.touches, self.steps]

    def add(self, before: Sequence[int], times: int) -> None:
        """Counts what came since some counts so many times more."""
        self.reads, self.bytes, self.writes, self.touches, self.steps = [
            now + times * (now - old) for now, old in zip(self.counts(), before)]


class Simulation:
    """One run of a plan over tiles.

    Parameters
    ----------
    spec : Specification
        Of one formula.
    tree : Tree
    nodes : sequence of Node
        Those of a plan.
    budget : int
        Words of 8 bytes for tiles.
    limit : int, optional
        How many touches are followed one by one; beyond that loops are sampled, outer ones first: three turns of each, and where
        that is too many, two and then one.
    """

    def __init__(self, spec: Specification, tree: Tree, nodes: Sequence[Node], budget: int, limit: int = EXACT_TOUCHES) -> None:
        self.spec, self.tree = spec, tree
        self.names = (*tree.formula.operands(), tree.formula.result.tensor)
        largest = max(spec.tile_words(it) for it in self.names)
        frames = min(budget // largest, max(3, sum(spec.tiles(it) for it in self.names)))
        self.nodes = running_orders(spec, tree, nodes, frames)
        self.steps = nest_of(tree, self.nodes)
        self.bands: dict[int, _Band | None] = {}
        self.at: dict[str, int] = dict.fromkeys(spec.indexes, 0)
        self.starts = [0]
        for name in self.names:
            self.starts.append(self.starts[-1] + spec.tiles(name))
        result, tile = self.names[-1], 8 * spec.tile_words(self.names[-1])
        file = ResultFile(self.starts[-2], spec.file_bytes(result) - spec.tiles(result) * tile, tile, spec.tiles(result))
        self.frames = _Frames(frames, [8 * spec.tile_words(it) for it in self.names], file)
        self._find_bands(self.steps)
        self.touching = [self._touches(node) for node in range(len(tree.operations))]
        # (the loops of a term are within those of its band, so there are at most twice as many as indexes)
        self.sampled, self.deepest, self.exact = 0, 2 * max(1, len(spec.indexes)), True
        while self._cost(self.steps, 0) > limit and self.sampled < SAMPLES * self.deepest:
            self.sampled += 1
        if self.sampled:
            self.frames.frames = max(3, int(frames * self._followed()))

    def run(self) -> Reads:
        """Follows the whole nest."""
        self._run(self.steps, 0)
        frames = self.frames
        result_bytes = frames.tile_bytes[-1]
        dirty = sum(frames.held.values())
        return Reads(frames.reads, frames.bytes, (frames.writes + dirty) * result_bytes, frames.touches, frames.steps,
                     sum(self.spec.tiles(it) for it in self.names[:-1]), self.exact)

    # What stands in the loops.

    def _touch_of(self, it: Reference, result: bool = False) -> _Touch:
        array = len(self.names) - 1 if result else self.names.index(it.tensor)
        counts = [self.spec.range_of(i).tiles for i in it.indexes]
        steps: dict[str, int] = {}
        for d, index in enumerate(it.indexes):
            steps[index] = steps.get(index, 0) + prod(counts[d + 1:])
        return _Touch(self.starts[array], tuple(steps.items()), array, result)

    def _reading(self, node: int) -> list[_Touch]:
        return [self._touch_of(it) for it in self.tree.operands[node] if isinstance(it, Reference)]

    def _writing(self, node: int) -> list[_Touch]:
        root = node == len(self.tree.operations) - 1
        return [self._touch_of(self.tree.formula.result, True)] if root else []

    def _touches(self, node: int) -> list[_Touch]:
        """The touches of one operation at one element: a sum's own place is read first."""
        own = self._writing(node)
        return [*self._reading(node), *(own if isinstance(self.tree.operations[node], Sum) else []), *own]

    def _find_bands(self, steps: Sequence[Step]) -> None:
        """Finds the loops that run together, and what one block of them touches."""
        for loop in steps:
            if not isinstance(loop, Loop):
                continue
            loops, body = band_of(loop)
            tail = is_tail(self.tree, body)
            if not tail and not is_band(self.spec, self.tree, self.nodes, loop):
                self.bands[id(loop)] = None
                self._find_bands(loop.body)
                continue
            found = straight(body)
            touches = [it for node in found for it in [*self._reading(node), *self._writing(node)]]
            once = tail or (found and is_held(len(found), len(touches), self.frames.frames))
            terms = [] if tail else terms_of(self.spec, self.tree, self.nodes, loops, body)
            self.bands[id(loop)] = _Band(loops, body, touches if once else None, self._touches_of_terms(terms, body),
                                         None if tail else self._sizes(loops, found, terms))
            self._find_bands(body)

    def _touches_of_terms(self, terms: Sequence[Term], body: Sequence[Step]) -> _Terms:
        own = self._writing(carrier_of(body))
        return [([Loop(i) for i in it.loops], [*map(self._touch_of, tensors_of(self.tree, it)), *own]) for it in terms]

    def _sizes(self, loops: Sequence[Loop], nodes: Sequence[int], terms: Sequence[Term]) -> list[int]:
        """How many blocks of a band a group has along each loop."""
        readings = [Reading(it.tensor, frozenset(it.indexes), frozenset(term.loops))
                    for term in terms for it in tensors_of(self.tree, term)]
        if not terms:
            readings = [Reading(it.tensor, frozenset(it.indexes), frozenset())
                        for node in nodes for it in self.tree.operands[node] if isinstance(it, Reference)]
        return group_sizes(self.spec, [it.index for it in loops], readings, self.frames.frames)

    # The loops.

    def _run(self, steps: Sequence[Step], depth: int) -> None:
        for step in steps:
            if isinstance(step, Loop):
                self._run_loop(step, depth)
            elif isinstance(step, Compute):
                self._do(self.touching[step.node], 1)

    def _run_loop(self, loop: Loop, depth: int) -> None:
        band = self.bands[id(loop)]
        if band is None:
            self._each([loop], depth, lambda turns: self._repeat(turns, loop.body, depth + 1))
        elif band.terms:
            self._run_terms(band, depth)
        elif band.touches is not None:
            touches, count = band.touches, 0 if is_tail(self.tree, band.body) else len(band.body)
            self._each_of_band(band, depth, lambda turns: self._do(touches, turns * count))
        else:
            body, inner = band.body, depth + len(band.loops)
            self._each_of_band(band, depth, lambda turns: self._repeat(turns, body, inner))

    def _run_terms(self, band: _Band, depth: int) -> None:
        """Runs each block term by term, and then the body at the last elements."""
        inner = depth + len(band.loops)

        def run_block(_: int) -> None:
            for loops, touches in band.terms:
                self._each(loops, inner, lambda _: self._do(touches))

        self._each_of_band(band, depth, run_block)
        for k, loop in enumerate(band.loops):
            self.at[loop.index] = self._followed_tiles(loop, depth + k) - 1
        self._run(band.body, inner)
        for loop in band.loops:
            self.at[loop.index] = 0

    def _do(self, touches: Sequence[_Touch], steps: int = 0) -> None:
        at, touch = self.at, self.frames.touch
        self.frames.steps += steps
        for it in touches:
            key = it.key
            for index, step in it.steps:
                key += at[index] * step
            touch(key, it.array, it.result)

    def _repeat(self, turns: int, body: Sequence[Step], depth: int) -> None:
        """Runs a body for elements that lie in the same tiles."""
        before = self.frames.counts()
        self._run(body, depth)
        if turns == 1:
            return
        first = self.frames.counts()
        if first[:3] == before[:3]:
            self.frames.add(before, turns - 1)
            return
        self._run(body, depth)
        self.frames.add(first, turns - 2)

    def _each(self, band: Sequence[Loop], depth: int, action: Callable[[int], None], turns: int = 1) -> None:
        """Runs an action for each block of tiles, with the number of elements of it."""
        if not band:
            action(turns)
            return
        of = self.spec.range_of(band[0].index)
        count = self._followed_tiles(band[0], depth)
        self.exact &= count == of.tiles
        before = self.frames.counts()
        for tile in range(count):
            before = self.frames.counts() if tile == count - 1 else before
            self.at[band[0].index] = tile
            length = min(of.edge, of.extent - tile * of.edge)
            self._each(band[1:], depth + 1, action, turns * length)
        self.frames.add(before, of.tiles - count)
        self.at[band[0].index] = 0

    def _each_of_band(self, band: _Band, depth: int, action: Callable[[int], None]) -> None:
        """Runs an action for each block of a band, group by group."""
        sizes = band.sizes
        if sizes is None or len(sizes) < 2 or sizes[1] == self.spec.range_of(band.loops[1].index).tiles:
            self._each(band.loops, depth, action)
            return
        row, column, *others = band.loops
        of, size = self.spec.range_of(row.index), sizes[0]
        groups = -(-of.tiles // size)
        count = min(groups, self._followed_tiles(row, depth)) if self._is_sampled(row, depth) else groups

        def run_group(first: int, turns: int) -> None:
            for tile in range(first, min(first + size, of.tiles)):
                self.at[row.index] = tile
                length = min(of.edge, of.extent - tile * of.edge)
                self._each(others, depth + 2, action, turns * length)

        self.exact &= count == groups
        before = self.frames.counts()
        for group in range(count):
            before = self.frames.counts() if group == count - 1 else before
            self._each([column], depth + 1, partial(run_group, group * size))
        self.frames.add(before, groups - count)
        self.at[row.index] = 0

    def _followed_tiles(self, loop: Loop, depth: int) -> int:
        """How many tiles of a loop are followed: where too many touches would be, three, then two and then one, outer loops first."""
        tiles = self.spec.range_of(loop.index).tiles
        times, above = divmod(self.sampled, self.deepest)
        times += depth < above
        return min(tiles, SAMPLES + 1 - times) if times else tiles

    def _is_sampled(self, loop: Loop, depth: int) -> bool:
        return self._followed_tiles(loop, depth) < self.spec.range_of(loop.index).tiles

    def _followed_blocks(self, loops: Sequence[Loop], depth: int) -> int:
        return prod(self._followed_tiles(loop, depth + k) for k, loop in enumerate(loops))

    def _followed(self) -> float:
        """The part of all tiles that is touched where loops are sampled: as large a part of the frames is there for them."""
        followed = {i: self.spec.range_of(i).tiles for i in self.spec.indexes}
        for loop, depth in _all_loops(self.steps, 0):
            followed[loop.index] = min(followed[loop.index], self._followed_tiles(loop, depth))
        uses = [*references(self.tree.formula.expression), self.tree.formula.result]
        tiles = dict.fromkeys(self.names, 0)
        for it in uses:
            counts = [followed[i] for i in it.indexes]
            tiles[it.tensor] = max(tiles[it.tensor], prod(counts))
        return sum(tiles.values()) / sum(self.spec.tiles(it) for it in self.names)

    def _cost(self, steps: Sequence[Step], depth: int) -> int:
        """How many touches are followed one by one, at most."""
        cost = 0
        for step in steps:
            if not isinstance(step, Loop):
                cost += 0 if isinstance(step, Clear) else 3
                continue
            band = self.bands[id(step)]
            loops, body = ([step], step.body) if band is None else (band.loops, band.body)
            count, inner = self._followed_blocks(loops, depth), depth + len(loops)
            if band is not None and band.terms:
                cost += count * sum(3 * self._followed_blocks(it, inner) for it, _ in band.terms) + self._cost(body, inner)
                continue
            once = band is not None and band.touches is not None
            repeated = 1 if once or all(self.spec.range_of(it.index).edge == 1 for it in loops) else 2
            cost += count * repeated * self._cost(body, inner)
        return cost


def _all_loops(steps: Sequence[Step], depth: int) -> list[tuple[Loop, int]]:
    found: list[tuple[Loop, int]] = []
    for step in steps:
        if isinstance(step, Loop):
            found += [(step, depth), *_all_loops(step.body, depth + 1)]
    return found
