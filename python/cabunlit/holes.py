"""Which parts of a result's file a run reads: those that were not written yet are known to be zeros.

The program knows in pieces what was written (`crates/tce_system`: `holes.rt`), and reads a tile in transfers (`crates/tce_cache`:
`transfer.rt`), of which those that lie in such pieces alone are not read.
"""
from __future__ import annotations

MOST_PIECES = 2**21
SHORT, LONG = 4096, 2**15


def unit_of(length: int) -> int:
    """How long the pieces of a file of so many bytes are."""
    return next((unit for limit, unit in ((2**28, 128), (2**32, 2048), (2**36, 2**15)) if length < limit), 2**20)


class ResultFile:
    """The file of a result while it is made.

    Parameters
    ----------
    first : int
        The key of its first tile; those of the others follow.
    head : int
        The bytes of the head.
    tile : int
        The bytes of a tile.
    count : int
        How many tiles there are.
    """

    def __init__(self, first: int, head: int, tile: int, count: int) -> None:
        self.first, self.head, self.tile, self.count = first, head, tile, count
        length = head + count * tile
        self.unit = unit_of(length)
        self.begin, self.known = length % self.unit, length // self.unit <= MOST_PIECES
        self.written: set[int] = set()

    def write(self, key: int) -> None:
        """A tile is written."""
        self.written.add(key - self.first)

    def read(self, key: int) -> int:
        """How many bytes are read of a tile."""
        number = key - self.first
        if number in self.written or not self.known:
            return self.tile
        at, piece = self.head + number * self.tile, SHORT if self.tile <= SHORT else LONG
        aligned = self.tile % self.unit == 0 and at >= self.begin
        cuts = [] if aligned else range(at, at + self.tile, piece)
        return sum(min(piece, at + self.tile - it) for it in cuts if not self._is_hole(it, min(it + piece, at + self.tile)))

    def _is_hole(self, at: int, end: int) -> bool:
        """Whether the pieces round some bytes of a tile that was not written are free of written bytes."""
        if at < self.begin:
            return False
        low = self.begin + (at - self.begin) // self.unit * self.unit
        high = self.begin + -(-(end - self.begin) // self.unit) * self.unit
        tiles = range(max(0, (low - self.head) // self.tile), min(self.count, (high - 1 - self.head) // self.tile + 1))
        return not any(it in self.written for it in tiles)
