"""The heads of array files."""
from __future__ import annotations

import os
import stat
from collections.abc import Sequence
from dataclasses import dataclass
from math import isqrt, prod

import numpy

from cabunlit.errors import ArrayError
from cabunlit.tiles import counts_of

FIRST, SECOND, PAIRS = b"TCARRAY1", b"TCARRAY2", b"TCSYMM01"


@dataclass(frozen=True)
class Head:
    """What a head says.

    Attributes
    ----------
    form : str
        The eight letters.
    shape, chunks : tuple of int
        Extents and edges.
    width : int
        The bytes of an element.
    length : int
        The bytes of the head.
    pair : tuple of int
        The two positions of a file of pairs; else (0, 0).
    antisymmetric : bool
        Whether such a file turns the sign.
    stored : int
        How many pairs such a file has at each place of the other coordinates.
    """

    form: str
    shape: tuple[int, ...]
    chunks: tuple[int, ...]
    width: int
    length: int
    pair: tuple[int, int] = (0, 0)
    antisymmetric: bool = False
    stored: int = 0

    @property
    def file_bytes(self) -> int:
        """The length of the whole file."""
        if self.stored or self.pair != (0, 0):
            others = [n for d, n in enumerate(self.shape) if d not in self.pair]
            return self.length + 8 * prod(others) * self.stored
        return self.length + self.width * prod(counts_of(self.shape, self.chunks)) * prod(self.chunks)


def head_bytes(shape: Sequence[int], chunks: Sequence[int], width: int = 8) -> bytes:
    """The head of a file: of the first version for 8 bytes an element, else of the second.

    Examples
    --------
    >>> len(head_bytes((2, 2), (1, 1))), len(head_bytes((2, 2), (1, 1), 4))
    (48, 56)
    """
    begin = [len(shape)] if width == 8 else [len(shape), width]
    letters = FIRST if width == 8 else SECOND
    return letters + numpy.array([*begin, *shape, *chunks], "<u8").tobytes()


def read_head(path: str | os.PathLike[str], shape: Sequence[int] | None = None) -> Head:
    """Reads the head of an array file.

    Parameters
    ----------
    path : path
        A `.tca` or `.sym` file.
    shape : sequence of int, optional
        The extents of a file of pairs.

    Raises
    ------
    FileNotFoundError
    ArrayError
        Where it is no array file, or not finished.
    """
    found = os.stat(path)
    size = found.st_size
    if not stat.S_ISREG(found.st_mode):
        raise ArrayError(f"{os.fspath(path)} is no file: give the path of an array file")
    with open(path, "rb") as file:
        begin = file.read(8 * 20)
    letters, words = begin[:8], [int(it) for it in numpy.frombuffer(begin[8:len(begin) // 8 * 8], "<u8")]
    if letters == PAIRS:
        return _pairs(path, size, shape)
    second = letters == SECOND
    if letters not in (FIRST, SECOND):
        state = "is not finished: run again the command that made it" if not any(letters) else "is no array file"
        raise ArrayError(f"{os.fspath(path)} {state} (it begins with {letters!r}, an array file with {FIRST!r})")
    rank = words[0] if words else 99
    skip = 2 if second else 1
    if rank > 8 or len(words) < skip + 2 * rank or (second and words[1] not in (4, 8)):
        raise ArrayError(f"{os.fspath(path)} has no head of an array file: write it again")
    extents, edges = words[skip:skip + rank], words[skip + rank:skip + 2 * rank]
    if any(not 1 <= e <= n for n, e in zip(extents, edges)):
        raise ArrayError(f"{os.fspath(path)} has extents {extents} and edges {edges}: write it again")
    head = Head(letters.decode(), tuple(extents), tuple(edges), words[1] if second else 8, 8 * (1 + skip + 2 * rank))
    if head.file_bytes != size:
        raise ArrayError(f"{os.fspath(path)} has {size} bytes, and by its head {head.file_bytes}: "
                         "it was cut short or is being written; write it again")
    return head


def is_pairs(path: str | os.PathLike[str]) -> bool:
    """Whether a file begins as one that stores pairs once."""
    with open(path, "rb") as file:
        return file.read(8) == PAIRS


def read_pairs(path: str | os.PathLike[str]) -> tuple[int, int, bool, int]:
    """What the head of a file that stores pairs once says of itself: the two positions, whether it turns the sign, and how many
    words follow.

    Raises
    ------
    ArrayError
        Where it has no such head.
    """
    size = os.path.getsize(path)
    words = [int(it) for it in numpy.fromfile(path, "<u8", 4)[1:]]
    if len(words) < 3 or words[2] > 1 or words[0] >= words[1] or size % 8:
        raise ArrayError(f"{os.fspath(path)} has no head of a file of pairs: write it again")
    return words[0], words[1], bool(words[2]), size // 8 - 4


def _pairs(path: str | os.PathLike[str], size: int, shape: Sequence[int] | None) -> Head:
    """The head of a file that stores pairs once, with the extents."""
    name = os.fspath(path)
    first, second, sign, stored = read_pairs(path)
    if shape is None:
        if (first, second) != (0, 1):
            raise ArrayError(f"{name} does not tell its extents: give shape=")
        side = (isqrt(8 * stored + 1) + (1 if sign else -1)) // 2
        shape = (side, side)
    extents = tuple(int(n) for n in shape)
    if second >= len(extents) or extents[first] != extents[second]:
        raise ArrayError(f"{name} has pairs of the positions {first} and {second}, which {extents} has not alike")
    m = extents[first]
    pairs = m * (m - 1) // 2 if sign else m * (m + 1) // 2
    head = Head(PAIRS.decode(), extents, extents, 8, 32, (first, second), sign, pairs)
    if head.file_bytes != size:
        raise ArrayError(f"{name} has {size} bytes, and {head.file_bytes} are due for the extents {extents}")
    return head


def is_whole(path: str | os.PathLike[str]) -> bool:
    """Whether a file is a finished array file of the first or the second version."""
    try:
        return read_head(path).pair == (0, 0)
    except (OSError, ArrayError):
        return False
