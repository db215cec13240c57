"""Memory in bytes, and what a run may take of it."""
from __future__ import annotations

import re
from math import isfinite
from numbers import Real

from cabunlit.errors import NotEnoughMemory

FRAME_BYTES = 88
UNITS = {"": 1, "k": 10**3, "m": 10**6, "g": 10**9, "t": 10**12, "ki": 2**10, "mi": 2**20, "gi": 2**30, "ti": 2**40}
MOST_WORDS = 2**40


def bytes_of(memory: int | str | None, name: str = "memory") -> int:
    """A memory in bytes.

    Parameters
    ----------
    memory : int, str or None
        Bytes, or a text as `"64 MiB"`; None for half of what the system has available.
    name : str, optional
        Of the argument, for what is refused.

    Returns
    -------
    int

    Raises
    ------
    NotEnoughMemory
        Where the text is no memory.

    Examples
    --------
    >>> bytes_of("64 MiB")
    67108864
    """
    if memory is None:
        return _available() // 2
    if isinstance(memory, str):
        if found := re.fullmatch(r"\s*([0-9]+(?:\.[0-9]*)?)\s*([kmgt]i?)?b?\s*", memory.lower()):
            return int(float(found[1]) * UNITS[found[2] or ""])
    elif isinstance(memory, Real) and isfinite(memory):
        return int(memory)
    raise NotEnoughMemory(f"{name}={memory!r} is no number of bytes: write \"64 MiB\", or 67108864")


def _available() -> int:
    try:
        with open("/proc/meminfo", encoding="ascii") as lines:
            return next(int(it.split()[1]) * 1024 for it in lines if it.startswith("MemAvailable"))
    except (OSError, StopIteration):
        return 2**31


def budget_of(memory: int, intermediates: int, tile_words: int) -> int:
    """The words for tiles that a run has within a memory.

    Parameters
    ----------
    memory : int
        Bytes.
    intermediates : int
        The elements of all intermediates.
    tile_words : int
        The words of the largest tile.

    Returns
    -------
    int
        A BUDGET for `run`: with it, with the intermediates and with what is kept of each frame the run stays within the memory.

    Raises
    ------
    NotEnoughMemory
        Where that is less than three tiles.

    Examples
    --------
    >>> budget_of(2**20, 1, 4096)
    130719
    """
    words = int((memory - 8 * intermediates) / (8 + FRAME_BYTES / tile_words))
    if words < 3 * tile_words:
        least = 8 * intermediates + 3 * (8 * tile_words + FRAME_BYTES)
        raise NotEnoughMemory(f"{memory} bytes are less than three tiles of {tile_words} elements and {intermediates} elements "
                              f"of intermediates take: give memory={least} or more, or smaller chunks")
    return min(words, MOST_WORDS)
