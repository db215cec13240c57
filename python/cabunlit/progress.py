"""What is done of a long run, as it is done."""
from __future__ import annotations

import sys
import time
from collections.abc import Callable, Iterable
from pathlib import Path
from typing import Any, TextIO

from cabunlit.heads import is_whole


def show(text: str, stream: TextIO | None = None) -> None:
    """Writes lines in one call, so that those of processes that run side by side stay whole.

    Parameters
    ----------
    text : str
    stream : file, optional
        Standard output, where none is given.

    Examples
    --------
    >>> show("one\\ntwo")
    one
    two
    """
    stream = stream or sys.stdout
    if stream is not None:  # (as of a process whose output was closed)
        stream.write(text if text.endswith("\n") else f"{text}\n")
        stream.flush()


class Progress:
    """Counts parts as they are done: a bar of tqdm where that is there, else a line for each.

    Parameters
    ----------
    what : str
        What the parts are, as `formulas`.
    total : int or None
        How many there are; None where that is not known.
    show : bool, optional
        Whether anything is shown.
    stream : file, optional
        Where lines go; standard error.
    bar : bool, optional
        Whether tqdm is used where it is there.

    Examples
    --------
    >>> import sys
    >>> with Progress("pieces", 2, stream=sys.stdout, bar=False) as progress:
    ...     progress.done("piece 0")  # doctest: +ELLIPSIS
    pieces: 1 of 2, piece 0, ... s, about ... s left
    """

    def __init__(self, what: str, total: int | None, show: bool = True, stream: TextIO | None = None, bar: bool = True) -> None:
        self.what, self.total, self.show = what, total, show
        self.count = self.kept = 0
        self.stream: TextIO | None = stream or sys.stderr
        self.begun = time.monotonic()
        self.bar = _bar(what, total, self.stream) if show and bar else None

    def __enter__(self) -> Progress:
        return self

    def __exit__(self, *_: object) -> None:
        if self.bar is not None:
            self.bar.close()

    def done(self, name: str, again: bool = False, share: float | None = None) -> None:
        """Says that a part is done.

        Parameters
        ----------
        name : str
        again : bool, optional
            Whether it was done before and is kept.
        share : float, optional
            How much of all work is done with it, up to 1; else as many of the parts as are done.
        """
        self.count += 1
        self.kept += again
        if not self.show:
            return
        took = time.monotonic() - self.begun
        rest = self._rest(share)
        left = f", about {took * rest:.1f} s left" if rest else ""
        kept = " (kept)" if again else ""
        if self.bar is not None:
            # (a bar with a total has its own)
            self.bar.set_postfix_str(f"{name}{kept}{left if self.total is None else ''}")
            self.bar.update()
            return
        of = f" of {self.total}" if self.total is not None else ""
        show(f"{self.what}: {self.count}{of}, {name}{kept}, {took:.1f} s{left}", self.stream)

    def _rest(self, share: float | None) -> float:
        """How many times as long as so far it will take; 0 where that is not known. What was kept took no time."""
        if share is not None:
            return (1 - share) / share if share > 0 else 0.0
        fresh = self.count - self.kept
        return (self.total - self.count) / fresh if self.total is not None and fresh else 0.0


def _bar(what: str, total: int | None, stream: TextIO | None) -> Any:
    """A bar of tqdm on a terminal, where it is installed."""
    if stream is None or not stream.isatty():
        return None
    try:
        from tqdm import tqdm
    except ImportError:
        return None
    return tqdm(total=total, desc=what, file=stream, unit=" " + what.rstrip("s"))


def watcher(paths: Callable[[], Iterable[Path]], progress: Progress,
            share: Callable[[set[str]], float] | None = None) -> Callable[[], None]:
    """A function that tells of files once their heads stand.

    Parameters
    ----------
    paths : callable
        The files that may be there.
    progress : Progress
    share : callable, optional
        How much of all work is done with the files of these names.
    """
    seen: set[Path] = set()

    def look() -> None:
        for path in paths():
            if path not in seen and is_whole(path):
                seen.add(path)
                progress.done(path.stem, share=share and share({it.stem for it in seen}))

    return look
