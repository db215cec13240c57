"""Interrupts at moments when something comes to be that has to be removed, or is removed."""
from __future__ import annotations

import os
import shutil
import signal
import threading
from collections.abc import Iterator
from contextlib import contextmanager
from typing import Any


@contextmanager
def later_interrupts() -> Iterator[None]:
    """Has an interrupt wait for the end of a `with`: a file, a folder or a process that is made there is known then, and removed.

    Examples
    --------
    >>> try:
    ...     with later_interrupts():
    ...         signal.raise_signal(signal.SIGINT)
    ...         made = "known"
    ... except KeyboardInterrupt:
    ...     print(made)
    known
    """
    came: list[Any] = []
    before = signal.getsignal(signal.SIGINT)
    # (only the main thread is interrupted)
    if not callable(before) or threading.current_thread() is not threading.main_thread():
        yield
        return
    signal.signal(signal.SIGINT, lambda *words: came.append(words))
    try:
        yield
    finally:
        signal.signal(signal.SIGINT, before)
        if came:
            before(*came[0])


def remove_folder(folder: str | os.PathLike[str]) -> None:
    """Removes a folder with all that it holds, before an interrupt.

    Examples
    --------
    >>> os.makedirs("a/b")
    >>> remove_folder("a")
    >>> os.path.exists("a")
    False
    """
    with later_interrupts():
        shutil.rmtree(folder, ignore_errors=True)
