"""A formula that was cut, as a folder holds it."""
from __future__ import annotations

import hashlib
import json
import os
from dataclasses import dataclass
from pathlib import Path
from typing import Any

import numpy

from cabunlit.arrays import TiledArray
from cabunlit.cutting import CutFormula
from cabunlit.errors import ArrayError, FileChanged
from cabunlit.heads import is_whole
from cabunlit.specification import Specification

PathLike = str | os.PathLike[str]
MANIFEST = "pieces.json"


@dataclass(frozen=True)
class Cut:
    """A formula that was cut, in its folder.

    Attributes
    ----------
    folder : str
    text : str
        The specification of the whole.
    index : str
        Along which it is cut.
    bounds : tuple of (int, int)
        Where each piece begins and ends along it.
    dtype : str
        How the result's words are read.
    stamps : dict of str to str
        What tells each operand from another one.
    """

    folder: str
    text: str
    index: str
    bounds: tuple[tuple[int, int], ...]
    dtype: str
    stamps: dict[str, str]

    @property
    def formula(self) -> CutFormula:
        """The formula with its pieces'."""
        return CutFormula.of(Specification.parse(self.text), self.index)

    def place(self, number: int) -> Path:
        """The folder of a piece."""
        return Path(self.folder) / f"piece-{number}"

    @classmethod
    def load(cls, folder: PathLike) -> Cut:
        """Reads what a folder holds.

        Raises
        ------
        ArrayError
            Where it is no folder of a cut.
        """
        path = Path(folder) / MANIFEST
        try:
            found = json.loads(path.read_text(encoding="ascii"))
            return cls(os.path.abspath(folder), found["text"], found["index"], tuple((a, b) for a, b in found["bounds"]),
                       found["dtype"], found["stamps"])
        except (OSError, ValueError, KeyError, TypeError) as error:
            raise ArrayError(f"{os.fspath(folder)} holds no formula that was cut: {error}") from error

    def is_done(self, number: int) -> bool:
        """Whether a piece's result is whole and newer than its operands."""
        place = self.place(number)
        result = place / f"{self.formula.formula.result.tensor}.tca"
        if not is_whole(result):
            return False
        made = result.stat().st_mtime_ns
        return all(it.stat().st_mtime_ns <= made for it in [*place.glob("*.tca"), place / "piece.tce"] if it.exists())

    def refuse_change(self, number: int) -> None:
        """Raises `FileChanged` where a file to which a piece is linked is no longer the one that was cut."""
        for link in self.place(number).glob("*.tca"):
            where = os.readlink(link) if link.is_symlink() else ""
            known = [it for it in self.stamps.values() if where and it.startswith(f"{where} ")]
            if known and (not os.path.exists(where) or _file_stamp(where) not in known):
                raise FileChanged(f"{where} is no longer the file that was cut: cut it anew, in another folder")

    def missing(self) -> list[int]:
        """The pieces that are not done."""
        return [it for it in range(len(self.bounds)) if not self.is_done(it)]


def stamp(source: Any) -> str:
    """What tells an operand from another one: a file's place and time, or a sum over an array's bytes."""
    if isinstance(source, TiledArray):
        return _file_stamp(source.path)
    if isinstance(source, numpy.ndarray):
        digest = hashlib.blake2b(f"{source.shape} {source.dtype}".encode(), digest_size=16)
        for row in source.reshape(-1) if source.ndim < 2 else source:
            digest.update(numpy.ascontiguousarray(row).data)
        return digest.hexdigest()
    return getattr(source, "name", repr(source))


def _file_stamp(path: str) -> str:
    found = os.stat(path)
    return f"{path} {found.st_size} {found.st_mtime_ns}"
