"""What can go wrong, as exceptions.

`TceError` has a subclass for each exit status of the program; its message is the program's line and what to do. What this
package refuses itself, before the program is called, is a `CabunlitError` of another kind.
"""
from __future__ import annotations

import re


class CabunlitError(Exception):
    """All that this package raises."""


class ArrayError(CabunlitError, ValueError):
    """An array or an array file that cannot be taken as it is, with what to do."""


class FileChanged(CabunlitError):
    """An array file that is no longer the one that was opened."""


class FormulaError(CabunlitError, ValueError):
    """A formula, a path or a label that this package cannot translate."""


class NotEnoughMemory(CabunlitError, ValueError):
    """A memory that is too small for three tiles."""


class NotEnoughDisk(CabunlitError):
    """Every way to run a formula wants more room for intermediates on disk than may be taken."""


class OverflowPossible(CabunlitError, ArithmeticError):
    """A result of scaled integers whose bound is not below 2^63.

    Attributes
    ----------
    bound : int
        What the magnitude of an element may come to.
    """

    def __init__(self, message: str, bound: int) -> None:
        super().__init__(message)
        self.bound = bound

    def __reduce__(self) -> tuple[type, tuple[str, int]]:
        return type(self), (str(self), self.bound)


class PiecesFailed(CabunlitError):
    """Pieces of a cut formula that were not done.

    Attributes
    ----------
    failed : tuple of int
        The numbers of these pieces. Those that are done are kept.
    """

    def __init__(self, message: str, failed: tuple[int, ...]) -> None:
        super().__init__(message)
        self.failed = failed

    def __reduce__(self) -> tuple[type, tuple[str, tuple[int, ...]]]:
        return type(self), (str(self), self.failed)


class ProgramNotFound(CabunlitError):
    """The program `tce` is nowhere where it is looked for."""


class ProgramKilled(CabunlitError):
    """The program was ended by a signal.

    Attributes
    ----------
    signal : int
        The signal's number.
    """

    def __init__(self, message: str, signal: int = 0) -> None:
        super().__init__(message)
        self.signal = signal


class TceError(CabunlitError):
    """The program ended with another status than 0.

    Attributes
    ----------
    status : int
        The exit status.
    line : str
        What the program printed, without ``error N:``.
    advice : str
        What to do.

    Examples
    --------
    >>> raise error_of("error 5: budget needs 7500")
    Traceback (most recent call last):
    ...
    cabunlit.errors.BudgetTooSmall: error 5: budget needs 7500
    Give 7500 words of 8 bytes or more, or smaller tiles.
    """

    status = 0
    advice = "The manual's page on errors has every line, its cause and what to do."

    def __init__(self, line: str = "", detail: str = "", status: int | None = None) -> None:
        self.line = line
        self.detail = detail
        self.status = type(self).status if status is None else status
        parts = [f"error {self.status}: {line}" if line else f"tce ended with status {self.status}"]
        super().__init__("\n".join([*parts, *([detail] if detail else []), self.mending()]))

    def mending(self) -> str:
        """What to do."""
        return self.advice

    def __reduce__(self) -> tuple[type, tuple[str, str, int]]:
        return type(self), (self.line, self.detail, self.status)


class BadWords(TceError):
    """Status 1: the words are no command."""

    status = 1
    advice = "Names of specifications end in .tce and have letters, digits, _, -, . and / alone; numbers are within the limits."


class SpecificationError(TceError):
    """Status 2: the text is no specification.

    Attributes
    ----------
    number : int
        The line of the first fault, counted from 1; 0 where the text is too long.
    place : str
        That line of the text, with a mark below the name that is at fault.
    """

    status = 2
    advice = "Mend this line; the manual's page on errors has the cause of each text."
    causes = {
        "more than 32 operations": "Cut the formula: strategy=\"auto\" does, and so do several formulas for batch.",
        "limit of indexes passed": "A specification has at most 24 indexes: cut the formula into several, or use an index again.",
        "limit of rank passed": "A tensor has at most 8 indexes: contract a part first.",
        "limit of tensors passed": "A specification has at most 32 tensors: cut the formula into several.",
        "limit of tile words passed": "A tile has at most 2^20 elements: choose shorter edges.",
        "more than 10 loops": "Factor the formula: an operation has at most 10 different indexes.",
        "no operation": "Write 1 * A[i] for a copy.",
        "unknown name": "Declare this name above the line.",
        "declared twice": "Declare it once.",
        "result and operand": "Give the result another name.",
        "sum over absent": "What stands in the parentheses has not this index.",
        "result indexes differ": "The result has exactly the indexes that are left on the right.",
    }

    def __init__(self, line: str = "", detail: str = "", status: int | None = None) -> None:
        found = re.match(r"line (\d+): ", line)
        self.number = int(found[1]) if found else 0
        self.place = detail
        super().__init__(line, detail, status)

    def mending(self) -> str:
        return next((says for text, says in self.causes.items() if text in self.line), self.advice)


class MissingFile(TceError):
    """Status 3: a file that the command reads is not there."""

    status = 3
    advice = "Make it, or call in its folder."


class ArrayRefused(TceError):
    """Status 4: an array file has another length or head than its tensor."""

    status = 4
    advice = ("The extents or edges of the specification are not those of the file, or it was cut short: "
              "write it again.")


class BudgetTooSmall(TceError):
    """Status 5: the budget is below three of the largest tiles.

    Attributes
    ----------
    needs : int
        The words of 8 bytes that are needed.
    """

    status = 5

    @property
    def needs(self) -> int:
        found = re.search(r"needs (\d+)", self.line)
        return int(found[1]) if found else 0

    def mending(self) -> str:
        return f"Give {self.needs} words of 8 bytes or more, or smaller tiles."


class IntermediatesTooLarge(TceError):
    """Status 6: the least memory for intermediates is above 2^40 words."""

    status = 6
    advice = "Write the formula otherwise, or spill it."


class CertificateRefused(TceError):
    """Status 7: the certificate does not show what it claims."""

    status = 7


class DiskFault(TceError):
    """Status 8: the system failed at a file."""

    status = 8
    advice = ("The disk is full or broken, or reading or writing is not permitted there: see to that and run again. "
              "Results that were not finished have no head.")


def disk_fault(error: OSError, path: object) -> DiskFault:
    """The exception of what the system says of a file or a folder.

    Examples
    --------
    >>> raise disk_fault(PermissionError(13, "Permission denied"), "/C.tca")
    Traceback (most recent call last):
    ...
    cabunlit.errors.DiskFault: error 8: disk fault
    /C.tca: Permission denied
    The disk is full or broken, ..
    """
    return DiskFault("disk fault", f"{path}: {error.strerror}")


class ReportLost(TceError):
    """Status 9: the report could not be written; the output file is complete."""

    status = 9


class WantOfMemory(TceError):
    """Status 10: no memory was left."""

    status = 10
    advice = "Give a smaller budget, or free memory."


class FlatLength(TceError):
    """Status 11: a flat file has not 8 bytes for each element."""

    status = 11
    advice = "This is another array, or another element type."


class UnknownTensor(TceError):
    """Status 12: the specification declares no tensor of that name."""

    status = 12
    advice = "Declare it, or call it by its name in the specification."


class DoesNotFit(TceError):
    """Status 13: an element needs more than four bytes."""

    status = 13
    advice = "Keep eight bytes an element."


class EinsumRefused(TceError):
    """Status 14: the text or the path of an einsum is refused."""

    status = 14


class PieceTooLarge(TceError):
    """Status 15: however the tree is cut, a piece is above the limit."""

    status = 15
    advice = "Give a larger limit, or write another tree."


class SymmetricRefused(TceError):
    """Status 16: a file of stored pairs has another length or head."""

    status = 16
    advice = "The extents of the specification are not those of the file, or it was cut short."


class NotBuilt(TceError):
    """Status 125: the program is not there and could not be built."""

    status = 125
    advice = "See to what it says is missing, or name another program: program=, or CABUNLIT_TCE."


BY_STATUS: dict[int, type[TceError]] = {it.status: it for it in TceError.__subclasses__()}


def error_of(line: str, text: str = "", status: int = 0, detail: str = "") -> TceError:
    """The exception of the program's error line.

    Parameters
    ----------
    line : str
        The line, as ``error 5: budget needs 12``; empty where none was printed.
    text : str, optional
        The specification, of which a fault names a line.
    status : int, optional
        The exit status, where no line was printed.
    detail : str, optional
        What was printed to standard error.

    Returns
    -------
    TceError
        Of the status's subclass.

    Examples
    --------
    >>> error_of("error 3: no file A.tca").status
    3
    """
    found = re.match(r"error (\d+): (.*)", line)
    number = int(found[1]) if found else status
    says = found[2] if found else line
    kind = BY_STATUS.get(number, TceError)
    return kind(says, _place(says, text) if kind is SpecificationError else detail, number)


def _place(line: str, text: str) -> str:
    """The line of a text that a fault names, with a mark below the place."""
    found = re.match(r"line (\d+): (.*)", line)
    lines = text.splitlines()
    if not found or not 1 <= int(found[1]) <= len(lines):
        return ""
    shown = lines[int(found[1]) - 1]
    names = [it for it in re.findall(r"\w+", found[2]) if re.search(rf"\b{re.escape(it)}\b", shown)]
    at = [it.start() for it in re.finditer(rf"\b{re.escape(names[-1])}\b", shown)] if names else []
    repeated = "twice" in found[2] or "result and operand" in found[2]
    mark = "\n    " + " " * at[1 if repeated and len(at) > 1 else 0] + "^" if at else ""
    return f"    {shown}{mark}"
