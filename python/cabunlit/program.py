"""The program `tce`: where it is, and how it is called."""
from __future__ import annotations

import os
import shutil
import signal
import subprocess
import tempfile
import time
from collections.abc import Callable, Iterator, Sequence
from contextlib import ExitStack, contextmanager
from pathlib import Path

from cabunlit.errors import DiskFault, ProgramKilled, ProgramNotFound, disk_fault, error_of
from cabunlit.interrupts import later_interrupts, remove_folder

PathLike = str | os.PathLike[str]
POLL_SECONDS = 0.1


def find_program(program: PathLike | None = None) -> Path:
    """Where the program is.

    Parameters
    ----------
    program : path, optional
        Where it is; else the environment variable CABUNLIT_TCE says so, else it is `tce` at the top of the checkout that holds
        this package, else `tce` on the path.

    Returns
    -------
    pathlib.Path

    Raises
    ------
    ProgramNotFound

    Examples
    --------
    >>> find_program("/bin/sh").name
    'sh'
    """
    given = program or os.environ.get("CABUNLIT_TCE")
    if given:
        found = shutil.which(os.fspath(given))
        if not found:
            raise ProgramNotFound(f"{os.fspath(given)} is no program: give the path of tce, or set CABUNLIT_TCE to it")
        return Path(found).absolute()
    beside = Path(__file__).resolve().parent.parent.parent / "tce"
    if os.access(beside, os.X_OK):
        return beside
    on_path = shutil.which("tce")
    if not on_path:
        raise ProgramNotFound("tce is not found: give program=, set CABUNLIT_TCE, or put the repository's folder on PATH")
    return Path(on_path).absolute()


def run_program(words: Sequence[str], folder: PathLike, *, program: PathLike | None = None, text: str = "",
                watch: Callable[[], None] | None = None, seconds: float | None = None) -> str:
    """Calls the program in a folder and returns its report.

    Parameters
    ----------
    words : sequence of str
        The command.
    folder : path
        Where all files are.
    program : path, optional
        Where the program is, as for `find_program`.
    text : str, optional
        The specification, for the line that a refusal names.
    watch : callable, optional
        Is called ten times a second while the program runs.
    seconds : float, optional
        After so many the program is ended.

    Returns
    -------
    str
        What the program printed.

    Raises
    ------
    TceError
        Where the program refused, by its status.
    ProgramKilled
        Where a signal ended it, or its time was over. At an interrupt of this process the program is ended first.
    ProgramNotFound
        Where it is none, or cannot be run.

    Examples
    --------
    >>> run_program(["plan", "nowhere.tce"], "/")
    Traceback (most recent call last):
    ...
    cabunlit.errors.MissingFile: error 3: no file nowhere.tce
    Make it, or call in its folder.
    """
    command = [str(find_program(program)), *words]
    until = None if seconds is None else time.monotonic() + seconds
    wait = POLL_SECONDS if watch or until else None
    with ExitStack() as ending:
        with later_interrupts():
            process = ending.enter_context(_started(command, folder))
            ending.push(lambda kind, *_: _end(process) if kind else None)
        while True:
            try:
                said, besides = process.communicate(timeout=wait)
                break
            except subprocess.TimeoutExpired:
                if until and time.monotonic() > until:
                    raise ProgramKilled(f"tce {words[0]} was ended after {seconds} s") from None
                if watch:
                    watch()
    if watch:
        watch()
    report = said.decode("utf-8", "replace")
    if process.returncode == 0:
        return report
    if process.returncode < 0:
        name = signal.Signals(-process.returncode).name
        raise ProgramKilled(f"tce was ended by {name}: run it again; a result without a head is not finished",
                            -process.returncode)
    lines = report.splitlines()
    last = lines[-1] if lines and lines[-1].startswith("error ") else ""
    detail = "" if last else besides.decode("utf-8", "replace").strip()
    if process.returncode == DiskFault.status:
        detail = f"in {os.fspath(folder)}, where {shutil.disk_usage(folder).free} bytes are free"
    raise error_of(last, text, process.returncode, detail)


def _started(command: Sequence[str], folder: PathLike) -> subprocess.Popen[bytes]:
    try:
        return subprocess.Popen(command, cwd=folder, stdin=subprocess.DEVNULL, stdout=subprocess.PIPE, stderr=subprocess.PIPE)
    except OSError as error:
        if not os.path.isdir(folder):
            raise disk_fault(error, folder) from error
        raise ProgramNotFound(f"{command[0]} cannot be run: {error.strerror}: give the path of tce, or set CABUNLIT_TCE to it") from error


def _end(process: subprocess.Popen[bytes]) -> None:
    """Ends a process, whatever it does."""
    process.kill()
    process.wait()


@contextmanager
def temporary_folder(parent: PathLike | None = None, prefix: str = "cabunlit-") -> Iterator[Path]:
    """A folder of a new name that is gone at the end of a `with`.

    Parameters
    ----------
    parent : path, optional
        Where; else where temporary files are.
    prefix : str, optional
        With what its name begins.

    Raises
    ------
    DiskFault
        Where there is no room, or writing is not permitted.

    Examples
    --------
    >>> with temporary_folder(".") as made:
    ...     made.is_dir()
    True
    >>> made.exists()
    False
    """
    with ExitStack() as ending:
        with later_interrupts():
            try:
                folder = Path(tempfile.mkdtemp(prefix=prefix, dir=parent))
            except OSError as error:
                raise disk_fault(error, parent or tempfile.tempdir or "TMPDIR") from error
            ending.callback(_remove, folder, os.getpid())
        yield folder


def _remove(folder: Path, process: int) -> None:
    # (a process that was forked leaves it alone)
    if os.getpid() == process:
        remove_folder(folder)


def write_text(path: Path, text: str) -> None:
    """Writes a specification, byte by byte as the program is to read it.

    Raises
    ------
    DiskFault
    """
    try:
        path.write_bytes(text.encode("utf-8", "surrogateescape"))
    except OSError as error:
        raise disk_fault(error, path) from error


def run_text(words: Sequence[str], text: str, *, program: PathLike | None = None, seconds: float | None = None) -> str:
    """Calls the program on a specification that has no files, as `run_program` does.

    Parameters
    ----------
    words : sequence of str
        The command without SPEC, which comes second.
    text : str
        The specification.
    program, seconds
        As for `run_program`.

    Returns
    -------
    str
        What the program printed.

    Raises
    ------
    TceError, ProgramKilled
        As `run_program`.

    Examples
    --------
    >>> run_text(["plan"], "index N i")
    Traceback (most recent call last):
    ...
    cabunlit.errors.SpecificationError: error 2: line 1: unknown name N
    """
    with temporary_folder() as folder:
        write_text(folder / "s.tce", text)
        return run_program([words[0], "s.tce", *words[1:]], folder, program=program, text=text, seconds=seconds)
