"""How a formula is run: whole, with named intermediates, or by single operations, whichever costs least."""
from __future__ import annotations

import os
import shutil
import tempfile
from collections.abc import Collection, Mapping
from dataclasses import dataclass

from cabunlit.advise import Advice, advise_plans
from cabunlit.errors import (CabunlitError, FormulaError, IntermediatesTooLarge, NotEnoughDisk, NotEnoughMemory, ProgramKilled,
                             SpecificationError, disk_fault)
from cabunlit.memory import budget_of, bytes_of
from cabunlit.plan import Plan, plan
from cabunlit.simulate import Reads
from cabunlit.specification import Specification
from cabunlit.splitting import singles, with_names

PathLike = str | os.PathLike[str]
STRATEGIES = ("auto", "whole", "named", "single")
# Seconds of a run itself, a turn, an operation that is done alone, a touch, a read of a tile, a byte read and a byte written, roughly.
RUN, TURN, STEP, TOUCH, READ, BYTE_READ, BYTE_WRITTEN = 1e-2, 1e-9, 2e-8, 1e-7, 3e-6, 1e-9, 4e-9
FOLLOWED = 200_000
# A way whose fusion is not found in so many seconds is none, where there are others.
SEARCH_SECONDS = 20.0


@dataclass(frozen=True)
class Choice:
    """A way to run a formula.

    Attributes
    ----------
    name : str
        `whole`, `named` or `single`.
    spec : Specification
        The formulas that are run one after the other.
    plans : tuple of Plan
    budgets : tuple of int
        Words of 8 bytes.
    reads : tuple of Reads
    disk : int
        Bytes of intermediates' files.
    """

    name: str
    spec: Specification
    plans: tuple[Plan, ...]
    budgets: tuple[int, ...]
    reads: tuple[Reads, ...]
    disk: int

    @property
    def seconds(self) -> float:
        """About how long it takes."""
        return sum(RUN + TURN * it.turns() + STEP * of.steps + TOUCH * of.touches + READ * of.tiles + BYTE_READ * of.bytes
                   + BYTE_WRITTEN * of.written for it, of in zip(self.plans, self.reads))

    def describe(self) -> str:
        """What it costs, as a line of text."""
        count = len(self.plans)
        about = "" if all(it.exact for it in self.reads) else "about "
        return (f"{self.name}: {count} formula{'s' if count > 1 else ''}, {sum(it.turns() for it in self.plans)} turns, "
                f"{about}{sum(it.tiles for it in self.reads)} tiles read ({sum(it.bytes for it in self.reads)} bytes), "
                f"{8 * max(it.memory for it in self.plans)} bytes of intermediates in memory, {self.disk} on disk, "
                f"about {self.seconds:.2g} s")


def cost_line(part: Plan, budget: int, reads: Reads) -> str:
    """What a run of one formula costs, as a line of text."""
    edges = ", ".join(f"{index} {part.spec.range_of(index).edge}" for index in part.spec.indexes)
    about = "" if reads.exact else "about "
    return (f"{part.spec.formula.text()}: {part.turns()} turns, edges {edges}, budget {budget} words, "
            f"{about}{reads.tiles} tiles read ({reads.bytes} bytes)")


def candidates(spec: Specification, strategy: str) -> dict[str, Specification]:
    """The ways that a strategy allows.

    Raises
    ------
    FormulaError
    """
    if strategy not in STRATEGIES:
        raise FormulaError(f"strategy={strategy!r} is none of {STRATEGIES}")
    ways = {"whole": lambda: spec, "named": lambda: with_names(spec), "single": lambda: singles(spec)}
    if strategy != "auto":
        return {strategy: ways[strategy]()}
    found: dict[str, Specification] = {}
    for name, way in ways.items():
        try:
            made = way()
        except FormulaError:
            continue
        if not any(made.formulas == it.formulas for it in found.values()):
            found[name] = made
    return found


def choose(ways: Mapping[str, Specification], memory: int, free: Collection[str] = (), disk: int | None = None,
           program: PathLike | None = None) -> tuple[Choice, list[str]]:
    """The way that costs least within a memory and a disk, and what was said of each.

    Parameters
    ----------
    ways : mapping of str to Specification
    memory : int
        Bytes, for each formula in turn.
    free : collection of str
        Ranges whose edges may be chosen.
    disk : int, optional
        Bytes for the files of intermediates; else half of what is free where temporary files are.

    Raises
    ------
    CabunlitError
        Why the last way is none, where there is none.
    """
    room = _free_room() // 2 if disk is None else bytes_of(disk, "disk")
    found: list[Choice] = []
    said: list[str] = []
    failed: CabunlitError | None = None
    for name, spec in ways.items():
        try:
            made = _choice(name, spec, memory, free, program, SEARCH_SECONDS if len(ways) > 1 else None)
        except (SpecificationError, IntermediatesTooLarge, NotEnoughMemory, ProgramKilled) as error:
            failed = failed or error
            said.append(f"{name}: not possible: {str(error).splitlines()[0]}")
            continue
        if made.disk > room:
            said.append(f"{name}: {made.disk} bytes of intermediates are more than the disk has for them, {room}")
            continue
        found.append(made)
        said.append(made.describe())
    if not found:
        raise failed or NotEnoughDisk("; ".join(said) + ": give a larger disk=, or a TMPDIR with more room")
    best = min(found, key=lambda it: it.seconds)
    said.append(f"taken: {best.name}")
    return best, said


def _free_room() -> int:
    """The bytes that are free where temporary files are."""
    try:
        return shutil.disk_usage(tempfile.gettempdir()).free
    except OSError as error:
        raise disk_fault(error, tempfile.tempdir or "TMPDIR") from error


def _choice(name: str, spec: Specification, memory: int, free: Collection[str], program: PathLike | None,
            seconds: float | None) -> Choice:
    plans = tuple(plan(spec.alone(k), program, seconds) for k in range(len(spec.formulas)))
    if free and not _fits(plans, memory):
        advice: Advice = advise_plans(spec, plans, memory, [it for it in spec.ranges if it not in free])
        spec, plans = advice.spec, advice.plans
    budgets = tuple(min(it.full_budget, budget_of(memory, it.memory, it.least_budget // 3)) for it in plans)
    limit = max(2000, FOLLOWED // len(plans))
    reads = tuple(it.reads(budget, limit) for it, budget in zip(plans, budgets))
    results = spec.results()
    disk = sum(spec.file_bytes(it) for it in results[:-1])
    return Choice(name, spec, plans, budgets, reads, disk)


def _fits(plans: Collection[Plan], memory: int) -> bool:
    """Whether every tile is held."""
    try:
        return all(it.full_budget <= budget_of(memory, it.memory, it.least_budget // 3) for it in plans)
    except NotEnoughMemory:
        return False
