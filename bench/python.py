#!/usr/bin/env python3
"""Times the Python package beside numpy: python3 bench/python.py [FOLDER]

128 MiB in rows, a memory map in the system's cache, become an array file, and this an array of rows again.

- `write_array(.., flush=False)` makes a new file and moves it to its place, also over one that stands there. Beside it stands
  `numpy.copyto` into a new memory map of as many bytes: both have the system make each page of a file. A copy into pages that are there
  makes none, and is told beside them; so is one into a map of mode "w+" over a file that stands, which empties that file first.
- `numpy.asarray` of the array file stands beside `numpy.copyto` of the same memory map into new memory.
- The memory that both take beside operands and results is the most that the system counts, less what was there before.
- Products of matrices of 1,024 by 1,024 stand beside numpy's integer einsum, arrays in and out.

What is compared runs in turn. Each figure is the least of seven (of three for products): seconds of the clock, and in brackets those of the
processor, which other work on the machine lengthens less. Ratios are those of the processor's seconds, and for products of the clock's.
"""
import os
import sys
import tempfile
import time
from pathlib import Path
from typing import NamedTuple

import numpy

sys.path.insert(0, str(Path(__file__).resolve().parent.parent / "python"))
import cabunlit  # noqa: E402

SIDE, MATRIX = 4096, 1024


class Time(NamedTuple):
    """Seconds of the clock and of the processor, those of ended children among them."""

    clock: float
    processor: float

    def __str__(self):
        return f"{self.clock:.3f} ({self.processor:.3f})"


def now():
    return Time(time.perf_counter(), time.process_time() + sum(os.times()[2:4]))


def least(times, *actions):
    """The least time of each of some that run in turn."""
    found = [[] for _ in actions]
    for _ in range(times):
        for action, of in zip(actions, found):
            begun = now()
            action()
            of.append([b - a for a, b in zip(begun, now())])
    return [Time(*map(min, zip(*it))) for it in found]


def memory_of(action):
    """The MiB that the process has more at most while something is done."""
    def lines():
        return dict(it.split(":") for it in Path("/proc/self/status").read_text().splitlines())

    Path("/proc/self/clear_refs").write_text("5")  # (has the system forget the most memory so far)
    before = int(lines()["VmRSS"].split()[0])
    action()
    return (int(lines()["VmHWM"].split()[0]) - before) / 1024


def fresh(source, name="c.raw", unlink=True):
    """Copies an array into a new memory map."""
    if unlink:
        Path(name).unlink(missing_ok=True)
    target = numpy.memmap(name, "<i8", "w+", shape=source.shape)
    numpy.copyto(target, source)


def written(source, chunks, unlink=True):
    """Writes an array file."""
    if unlink:
        Path("x.tca").unlink(missing_ok=True)
    cabunlit.write_array("x.tca", source, chunks, flush=False)


def files():
    source = numpy.memmap("a.raw", "<i8", "w+", shape=(SIDE, SIDE))
    source[:] = numpy.arange(SIDE)
    target = numpy.memmap("b.raw", "<i8", "w+", shape=(SIDE, SIDE))
    target[:] = 1
    there, new, over = least(7, lambda: numpy.copyto(target, source), lambda: fresh(source), lambda: fresh(source, "d.raw", False))
    print(f"copyto into pages that are there {there}, into a new memory map {new}, over a file that stands {over}")
    for chunks in (8, 16, 64, 256, 1000, (64, SIDE)):
        room = memory_of(lambda: written(source, chunks))
        new, write, over = least(7, lambda: fresh(source), lambda: written(source, chunks), lambda: written(source, chunks, False))
        tiled = cabunlit.open_array("x.tca")
        memory, read = least(7, lambda: numpy.copyto(numpy.empty((SIDE, SIDE), "<i8"), source), lambda: numpy.asarray(tiled))
        print(f"chunks {chunks}: write_array {write}, over a file that stands {over}, copyto into a new memory map {new}: "
              f"{new.processor / write.processor:.2f} of its bandwidth, {room:.1f} MiB more")
        room = memory_of(lambda: numpy.asarray(tiled)) - source.nbytes / 2**20
        print(f"    read {read}, copyto into new memory {memory}: {memory.processor / read.processor:.2f} of its bandwidth, "
              f"{max(0.0, room):.1f} MiB more")


def products():
    draw = numpy.random.default_rng(1)
    a, b, c = (draw.integers(-2**63, 2**63 - 1, (MATRIX, MATRIX)) for _ in range(3))
    for text, operands in (("ij,jk->ik", (a, b)), ("ij,jk,kl->il", (a, b, c))):
        by_numpy, here, small = least(
            3, lambda: chained(operands), lambda: cabunlit.einsum(text, *operands, out=numpy.ndarray),
            lambda: cabunlit.einsum(text, *operands, out=numpy.ndarray, memory="4 MiB"))
        print(f"{text}: numpy {by_numpy}, cabunlit {here}: {here.clock / by_numpy.clock:.2f} times; within 4 MiB {small}")


def chained(matrices):
    """A product of matrices by numpy's integer einsum, two at a time."""
    found = matrices[0]
    for it in matrices[1:]:
        found = numpy.einsum("ij,jk->ik", found, it)
    return found


if __name__ == "__main__":
    with tempfile.TemporaryDirectory(dir=sys.argv[1] if len(sys.argv) > 1 else None) as room:
        os.chdir(room)
        files()
        products()
