#!/usr/bin/env python3
"""Counts what runs of fused formulas read, and fails where one reads more than bench/reads.txt says.

usage: bench/reads.py [PROGRAM]

The formulas are those of bench/fused: constants, chains, products and equations of coupled clusters, with small tiles, as
many as real extents have. A line of the table has a formula, how many tiles are held, and hundredths of reading each operand
once. What a run reads is counted by the kernel, without what `plan` reads of the same formula. Where one reads less, its line
is to be mended.
"""
import os
import pathlib
import re
import struct
import subprocess
import sys
import tempfile

BENCH = pathlib.Path(__file__).resolve().parent
FRAMES = (8, 64)


def shapes(text):
    """The extents and edges of each tensor, in the order of its positions."""
    ranges = {name: (int(extent), int(edge)) for name, extent, edge in re.findall(r"range (\w+) (\d+) tile (\d+)", text)}
    return {name: [ranges[it] for it in of.split(",")] for name, of in re.findall(r"tensor (\w+)\[([\w,]*)\]", text)}


def words(shape):
    """The words of a tile, and those of all tiles."""
    tile = count = 1
    for extent, edge in shape:
        tile *= edge
        count *= -(-extent // edge)
    return tile, tile * count


def write_zeros(path, shape):
    """A file of zeros."""
    with open(path, "wb") as file:
        numbers = [len(shape), *[extent for extent, _ in shape], *[edge for _, edge in shape]]
        file.write(b"TCARRAY1" + struct.pack(f"<{len(numbers)}Q", *numbers))
        file.truncate(file.tell() + 8 * words(shape)[1])


def bytes_read(command, folder):
    """What a program reads until it ends."""
    process = subprocess.Popen(command, cwd=folder, stdout=subprocess.DEVNULL)
    os.waitid(os.P_PID, process.pid, os.WEXITED | os.WNOWAIT)
    with open(f"/proc/{process.pid}/io", encoding="utf-8") as io:
        count = int(re.search(r"rchar: (\d+)", io.read())[1])
    if process.wait() != 0:
        sys.exit(f"{' '.join(command)} ended with {process.returncode}")
    return count


def counted(program, path):
    """The hundredths of reading each operand once, for each number of tiles."""
    text = path.read_text(encoding="utf-8")
    result = re.findall(r"(?m)^(\w+)\[", text)[-1]
    tensors = shapes(text)
    with tempfile.TemporaryDirectory() as folder:
        for name, shape in tensors.items():
            if name != result:
                write_zeros(f"{folder}/{name}.tca", shape)
        once = sum(8 * words(shape)[1] for name, shape in tensors.items() if name != result)
        largest = max(words(shape)[0] for shape in tensors.values())
        planned = bytes_read([program, "plan", str(path)], folder)
        for frames in FRAMES:
            read = bytes_read([program, "run", str(path), str(frames * largest)], folder)
            yield frames, 100 * (read - planned) // once


def main():
    program = os.path.abspath(sys.argv[1] if len(sys.argv) > 1 else BENCH.parent / "tce")
    table = {}
    for line in (BENCH / "reads.txt").read_text(encoding="utf-8").splitlines():
        name, frames, most = line.split()
        table[name, int(frames)] = int(most)
    rose = 0
    for path in sorted((BENCH / "fused").glob("*.tce")):
        for frames, count in counted(program, path):
            most = table.get((path.stem, frames))
            said = ""
            if most is None:
                said = "not in the table"
            elif most != count:
                said = f"MORE than {most}" if most < count else f"less than {most}"
            rose += most is None or most < count
            print(path.stem, frames, count, said, flush=True)
    return 1 if rose else 0


sys.exit(main())
