#!/usr/bin/env python3
"""Counts the instructions of searches and checks, and fails where one takes more than bench/counts.txt says.

usage: bench/counts.py [PROGRAM]

What a search or a check passes over changes no answer, so a body that passes over less meets every contract and test and is only slower.
A line of the table has a command and its millions of instructions under callgrind, which other work on the machine does not change. Where
one takes less, its line is to be mended. The program is the released one for x86-64-v3: valgrind knows no wider vectors. What is read of
files `reads.py` counts, also of a result that has holes.

    plan-drawn      trees of bench/drawn_trees.py: states that are of no use ahead are not kept
    check-drawn     their certificates
    check-conflict  a forged certificate whose rows all meet at the root: rows that come to the same are looked at once
    check-late      one with more rows than have an entry: those without one are asked first
"""
import importlib.machinery
import importlib.util
import os
import pathlib
import random
import re
import subprocess
import sys
import tempfile

BENCH = pathlib.Path(__file__).resolve().parent
DRAWN = (8, 20)
ROWS = 3_000
# One more than a node has entries for.
ENTRIES = 131_073


def forger():
    """The tool that forges certificates, as a module."""
    loader = importlib.machinery.SourceFileLoader("forged", str(BENCH.parent / "tools/forged-certificates"))
    made = importlib.util.module_from_spec(importlib.util.spec_from_loader("forged", loader))
    loader.exec_module(made)
    return made


def millions(command, folder):
    """The instructions of a command, in millions."""
    words = ["valgrind", "--tool=callgrind", "--callgrind-out-file=/dev/null", *command]
    said = subprocess.run(words, cwd=folder, stdout=subprocess.DEVNULL, stderr=subprocess.PIPE, text=True, check=True).stderr
    return -(-int(re.search(r"Collected *: (\d+)", said)[1]) // 1_000_000)


def drawn(program, folder):
    """Plans of drawn trees, and checks of their certificates."""
    words = [sys.executable, str(BENCH / "drawn_trees.py"), "wide", "trees", str(max(DRAWN) + 1)]
    subprocess.run(words, cwd=folder, check=True)
    for number in DRAWN:
        tree = f"trees/{number:03}.tce"
        yield f"plan-drawn-{number}", millions([program, "plan", tree], folder)
        subprocess.run([program, "cert", tree, "tree.cert"], cwd=folder, stdout=subprocess.DEVNULL, check=True)
        yield f"check-drawn-{number}", millions([program, "check", tree, "tree.cert"], folder)


def forged(program, folder):
    """Checks of forged certificates."""
    tool = forger()
    random.seed(1)
    (folder / "forged.tce").write_text(tool.specification(), encoding="utf-8")
    needed = [list(tool.steps(loops)) for loops in (tool.LEFT, tool.RIGHT)]
    lefts, rights, _ = tool.forged("conflict", ROWS)
    dear = [(tool.LIMIT // 2, ())] * ENTRIES
    for name, tables in (("conflict", (lefts + needed[0], rights + needed[1])), ("late", (dear + needed[0], needed[1]))):
        (folder / "forged.cert").write_text(tool.certificate(*tables), encoding="utf-8")
        yield f"check-{name}", millions([program, "check", "forged.tce", "forged.cert"], folder)


def main():
    program = os.path.abspath(sys.argv[1] if len(sys.argv) > 1 else BENCH.parent / "release/tce-x86-64-v3")
    table = dict(line.split() for line in (BENCH / "counts.txt").read_text(encoding="utf-8").splitlines())
    rose = 0
    with tempfile.TemporaryDirectory() as name:
        for make in (drawn, forged):
            for row, count in make(program, pathlib.Path(name)):
                most = table.get(row)
                said = ""
                if most is None:
                    said = "not in the table"
                elif int(most) != count:
                    said = f"MORE than {most}" if int(most) < count else f"less than {most}"
                rose += most is None or int(most) < count
                print(row, count, said, flush=True)
    return 1 if rose else 0


sys.exit(main())
