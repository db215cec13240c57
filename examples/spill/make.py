"""Makes the flat files of the operands from a seed, and compares a result with numpy's."""
import sys
import numpy

draw = numpy.random.default_rng(27)
A = draw.integers(0, 2**64, (30, 20), dtype="<u8")
B = draw.integers(0, 2**64, (40, 20), dtype="<u8")

if sys.argv[1:] == ["make"]:
    A.tofile("A.flat")
    B.tofile("B.flat")
else:
    found = numpy.fromfile("C.flat", dtype="<u8").reshape(30, 40)
    print("equal to numpy's" if (found == numpy.outer(A.sum(axis=1), B.sum(axis=1))).all() else "DIFFERS from numpy's")
