"""Makes the flat files of the operands from a seed, and compares a result with numpy's."""
import sys
import numpy

N = 512
draw = numpy.random.default_rng(9)
A = draw.integers(0, 2**64, (N, N), dtype="<u8")
B = draw.integers(0, 2**64, (N, N), dtype="<u8")

if sys.argv[1:] == ["make"]:
    A.tofile("A.flat")
    B.tofile("B.flat")
else:
    found = numpy.fromfile("C.flat", dtype="<u8").reshape(N, N)
    print("equal to numpy's" if (found == A @ B).all() else "DIFFERS from numpy's")
