"""Makes the flat files of the operands from a seed, and compares a result with numpy's."""
import sys
import numpy

N = 12
draw = numpy.random.default_rng(5)
A = draw.integers(-100, 100, (N, N)).astype("<i8")
P = draw.integers(-100, 100, (N, N, N, N)).astype("<i8")

if sys.argv[1:] == ["make"]:
    A.tofile("A.flat")
    P.tofile("P.flat")
else:
    found = int(numpy.fromfile("X.flat", dtype="<i8")[0])
    due = int(numpy.einsum("ij,jkki,ii->", A, P, A))
    print("equal to numpy's" if found == due else "DIFFERS from numpy's")
