"""Makes the flat files of the operands from a seed, and compares a result with numpy's."""
import sys
import numpy

N = 24
draw = numpy.random.default_rng(7)
V = draw.integers(-50, 50, (N, N, N, N)).astype("<i8")
U = draw.integers(-50, 50, (N, N)).astype("<i8")

if sys.argv[1:] == ["make"]:
    V.tofile("V.flat")
    U.tofile("U.flat")
else:
    found = numpy.fromfile("T.flat", dtype="<i8").reshape(N, N, N, N)
    due = numpy.einsum("ap,bq,cr,ds,pqrs->abcd", U, U, U, U, V, optimize=True)
    print("equal to numpy's" if (found == due).all() else "DIFFERS from numpy's")
