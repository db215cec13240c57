"""Makes the flat files of the operands from a seed, and compares a result with numpy's."""
import sys
import numpy

O, V = 4, 8
draw = numpy.random.default_rng(11)
W = draw.integers(-1000, 1000, (V, V, V, V)).astype("<i8")
T = draw.integers(-1000, 1000, (V, V, O, O)).astype("<i8")
G = draw.integers(-1000, 1000, (V, V, O, O)).astype("<i8")

if sys.argv[1:] == ["make"]:
    for name, array in (("W", W), ("T", T), ("G", G)):
        array.tofile(f"{name}.flat")
else:
    found = numpy.fromfile("R.flat", dtype="<i8").reshape(V, V, O, O)
    due = G - G.transpose(1, 0, 2, 3) + numpy.einsum("abcd,cdij->abij", W - W.transpose(0, 1, 3, 2), T)
    print("equal to numpy's" if (found == due).all() else "DIFFERS from numpy's")
