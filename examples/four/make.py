"""Makes the flat files of the operands from a seed, and compares a result with numpy's."""
import sys
import numpy

V, O = 6, 4
draw = numpy.random.default_rng(13)
A = draw.integers(-20, 20, (V, V, O, O)).astype("<i8")
B = draw.integers(-20, 20, (V, V, V, O)).astype("<i8")
C = draw.integers(-20, 20, (V, V, O, O)).astype("<i8")
D = draw.integers(-20, 20, (V, V, V, O)).astype("<i8")

if sys.argv[1:] == ["make"]:
    for name, array in (("A", A), ("B", B), ("C", C), ("D", D)):
        array.tofile(f"{name}.flat")
else:
    found = numpy.fromfile("S.flat", dtype="<i8").reshape(V, V, O, O)
    due = numpy.einsum("acik,befl,dfjk,cdel->abij", A, B, C, D, optimize=True)
    print("equal to numpy's" if (found == due).all() else "DIFFERS from numpy's")
