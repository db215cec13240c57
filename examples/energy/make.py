"""Makes the integrals and the reciprocal denominators as scaled integers, and reads the energy back."""
import sys
import numpy

O, V = 4, 8
SCALE_K, SCALE_R = 2**18, 2**18
draw = numpy.random.default_rng(3)
k = draw.normal(0, 0.05, (O, V, O, V))
k = (k + k.transpose(2, 3, 0, 1)) / 2
occupied, virtual = numpy.sort(draw.uniform(-2, -0.5, O)), numpy.sort(draw.uniform(0.2, 2, V))
r = 1 / (occupied[:, None, None, None] + occupied[None, None, :, None] - virtual[None, :, None, None] - virtual[None, None, None, :])
K = numpy.rint(k * SCALE_K).astype("<i8")
R = numpy.rint(r * SCALE_R).astype("<i8")

if sys.argv[1:] == ["make"]:
    K.tofile("K.flat")
    R.tofile("R.flat")
    # no partial sum passes this, whatever the signs
    bound = K.size * int(abs(K).max()) * 3 * int(abs(K).max()) * int(abs(R).max())
    print("no overflow is possible" if bound < 2**63 else "an overflow is possible: choose smaller scales")
else:
    found = int(numpy.fromfile("E.flat", dtype="<i8")[0])
    due = int((K * (2 * K - K.transpose(0, 3, 2, 1)) * R).sum())
    energy = found / (SCALE_K**2 * SCALE_R)
    exact = (k * (2 * k - k.transpose(0, 3, 2, 1)) * r).sum()
    print("equal to numpy's integers" if found == due else "DIFFERS from numpy's integers")
    print("within 1e-5 of the energy in floating point" if abs(energy - exact) < 1e-5 else "FAR from the energy in floating point")
