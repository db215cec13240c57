"""A second-order energy of float64 arrays, exact but for the rounding of its operands."""
import numpy

from cabunlit import evaluate
from cabunlit.fixed_point import from_fixed, scale_for, to_fixed

draw = numpy.random.default_rng(3)
k = draw.normal(0, 0.05, (4, 8, 4, 8))
occupied, virtual = draw.uniform(-2, -0.5, (4, 1)), draw.uniform(0.2, 2, 8)
r = 1 / ((occupied - virtual)[:, :, None, None] + (occupied - virtual))
energy = "E[] = sum{i,a,j,b}(K[i,a,j,b] * (2 * K[i,a,j,b] - K[i,b,j,a]) * R[i,a,j,b])"
scale = scale_for(energy, {"K": k, "R": r})
found = from_fixed(evaluate(energy, K=to_fixed(k, scale), R=to_fixed(r, scale)), scale)
due = (k * (2 * k - k.transpose(0, 3, 2, 1)) * r).sum()
print(f"scale 2^{scale.operand.bit_length() - 1}, within {scale.error:.1g}:", abs(found - due) < scale.error)
