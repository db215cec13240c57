"""Scaled integers: no overflow where none is announced, and errors within what is stated."""
import numpy
import pytest
from hypothesis import given, settings, strategies as some

from cabunlit import Specification, evaluate
from cabunlit.errors import ArrayError, FormulaError, OverflowPossible
from cabunlit.fixed_point import from_fixed, magnitude_bound, read_bound, scale_for, to_fixed

ENERGY = "E[] = sum{i,a,j,b}(K[i,a,j,b] * (2 * K[i,a,j,b] - K[i,b,j,a]) * R[i,a,j,b])"


@settings(max_examples=15)
@given(some.integers(0, 2**32 - 1), some.integers(2, 18))
def test_errors_are_within_what_is_stated(seed, bits):
    draw = numpy.random.default_rng(seed)
    k, r = draw.normal(0, 0.3, (2, 3, 2, 3)), draw.uniform(-1, 1, (2, 3, 2, 3))
    scale = scale_for(ENERGY, {"K": k, "R": r}, bits=bits)
    energy = from_fixed(evaluate(ENERGY, K=to_fixed(k, scale), R=to_fixed(r, scale), out=numpy.ndarray), scale)
    due = (k * (2 * k - k.transpose(0, 3, 2, 1)) * r).sum()
    assert abs(float(energy) - due) <= scale.error + 1e-12 and scale.bound < 2**63
    assert scale.operand == 2**bits and scale.result == 2**(3 * bits)


def test_the_bound_of_the_manual():
    spec = Specification({"O": 4, "V": 8}, {"O": "i j", "V": "a b"}, {"K": "O V O V", "R": "O V O V", "E": ""}, ENERGY)
    bound = read_bound(spec, {"K": 78643, "R": 262144})
    assert bound == 1024 * 78643 * 3 * 78643 * 262144 < 2**63
    with pytest.raises(OverflowPossible) as caught:
        read_bound(spec, {"K": 2 * 78643, "R": 2 * 262144})
    assert caught.value.bound == 8 * bound


def test_constants_count_as_signed_numbers():
    assert magnitude_bound("C[i] = 18446744073709551615 * A[i] - 3", {"A": 5}) == 8


@given(some.integers(0, 2**32 - 1))
def test_the_bound_holds(seed):
    draw = numpy.random.default_rng(seed)
    a, b = draw.integers(-2**20, 2**20, (4, 5)), draw.integers(-2**20, 2**20, 5)
    text = "C[i] = sum{j}(A[i,j] * B[j] - 7 * A[i,j])"
    assert int(abs((a * b - 7 * a).sum(1)).max()) <= magnitude_bound(text, {"A": a, "B": b})


def test_the_largest_scale_is_found():
    found = scale_for("E[] = sum{i}(A[i] * A[i])", {"A": numpy.ones(4)})
    assert found.bound < 2**63 and scale_for("E[] = sum{i}(A[i] * A[i])", {"A": numpy.ones(4)}, bits=30).operand == 2**30
    with pytest.raises(OverflowPossible, match="fewer bits"):
        scale_for("E[] = sum{i}(A[i] * A[i])", {"A": numpy.ones(4)}, bits=found.operand.bit_length())
    with pytest.raises(OverflowPossible):
        scale_for("E[] = A[] * A[]", {"A": 2.0**40})


def test_what_is_refused():
    with pytest.raises(FormulaError, match="different scales"):
        scale_for("C[i] = A[i] + A[i] * A[i]", {"A": 1.0})
    with pytest.raises(FormulaError, match="missing"):
        magnitude_bound("C[i] = A[i] * B[i]", {"A": 1.0})
    with pytest.raises(FormulaError, match="extent"):
        magnitude_bound("E[] = sum{i}(A[i])", {"A": 1.0})
    for it in (numpy.nan, numpy.inf):
        with pytest.raises(ArrayError, match="number"):
            to_fixed([it], 4)
        with pytest.raises(ArrayError, match="number"):
            scale_for("C[i] = A[i] * A[i]", {"A": numpy.array([it])})
    with pytest.raises(OverflowPossible):
        to_fixed([2.0**62], 4)
    with pytest.raises(ArrayError, match="whole numbers"):
        from_fixed(numpy.ones(2), 4)


@pytest.mark.parametrize("of", [[], [1j], ["1.5"], [None], numpy.zeros(0), [numpy.datetime64("2026-12-01")]])
def test_elements_that_are_no_real_numbers(of):
    for call in (lambda: to_fixed(of, 4), lambda: scale_for("C[i] = A[i] * A[i]", {"A": numpy.array(of)})):
        with pytest.raises(ArrayError, match="elements"):
            call()


@pytest.mark.parametrize("bits", [-1, 1.5, "3"])
def test_bits_that_are_none(bits):
    with pytest.raises(FormulaError, match="bits=.*whole number from 0 on"):
        scale_for("C[i] = A[i] * A[i]", {"A": numpy.ones(3)}, bits=bits)
    assert scale_for("C[i] = A[i] * A[i]", {"A": numpy.ones(3)}, bits=numpy.int64(3)).operand == 8


def test_operands_of_other_extents_than_the_formula_has():
    for a, b in [(3, 4), ((3, 3), 3)]:
        with pytest.raises(ArrayError, match="extent 3, and 4 in operand B|2 dimensions, and 1 indexes"):
            scale_for("E[] = sum{i}(A[i] * B[i])", {"A": numpy.ones(a), "B": numpy.ones(b)})


def test_whole_numbers_are_scaled_to_the_last_bit():
    array = numpy.array([2**53 + 1, -2**62 + 1])
    assert to_fixed(array, 1).tolist() == array.tolist() and to_fixed(array[:1], 512).tolist() == [2**62 + 512]
    for it in (array * 2, numpy.array([2**63], "<u8"), numpy.array([-2**63])):
        with pytest.raises(OverflowPossible):
            to_fixed(it, 1 if it.dtype.kind == "u" or it.size == 1 else 2)


def test_a_bound_of_a_thousand_digits_is_told_short():
    with pytest.raises(OverflowPossible, match="come to about 2.1[0-9]{4}, and") as caught:
        scale_for("C[i] = " + " * ".join(["A[i]"] * 20), {"A": numpy.full(3, 1e300)})
    assert len(str(caught.value)) < 200 and caught.value.bound >= 10**5999
