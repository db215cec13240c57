"""Einsums: those of numpy, modulo 2^64, whatever the subscripts, the path and the tiles."""
import os

import numpy
import pytest
from hypothesis import given, settings, strategies as some

from cabunlit import Specification, einsum, write_array
from cabunlit.contraction import Contraction
from cabunlit.errors import ArrayError, FormulaError, NotEnoughMemory, SpecificationError
from drawn import words

LETTERS = "abcXYZ"


@some.composite
def einsums(draw):
    """Subscripts with operands."""
    extents = {it: draw(some.integers(1, 4)) for it in LETTERS}
    parts = draw(some.lists(some.text(LETTERS, max_size=3), min_size=1, max_size=3))
    dots = draw(some.lists(some.integers(1, 3), max_size=2))
    with_dots = draw(some.booleans())
    shapes, texts = [], []
    for part in parts:
        mine = dots if with_dots and draw(some.booleans()) else []
        shapes.append(tuple([1 if draw(some.integers(0, 4)) == 0 else n for n in mine] + [extents[it] for it in part]))
        texts.append(("..." if with_dots and (mine or not dots) else "") + part)
    known = sorted(set("".join(parts)))
    text = ",".join(texts)
    if draw(some.booleans()):
        out = draw(some.permutations(known))[:draw(some.integers(0, min(3, len(known))))]
        text += "->" + ("..." if "..." in text else "") + "".join(out)
    return text, [words(draw, shape) for shape in shapes]


@settings(max_examples=60)
@given(einsums(), some.sampled_from(["greedy", "optimal", False, True]), some.sampled_from(["auto", 1, 2]))
def test_einsums_have_numpys_values(drawn, optimize, chunks):
    text, operands = drawn
    found = einsum(text, *operands, optimize=optimize, chunks=chunks, out=numpy.ndarray)
    due = numpy.einsum(text, *operands)
    assert found.shape == due.shape and (found == due).all()


A = numpy.arange(12).reshape(3, 4)


@pytest.mark.parametrize("text, shapes", [
    ("ij,jk", [(2, 3), (3, 4)]), ("ij,jk,kl->il", [(2, 3), (3, 4), (4, 2)]), ("...ij,...jk->...ik", [(5, 2, 3), (1, 3, 2)]),
    ("aB,Bc->ca", [(2, 3), (3, 2)]), ("ij->ji", [(2, 3)]), ("ii", [(3, 3)]), ("ii->i", [(3, 3)]), ("i,j,k->kij", [(2,), (3,), (2,)]),
    ("ij,ij->", [(2, 3), (2, 3)]), (",ij", [(), (2, 3)]), ("ij,jk", [(2, 1), (3, 2)]),
    ("ap,bq,cr,ds,pqrs->abcd", [(3, 3)] * 4 + [(3,) * 4]),
])
def test_the_forms_of_numpy(text, shapes):
    operands = [numpy.random.default_rng(k).integers(-9, 9, shape) for k, shape in enumerate(shapes)]
    found = einsum(text, *operands, out=numpy.ndarray)
    assert (found == numpy.einsum(text, *operands)).all()


def test_lists_of_labels():
    assert (einsum(A, [0, 1], A, [2, 1], [2, 0], out=numpy.ndarray) == numpy.einsum(A, [0, 1], A, [2, 1], [2, 0])).all()
    assert (einsum(A, [0, 51], A, [2, 51], out=numpy.ndarray) == A @ A.T).all()
    assert (einsum(A, numpy.array([0, 1]), A, (numpy.int64(2), 1), out=numpy.ndarray) == A @ A.T).all()
    assert (einsum(A, [..., 1], A, [2, 1], [2, ...], out=numpy.ndarray) == A @ A.T).all()


@pytest.mark.parametrize("words_of", [(A, "ij"), (A, [0, "j"]), (A, [0, -1]), (A, [0, 5000]), (A, 0), (A, [0, 1.0]), (A,), ("ij",),
                                      (A, [0, 1], A)])
def test_lists_that_are_refused(words_of):
    with pytest.raises(FormulaError):
        einsum(*words_of)


@pytest.mark.parametrize("text, names, chunks", [
    ("ij,ji", "TT", "auto"), ("ij,jk", "TT", "auto"), ("ii,ij->j", "TT", "auto"), ("ij,jk,kl", "STS", "auto"),
    ("ij,jk,kl", "TST", "auto"), ("ij,jk", "SS", {"i": 2, "j": 3}), ("ij,kj,ji", "TTT", {"k": 4}),
])
def test_an_array_that_stands_twice_in_other_tiles(text, names, chunks):
    square = numpy.arange(36).reshape(6, 6)
    given_arrays = {"S": square, "T": write_array("T.tca", square, (2, 3))}
    found = einsum(text, *(given_arrays[it] for it in names), chunks=chunks, out=numpy.ndarray)
    assert (found == numpy.einsum(text, *(square for _ in names))).all()


def test_a_path_of_opt_einsum():
    found = einsum("ij,kj,kl->il", A, A, A, optimize=[(1, 2), (0, 1)], out=numpy.ndarray)
    assert (found == A @ A.T @ A).all()
    found = einsum("ij,kj,kl->il", A, A, A, optimize=["einsum_path", (0, 1, 2)], out=numpy.ndarray)
    assert (found == A @ A.T @ A).all()
    found = einsum("ij,kj,kl->il", A, A, A, optimize=("greedy", 100), out=numpy.ndarray)
    assert (found == A @ A.T @ A).all()


def test_thirty_labels():
    operands = [numpy.random.default_rng(k).integers(0, 9, (2, 2)) for k in range(29)]
    words_of = [x for k, it in enumerate(operands) for x in (it, [k, k + 1])]
    due = operands[0]
    for it in operands[1:]:
        due = due @ it
    assert (einsum(*words_of, [0, 29], out=numpy.ndarray) == due).all()


def test_files_are_taken_as_they_are():
    tiled = write_array("A.tca", A, (2, 3))
    other = write_array("B.tca", A, (1, 2))
    found = einsum("ij,kj->ik", tiled, other)
    assert found.chunks[0] == 2 and (numpy.asarray(found) == A @ A.T).all()
    lazy = write_array("C.tca", numpy.ones((1, 4), "<i8"), (1, 2))
    assert (einsum("ij,ij", lazy, A, out=numpy.ndarray) == A.sum()).all()
    assert (einsum("ij,ij", tiled.to_dask(), A.T.copy().T, out=numpy.ndarray) == (A * A).sum()).all()


def test_operands_larger_than_the_memory(capsys):
    draw = numpy.random.default_rng(5)
    a, b = (draw.integers(-2**63, 2**63 - 1, (200, 200)) for _ in "ab")
    found = einsum("ij,jk", a, b, memory=100_000, explain=True)
    assert (numpy.asarray(found) == numpy.einsum("ij,jk", a, b)).all() and max(found.chunks) < 100
    said = capsys.readouterr().out
    assert "Complete contraction" in said and "budget" in said and "tiles read" in said and "turns" in said


@pytest.mark.parametrize("text, operands, error, says", [
    ("ij,jk", [A], FormulaError, "for 2 operands"), ("ij,jk", [A, A], FormulaError, "extent"), ("ij", [A[0]], FormulaError, "dimensions"),
    ("ij->iz", [A], FormulaError, "no operand"), ("ij->ii", [A], FormulaError, "twice"), ("i1", [A], FormulaError, "letters"),
    ("ij", [A * 0.5], ArrayError, "operand X0.*float64"), ("ij", [A.astype("<i2")], ArrayError, "8 bytes"),
    ("...i->i", [A], FormulaError, "ellipsis"), ("ij", [A[:, :0]], ArrayError, "no elements"), ("ii", [A], FormulaError, "extent"),
])
def test_what_is_refused(text, operands, error, says):
    with pytest.raises(error, match=says):
        einsum(text, *operands)
    assert os.listdir(".") == []


@pytest.mark.parametrize("operand, says", [
    (A > 2, "bool"), (A.astype("u4"), "uint32"), (numpy.zeros(A.shape, [("a", "<i8")]), "fields"), ("A.tca", "open_array"),
    (numpy.ma.masked_array(A, A > 2), "masked"), (None, "object"), (numpy.broadcast_to(numpy.int64(1), (2**33, 2)), "2.32"),
    (A.astype(complex), "real and the imaginary"), (2**64, "object"),
])
def test_operands_that_are_refused(operand, says):
    with pytest.raises(ArrayError, match=f"operand X0.*{says}"):
        einsum("ij->i", operand)
    assert os.listdir(".") == []


@pytest.mark.parametrize("words, error, says", [
    (dict(chunks=0), FormulaError, "at least 1"), (dict(chunks={"i": 1.5}), FormulaError, "at least 1"),
    (dict(chunks="large"), FormulaError, "auto"), (dict(chunks={"z": 2}), FormulaError, "no labels"),
    (dict(out=5), ArrayError, "out=5"), (dict(out=[1]), ArrayError, "give a path"),
    (dict(out=numpy.broadcast_to(numpy.int64(0), A.shape)), ArrayError, "cannot be written"),
    (dict(out=numpy.zeros(A.shape, ">i8")), ArrayError, "highest byte"), (dict(memory=-1), NotEnoughMemory, "give memory="),
])
def test_words_that_are_refused(words, error, says):
    with pytest.raises(error, match=says):
        einsum("ij->ij", A, **words)
    assert os.listdir(".") == []


@pytest.mark.parametrize("operand", [
    A.view(numpy.matrix), numpy.ma.masked_array(A), -A.astype("<i4"), A[::-1, ::2], numpy.asfortranarray(A), A.astype("<u8"),
    numpy.broadcast_to(A[0], (7, A.shape[1])), [[1, -2], [3, 4]],
])
def test_operands_of_other_kinds(operand):
    due = numpy.einsum("ij->ji", numpy.asarray(operand))
    found = einsum("ij->ji", operand, out=numpy.ndarray, chunks=numpy.int64(3))
    assert type(found) is numpy.ndarray and (found == due).all()


class Given:
    """What numpy makes an array of, which has no elements of its own."""

    shape, dtype = A.shape, A.dtype

    def __array__(self, dtype=None, copy=None):
        return A


def test_what_numpy_makes_an_array_of():
    assert (einsum("ij->ji", Given(), out=numpy.ndarray) == A.T).all()
    assert (einsum("ij->ji", memoryview(A), out=numpy.ndarray) == A.T).all() and einsum("i->", range(5), out=numpy.ndarray) == 10


def test_numbers_as_operands():
    assert einsum(",->", 3, numpy.array(-4), out=numpy.ndarray) == -12
    assert (einsum(",ij->ij", -2, A, out=numpy.ndarray) == -2 * A).all()


@pytest.mark.parametrize("path", [[(0, 3), (0, 1)], [(0, 0), (0, 1)], [(0, 1)], [(0, 1), (0, 1), (0, 1)], 5, [()], "quick"])
def test_paths_that_do_not_fit(path):
    with pytest.raises(FormulaError, match="path"):
        einsum("ij,kj,kl->il", A, A, A, optimize=path)


def test_a_memory_below_three_tiles():
    with pytest.raises(NotEnoughMemory, match="give memory="):
        einsum("ij,kj", A, A, memory=50)
    with pytest.raises(NotEnoughMemory):
        einsum("ij,kj", A, A, memory=200, chunks=4)


def test_twenty_five_labels_in_one_specification():
    labels = [chr(97 + k) for k in range(25)]
    text = ",".join(a + b for a, b in zip(labels, labels[1:]))
    spec = Specification.from_einsum(text, *[(2, 2)] * 24)
    with pytest.raises(SpecificationError, match="several"):
        spec.check()


def test_the_specification_is_that_of_the_program(own_folder):
    from cabunlit.program import run_program
    spec = Specification.from_einsum("ij,jk,kl->il", (2, 30), (30, 4), (4, 3), chunks=1)
    pairs = ";".join(",".join(map(str, it)) for it in Contraction.of("ij,jk,kl->il", [(2, 30), (30, 4), (4, 3)]).path)
    try:
        run_program(["einsum", "ij,jk,kl->il@i=2,j=30,k=4,l=3", pairs, "s.tce"], own_folder)
    except Exception:
        pytest.skip("this program has no einsum")
    due = Specification.parse((own_folder / "s.tce").read_text())
    assert due.formula.text() == spec.formula.text()
