"""Several formulas in order: what is kept, what is done again, and what is told."""
import errno
import os

import numpy
import pytest

from cabunlit import batch, open_array, write_array
from cabunlit.errors import FormulaError, TceError

A = numpy.random.default_rng(4).integers(-2**62, 2**62, (12, 12))
STEPS = "B[i,j] = sum{k}(A[i,k] * A[k,j])\nD[i,j] = B[j,i] - A[i,j]\nE[] = sum{i,j}(D[i,j] * B[i,j])"


def test_batch_gives_every_result(capsys):
    found = batch(STEPS, A=A, progress=True)
    b = A @ A
    d = b.T - A
    assert (numpy.asarray(found["B"]) == b).all() and (numpy.asarray(found["D"]) == d).all()
    assert int(found["E"][()]) == int((d * b).sum())
    said = capsys.readouterr().err
    assert said.count("formulas: ") == 3 and "3 of 3, E" in said and "s left" in said


def test_batch_goes_on_where_it_was(capsys, own_folder):
    a = write_array("A.tca", A, 5)
    first = batch(STEPS, folder=".")
    times = {it: os.stat(f"{it}.tca").st_mtime_ns for it in "BDE"}
    again = batch(STEPS, {"A": a}, folder=".", resume=True, progress=True)
    assert {it: os.stat(f"{it}.tca").st_mtime_ns for it in "BDE"} == times
    assert capsys.readouterr().err.count("(kept)") == 3
    assert int(again["E"][()]) == int(first["E"][()])
    os.truncate("D.tca", 20)
    batch(STEPS, folder=".", resume=True)
    assert os.stat("B.tca").st_mtime_ns == times["B"] and os.stat("E.tca").st_mtime_ns > times["E"]
    write_array("A.tca", A + 1, 5)
    changed = batch(STEPS, folder=".", resume=True)
    assert (numpy.asarray(changed["B"]) == (A + 1) @ (A + 1)).all()
    assert sorted(os.listdir(".")) == ["A.tca", "B.tca", "D.tca", "E.tca"]


def test_batch_is_refused_before_anything_is_run():
    write_array("A.tca", A, 5)
    with pytest.raises(TceError):
        batch("B[i,j] = A[i,j] * 2\nD[i,i] = B[i,i] * 1", folder=".")
    with pytest.raises(FormulaError, match="Q is missing"):
        batch("B[i,j] = A[i,j] * 2\nD[i,j] = B[i,j] * Q[i,j]", folder=".")
    assert os.listdir(".") == ["A.tca"]


@pytest.mark.parametrize("folder", [None, "results"])
def test_a_tensor_that_is_the_result_of_two_formulas(folder):
    if folder:
        os.mkdir(folder)
    a = write_array("A.tca", A, 5)
    found = batch("B[i,j] = 2 * A[i,j]\nC[i,j] = B[i,j] + 1\nB[i,j] = C[i,j] * A[j,i]\nA[i,j] = B[i,j] - 1", {"A": a}, folder=folder)
    due = (2 * A + 1) * A.T
    assert (numpy.asarray(found["B"]) == due).all() and (numpy.asarray(found["C"]) == 2 * A + 1).all()
    assert (numpy.asarray(found["A"]) == due - 1).all() and (numpy.asarray(a) == A).all()


@pytest.mark.parametrize("change, again", [
    (("B[j,i]", "B[i,j]"), "DE"), (("A[i,k] * A[k,j]", "A[k,i] * A[k,j]"), "BDE"), (("sum{i,j}(D[i,j] * B[i,j])", "sum{i}(D[i,i])"), "E"),
    (("E[]", "F[]"), "F"), (("- A[i,j]", "- A[i, j]"), ""),
])
@pytest.mark.parametrize("keeps_attributes", [True, False])
def test_a_formula_that_is_another_one_is_done_again(change, again, keeps_attributes, own_folder, monkeypatch, capsys):
    if not keeps_attributes:
        def refuse(*_):
            raise OSError(errno.ENOTSUP, "not supported")

        monkeypatch.setattr(os, "setxattr", refuse)
    write_array("A.tca", A, 5)
    batch(STEPS, folder=".")
    batch(STEPS.replace(*change), folder=".", resume=True, progress=True)
    lines = capsys.readouterr().err.splitlines()
    # (a file that does not tell its origin is kept, as before there were files that do)
    due = again if keeps_attributes else "".join(it for it in again if it == "F")
    assert [it.split(", ")[1] for it in lines if "(kept)" not in it] == list(due)
    assert all(open_array(f"{it}.tca").shape == ((12, 12) if it in "BD" else ()) for it in "BDE")


def test_an_operand_that_is_another_file_is_noticed(capsys):
    for name, array in (("older", A + 1), ("A", A)):
        write_array(f"{name}.tca", array, 5)
        os.utime(f"{name}.tca", ns=(10**18, 10**18))  # (as two files that are written at once)
    older, a = open_array("older.tca"), open_array("A.tca")
    assert batch(STEPS, A=a, folder=".")["E"] is not None
    found = batch(STEPS, A=older, folder=".", resume=True, progress=True)
    assert "(kept)" not in capsys.readouterr().err
    assert (numpy.asarray(found["B"]) == (A + 1) @ (A + 1)).all()
    write_array("B.tca", A, 5)
    found = batch(STEPS, A=older, folder=".", resume=True, progress=True)
    assert capsys.readouterr().err.count("(kept)") == 1
    assert (numpy.asarray(found["D"]) == A.T - (A + 1)).all()


def test_explain_says_what_each_formula_costs(capsys):
    batch(STEPS, A=A, memory="1 MiB", explain=True)
    said = capsys.readouterr().out
    assert said.count(" turns, edges ") == 3 and "for i, j, k:\n" in said
    assert all(f": {it} turns" in said for it in (3456, 144, 288)) and "kept" not in said
    write_array("A.tca", A, 5)
    batch(STEPS, folder=".")
    batch(STEPS.replace("B[j,i]", "B[i,j]"), folder=".", resume=True, explain=True)
    assert capsys.readouterr().out.splitlines()[0] == "B[i,j] = sum{k}(A[i,k] * A[k,j]): kept"
