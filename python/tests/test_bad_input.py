"""What cannot be done is refused with one exception that says what and what to do, before anything of the user's is touched."""
import gc
import os
import shutil
import signal
import tempfile
from pathlib import Path

import numpy
import pytest

from cabunlit import (Specification, advise, batch, create_array, cut, einsum, evaluate, join, open_array, plan, run_pieces, spill,
                      write_array)
from cabunlit.errors import (ArrayError, CabunlitError, DiskFault, FormulaError, NotEnoughMemory, PiecesFailed, ProgramNotFound,
                             SpecificationError)
from cabunlit.fixed_point import scale_for
from cabunlit.memory import bytes_of

A = numpy.arange(100).reshape(10, 10)
PRODUCT = "C[i,j] = sum{k}(A[i,k] * B[k,j])"
TEXT = "range N 10 tile 4\nindex N i j k\ntensor A[N,N]\ntensor B[N,N]\ntensor C[N,N]\n" + PRODUCT


@pytest.mark.parametrize("path", [
    [("a", "b"), (0, 1)], [(0.5, 1), (0, 1)], [0, 1], [None], ("quick", 100), ("greedy", 100, (0, 1)), {0: 1},
])
def test_paths_that_are_none(path):
    with pytest.raises(FormulaError, match="path"):
        einsum("ij,kj,kl->il", A, A, A, optimize=path)


@pytest.mark.parametrize("memory", ["1.2.3 MiB", "MiB", "", "1 XB", "-1", "٣", float("nan"), float("inf"), [1], b"1", 1j])
def test_memories_that_are_none(memory):
    with pytest.raises(NotEnoughMemory, match="memory=.*no number of bytes: write"):
        evaluate(PRODUCT, A=A, B=A, memory=memory)
    with pytest.raises(NotEnoughMemory, match="disk=.*no number of bytes"):
        evaluate(PRODUCT, A=A, B=A, disk=memory)
    assert bytes_of("1.5 KiB") == 1536 and bytes_of("2 kB") == 2000 and bytes_of(numpy.int64(7)) == 7


@pytest.mark.parametrize("limit", ["x", -1, 1.5, None])
def test_limits_that_are_none(limit):
    with pytest.raises(FormulaError, match="limit="):
        spill(PRODUCT, A=A, B=A, limit=limit)


CALLS = [lambda it: evaluate(it, A=A), lambda it: batch(it, A=A), lambda it: spill(it, A=A, limit=1), plan,
         lambda it: advise(it, "1 MiB"), lambda it: cut(it, "i", 2, {"A": A}, folder="p")]
UNDECLARED = [
    ({"N": (10, 4)}, {"N": "i k"}, {"A": "N N"}, "unknown name C"),
    ({"N": (10, 4)}, {"M": "i k"}, {"A": "N N", "C": "N N"}, "unknown name M"),
    ({"N": (10, 4)}, {"N": "i"}, {"A": "N N", "C": "N N"}, "unknown name k"),
    ({"N": (10, 4)}, {"N": "i k"}, {"A": "N N", "C": "N M"}, "unknown name M"),
    ({"N": (10, 4)}, {"N": "i k"}, {"A": "N N", "C": "N N", "Ä": "N"}, "bad text"),
    ({"N\nrange M": (10, 4)}, {"N": "i k"}, {"A": "N N", "C": "N N"}, "bad text"),
    ({"N": (10, 0)}, {"N": "i k"}, {"A": "N N", "C": "N N"}, "bad number"),
]


@pytest.mark.parametrize("call", CALLS)
@pytest.mark.parametrize("ranges, indexes, tensors, says", UNDECLARED)
def test_the_program_refuses_what_calls_built(call, ranges, indexes, tensors, says):
    with pytest.raises(SpecificationError, match=says) as caught:
        call(Specification(ranges, indexes, tensors, "C[i,k] = 2 * A[i,k]"))
    assert caught.value.status == 2 and caught.value.number > 0 and caught.value.place
    assert os.listdir(".") == []


def test_bounds_of_names_that_are_not_declared():
    with pytest.raises(FormulaError, match="M is not declared"):
        scale_for(Specification({"N": 4}, {"M": "i"}, {"A": "N"}, "C[] = sum{i}(A[i])"), {"A": 1.0})


def test_a_specification_that_is_no_text():
    Path("s.tce").write_bytes(b"\xff\xfe range N 1\n")
    with pytest.raises(SpecificationError, match="line 1: bad text"):
        plan("s.tce")


@pytest.mark.parametrize("text, says", [
    ("C[i,k] = 2 * A_name_of_18_bytes[i,k]", "at most 16 letters"), ("sum[i,k] = 2 * A[i,k]", "sum is reserved"),
    ("C[i,k] = 2 * A[i,ké]", "a to z and A to Z"), ("C[i,k] = A[i,k] * 2.5", "no point"), ("C[_i,k] = 2 * A[_i,k]", "a letter first"),
    ("C[i,k] = 2 * A[i,k] * 007", "without zeros in front"), ("C[i,k] = A[i,k] 2", "write \\* between"),
    ("C[i,k] = A[i,k", "write formulas as"),
])
def test_a_formula_that_is_refused_says_what_to_do(text, says):
    with pytest.raises(FormulaError, match=says):
        evaluate(text, A=A)


def test_a_batch_works_in_the_folder_of_its_results(own_folder):
    program = own_folder / "tce"
    program.write_text(f"#!/bin/sh\n[ $2 = 0 ] || pwd >> {own_folder}/where\nexec \"$CABUNLIT_TCE\" \"$@\"\n")
    program.chmod(0o755)
    os.mkdir("results")
    batch("C[i,k] = 2 * A[i,k]", A=A, folder="results", program=program)
    last = Path((own_folder / "where").read_text().split()[-1])
    assert last.parent == own_folder / "results" and os.listdir("results") == ["C.tca"]


def test_a_folder_of_results_that_is_not_there(own_folder):
    write_array("A.tca", A, 5)
    Path("file").write_text("three years")
    for folder in ("nowhere", "file"):
        with pytest.raises(DiskFault, match=folder):
            batch("C[i,k] = 2 * A[i,k]", A=A, folder=folder)
        with pytest.raises(DiskFault, match=folder):
            cut(TEXT, "i", 2, {"A": A, "B": A}, folder=f"{folder}/p")
    assert sorted(os.listdir(".")) == ["A.tca", "file"]


@pytest.mark.parametrize("error, due", [(OSError(28, "No space left on device"), DiskFault), (KeyboardInterrupt(), KeyboardInterrupt)])
def test_a_cut_that_cannot_be_finished_leaves_nothing(error, due, monkeypatch):
    from cabunlit import pieces
    written, write_source = [], pieces.write_source

    def write(*words):
        written.append(words[0])
        if len(written) == 3:
            raise error
        return write_source(*words)

    monkeypatch.setattr(pieces, "write_source", write)
    with pytest.raises(due):
        cut(TEXT, "i", 2, {"A": A, "B": A}, folder="p")
    assert len(written) == 3 and os.listdir(".") == []
    assert cut(TEXT, "i", 2, {"A": A, "B": A}, folder="p").missing() == [0, 1]


def test_operands_of_a_cut_that_are_missing():
    with pytest.raises(FormulaError, match="B is missing: give it, or make B.tca here"):
        cut(TEXT, "i", 2, {"A": A}, folder="p")
    assert os.listdir(".") == []


def test_a_folder_of_pieces_from_which_one_is_gone():
    made = cut(TEXT, "i", 2, {"A": A, "B": A}, folder="p")
    shutil.rmtree("p/piece-1")
    with pytest.raises(PiecesFailed, match="piece-1") as caught:
        run_pieces(made)
    assert caught.value.failed == (1,) and isinstance(caught.value.__cause__, DiskFault)


@pytest.mark.parametrize("call", [lambda: plan(TEXT), lambda: einsum("ij,jk", A, A), lambda: evaluate(PRODUCT, A=A, B=A),
                                  lambda: batch(PRODUCT, A=A, B=A), lambda: Specification.parse(TEXT).check()])
def test_a_folder_of_temporary_files_that_is_not_there(call, own_folder, monkeypatch):
    monkeypatch.setattr(tempfile, "tempdir", str(own_folder / "nowhere"))
    with pytest.raises(DiskFault, match="nowhere.*\n.*see to that"):
        call()


def test_every_refusal_is_one_of_the_packages():
    for it in (FormulaError, NotEnoughMemory, SpecificationError, DiskFault, PiecesFailed):
        assert issubclass(it, CabunlitError)


@pytest.mark.parametrize("of", [4.5, "4", (4, 2.0), None])
def test_ranges_of_other_numbers(of):
    with pytest.raises(FormulaError, match="whole numbers"):
        Specification({"N": of})
    assert Specification({"N": (numpy.int64(4), numpy.int32(2))}).text() == "range N 4 tile 2\n"


def test_counts_that_are_none():
    with pytest.raises(FormulaError, match="no elements"):
        Specification.from_einsum("ij", (2, -3))
    for pieces in ("x", 1.5, None, -1):
        with pytest.raises(FormulaError, match="1 to 2 pieces"):
            cut(TEXT, "i", pieces, {"A": A, "B": A}, folder="p")
    with pytest.raises(FormulaError, match="there is none"):
        evaluate("", A=A)
    assert os.listdir(".") == []


@pytest.mark.parametrize("call", [
    lambda: evaluate(PRODUCT, A=A, B=A), lambda: batch(PRODUCT, A=A, B=A, folder="."), lambda: plan(TEXT),
    lambda: run_pieces(cut(TEXT, "i", 2, {"A": A, "B": A}, folder="p")), lambda: write_array("A.tca", A, 4),
])
@pytest.mark.parametrize("of, name", [(tempfile, "mkdtemp"), (tempfile, "mkstemp"), (shutil, "rmtree"), (os, "unlink")])
def test_an_interrupt_while_a_temporary_file_or_folder_comes_or_goes(call, of, name, own_folder, monkeypatch):
    does, came = getattr(of, name), []

    def interrupted(*words, **more):
        if name != "mkdtemp" and name != "mkstemp":
            signal.raise_signal(signal.SIGINT)
        made = does(*words, **more)
        signal.raise_signal(signal.SIGINT)
        came.append(name)
        return made

    with monkeypatch.context() as patch:
        patch.setattr(of, name, interrupted)
        try:
            call()
        except KeyboardInterrupt:
            came.append("told")
    gc.collect()
    assert came in ([], [name, "told"])
    assert os.listdir(tempfile.tempdir) == [] and not [it for it in own_folder.rglob("*") if it.name[0] == "." or "attempt" in it.name]


def test_what_is_no_file_is_left_as_it_is(own_folder):
    os.mkdir("folder")
    os.mkfifo("pipe")
    for name in ("folder", "pipe"):
        with pytest.raises(ArrayError, match=f"{name} is no file: give the path of an array file"):
            open_array(name)
        for call in (lambda: write_array(name, A, 4), lambda: create_array(name, (3, 3), 2), lambda: einsum("ij->ji", A, out=name),
                     lambda: evaluate(PRODUCT, A=A, B=A, out=name), lambda: spill(PRODUCT, A=A, B=A, limit=1, out=name)):
            with pytest.raises(ArrayError, match=f"{name} is there and is no file: give another path"):
                call()
    os.mkdir("C.tca")
    with pytest.raises(ArrayError, match="C.tca is there and is no file"):
        batch(PRODUCT, A=A, B=A, folder=".")
    made = cut(TEXT, "k", 2, {"A": A, "B": A}, folder="p")
    run_pieces(made)
    for name in ("folder", "pipe"):
        with pytest.raises(ArrayError, match="is there and is no file"):
            join(made, name)
    assert sorted(os.listdir(".")) == ["C.tca", "folder", "p", "pipe"] and os.listdir("folder") == os.listdir("C.tca") == []
    assert Path("pipe").is_fifo()


def test_a_file_that_may_not_be_written_is_left_as_it_is(monkeypatch):
    write_array("C.tca", A + 1, 4)
    before = Path("C.tca").read_bytes()
    access = os.access
    # (who is root may write every file)
    monkeypatch.setattr(os, "access", lambda path, mode, **more: "C.tca" not in os.fspath(path) and access(path, mode, **more))
    for call in (lambda: write_array("C.tca", A, 4), lambda: create_array("C.tca", (3, 3), 2), lambda: einsum("ij->ji", A, out="C.tca"),
                 lambda: evaluate(PRODUCT, A=A, B=A, out="C.tca"), lambda: batch(f"D[i,j] = 2 * A[i,j]\n{PRODUCT}", A=A, B=A, folder=".")):
        with pytest.raises(DiskFault, match="C.tca: Permission denied"):
            call()
    assert Path("C.tca").read_bytes() == before and os.listdir(".") == ["C.tca"]


@pytest.mark.parametrize("text, error, says", [
    ("no script", ProgramNotFound, "tce cannot be run: Exec format error: give the path"),
    ("#!/nowhere/sh\n", ProgramNotFound, "tce cannot be run: No such file"),
    ("#!/bin/sh\n", CabunlitError, "no report of tce.*CABUNLIT_TCE"),
])
def test_programs_that_are_another_one(text, error, says, own_folder):
    program = own_folder / "tce"
    program.write_text(text)
    program.chmod(0o755)
    with pytest.raises(error, match=says):
        evaluate(PRODUCT, A=A, B=A, out="C.tca", program=program)
    assert os.listdir(".") == ["tce"]
