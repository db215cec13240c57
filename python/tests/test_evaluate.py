"""Formulas on arrays: every strategy gives what numpy gives, modulo 2^64."""
import os
import signal
import subprocess
import tempfile
import threading
import time
from pathlib import Path

import numpy
import pytest
from hypothesis import assume, given, settings, strategies as some

from cabunlit import Specification, batch, cut, evaluate, open_array, spill, write_array
from cabunlit.errors import (ArrayError, DiskFault, FileChanged, FormulaError, NotEnoughDisk, NotEnoughMemory, ProgramKilled,
                             ProgramNotFound, SpecificationError, TceError)
from drawn import formulas, value


@settings(max_examples=40)
@given(formulas(), some.sampled_from(["auto", "whole", "named", "single"]))
def test_formulas_have_numpys_values(drawn, strategy):
    formula, arrays, extents, chunks = drawn
    assume(arrays and set("".join(it.tensor[2:] for it in [*_references(formula)])) >= _indexes(formula))
    found = evaluate(formula.text(), arrays, chunks={it: chunks[it] for it in _indexes(formula)}, strategy=strategy,
                     out=numpy.ndarray, memory=2**20)
    due = value(formula, arrays, extents)
    assert found.shape == due.shape and (found == due).all()


@pytest.mark.parametrize("text, chunks, due", [
    ("C[i,j] = A[i,j] - A[j,i]", "auto", lambda a: a - a.T), ("C[i,j] = sum{k}(A[i,k] * B[k,j])", {"i": 5}, lambda a: a @ a),
    ("C[i,j] = sum{k}(A[i,k] * sum{l}(B[k,l] * A[l,j]))", "auto", lambda a: a @ a @ a),
    ("C[i,j] = sum{k}(B[i,k] * B[k,j]) + A[j,i]", {"k": 3}, lambda a: a @ a + a.T),
    ("C[i,j] = sum{k,l}(A[i,k] * A[k,l] * A[l,j])", "auto", lambda a: a @ a @ a),
])
def test_a_tensor_that_stands_twice_with_other_indexes(text, chunks, due):
    operands = {"A": write_array("A.tca", A, (2, 3)), "B": A}
    operands = {name: it for name, it in operands.items() if f"{name}[" in text}
    assert (evaluate(text, operands, chunks=chunks, out=numpy.ndarray) == due(A)).all()
    assert (numpy.asarray(batch(text, operands, chunks=chunks)["C"]) == due(A)).all()


def test_edges_of_indexes_that_must_have_one():
    with pytest.raises(FormulaError, match="the edge 3 of k.*give both one edge"):
        evaluate("C[i,j] = sum{k}(A[i,k] * A[k,j])", A=A, chunks={"i": 2, "k": 3})
    assert evaluate("C[i,j] = sum{k}(A[i,k] * A[k,j])", A=A, chunks={"k": 3}).chunks == (3, 3)


def _references(formula):
    from cabunlit.language import references
    return references(formula.expression)


def _indexes(formula):
    return {i for it in _references(formula) for i in it.indexes}


EXAMPLES = Path(__file__).resolve().parent.parent.parent / "examples"
A = numpy.arange(-20, 80).reshape(10, 10)
PRODUCT = "C[i,j] = sum{k}(A[i,k] * B[k,j])"
CUT = f"range N 10 tile 4\nindex N i j k\ntensor A[N,N]\ntensor B[N,N]\ntensor C[N,N]\n{PRODUCT}"


def test_results_go_where_they_are_wanted():
    tiled = evaluate(PRODUCT, A=A, B=A)
    path = tiled.path
    assert (numpy.asarray(tiled) == A @ A).all() and tiled.report.startswith("tce run 1")
    assert os.path.exists(path)
    del tiled
    assert not os.path.exists(path)
    kept = evaluate(PRODUCT, A=A, B=A, out="C.tca")
    assert kept.path == os.path.abspath("C.tca") and (kept[2:4] == (A @ A)[2:4]).all()
    into = numpy.zeros((10, 10), "<i8")
    assert evaluate(PRODUCT, A=A, B=A, out=into) is into and (into == A @ A).all()
    assert (evaluate(PRODUCT, A=A, B=A, out=numpy.ndarray) == A @ A).all()
    assert os.listdir(".") == ["C.tca"]


def test_files_are_linked_and_keep_their_tiles():
    a = write_array("a.tca", A, (3, 5))
    found = evaluate(PRODUCT, A=a, B=A, out="C.tca")
    assert found.chunks[0] == 3 and (numpy.asarray(found) == A @ A).all()
    again = evaluate("D[i,j] = C[j,i] - A[i,j]", C=found, A=A.astype("<i4"), out=numpy.ndarray)
    assert (again == (A @ A).T - A).all()


def test_a_number_is_one():
    assert int(evaluate("E[] = sum{i,k}(A[i,k])", A=A)) == A.sum()
    with pytest.raises(TypeError, match="no number"):
        int(evaluate("C[i,k] = 2 * A[i,k]", A=A))


def test_unsigned_words_stay_unsigned():
    found = evaluate("C[i] = 18446744073709551615 * A[i]", A=numpy.array([1, 2], "<u8"), out=numpy.ndarray)
    assert found.dtype == numpy.dtype("<u8") and found.tolist() == [2**64 - 1, 2**64 - 2]


def test_a_specification_with_its_declarations(own_folder):
    text = "range N 10 tile 4\nindex N i j k # three\ntensor A[N,N]\ntensor C[N,N]\nC[i,j] = sum{k}(A[i,k] * A[k,j])\n"
    (own_folder / "s.tce").write_text(text)
    for it in (text, "s.tce", own_folder / "s.tce"):
        found = evaluate(it, A=A)
        assert found.chunks == (4, 4) and (numpy.asarray(found) == A @ A).all()


def test_a_specification_has_its_own_tiles():
    text = "range N 10 tile 4\nindex N i k\ntensor A[N,N]\ntensor C[N,N]\nC[i,k] = 2 * A[i,k]\n"
    with pytest.raises(FormulaError, match="its own tiles"):
        evaluate(text, A=A, chunks=2)


def test_explain_says_which_and_why(capsys):
    evaluate("R[i,j] = sum{k}(A[i,k] * A[k,j]) - A[j,i] * 3", A=A, explain=True, memory="1 MiB")
    said = capsys.readouterr().out
    assert "whole: 1 formula" in said and "single: " in said and "taken: " in said and "for " in said


def test_a_transformation_is_not_run_whole_where_that_reads_a_hundred_times(capsys):
    spec = Specification.parse((EXAMPLES / "transformation/staged.tce").read_text()).with_edges({"N": 4})
    spec.ranges["N"] = type(spec.ranges["N"])(12, 4)
    draw = numpy.random.default_rng(7)
    V, U = draw.integers(-50, 50, (12,) * 4), draw.integers(-50, 50, (12, 12))
    found = evaluate(spec, V=V, U=U, memory="20 KiB", explain=True)
    assert "taken: named" in capsys.readouterr().out
    assert (numpy.asarray(found) == numpy.einsum("ap,bq,cr,ds,pqrs->abcd", U, U, U, U, V, optimize=True)).all()
    with pytest.raises(NotEnoughDisk, match="disk has for them.*TMPDIR"):
        evaluate(spec, V=V, U=U, memory="20 KiB", strategy="named", disk=1000)


@pytest.mark.parametrize("arguments, error, says", [
    (dict(A=A), FormulaError, "B is missing"),
    (dict(A=A, B=A, D=A), FormulaError, "D is no operand"),
    (dict(A=A, B=A * 0.5), ArrayError, "operand B: elements are whole numbers, not float64"),
    (dict(A=A, B=A.astype(">i8")), ArrayError, "highest byte first"),
    (dict(A=A, B=A[:4]), ArrayError, "extent"),
    (dict(A=A, B=A[0]), ArrayError, "1 dimensions"),
    (dict(A=A, B=A, memory=100), NotEnoughMemory, "give memory="),
    (dict(A=A, B=A, memory="much"), NotEnoughMemory, "64 MiB"),
    (dict(A=A, B=A, strategy="quick"), FormulaError, "auto"), (dict(A=A, B=A, chunks=0), FormulaError, "at least 1"),
    (dict(A=A, B=A, chunks={"z": 1}), FormulaError, "no labels"), (dict(A=A[:0], B=A), ArrayError, "no elements"),
    (dict(A=A, B="B.tca"), ArrayError, "open_array"), (dict(A=A, B=numpy.ma.masked_array(A, A > 3)), ArrayError, "masked"),
    (dict(A=A, B=A, out=numpy.zeros((3, 3), "<i8")), ArrayError, "out has the shape"),
    (dict(A=A, B=A, out=numpy.zeros((10, 10))), ArrayError, "whole numbers"),
    (dict(A=A, B=A, out="nowhere/C.tca"), DiskFault, "nowhere"),
    (dict(A=A, B=A, program="nowhere/tce"), ProgramNotFound, "CABUNLIT_TCE"),
])
def test_what_is_refused(arguments, error, says):
    with pytest.raises(error, match=says):
        evaluate(PRODUCT, **arguments)
    assert os.listdir(".") == []


@pytest.mark.parametrize("text, error, says", [
    ("C[i] = A[i,k]]", FormulaError, "bad text"),
    ("C[i,k] = 2A[i,k]", FormulaError, "bad text"),
    ("C[i,k] = A[i,k]", SpecificationError, "no operation"),
    ("C[i,i] = 1 * A[i,i]", TceError, "error 2"),
    ("C[j] = sum{i,k}(A[i,k])", FormulaError, "stands in no operand"),
    ("range N 10\nindex N i k\ntensor A[N,N]\ntensor C[N,N]\nC[i,k] = 1 * Q[i,k]", TceError, "error 2: line 5"),
    ("A[i,k] = 1 * A[i,k]", TceError, "result and operand|is no operand"),
])
def test_formulas_that_are_refused(text, error, says):
    with pytest.raises((error, FormulaError), match=says):
        evaluate(text, A=A)


def test_the_line_and_the_place_of_a_fault():
    text = "range N 10\nindex N i k\ntensor A[N,N]\ntensor C[N,N]\nC[i,k] = A[i,k] * Q[i,k]"
    with pytest.raises(SpecificationError) as caught:
        evaluate(text, A=A)
    assert caught.value.status == 2 and caught.value.number == 5


def test_thirty_three_operations():
    text = "C[i] = " + " + ".join(["A[i]"] * 34)
    vector = numpy.arange(5)
    assert (evaluate(text, A=vector, out=numpy.ndarray) == 34 * vector).all()
    with pytest.raises(SpecificationError, match="strategy=\"auto\""):
        evaluate(text, A=vector, strategy="whole")


def test_a_file_that_another_process_changes():
    tiled = write_array("A.tca", A, 5)
    write_array("A.tca", A + 1, 5)
    with pytest.raises(FileChanged, match="open it again"):
        evaluate(PRODUCT, A=tiled, B=A)


def shim(own_folder, does):
    """A program that does something before a run."""
    place = own_folder.parent / "shim"
    place.mkdir(exist_ok=True)
    program = place / "tce"
    program.write_text(f"#!/bin/sh\ncase $1 in run) if [ \"$3\" != 0 ]; then {does}; fi;; esac\nexec \"$CABUNLIT_TCE\" \"$@\"\n")
    program.chmod(0o755)
    return program


@pytest.mark.parametrize("words, error", [
    (dict(memory=100), NotEnoughMemory), (dict(program="nowhere/tce"), ProgramNotFound), (dict(strategy="quick"), FormulaError),
    (dict(does="kill -9 $$"), ProgramKilled), (dict(does="ulimit -f 0"), ProgramKilled), (dict(does="rm A.tca"), TceError),
    (dict(does="trap '' XFSZ; ulimit -f 0"), DiskFault), (dict(does="echo x >> $HOME/B.tca"), FileChanged),
    (dict(does="exit 3"), TceError), (dict(D=A), FormulaError), (dict(disk=-1, strategy="named"), NotEnoughDisk),
])
def test_what_goes_wrong_changes_no_file(words, error, own_folder, monkeypatch):
    monkeypatch.setenv("HOME", str(own_folder))
    files = {name: write_array(name, A + number, 4) for number, name in enumerate(["A.tca", "B.tca", "C.tca"])}
    changed = {"B.tca"} if error is FileChanged else set()
    before = {name: Path(name).read_bytes() for name in os.listdir(".") if name not in changed}
    if "does" in words:
        words = {"program": shim(own_folder, words["does"])}
    formula = "C[i,j] = sum{k}(A[i,k] * sum{l}(B[k,l] * A[l,j]))"
    with pytest.raises(error):
        evaluate(formula, {"A": files["A.tca"], "B": files["B.tca"]}, out="C.tca", **words)
    assert {name: Path(name).read_bytes() for name in os.listdir(".") if name not in changed} == before


def test_a_program_that_is_killed(own_folder):
    killed = own_folder / "tce"
    killed.write_text("#!/bin/sh\ncase $1 in run) if [ \"$3\" != 0 ]; then kill -9 $$; fi;; esac\nexec \"$CABUNLIT_TCE\" \"$@\"\n")
    killed.chmod(0o755)
    with pytest.raises(ProgramKilled, match="SIGKILL") as caught:
        evaluate(PRODUCT, A=A, B=A, program=killed, out="C.tca")
    assert caught.value.signal == 9 and os.listdir(".") == ["tce"]


@pytest.mark.parametrize("while_it_starts", [False, True])
def test_an_interrupt_ends_the_program(while_it_starts, own_folder, monkeypatch):
    slow = own_folder / "tce"
    slow.write_text("#!/bin/sh\ncase $1 in run) if [ \"$3\" != 0 ]; then echo $$ > ../pid; exec sleep 600; fi;; esac\n"
                    "exec \"$CABUNLIT_TCE\" \"$@\"\n")
    slow.chmod(0o755)

    def interrupt():
        while not (own_folder / "pid").exists() or not (own_folder / "pid").read_text():
            time.sleep(0.05)
        signal.pthread_kill(threading.main_thread().ident, signal.SIGINT)

    thread = threading.Thread(target=interrupt)
    thread.start()
    if while_it_starts:
        popen = subprocess.Popen

        def waits(command, **words):
            process = popen(command, **words)
            if command[1] == "run" and command[3] != "0":
                thread.join()
                time.sleep(0.2)
            return process

        monkeypatch.setattr("cabunlit.program.subprocess.Popen", waits)
    with pytest.raises(KeyboardInterrupt):
        evaluate(PRODUCT, A=A, B=A, program=slow, out="C.tca")
    thread.join()
    number = int((own_folder / "pid").read_text())
    assert not os.path.exists(f"/proc/{number}") and sorted(os.listdir(".")) == ["pid", "tce"]


@pytest.mark.parametrize("call", [
    lambda lazy: evaluate(PRODUCT, A=lazy, B=A, out="C.tca"), lambda lazy: write_array("C.tca", lazy, 4),
    lambda lazy: batch(PRODUCT, A=A, B=lazy, folder="."), lambda lazy: cut(CUT, "i", 2, {"A": A, "B": lazy}, folder="pieces"),
    lambda lazy: spill(PRODUCT, A=lazy, B=A, limit=100, out="C.tca"),
])
@pytest.mark.parametrize("chunk", [0, 3])
def test_an_interrupt_while_a_dask_operand_is_computed(call, chunk, own_folder):
    dask_array = pytest.importorskip("dask.array")
    come = []

    def computed(block):
        come.append(block.shape)
        if len(come) == chunk + 1:
            signal.pthread_kill(threading.main_thread().ident, signal.SIGINT)
            time.sleep(0.5)  # (the interrupt comes while the block is computed)
        return block

    lazy = dask_array.from_array(A, chunks=5).map_blocks(computed, meta=numpy.empty((0, 0), "<i8"))
    with pytest.raises(KeyboardInterrupt):
        call(lazy)
    assert os.listdir(".") == [] and os.listdir(tempfile.gettempdir()) == []


def test_spill_is_the_whole(capsys):
    found = spill("C[i,j] = sum{k}(A[i,k]) * sum{l}(B[j,l])", A=A, B=A + 1, limit=2, progress=True, explain=True, chunks=5)
    assert (numpy.asarray(found) == numpy.outer(A.sum(1), (A + 1).sum(1))).all()
    said = capsys.readouterr()
    assert "piece" in said.out and "pieces: 1" in said.err


def test_how_much_of_a_spill_is_done():
    from cabunlit.evaluate import _share
    spec = Specification({"N": 4, "M": 2}, {"N": "i j k", "M": "l"}, {"A": "N N", "B": "N M", "C": "N N"},
                         "C[i,j] = sum{k}(A[i,k] * A[k,j]) * sum{l}(B[j,l])")
    # (64 iterations each of nodes 0 and 1, 8 of node 2 and 16 of node 3)
    assert _share(spec, {"spill-1"}) == 128 / 152 and _share(spec, {"spill-2"}) == 8 / 152
    assert _share(spec, {"spill-1", "spill-2"}) == 136 / 152 and _share(spec, {"spill-1", "C"}) == 1


def test_two_results_of_a_run_are_apart():
    one, two = evaluate("C[i,j] = 2 * A[i,j]", A=A), evaluate("C[i,j] = 3 * A[i,j]", A=A)
    assert (numpy.asarray(one) == 2 * A).all() and (numpy.asarray(two) == 3 * A).all() and one.path != two.path
    assert open_array(one.path).shape == (10, 10)


def test_a_result_that_is_larger_than_the_disk():
    with pytest.raises(NotEnoughDisk, match="V, C take .* bytes"):
        evaluate("C[i,j,k] = V[i] * V[j] * V[k]", V=numpy.broadcast_to(numpy.int64(1), 50_000))
    assert os.listdir(".") == []


def test_what_is_no_formula():
    with pytest.raises(FormulaError, match="a text"):
        evaluate(5, A=A)


def test_a_disk_without_room_for_the_result(own_folder):
    narrow = own_folder / "tce"
    narrow.write_text("#!/bin/sh\ntrap '' XFSZ\nulimit -f 100\nexec \"$CABUNLIT_TCE\" \"$@\"\n")
    narrow.chmod(0o755)
    with pytest.raises(DiskFault, match=f"error 8: disk fault\nin {own_folder}/.cabunlit-.*, where [0-9]+ bytes are free\n.*see to that"):
        evaluate("C[i,j] = V[i] * V[j]", V=numpy.arange(200), out="C.tca", program=narrow)
    assert os.listdir(".") == ["tce"]


@pytest.mark.parametrize("text", ["C[i,k] = 2 * A_name_of_18_bytes[i,k]", "sum[i,k] = 2 * A[i,k]", "C[i,k] = 2 * A[i,ké]",
                                  "C[i,k] = 2 * 1A[i,k]", "C[i,k] = 2.5 * A[i,k]", "C[i,k] = 2 * A", "", "C[i,k]"])
def test_names_that_the_language_does_not_know(text):
    with pytest.raises(FormulaError):
        evaluate(text, A=A)
    with pytest.raises(FormulaError):
        evaluate(text, {"A_name_of_18_bytes": A, "A": A})
