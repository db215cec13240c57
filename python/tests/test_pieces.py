"""Formulas cut over processes: any index of the result, sums, executors whose workers are lost, and interruptions."""
import os
import signal
import subprocess
import sys
import threading
import time
from concurrent.futures import ProcessPoolExecutor, ThreadPoolExecutor
from pathlib import Path

import numpy
import pytest
from hypothesis import assume, given, settings, strategies as some

import cabunlit
from cabunlit import Specification, cut, join, open_array, run_pieces, write_array
from cabunlit.cutting import CutFormula
from cabunlit.errors import ArrayError, FileChanged, FormulaError, PiecesFailed, TceError
from cabunlit.pieces import Cut, run_piece
from drawn import formulas, value

PACKAGE = str(Path(cabunlit.__file__).parent.parent)
SPEC = Specification({"N": (12, 3), "K": (8, 2)}, {"N": "i j", "K": "k l"}, {"A": "N K", "B": "K N", "C": "N N", "E": ""},
                     "C[i,j] = sum{k}(A[i,k] * B[k,j])")
A = numpy.arange(96).reshape(12, 8) ** 3
B = numpy.arange(96).reshape(8, 12) - 40


@pytest.mark.parametrize("index, pieces", [("i", 4), ("j", 3), ("k", 2), ("k", 4), ("i", 1)])
def test_pieces_are_the_whole(index, pieces):
    made = cut(SPEC, index, pieces, {"A": A, "B": B}, folder="p")
    run_pieces(made, memory="1 MiB")
    found = join(made, "C.tca")
    assert (numpy.asarray(found) == A @ B).all() and found.chunks == (3, 3)
    assert sorted(os.listdir(".")) == ["C.tca", "p"]
    assert not [it for it in Path("p").rglob("attempt-*")]


@settings(max_examples=25)
@given(formulas(), some.integers(1, 3), some.data())
def test_drawn_formulas_in_pieces(drawn, pieces, data):
    formula, arrays, extents, chunks = drawn
    from cabunlit.language import Sum, references
    used = {i for it in references(formula.expression) for i in it.indexes}
    summed = formula.expression.indexes if isinstance(formula.expression, Sum) else ()
    choices = [it for it in sorted({*formula.result.indexes, *summed}) if extents[it] // chunks[it] >= pieces]
    assume(choices and arrays)
    index = data.draw(some.sampled_from(choices))
    spec = Specification({f"N{it}": (extents[it], chunks[it]) for it in used}, {f"N{it}": it for it in used},
                         {name: [f"N{i}" for i in name[2:]] for name in arrays} | {"R": [f"N{i}" for i in formula.result.indexes]},
                         formula)
    folder = f"p{len(os.listdir('.'))}"
    made = cut(spec, index, pieces, arrays, folder=folder)
    run_pieces(made)
    found = numpy.asarray(join(made))
    assert (found == value(formula, arrays, extents)).all()


def test_an_index_in_any_position_and_in_other_sums():
    spec = Specification({"N": (4, 2)}, {"N": "i j"}, {"A": "N N", "R": "N"}, "R[i] = A[i,i] * A[i,i] + sum{j}(A[j,i]) * sum{i}(A[i,i])")
    a = numpy.arange(16).reshape(4, 4)
    made = cut(spec, "i", 2, {"A": a}, folder="p")
    run_pieces(made)
    assert (numpy.asarray(join(made)) == numpy.diag(a)**2 + a.sum(0) * numpy.trace(a)).all()
    assert {it.positions for it in CutFormula.of(spec, "i").slices} == {(0, 1), (1,), ()}


@pytest.mark.parametrize("index, pieces, says", [("i", 5, "1 to 4 pieces"), ("i", 0, "1 to 4"), ("q", 2, "neither"), ("l", 2, "neither")])
def test_cuts_that_are_refused(index, pieces, says):
    with pytest.raises(FormulaError, match=says):
        cut(SPEC, index, pieces, {"A": A, "B": B}, folder="p")
    assert os.listdir(".") == []


def test_sums_of_which_the_outermost_is_none():
    spec = Specification(SPEC.ranges, SPEC_INDEXES, {"A": "N K", "V": "N"}, "V[i] = sum{k}(A[i,k]) + 1")
    with pytest.raises(FormulaError, match="outermost"):
        cut(spec, "k", 2, {"A": A}, folder="p")


SPEC_INDEXES = {"N": "i j", "K": "k l"}


def test_a_folder_that_is_there_is_left_as_it_is():
    os.mkdir("piece-0")
    Path("piece-0/thesis.txt").write_text("three years")
    for folder in ("piece-0", "."):
        with pytest.raises(FileExistsError, match="another folder"):
            cut(SPEC, "i", 2, {"A": A, "B": B}, folder=folder)
    assert Path("piece-0/thesis.txt").read_text() == "three years"
    first = cut(SPEC, "i", 2, {"A": A, "B": B}, folder="p")
    assert cut(SPEC, "i", 2, {"A": A, "B": B}, folder="p") == first
    for arrays, index, pieces in [({"A": A + 1, "B": B}, "i", 2), ({"A": A, "B": B}, "j", 2), ({"A": A, "B": B}, "i", 3)]:
        with pytest.raises(FileExistsError):
            cut(SPEC, index, pieces, arrays, folder="p")
    with pytest.raises(ArrayError):
        Cut.load("piece-0")


def test_finished_pieces_are_not_done_again(capsys):
    write_array("A.tca", A, (3, 2))
    write_array("B.tca", B, (2, 3))
    made = cut(SPEC, "j", 4, folder="p")
    run_piece("p", 1)
    run_piece("p", 3)
    assert made.missing() == [0, 2]
    with pytest.raises(PiecesFailed) as caught:
        join("p")
    assert caught.value.failed == (0, 2)
    times = {k: os.stat(f"p/piece-{k}/C.tca").st_mtime_ns for k in (1, 3)}
    run_pieces("p", progress=True)
    assert capsys.readouterr().err.count("(kept)") == 2
    assert times == {k: os.stat(f"p/piece-{k}/C.tca").st_mtime_ns for k in (1, 3)}
    os.truncate("p/piece-2/C.tca", 9)
    assert made.missing() == [2]
    run_pieces("p")
    assert (numpy.asarray(join("p")) == A @ B).all()


def test_operands_that_change_are_not_mixed():
    spec = Specification({"N": (8, 4)}, {"N": "i j k"}, {"A": "N N", "C": "N N"}, "C[i,j] = sum{k}(A[i,k] * A[k,j])")
    a = numpy.arange(64).reshape(8, 8)
    tiled = write_array("A.tca", a, 4)
    made = cut(spec, "i", 2, {"A": tiled}, folder="p")
    run_piece("p", 0)
    write_array("A.tca", a + 1, 4)
    with pytest.raises(PiecesFailed, match="A.tca is no longer the file that was cut: cut it anew") as caught:
        run_pieces(made)
    assert isinstance(caught.value.__cause__, FileChanged) and caught.value.failed == (0, 1)
    with pytest.raises(FileChanged):
        cut(spec, "j", 2, {"A": tiled}, folder="q")
    whole = Specification(spec.ranges, {"N": "i j k"}, {"A": "N N", "B": "N N", "C": "N N"}, "C[i,j] = sum{k}(B[i,k] * A[k,j])")
    with pytest.raises(FileChanged):
        cut(whole, "i", 2, {"A": tiled, "B": a}, folder="q")
    assert sorted(os.listdir(".")) == ["A.tca", "p"]
    again = cut(spec, "i", 2, {"A": open_array("A.tca")}, folder="q")
    run_pieces(again)
    assert (numpy.asarray(join(again)) == (a + 1) @ (a + 1)).all()


@pytest.mark.parametrize("executor", [ThreadPoolExecutor, ProcessPoolExecutor])
def test_executors_of_this_machine(executor):
    made = cut(SPEC, "i", 4, {"A": A, "B": B}, folder="p")
    with executor(2) as workers:
        run_pieces(made, workers, memory="1 MiB")
    assert (numpy.asarray(join(made)) == A @ B).all()


def waiting_program(folder, number):
    """A program that notes who called it, and of which run NUMBER, counted from 1, never ends while its caller lives."""
    path = Path(folder) / "waiting-tce"
    path.write_text(f"#!/bin/sh\nif [ \"$1\" = run ]; then\n  echo $PPID >> {folder}/started\n"
                    f"  if [ $(wc -l < {folder}/started) -ge {number} ] && mkdir {folder}/waits 2> {folder}/said; then\n"
                    f"    echo $PPID > {folder}/pid\n    mv {folder}/pid {folder}/waits/pid\n"
                    "    while kill -0 $PPID; do sleep 0.1; done\n    exit 1\n  fi\nfi\nexec \"$CABUNLIT_TCE\" \"$@\"\n")
    path.chmod(0o755)
    return path


def callers():
    """Who called the program, each time until it waits; and last who called the one that waits, which need not be the last to begin."""
    wait_for(lambda: Path("waits/pid").exists())
    return [int(it) for it in [*Path("started").read_text().split(), Path("waits/pid").read_text()]]


def test_a_pool_that_breaks_leaves_what_is_done(own_folder):
    made = cut(SPEC, "i", 4, {"A": A, "B": B}, folder="p")
    run_piece("p", 0)
    with ProcessPoolExecutor(1) as workers:
        thread = threading.Thread(target=lambda: os.kill(callers()[-1], signal.SIGKILL))
        thread.start()
        with pytest.raises(PiecesFailed, match="call again") as caught:
            run_pieces(made, workers, program=waiting_program(own_folder, 2))
        thread.join()
    assert caught.value.failed == (2, 3)
    run_pieces(made)
    assert (numpy.asarray(join(made)) == A @ B).all()


def test_a_piece_that_is_refused_is_told():
    made = cut(SPEC, "i", 2, {"A": A, "B": B}, folder="p")
    os.truncate("p/piece-1/A.tca", 100)
    with pytest.raises(PiecesFailed, match="error 4") as caught:
        run_pieces(made)
    assert caught.value.failed == (1,) and isinstance(caught.value.__cause__, TceError)


def test_dask_does_the_pieces_of_a_killed_worker_again(own_folder):
    distributed = pytest.importorskip("distributed")
    made = cut(SPEC, "i", 4, {"A": A, "B": B}, folder="p")
    environment = {**os.environ, "PYTHONPATH": PACKAGE, "PYTHONDONTWRITEBYTECODE": "1", "TMPDIR": str(own_folder)}
    running = []
    try:
        running.append(subprocess.Popen([sys.executable, "-m", "distributed.cli.dask_scheduler", "--port", "0", "--no-dashboard",
                                         "--scheduler-file", "scheduler.json"], env=environment, stderr=subprocess.DEVNULL))
        wait_for(lambda: Path("scheduler.json").exists() and Path("scheduler.json").read_text().endswith("}"))
        for _ in range(2):
            running.append(subprocess.Popen([sys.executable, "-m", "distributed.cli.dask_worker", "--scheduler-file", "scheduler.json",
                                             "--nthreads", "1", "--no-nanny", "--no-dashboard"], env=environment,
                                            stderr=subprocess.DEVNULL))
        client = distributed.Client(scheduler_file="scheduler.json")
        client.wait_for_workers(2)

        thread = threading.Thread(target=lambda: os.kill(callers()[-1], signal.SIGKILL))
        thread.start()
        run_pieces(made, client.get_executor(), memory="1 MiB", program=waiting_program(own_folder, 1))
        thread.join()
        wait_for(lambda: [it.poll() for it in running[1:]].count(None) == 1)
        client.close()
    finally:
        for it in running:
            it.kill()
            it.wait()
    assert (numpy.asarray(join(made)) == A @ B).all()
    assert len(Path("started").read_text().split()) >= 5


def wait_for(condition):
    until = time.monotonic() + 300  # (of a machine that is busy)
    while not condition():
        assert time.monotonic() < until
        time.sleep(0.05)


def test_mpi(own_folder):
    pytest.importorskip("mpi4py")
    cut(SPEC, "k", 4, {"A": A, "B": B}, folder="p")
    (own_folder / "mpi.py").write_text("from mpi4py.futures import MPIPoolExecutor\nfrom cabunlit import run_pieces\n"
                                       "if __name__ == '__main__':\n    with MPIPoolExecutor() as workers:\n"
                                       "        run_pieces('p', workers, memory='1 MiB')\n    print('done')\n")
    words = ["mpiexec", "--allow-run-as-root", "--oversubscribe", "-n", "3", sys.executable, "-m", "mpi4py.futures", "mpi.py"]
    environment = {**os.environ, "PYTHONPATH": PACKAGE, "TMPDIR": "/tmp"}
    said = subprocess.run(words, env=environment, capture_output=True, text=True, timeout=300)
    assert said.stdout == "done\n", said.stderr
    assert (numpy.asarray(join("p")) == A @ B).all()


def test_an_interrupted_call_goes_on(own_folder):
    made = cut(SPEC, "i", 4, {"A": A, "B": B}, folder="p")
    code = f"from cabunlit import run_pieces\nrun_pieces('p', program={str(waiting_program(own_folder, 3))!r})\n"
    process = subprocess.Popen([sys.executable, "-c", code], env={**os.environ, "PYTHONPATH": PACKAGE}, stderr=subprocess.DEVNULL)
    assert callers() == [process.pid] * 4
    process.send_signal(signal.SIGINT)
    assert process.wait(300) != 0
    assert made.missing() == [2, 3]
    run_pieces(made)
    assert (numpy.asarray(join(made)) == A @ B).all() and not [it for it in Path("p").rglob("attempt-*")]


def test_unsigned_words_stay_unsigned():
    a = A.astype("<u8")
    made = cut(SPEC, "k", 2, {"A": a, "B": a.T.copy()}, folder="p")
    run_pieces(made)
    assert join(made).dtype == numpy.dtype("<u8") and open_array("p/C.tca").shape == (12, 12)
