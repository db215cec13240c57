"""Exceptions: one for each status, with the program's line and what to do; and they go from process to process."""
import os
import pickle

import pytest

from cabunlit import Specification
from cabunlit.errors import BY_STATUS, NotBuilt, OverflowPossible, PiecesFailed, SpecificationError, TceError, error_of
from cabunlit.program import find_program, run_program

TEXT = "range N 4\nindex N i j k\ntensor A[N,N]\ntensor C[N,N]\n"


@pytest.mark.parametrize("status", range(1, 17))
def test_each_status_has_its_own(status):
    error = error_of(f"error {status}: line 1: something")
    assert error.status == status and type(error) is BY_STATUS[status] is not TceError
    assert str(error).startswith(f"error {status}: ") and len(str(error).splitlines()) > 1
    again = pickle.loads(pickle.dumps(error))
    assert type(again) is type(error) and str(again) == str(error) and again.status == status


def test_what_is_no_line():
    assert error_of("", "", 9).status == 9 and error_of("", "", 125).status == 125
    assert error_of("", "", 77).status == 77 and "77" in str(error_of("", "", 77))


@pytest.mark.parametrize("line, text, place", [
    ("C[i,j] = A[i,j]", "no operation", None), ("C[i,j] = A[i,j] * Q[i,j]", "unknown name Q", "Q"),
    ("C[i,j] = A[i,j] * A[i,i,j]", "rank of A differs", "A"), ("C[i,i] = 1 * A[i,i]", "index i twice", "i"),
    ("C[i,j] = sum{k}(A[i,j] * 2)", "sum over absent k", "k"), ("C[i,j] = 2 * A[i,k]", "result indexes differ", None),
    ("A[i,j] = 2 * A[j,i]", "A is result and operand", "A"), ("C[i,j] = A[i,j] * 07", "bad number", None),
    ("C[i,j] = 2A[i,j]", "bad text", None),
])
def test_the_program_names_the_place(line, text, place):
    with pytest.raises(SpecificationError) as caught:
        Specification.parse(TEXT + line).check()
    error = caught.value
    assert error.status == 2 and error.number == 5 and error.line == f"line 5: {text}" and line in str(error)
    shown = error.place.splitlines()
    assert (len(shown) == 2) == (place is not None)
    if place:
        assert shown[0][shown[1].index("^"):].startswith(place)


def test_declarations_that_are_refused():
    for text, says in [("range N 0\nindex N i\ntensor A[N]\ntensor C[N]\nC[i] = 2 * A[i]", "bad number"),
                       ("range N 4\nrange N 5\n", "declared twice"), ("index N i\n", "unknown name N"), ("what is this\n", "bad text"),
                       ("", "bad text")]:
        with pytest.raises(SpecificationError, match=says):
            Specification.parse(text).check()


def test_the_program_is_found(monkeypatch, own_folder):
    program = own_folder / "tce"
    program.write_text("#!/bin/sh\n")
    program.chmod(0o755)
    assert find_program(program) == program
    monkeypatch.setenv("CABUNLIT_TCE", str(program))
    assert find_program() == program
    assert run_program(["plan"], own_folder) == ""


def test_a_program_that_is_not_built(own_folder):
    program = own_folder / "tce"
    program.write_text("#!/bin/sh\necho 'tce: there is no released program' >&2\nexit 125\n")
    program.chmod(0o755)
    with pytest.raises(NotBuilt, match="(?s)status 125.*no released program.*CABUNLIT_TCE"):
        Specification.parse(TEXT + "C[i,j] = 2 * A[i,j]").check(program)


def test_others_go_from_process_to_process():
    for error in (OverflowPossible("too large", 5), PiecesFailed("two", (1, 2))):
        again = pickle.loads(pickle.dumps(error))
        assert str(again) == str(error) and vars(again) == vars(error)
    assert os.getpid()
