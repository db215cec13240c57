"""The command, and what it prints."""
import os
import subprocess
import sys
from pathlib import Path

import numpy
import pytest

import cabunlit
from cabunlit import open_array, write_array
from cabunlit.cli import main

TOP = Path(cabunlit.__file__).resolve().parent.parent.parent
PACKAGE = str(TOP / "python")
PRODUCT = TOP / "examples/cut/product.tce"


def test_info(capsys):
    write_array("A.tca", numpy.array([[1, -2, 3]]), (1, 2))
    write_array("B.tca", numpy.array([7], "<i4"), 1)
    Path("S.sym").write_bytes(b"TCSYMM01" + numpy.array([0, 1, 0, 5, 6, 7], "<u8").tobytes())
    Path("c.cert").write_text("tce certificate 1\nnode 0 sum loops i result\nmemory 0\nend\n")
    assert main(["info", "A.tca", "B.tca", "S.sym", "c.cert"]) == 0
    said = capsys.readouterr().out
    assert "as signed numbers from -2 to 3" in said and "1 elements of padding" in said and "second version" in said
    assert "symmetric in the positions 0 and 1" in said and "a certificate of 1 operations" in said


@pytest.mark.parametrize("pair, sign, words, extents", [
    ((0, 1), 0, [5, 6, 7], "extents 2 2"), ((0, 1), 1, [], "extents 1 1"), ((1, 2), 1, [-1] * 9, "does not tell"),
    ((0, 1), 0, [1] * 4, "does not tell"), ((2, 7), 0, range(70000), "does not tell"),
])
def test_info_of_pairs(pair, sign, words, extents, capsys):
    Path("S.sym").write_bytes(b"TCSYMM01" + numpy.array([*pair, sign, *words], "<i8").tobytes())
    assert main(["info", "S.sym"]) == 0
    said = capsys.readouterr().out.splitlines()
    assert said[0] == f"S.sym: a file of pairs, {'anti' * sign}symmetric in the positions {pair[0]} and {pair[1]}" and extents in said[1]
    assert said[2] == f"{len(words)} words stored, {32 + 8 * len(words)} bytes"
    assert said[3] == (f"as signed numbers from {min(words)} to {max(words)}" if words else "no elements")


@pytest.mark.parametrize("content", [b"", bytes(64), b"hello, world", b"TCSYMM01", b"TCSYMM01" + bytes(24), b"TCSYMM01" + bytes(25)])
def test_info_of_other_files(content, capsys):
    Path("A.tca").write_bytes(content)
    assert main(["info", "A.tca"]) == 1 and capsys.readouterr().err.startswith("cabunlit: A.tca ")
    assert main(["info", "B.tca"]) == 1 and "B.tca" in capsys.readouterr().err
    for text in (b"", b"tce certificate 1\n", b"tce certificate 1\nend\n", b"tce certificate 1\nmemory 0\n", bytes(range(256))):
        Path("c.cert").write_bytes(text)
        assert main(["info", "c.cert"]) == 1 and "c.cert is no certificate" in capsys.readouterr().err


def test_a_report_of_a_file_that_is_no_specification(capsys):
    write_array("A.tca", numpy.arange(3), 2)
    assert main(["report", "A.tca"]) == 1
    assert capsys.readouterr().err == "cabunlit: A.tca is no specification: the name of one ends in .tce\n"


def test_an_output_that_is_closed(monkeypatch):
    write_array("A.tca", numpy.arange(3), 2)
    monkeypatch.setattr(sys, "stdout", None)
    assert main(["info", "A.tca"]) == 0
    monkeypatch.setattr(sys, "stderr", None)
    assert main(["info", "nowhere.tca"]) == 1
    assert cabunlit.batch("B[i] = 2 * A[i]", A=numpy.arange(3), progress=True)["B"][:].tolist() == [0, 2, 4]


class Writes:
    """A stream that counts calls."""

    def __init__(self):
        self.texts = []

    def write(self, text):
        self.texts.append(text)

    def flush(self):
        pass


def test_each_message_is_written_in_one_call(monkeypatch):
    write_array("A.tca", numpy.arange(3), 2)
    for words in (["info", "A.tca", "A.tca"], ["info", "nowhere.tca"], ["report", str(PRODUCT)]):
        out, err = Writes(), Writes()
        monkeypatch.setattr(sys, "stdout", out)
        monkeypatch.setattr(sys, "stderr", err)
        status = main(words)
        assert [len(out.texts), len(err.texts)] == [1 - status, status] and (out.texts + err.texts)[0].endswith("\n")


def test_report(capsys):
    assert main(["report", str(PRODUCT), "--budget", "20000"]) == 0
    said = capsys.readouterr().out
    assert said.startswith("<!DOCTYPE html>") and "<svg" in said and "20000" in said
    assert main(["report", "nowhere.tce"]) == 1


def test_pieces_by_the_jobs_of_a_queue(own_folder):
    a, b = (numpy.random.default_rng(k).integers(0, 9, (96, 96)) for k in range(2))
    write_array("A.tca", a, 16)
    write_array("B.tca", b, 16)
    Path("product.tce").write_text(PRODUCT.read_text().replace("512 tile 64", "96 tile 16"))
    environment = {**os.environ, "PYTHONPATH": PACKAGE}

    def call(*words, **more):
        return subprocess.run([sys.executable, "-m", "cabunlit", "pieces", *words], env={**environment, **more}, check=True,
                              capture_output=True, text=True).stdout

    assert call("cut", "product.tce", "i", "2") == "pieces: pieces 0 to 1\n"
    assert call("run", "pieces", "--memory", "1MiB", SLURM_ARRAY_TASK_ID="1") == "piece 1 is done\n"
    assert call("run", "pieces") == "piece 0 is done\n" and call("run", "pieces") == "all pieces are done\n"
    assert call("join", "pieces", "--out", "C.tca").startswith("wrote ")
    assert (numpy.asarray(open_array("C.tca")) == a @ b).all()
    assert main(["pieces", "run", "pieces", "7"]) == 1 and main(["pieces", "join", "nowhere"]) == 1
