"""What is told of a long run."""
import io
import sys

from cabunlit.progress import Progress


class Terminal(io.StringIO):
    """A stream that says that it is a terminal."""

    def isatty(self):
        return True


def test_a_bar_where_tqdm_is_there():
    stream = Terminal()
    with Progress("pieces", 2, stream=stream) as progress:
        assert progress.bar is not None
        progress.done("piece 0")
        progress.done("piece 1", again=True)
    assert "2/2" in stream.getvalue() and "piece 1 (kept)" in stream.getvalue()


def test_a_line_where_it_is_not(monkeypatch):
    monkeypatch.setitem(sys.modules, "tqdm", None)
    stream = Terminal()
    with Progress("formulas", 2, stream=stream) as progress:
        progress.done("B")
        progress.done("C")
    lines = stream.getvalue().splitlines()
    assert lines[0].startswith("formulas: 1 of 2, B, ") and lines[0].endswith(" s left") and lines[1].startswith("formulas: 2 of 2, C")


def test_nothing_where_nothing_is_asked_for():
    stream = io.StringIO()
    with Progress("pieces", None, show=False, stream=stream) as progress:
        progress.done("piece 0")
    assert stream.getvalue() == "" and progress.count == 1


def test_a_number_that_is_not_known():
    stream = io.StringIO()
    with Progress("pieces", None, stream=stream) as progress:
        progress.done("spill-1")
    assert stream.getvalue().startswith("pieces: 1, spill-1, ")


def test_time_left_goes_by_the_share_that_is_done(monkeypatch):
    now = [100.0]
    monkeypatch.setattr("cabunlit.progress.time.monotonic", lambda: now[0])
    for total, due in ((None, "pieces: 1, spill-1, 3.0 s, about 9.0 s left"), (2, "pieces: 1 of 2, spill-1, 3.0 s, about 9.0 s left")):
        stream, now[0] = io.StringIO(), 100.0
        with Progress("pieces", total, stream=stream) as progress:
            now[0] += 3
            progress.done("spill-1", share=0.25)
            progress.done("C", share=1.0)
        assert stream.getvalue().splitlines()[0] == due and "left" not in stream.getvalue().splitlines()[1]
    bar = Terminal()
    with Progress("pieces", None, stream=bar) as progress:
        now[0] += 3
        progress.done("spill-1", share=0.25)
    assert "spill-1, about 9.0 s left" in bar.getvalue()


def test_what_is_kept_takes_no_time(monkeypatch):
    now, stream = [100.0], io.StringIO()
    monkeypatch.setattr("cabunlit.progress.time.monotonic", lambda: now[0])
    with Progress("pieces", 4, stream=stream) as progress:
        progress.done("piece 0", again=True)
        now[0] += 3
        progress.done("piece 1")
        progress.done("piece 2")
        progress.done("piece 3")
    assert stream.getvalue().splitlines() == ["pieces: 1 of 4, piece 0 (kept), 0.0 s", "pieces: 2 of 4, piece 1, 3.0 s, about 6.0 s left",
                                              "pieces: 3 of 4, piece 2, 3.0 s, about 1.5 s left", "pieces: 4 of 4, piece 3, 3.0 s"]
