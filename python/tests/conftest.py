"""Every test runs in a folder of its own; a missing program fails the whole run at once."""
import os
import shutil
import signal
import tempfile

import pytest

from cabunlit.program import find_program

# (a coverage of arrays by property tests must not depend on how busy the machine is)
from hypothesis import HealthCheck, settings

settings.register_profile("cabunlit", deadline=None, suppress_health_check=list(HealthCheck), derandomize=True)
settings.load_profile("cabunlit")


def pytest_sessionstart(session):
    # (a shell has what it runs in the background ignore interrupts)
    signal.signal(signal.SIGINT, signal.default_int_handler)
    os.environ["CABUNLIT_TCE"] = str(find_program())


@pytest.fixture(autouse=True)
def own_folder(tmp_path, monkeypatch):
    """The folder of a test; what the package leaves among temporary files is an error."""
    scratch = tmp_path / "scratch"
    scratch.mkdir()
    home = tmp_path / "home"
    home.mkdir()
    monkeypatch.chdir(home)
    monkeypatch.setattr(tempfile, "tempdir", str(scratch))
    monkeypatch.setenv("TMPDIR", str(scratch))
    yield home
    assert [it for it in os.listdir(scratch) if not it.endswith(".tca")] == []
    shutil.rmtree(scratch)
