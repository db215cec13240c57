"""The examples of docstrings."""
import doctest
import importlib
import inspect
import pkgutil

import numpy
import pytest

import cabunlit
from cabunlit import cli, draw, fixed_point, page, reports

NAMES = [it.name for it in pkgutil.iter_modules(cabunlit.__path__) if it.name != "__main__"]


@pytest.mark.parametrize("name", NAMES)
def test_examples(name, own_folder):
    module = importlib.import_module(f"cabunlit.{name}")
    given = {**vars(module), "numpy": numpy, "path": "A.tca", "folder": str(own_folder / "cut"),
             "Specification": cabunlit.Specification}
    tests = doctest.DocTestFinder(exclude_empty=True).find(module, extraglobs=given)
    runner = doctest.DocTestRunner(optionflags=doctest.ELLIPSIS | doctest.IGNORE_EXCEPTION_DETAIL)
    said = []
    for it in tests:
        runner.run(it, out=said.append)
    assert runner.summarize(verbose=False).failed == 0, "".join(said)


@pytest.mark.parametrize("name", cabunlit.__all__)
def test_public_names_have_docstrings(name):
    assert inspect.getdoc(getattr(cabunlit, name))


def calls():
    """What a user calls: functions of the package's own, of its modules on real numbers and pictures, and of the command."""
    of_package = [getattr(cabunlit, name) for name in cabunlit.__all__]
    of_modules = [it for module in (fixed_point, draw, page, reports, cli) for name, it in vars(module).items()
                  if inspect.isfunction(it) and it.__module__ == module.__name__ and not name.startswith("_") and name != "main"]
    return [it for it in of_package if inspect.isfunction(it)] + of_modules


@pytest.mark.parametrize("call", calls(), ids=lambda it: it.__name__)
def test_calls_say_what_they_take_give_and_raise(call):
    text = inspect.getdoc(call)
    assert ">>>" in text and "Examples\n--------" in text
    assert "Parameters" in text or call.__name__ == "shown_number"
    assert "Returns" in text or call.__name__ in ("run_pieces", "shown_number")
    assert "Raises" in text or "raise " not in inspect.getsource(call)
