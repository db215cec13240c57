"""The doubles equation of coupled cluster, sixteen formulas, beside the textbook's terms by numpy."""
import sys
from pathlib import Path

import numpy

import cabunlit

doubles = Path(cabunlit.__file__).resolve().parents[2] / "examples" / "doubles"  # (of the checkout that holds the package)
sys.path.insert(0, str(doubles))
from make import blocks, draw, right_side  # noqa: E402

found = cabunlit.batch(doubles / "doubles.tce", blocks(*draw()))
print(len(found), "results, equal to eight times numpy's:", (numpy.asarray(found["R"]) == 8 * right_side(*draw())).all())
