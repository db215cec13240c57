"""Tensor formulas on arrays larger than memory, from numpy.

Every element of a result is computed by the program `tce`; this package brings arrays to it and back, finds edges, budgets
and ways to run, and shows what a plan costs.
"""
from cabunlit import errors, fixed_point
from cabunlit.advise import Advice, advise
from cabunlit.arrays import SymmetricArray, TiledArray, create_array, open_array, write_array
from cabunlit.batch import batch
from cabunlit.einsum import einsum
from cabunlit.evaluate import evaluate, spill
from cabunlit.errors import CabunlitError, OverflowPossible, TceError
from cabunlit.pieces import Cut, cut, join, run_pieces
from cabunlit.plan import Plan, plan
from cabunlit.specification import Specification

__all__ = [
    "Advice", "CabunlitError", "Cut", "OverflowPossible", "Plan", "Specification", "SymmetricArray", "TceError", "TiledArray",
    "advise", "batch", "create_array", "cut", "einsum", "errors", "evaluate", "fixed_point", "join", "open_array", "plan",
    "run_pieces", "spill", "write_array",
]
