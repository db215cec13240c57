"""Plans, their loop nests, and the reads that are simulated, beside those that the program makes."""
import itertools
import os
import re
import subprocess
from functools import cache
from pathlib import Path

import numpy
import pytest
from hypothesis import assume, given, settings, strategies as some

from cabunlit import Specification, advise, plan, write_array
from cabunlit.errors import FormulaError, NotEnoughMemory, SpecificationError
from cabunlit.language import operations
from cabunlit.memory import budget_of
from cabunlit.program import find_program
from cabunlit.simulate import Simulation
from cabunlit.terms import tensors_of, terms_of
from cabunlit.walking import band_of
from drawn import formulas

EXAMPLES = Path(__file__).resolve().parent.parent.parent / "examples"
PRODUCT = Specification({"N": (96, 16)}, {"N": "i j k"}, {"A": "N N", "B": "N N", "C": "N N"},
                        "C[i,j] = sum{k}(A[i,k] * B[k,j])")
ONE_OPERATION = [
    ("C[i,j] = A[i,j] * B[j,i]", "C"), ("C[j,i] = A[i,j] - B[i,j]", "C"), ("V[i] = sum{j}(A[i,j])", "V"),
    ("V[i] = sum{j}(A[i,j] * B[j,i])", "V"), ("C[i,j] = sum{k}(A[i,k] * B[k,j])", "C"), ("C[i,j] = sum{k}(A[k,i] * B[j,k])", "C"),
    ("E[] = sum{i,j}(A[i,j] * B[i,j])", "E"), ("C[i,j] = V[i] * A[i,j]", "C"), ("C[i,j] = sum{k}(A[i,k] * A[k,j])", "C"),
]
# Bodies of several operations, with constants, sums that are kept, and operands that stand twice.
FUSED = [
    "C[i,j] = A[i,j] * B[i,j] * D[j,i]", "C[i,j] = 0 - A[j,i]", "C[i,j] = (A[i,j] - A[j,i]) * 3 + B[j,i]",
    "C[i,j] = sum{k}(A[i,k] * B[k,j] * D[k,i])", "C[i,j] = sum{k}(A[i,k] * sum{l}(B[k,l] * D[l,j]))",
    "C[i,j] = sum{k}(A[i,k] * B[k,j]) - sum{k}(B[j,k] * A[k,i])", "V[i] = sum{j}(sum{k}(A[i,k] * B[k,j]) * D[i,j])",
    "C[i,j,k] = A[i,j] * sum{l,m}(B[k,l] * D[l,m])", "C[i,j,k] = sum{l}(A[i,l] * B[j,l] * D[k,l]) + E[k,j,i]",
    "C[j,i] = sum{k}(A[i,k] + B[k,j]) * D[i,j]",
    # (term by term: tensors, products of two and sums over such, with factors)
    "C[i,j] = 2 * A[i,j] - 4 * (sum{k}(A[i,k] * B[k,j]) - B[j,i])", "C[j,i] = A[i,j] * V[j] - sum{k,l}(B[i,k] * E[k,l,j]) * 3 + V[i]",
    "E[i,j,k] = sum{l}(A[i,l] * F[l,j,k]) - sum{l}(A[j,l] * F[l,i,k]) + sum{l}(F[i,j,l] * B[l,k])",
    "V[i] = sum{j}((A[i,j] - sum{k}(A[j,k] * B[k,i])) * A[i,j])",
]


def test_a_plan_says_what_it_costs():
    found = plan(PRODUCT)
    assert [it.kind for it in found.nodes] == ["product", "sum"] and found.nodes[1].size is None
    assert found.turns() == 2 * 96**3 and found.turns(0) == 96**3
    assert found.whole_size(0) == 96**3 and found.memory_bytes == 8 * found.memory
    assert found.least_budget == 768 and found.full_budget == 3 * 96 * 96
    assert "node 0" in found.describe() and found.nest_text().startswith("for i, j, k:\n")
    assert found.with_edges({"N": 32}).least_budget == 3 * 1024


def test_a_plan_is_refused_as_the_program_does():
    with pytest.raises(SpecificationError) as caught:
        plan("range N 3\nindex N i\ntensor A[N]\nA[i] = B[i] * 2\n")
    assert caught.value.number == 4 and "B" in caught.value.line and caught.value.place.endswith("^")


@cache
def binary():
    """The file that runs in the end: the script in front of it reads what differs from run to run."""
    program = str(find_program())
    if Path(program).read_bytes()[:2] != b"#!":
        return program
    said = subprocess.run(["sh", "-x", program], capture_output=True, text=True).stderr
    return re.findall(r"^\+ exec (\S+)", said, re.M)[-1]


def read_bytes(spec, budget, folder):
    """How many bytes a run reads of its arrays, by the system's count: those of a run that holds every tile are set aside."""
    def bytes_of(words):
        process = subprocess.Popen([binary(), "run", "s.tce", str(words)], cwd=folder, stdout=subprocess.DEVNULL)
        os.waitid(os.P_PID, process.pid, os.WEXITED | os.WNOWAIT)
        found = Path(f"/proc/{process.pid}/io").read_text()
        assert process.wait() == 0
        return int(dict(line.split(": ") for line in found.splitlines())["rchar"])

    for name in spec.inputs():
        write_array(f"{name}.tca", numpy.ones(spec.shape(name), "<i8"), spec.chunks(name), flush=False)
    (folder / "s.tce").write_text(spec.text())
    held = plan(spec)
    return bytes_of(budget) - bytes_of(held.full_budget) + held.reads().bytes


def same_reads(spec, budget, folder):
    """Whether the reads that are simulated are those of the program."""
    found = plan(spec).reads(budget)
    assert found.exact
    assert read_bytes(spec, budget, folder) == found.bytes


@pytest.mark.parametrize("text, result", ONE_OPERATION)
@pytest.mark.parametrize("tiles", [3, 4, 7, 20])
def test_reads_are_those_of_the_program(text, result, tiles, own_folder):
    tensors = {"A": "N N", "B": "N N", "C": "N N", "V": "N", "E": ""}
    used = {name: of for name, of in tensors.items() if f"{name}[" in text}
    same_reads(Specification({"N": (80, 16)}, {"N": "i j k"}, used, text), tiles * 256, own_folder)


@pytest.mark.parametrize("name, extents, edge", [
    ("four/small", 7, 3), ("residual/ladder", 8, 3), ("trace/trace", 20, 4), ("spill/sums", 20, 4), ("energy/energy", 9, 3),
    ("transformation/staged", 6, 3), ("doubles/doubles", 7, 3), ("cut/product", 40, 9), ("large/large", 21, 4),
])
def test_reads_of_examples_are_those_of_the_program(name, extents, edge, own_folder):
    spec = Specification.parse((EXAMPLES / f"{name}.tce").read_text())
    for k, (of, it) in enumerate(spec.ranges.items()):
        spec.ranges[of] = type(it)(min(extents - k, it.extent), min(edge, it.extent))
    for one in map(spec.alone, range(len(spec.formulas))):
        largest = plan(one).least_budget // 3
        for tiles in (3, 5, 8, 17) if len(spec.formulas) == 1 else (4,):
            same_reads(one, tiles * largest, own_folder)


@pytest.mark.parametrize("text", FUSED)
def test_reads_of_fused_loops_are_those_of_the_program(text, own_folder):
    tensors = {name: " ".join("N" * (of.count(",") + 1)) for name, of in re.findall(r"([A-Z])\[([a-z,]+)\]", text)}
    spec = Specification({"N": (10, 4)}, {"N": "i j k l m"}, tensors, text)
    largest = max(map(spec.tile_words, spec.tensors))
    for tiles in (3, 4, 6, 9, 14, 30):
        same_reads(spec, tiles * largest, own_folder)


@settings(max_examples=40)
@given(formulas(depth=3), some.integers(3, 12))
def test_reads_of_drawn_formulas_are_those_of_the_program(drawn, tiles):
    formula, arrays, extents, chunks = drawn
    spec = Specification({f"N{i}": (extents[i], chunks[i]) for i in extents}, {f"N{i}": i for i in extents},
                         {**{name: " ".join(f"N{i}" for i in name[2:]) for name in arrays},
                          formula.result.tensor: " ".join(f"N{i}" for i in formula.result.indexes)}, formula.text())
    assume(len(operations(formula.expression)) <= 32 and spec.inputs())
    same_reads(spec, tiles * max(map(spec.tile_words, spec.tensors)), Path.cwd())


@pytest.mark.parametrize("extent, edge, found", [
    (10, 4, [(4, (), ["B"]), (2**64 - 4, ("k",), ["A", "B"]), (2, (), ["A"])]), (10, 1, []), (3, 1, []), (4, 2, [
        (4, (), ["B"]), (2**64 - 4, ("k",), ["A", "B"]), (2, (), ["A"])])])
def test_terms_go_by_the_twos_in_their_factors(extent, edge, found):
    made = plan(Specification({"N": (extent, edge)}, {"N": "i j k"}, {"A": "N N", "B": "N N", "C": "N N"},
                              "C[i,j] = 2 * A[i,j] - 4 * (sum{k}(A[i,k] * B[k,j]) - B[j,i])"))
    loops, body = band_of(made.nest[0])
    terms = terms_of(made.spec, made.tree, made.nodes, loops, body)
    assert [(it.factor, it.loops, [of.tensor for of in tensors_of(made.tree, it)]) for it in terms] == found


def test_sampled_reads_are_near_the_exact_ones():
    found = plan(Specification({"N": (400, 16)}, {"N": "i j k"}, {"A": "N N", "B": "N N", "C": "N N"},
                               "C[i,j] = sum{k}(A[i,k] * B[k,j])"))
    for budget in (768, 8192, 40_000):
        exact, sampled = found.reads(budget, limit=10**7), found.reads(budget, limit=2000)
        assert exact.exact and not sampled.exact
        assert 0.7 < sampled.bytes / exact.bytes < 2.5


@pytest.mark.parametrize("count, extent, edge, limit", [(6, 12, 2, 10**5), (6, 12, 2, 2000), (10, 64, 8, 10**5), (10, 64, 1, 10**5)])
def test_deep_nests_are_followed_within_the_limit(count, extent, edge, limit):
    names = "abcdefghij"[:count]
    found = plan(Specification({"N": (extent, edge)}, {"N": " ".join(names)}, {"A": "N N", "E": ""},
                               f"E[] = sum{{{','.join(names)}}}({' * '.join(f'A[{a},{b}]' for a, b in zip(names, names[1:]))})"))
    budget = 5 * edge**2
    followed = Simulation(found.spec, found.tree, found.nodes, budget, limit)
    assert followed._cost(followed.steps, 0) <= limit
    reads = followed.run()
    assert not reads.exact and reads.tiles >= reads.least
    if count == 6:
        assert 0.3 < reads.tiles / found.reads(budget, limit=10**8).tiles < 2.5


def brute_force(spec, found, budget):
    """The reads, followed element by element without any short cut."""
    simulation = Simulation(spec, found.tree, found.nodes, budget)
    simulation._repeat = lambda turns, body, depth: [simulation._run(body, depth) for _ in range(turns)]
    return simulation.run()


@pytest.mark.parametrize("name", ["four/small", "residual/ladder", "trace/trace", "spill/sums", "energy/energy"])
def test_turns_that_are_counted_are_those_that_are_followed(name):
    found = plan(EXAMPLES / f"{name}.tce")
    small = found.spec
    for of in small.ranges:
        small.ranges[of] = type(small.ranges[of])(min(5, small.ranges[of].extent), 2)
    for budget in (found.least_budget, 2 * found.least_budget):
        assert found.reads(budget) == brute_force(small, found, budget)


@pytest.mark.parametrize("name, memory", [("cut/product", 200_000), ("four/small", 12_000), ("residual/ladder", 20_000),
                                          ("spill/sums", 4_000), ("transformation/staged", 200_000), ("trace/trace", 8_000),
                                          ("energy/energy", 30_000),
                                          ("flat/matrix", 500)])
def test_advice_is_near_the_best_of_a_grid(name, memory):
    spec = Specification.parse((EXAMPLES / f"{name}.tce").read_text())
    found = advise(spec, memory)
    assert all(edge > 1 for of, edge in found.edges.items() if spec.ranges[of].extent > 1)
    assert 8 * found.budget <= memory
    grid = [sorted({min(edge, it.extent) for edge in (2, 4, 8, 16, 64)}) for it in spec.ranges.values()]
    best = float("inf")
    for edges in itertools.product(*grid):
        cut = found.plans[0].with_edges(dict(zip(spec.ranges, edges)))
        try:
            budget = budget_of(memory, cut.memory, cut.least_budget // 3)
        except NotEnoughMemory:
            continue
        best = min(best, cut.reads(min(budget, cut.full_budget), limit=100_000).bytes)
    exact = sum(it.reads(min(found.budget, it.full_budget)).bytes for it in found.plans)
    assert exact <= 1.5 * best


def test_budgets_and_edges_that_are_refused():
    found = plan(PRODUCT)
    with pytest.raises(NotEnoughMemory, match="give 768 or more"):
        found.reads(767)
    with pytest.raises(FormulaError, match="edges of at least 1"):
        found.with_edges({"N": 0})
    with pytest.raises(FormulaError, match="no ranges"):
        advise(PRODUCT, "1 MiB", fixed=["M"])


def test_advice_for_too_little_memory():
    with pytest.raises(NotEnoughMemory, match="give memory="):
        advise(PRODUCT, 100)


def test_advice_for_formulas_that_have_not_all_ranges():
    spec = Specification({"N": (40, 8), "M": (30, 8)}, {"N": "i j", "M": "k"}, {"A": "N M", "B": "N N", "C": "N N"},
                         ["B[i,j] = sum{k}(A[i,k] * A[j,k])", "C[i,j] = B[i,j] - B[j,i]"])
    found = advise(spec, 40_000)
    assert set(found.edges) == {"N", "M"} and len(found.plans) == 2 and found.spec.ranges["M"].edge == found.edges["M"]


def test_advice_keeps_edges_that_are_fixed():
    spec = Specification({"N": (96, 16), "K": (500, 1)}, {"N": "i j", "K": "k"}, {"A": "N K", "B": "K N", "C": "N N"},
                         "C[i,j] = sum{k}(A[i,k] * B[k,j])")
    found = advise(spec, "64 KiB", fixed=["N"])
    assert found.edges["N"] == 16 and found.edges["K"] > 1 and "edges" in found.describe()
