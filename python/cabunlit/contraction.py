"""Einsums: labels, shapes and a path, as formulas of the language."""
from __future__ import annotations

import operator
import string
from collections.abc import Mapping, Sequence
from dataclasses import dataclass
from numbers import Real
from typing import Any

import numpy

from cabunlit.errors import FormulaError
from cabunlit.language import Binary, Constant, Expression, Formula, Reference, Sum
from cabunlit.specification import Range, Specification

Labels = tuple[str, ...]
Path = tuple[tuple[int, ...], ...]
LETTERS = string.ascii_lowercase + string.ascii_uppercase


def split(subscripts: str) -> tuple[list[str], str | None]:
    """The operands' subscripts and the output's, if it is written.

    Raises
    ------
    FormulaError

    Examples
    --------
    >>> split("ij, jk -> ik")
    (['ij', 'jk'], 'ik')
    """
    text = subscripts.replace(" ", "")
    left, arrow, right = text.partition("->")
    parts = left.split(",")
    for part in [*parts, right]:
        rest = part.replace("...", "", 1)
        if any(not it.isalpha() for it in rest):
            raise FormulaError(f"subscripts {subscripts!r} have more than letters, commas, one '->' and ellipses at {part!r}")
    return parts, right if arrow else None


def from_sublists(words: Sequence[Any]) -> tuple[str, list[Any]]:
    """Subscripts and operands of numpy's other form: an operand, its list of labels, and so on, and the output's list.

    Raises
    ------
    FormulaError

    Examples
    --------
    >>> from_sublists([2, [0, 1], 3, [1, 30], [30, 0]])
    ('ab,bE->Ea', [2, 3])
    """
    names = LETTERS + "".join(chr(0x4E00 + k) for k in range(1000))

    def text(labels: Any) -> str:
        try:
            found: list[Any] = [it if it is Ellipsis else operator.index(it) for it in labels]
        except TypeError:
            found = [-1]
        if not all(it is Ellipsis or 0 <= it < len(names) for it in found):
            raise FormulaError(f"{labels!r} is no list of labels, which are whole numbers from 0 to {len(names) - 1}")
        return "".join("..." if it is Ellipsis else names[it] for it in found)

    parts = [text(it) for it in words[1::2]]
    output = "->" + text(words[-1]) if len(words) % 2 else ""
    return ",".join(parts) + output, list(words[:len(words) // 2 * 2:2])


@dataclass(frozen=True)
class Contraction:
    """An einsum whose labels have one extent each, and the order in which operands are multiplied.

    Attributes
    ----------
    operands : tuple of tuples
        The labels of each operand that are kept.
    dropped : tuple of tuples
        The axes of each operand of extent 1 that stand for a longer label, and are left out.
    output : tuple of str
        The labels of the result.
    extents : dict of str to int
    path : tuple of tuples
        Items of one or two entries, as for `tce einsum`.
    """

    operands: tuple[Labels, ...]
    dropped: tuple[tuple[int, ...], ...]
    output: Labels
    extents: dict[str, int]
    path: Path

    @classmethod
    def of(cls, subscripts: str, shapes: Sequence[Sequence[int]], optimize: object = "greedy") -> Contraction:
        """Reads an einsum and finds its path.

        Parameters
        ----------
        subscripts : str
        shapes : sequence of shapes
        optimize : str, bool or path
            As for `numpy.einsum_path`; a path with items of more than two entries is taken pair by pair.

        Raises
        ------
        FormulaError
            Where numpy refuses it, or the path does not fit.
        """
        parts, right = split(subscripts)
        if len(parts) != len(shapes):
            raise FormulaError(f"subscripts {subscripts!r} are for {len(parts)} operands, and there are {len(shapes)}")
        labels, right = _without_ellipses(parts, right, shapes)
        extents = _extents(labels, shapes)
        kept, dropped = _narrowed(labels, shapes, extents)
        output = tuple(right if right is not None else _implicit(labels))
        known = {it for of in labels for it in of}
        if len(set(output)) != len(output) or not set(output) <= known:
            raise FormulaError(f"the output {''.join(output)!r} has a label twice, or one that no operand has and so no extent: "
                               "take labels of the operands, each once")
        return cls(kept, dropped, output, extents, _path(kept, output, extents, optimize))

    @property
    def labels(self) -> Labels:
        """All labels, in the order in which the operands have them."""
        return tuple(dict.fromkeys(it for of in self.operands for it in of))

    def describe(self) -> str:
        """What `numpy.einsum_path` prints of the path."""
        text, operands = _for_numpy(self.operands, self.output, self.extents)
        return str(numpy.einsum_path(text, *operands, optimize=["einsum_path", *self.path])[1])

    def names(self) -> dict[str, str]:
        """A name of the language for each label: the label itself, where it is a letter from A to z."""
        return {it: it if it in LETTERS else f"label{k}" for k, it in enumerate(self.labels)}

    def steps(self, operand_names: Sequence[str], result: str = "Y", named: bool = False) -> list[Formula]:
        """The formulas: one, or one for each item of the path.

        Parameters
        ----------
        operand_names : sequence of str
        result : str
            The result's name.
        named : bool, optional
            Whether the value of each item is a named intermediate, `S1`, `S2` and so on.
        """
        names = self.names()
        entries: list[tuple[Expression, frozenset[str]]] = [
            (Reference(name, tuple(names[it] for it in of)), frozenset(of))
            for name, of in zip(operand_names, self.operands)]
        formulas: list[Formula] = []
        for item in self.path:
            taken = [entries[at] for at in item]
            entries = [it for at, it in enumerate(entries) if at not in item]
            wanted = frozenset(self.output).union(*(of for _, of in entries))
            made = self._contracted(taken, wanted, names)
            if named and entries:
                own = tuple(names[it] for it in self.labels if it in made[1])
                reference = Reference(f"S{len(formulas) + 1}", own)
                formulas.append(Formula(reference, made[0]))
                made = (reference, made[1])
            entries.append(made)
        last = entries[0][0]
        if isinstance(last, Reference):
            last = Binary("product", Constant(1), last)
        return [*formulas, Formula(Reference(result, tuple(names[it] for it in self.output)), last)]

    def _contracted(self, taken: Sequence[tuple[Expression, frozenset[str]]], wanted: frozenset[str],
                    names: Mapping[str, str]) -> tuple[Expression, frozenset[str]]:
        """The product of one or two entries, summed over what nothing else has; what one entry alone has is summed first."""
        if len(taken) == 1:
            return self._summed(taken[0], wanted, names)
        left, right = (self._summed(it, wanted | other[1], names) for it, other in zip(taken, taken[::-1]))
        return self._summed((Binary("product", left[0], right[0]), left[1] | right[1]), wanted, names)

    def _summed(self, entry: tuple[Expression, frozenset[str]], wanted: frozenset[str],
                names: Mapping[str, str]) -> tuple[Expression, frozenset[str]]:
        over = tuple(names[it] for it in self.labels if it in entry[1] and it not in wanted)
        return (Sum(over, entry[0]), entry[1] & wanted) if over else entry

    def specification(self, chunks: object = "auto", operand_names: Sequence[str] | None = None, result: str = "Y",
                      named: bool = False) -> Specification:
        """The specification of the einsum.

        Parameters
        ----------
        chunks : "auto", int or mapping of labels to int
            The edges of tiles.
        operand_names : sequence of str, optional
        result : str, optional
        named : bool, optional
            Whether each item of the path is a formula of its own.
        """
        names, edges = self.names(), self.edges(chunks)
        found = list(operand_names or [f"X{k}" for k in range(len(self.operands))])
        spec = Specification()
        of_pair: dict[tuple[int, int], str] = {}
        for label in self.labels:
            pair = (self.extents[label], edges[label])
            if pair not in of_pair:
                of_pair[pair] = f"N{len(of_pair)}"
                spec.ranges[of_pair[pair]] = Range(*pair)
            spec.add_index(of_pair[pair], names[label])
        for name, of in zip(found, self.operands):
            spec.add_tensor(name, *(spec.indexes[names[it]] for it in of))
        for formula in self.steps(found, result, named):
            spec.add_tensor(formula.result.tensor, *(spec.indexes[it] for it in formula.result.indexes))
            spec.add_formula(formula)
        return spec

    def edges(self, chunks: object) -> dict[str, int]:
        """The edge of each label, of those that are given and of the usual ones."""
        if isinstance(chunks, Mapping):
            unknown = set(chunks) - set(self.labels)
            if unknown:
                raise FormulaError(f"chunks has {sorted(unknown)}, which are no labels")
            auto = self.edges("auto")
            return {it: min(n, chunks.get(it, auto[it])) for it, n in self.extents.items()}
        if chunks == "auto":
            rank = max([len(self.output), *map(len, self.operands)], default=0)
            return {it: even_edge(n, {0: 64, 1: 4096, 2: 64, 3: 32, 4: 16}.get(rank, 4)) for it, n in self.extents.items()}
        if isinstance(chunks, int) and chunks > 0:
            return {it: min(n, chunks) for it, n in self.extents.items()}
        raise FormulaError(f"chunks={chunks!r} is neither \"auto\", nor an edge, nor edges by label")


def even_edge(extent: int, most: int) -> int:
    """An edge of at most so much that cuts an extent into tiles of nearly one length.

    Examples
    --------
    >>> even_edge(100, 64), even_edge(3, 64)
    (50, 3)
    """
    tiles = -(-extent // most)
    return -(-extent // tiles)


def _without_ellipses(parts: Sequence[str], right: str | None,
                      shapes: Sequence[Sequence[int]]) -> tuple[list[Labels], str | None]:
    """Labels in the place of ellipses, which are aligned at their ends."""
    used = set("".join(parts)) | set(right or "")
    fresh = [it for it in LETTERS if it not in used]
    lengths = [len(shape) - len(part.replace("...", "")) for part, shape in zip(parts, shapes)]
    longest = max((n for part, n in zip(parts, lengths) if "..." in part), default=0)
    if longest > len(fresh):
        raise FormulaError("there are too many labels for the dimensions of an ellipsis")
    dots, labels = fresh[:longest], []
    for k, (part, shape, length) in enumerate(zip(parts, shapes, lengths)):
        if length < 0 or (length and "..." not in part):
            raise FormulaError(f"operand {k} has {len(shape)} dimensions, and its subscripts {part!r} another number")
        labels.append(tuple(part.replace("...", "".join(dots[longest - length:]))))
    if right is None:
        single = sorted(it for it in used - {"."} if "".join(parts).count(it) == 1)
        return labels, "".join([*dots, *single])
    if "..." not in right and dots:
        raise FormulaError("the output has no ellipsis, and an operand has one that stands for dimensions")
    return labels, right.replace("...", "".join(dots))


def _implicit(labels: Sequence[Labels]) -> str:
    every = [it for of in labels for it in of]
    return "".join(sorted(it for it in set(every) if every.count(it) == 1))


def _extents(labels: Sequence[Labels], shapes: Sequence[Sequence[int]]) -> dict[str, int]:
    """The extent of each label; an extent of 1 goes with every other one."""
    extents: dict[str, int] = {}
    for k, (of, shape) in enumerate(zip(labels, shapes)):
        for label, n in zip(of, shape):
            known = extents.get(label, 1)
            if n != known and 1 not in (n, known):
                raise FormulaError(f"label {label!r} has the extent {known}, and {n} in operand {k}: give that axis another label, or "
                                   "an operand with as many elements along it")
            extents[label] = max(n, known) if n > 0 else 0
    if 0 in extents.values():
        raise FormulaError("an operand has no elements")
    return extents


def _narrowed(labels: Sequence[Labels], shapes: Sequence[Sequence[int]],
              extents: Mapping[str, int]) -> tuple[tuple[Labels, ...], tuple[tuple[int, ...], ...]]:
    """Each operand's labels without axes of extent 1 that stand for longer ones, and those axes."""
    dropped = tuple(tuple(d for d, (it, n) in enumerate(zip(of, shape)) if n == 1 < extents[it])
                    for of, shape in zip(labels, shapes))
    kept = tuple(tuple(it for d, it in enumerate(of) if d not in gone) for of, gone in zip(labels, dropped))
    for k, (of, gone, left) in enumerate(zip(labels, dropped, kept)):
        if any(of[d] in left for d in gone):
            raise FormulaError(f"operand {k} has a label twice, with different extents")
    return kept, dropped


def _for_numpy(operands: Sequence[Labels], output: Labels, extents: Mapping[str, int]) -> tuple[str, list[Any]]:
    """Subscripts of numpy's letters, and operands that take no memory."""
    every = list(dict.fromkeys(it for of in operands for it in of))
    if len(every) > len(LETTERS):
        raise FormulaError(f"numpy finds no path for {len(every)} labels: give one, as optimize=[(0, 1), ..]")
    letter = {it: it for it in every} if set(every) <= set(LETTERS) else dict(zip(every, LETTERS))
    text = ",".join("".join(letter[it] for it in of) for of in operands) + "->" + "".join(letter[it] for it in output)
    shapes = [tuple(extents[it] for it in of) for of in operands]
    return text, [numpy.broadcast_to(numpy.zeros((), "i1"), shape) for shape in shapes]


def _path(operands: Sequence[Labels], output: Labels, extents: Mapping[str, int], optimize: object) -> Path:
    """A path of items of one or two entries."""
    found: Any = optimize
    of_numpy = isinstance(found, (list, tuple)) and len(found) == 2 and isinstance(found[0], str) and isinstance(found[1], Real)
    if found is None or of_numpy or isinstance(found, (str, bool)):
        text, arrays = _for_numpy(operands, output, extents)
        try:
            found = numpy.einsum_path(text, *arrays, optimize=tuple(found) if of_numpy else found or False)[0]
        except (KeyError, TypeError):
            raise FormulaError(f"optimize={optimize!r} is no path that numpy finds: give \"greedy\", \"optimal\", or a path") from None
    try:
        items = [tuple(map(operator.index, it)) for it in found if not isinstance(it, str)]
    except TypeError:
        raise FormulaError(f"optimize={optimize!r} is no path: give \"greedy\", \"optimal\", or a list as [(1, 2), (0, 1)]") from None
    return _in_pairs(items, len(operands))


def _in_pairs(items: Sequence[tuple[int, ...]], count: int) -> Path:
    """Items of more than two entries, taken pair by pair from the left."""
    path: list[tuple[int, ...]] = []
    for k, item in enumerate(items):
        if not item or len(set(item)) != len(item) or any(not 0 <= at < count for at in item):
            raise FormulaError(f"item {k} of the path, {item}, does not fit: {count} entries are left, which are counted from 0")
        rest = list(item)
        while len(rest) > 2:
            pair = rest[:2]
            path.append(tuple(pair))
            rest = [count - 2, *(at - sum(gone < at for gone in pair) for at in rest[2:])]
            count -= 1
        path.append(tuple(rest))
        count -= len(rest) - 1
    if count != 1:
        raise FormulaError(f"the path leaves {count} entries, and one is wanted: each item puts one in the place of those that it takes")
    return tuple(path)
