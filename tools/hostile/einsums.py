"""A plain reader of einsums: the text that an einsum and a path produce, or the line that refuses them; and random ones.

It is written from the description of the command alone, in another way than the program.
"""
import re

from hostile.language import first_fault

NUMBER = r"(?:0|[1-9][0-9]{0,19})"
SIZE = rf"([a-z])=({NUMBER})(?:/({NUMBER}))?"
TEXT = re.compile(rf"([a-z]*(?:,[a-z]*)*)->([a-z]*)@((?:{SIZE}(?:,{SIZE})*)?)", re.A)
LETTERS = "abcdefghijklmnopqrstuvwxyz"


class Refused(Exception):
    """What the line says behind `error 14: `."""


def parts_of(text):
    """The operands, the output, and the label, the extent and the edge of each size."""
    try:
        found = TEXT.fullmatch(text.decode("ascii"))
    except UnicodeDecodeError:
        found = None
    if not found:
        raise Refused("bad text")
    operands, output, sizes = found.group(1).split(","), found.group(2), re.findall(SIZE, found.group(3))
    return operands, output, [(label, extent, edge or "1") for label, extent, edge in sizes]


def positions_of(item, count):
    """The positions of an item in a list of so many entries, or None."""
    if not re.fullmatch(rf"{NUMBER}(?:,{NUMBER})?", item, re.A):
        return None
    positions = [int(digits) for digits in item.split(",")]
    return positions if max(positions) < count and len(set(positions)) == len(positions) else None


def contracted(operands, output, order, path):
    """The text of the one entry that the path leaves. An entry is its text, its labels, and whether it is a product."""
    entries = [(f"X{number}[{','.join(labels)}]", set(labels), False) for number, labels in enumerate(operands)]
    items = path.decode("ascii", "replace").split(";")
    for number, item in enumerate(items):
        positions = positions_of(item, len(entries))
        if positions is None:
            raise Refused(f"path item {number}")
        taken = [entries[at] for at in positions]
        entries = [entry for at, entry in enumerate(entries) if at not in positions]
        text, labels, product = taken[0]
        if len(taken) == 2:
            right = f"({taken[1][0]})" if taken[1][2] else taken[1][0]
            text, labels, product = f"{text} * {right}", labels | taken[1][1], True
        kept = set(output).union(*(entry[1] for entry in entries))
        summed = [label for label in order if label in labels - kept]
        if summed:
            text, labels, product = f"sum{{{','.join(summed)}}}({text})", labels - set(summed), False
        entries.append((text, labels, product))
    if len(entries) > 1:
        raise Refused(f"path item {len(items)}")
    return entries[0][0]


def index_lines(sizes, number_of):
    """The lines of the indexes: neighbours of one range stand together."""
    lines, last = [], None
    for label, *pair in sizes:
        number = number_of(pair)
        if number == last:
            lines[-1] += f" {label}"
        else:
            lines.append(f"index N{number} {label}")
        last = number
    return lines


def produced(text, path):
    """The text that an einsum and a path produce."""
    operands, output, sizes = parts_of(text)
    order = [label for label, _, _ in sizes]
    standing = set("".join(operands) + output)
    for label in LETTERS:
        if order.count(label) != (label in standing):
            raise Refused(f"size of {label}")
    formula = contracted(operands, output, order, path)
    pairs = list(dict.fromkeys((extent, edge) for _, extent, edge in sizes))
    number = {label: pairs.index((extent, edge)) for label, extent, edge in sizes}
    tiles = ["" if edge == "1" else f" tile {edge}" for _, edge in pairs]
    lines = [f"range N{at} {extent}{tiles[at]}" for at, (extent, _) in enumerate(pairs)]
    lines += index_lines(sizes, lambda pair: pairs.index(tuple(pair)))
    named = [*((f"X{at}", labels) for at, labels in enumerate(operands)), ("Y", output)]
    lines += [f"tensor {name}[{','.join(f'N{number[label]}' for label in labels)}]" for name, labels in named]
    lines.append(f"Y[{','.join(output)}] = {formula}")
    return ("\n".join(lines) + "\n").encode()


def outcome(text, path):
    """The exit status, and the line of a refusal or the bytes that are written."""
    try:
        made = produced(text, path)
        fault = first_fault(made)
        if fault:
            raise Refused(fault)
    except Refused as refused:
        return 14, f"error 14: {refused}\n".encode()
    return 0, made


# Random einsums.

EXTENTS = ["1", "2", "2", "3", "1000", "4294967295", "4294967296", "0", "2/2", "3/2", "2/3", "9" * 20]


def random_einsum(rng):
    """A text and a path, which are mostly right."""
    letters = rng.sample(LETTERS, rng.choice([1, 2, 3, 4, 6, 10, 25, 26]))
    count = rng.choice([1, 2, 2, 3, 3, 4, 6, 31, 32, 400])
    operands = ["".join(rng.choices(letters, k=rng.choice([0, 1, 1, 2, 2, 2, 2, 3, 3, 4, 8] + [9] * (rng.random() < 0.05)))) for _ in range(count)]
    standing = sorted(set("".join(operands)))
    output = rng.sample(standing, min(len(standing), rng.choice([0, 1, 2, 2, 8])))
    rng.shuffle(standing)
    few = rng.sample(EXTENTS[:5], rng.choice([1, 2, 3]))
    sizes = [f"{label}={rng.choice(few if rng.random() < 0.97 else EXTENTS)}" for label in standing]
    text = f"{','.join(operands)}->{''.join(output)}@{','.join(sizes)}"
    return text.encode(), random_path(rng, count).encode()


def random_path(rng, count):
    """A path over so many entries that leaves one, with an item too many or too few at times."""
    items = []
    while count > 1:
        if rng.random() < 0.05:
            items.append(str(rng.randrange(count)))
            continue
        items.append(",".join(map(str, rng.sample(range(count), 2))))
        count -= 1
    if not items or rng.random() < 0.05:
        items.append(rng.choice(["0", "0", "1", "0,0", ""]))
    if rng.random() < 0.05:
        items.pop()
    return ";".join(items)


MARKS = [b",", b";", b"->", b"@", b"=", b"/", b" ", b"A", b"\xc3\xa9", b"\t", b"0", b"1", b"00", b"99999999999999999999", b"i", b"z", b"-"]


def changed(rng, word):
    """A word with one to three bytes put in, left out or doubled."""
    for _ in range(rng.choice([1, 1, 2, 3])):
        at = rng.randrange(len(word) + 1)
        put = rng.choice([b"", rng.choice(MARKS), word[at : at + rng.choice([1, 2, 6])] * 2])
        word = word[:at] + put + word[at + rng.choice([0, 1, 1, 3]) :]
    return word
