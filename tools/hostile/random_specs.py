"""Random specifications: most are right, and the others break a rule of the formula."""

EXTENTS = [1, 1, 2, 2, 3, 5, 1000, 4294967295]


def random_spec(rng):
    """A specification over random ranges and indexes, with a random tree."""
    ranges = [("R%d" % turn, rng.choice(EXTENTS)) for turn in range(rng.randrange(1, 5))]
    indexes = ["i%d" % turn for turn in range(rng.choice([2, 3, 5, 8, 12, 24]))]
    of = {index: rng.choice(ranges)[0] for index in indexes}
    lines = [f"range {name} {extent}{tile(rng, extent)}" for name, extent in ranges]
    lines += [f"index {of[index]} {index}" for index in indexes]
    tensors = []
    dims, text = expression(rng, rng.choice([1, 1, 2, 3, 4, 6, 9, 31, 33]), indexes, of, tensors)
    result = [index for index in dims if rng.random() < 0.98]
    rng.shuffle(result)
    tensors.append([of[index] for index in result])
    lines += [f"tensor T{turn}[{','.join(ranges)}]" for turn, ranges in enumerate(tensors)]
    lines.append(f"T{len(tensors) - 1}[{','.join(result)}] = {text}")
    return ("\n".join(lines) + "\n").encode()


def tile(rng, extent):
    edge = rng.choice([1, 2, extent, 1 << 10, 1 << 20])
    return f" tile {edge}" if edge <= extent and rng.random() < 0.5 else ""


def leaf(rng, indexes, of, tensors):
    """A reference to a tensor, mostly a new one: its indexes and its text."""
    if rng.random() < 0.05:
        return [], str(rng.choice([0, 1, 7, 2**64 - 1]))
    listed = rng.sample(indexes, min(len(indexes), rng.choice([0, 1, 2, 2, 3, 4, 8])))
    if listed and rng.random() < 0.1:
        listed[-1] = listed[0]
    ranges = [of[index] for index in listed]
    if ranges not in tensors or (len(tensors) < 30 and rng.random() < 0.5):
        tensors.append(ranges)
    return sorted(set(listed)), f"T{tensors.index(ranges)}[{','.join(listed)}]"


def expression(rng, nodes, indexes, of, tensors):
    """An expression of so many operations: its indexes in order and its text."""
    if nodes == 0:
        return leaf(rng, indexes, of, tensors)
    if rng.random() < 0.4:
        dims, text = expression(rng, nodes - 1, indexes, of, tensors)
        summed = rng.sample(dims, min(len(dims), rng.choice([1, 1, 2, 3]))) or [rng.choice(indexes)]
        if rng.random() < 0.02:
            summed.append(rng.choice(indexes))
        return [index for index in dims if index not in summed], f"sum{{{','.join(summed)}}}({text})"
    left = rng.choice([0, (nodes - 1) // 2, nodes - 1, rng.randrange(nodes)])
    one, left_text = expression(rng, left, indexes, of, tensors)
    two, right_text = expression(rng, nodes - 1 - left, indexes, of, tensors)
    return sorted({*one, *two}), f"({left_text}) {rng.choice('***+-')} ({right_text})"
