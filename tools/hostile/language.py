"""A plain reader of specifications: the first fault of a text, or that it has none.

It is written from the description of the language alone, in another way than the program, and is slow.
"""
import re

BLANKS = b" \t"
TOKEN = re.compile(rb"[ \t]+|([A-Za-z][A-Za-z0-9_]*)|([0-9]+)(?![A-Za-z_])|([\[\]{}(),=*+\-])")
KEYWORDS = {b"range", b"tile", b"index", b"tensor", b"sum"}
MOST_OPEN = 64


class NoForm(Exception):
    """A line has none of the forms."""


class Fault(Exception):
    """The text that is printed of a fault, behind its line's number."""


def tokens_of(line):
    """The tokens of a line."""
    found, at = [], 0
    while at < len(line):
        token = TOKEN.match(line, at)
        if not token:
            raise NoForm
        at = token.end()
        if token.lastindex:
            found.append(token.group())
    return found


def is_name(token):
    return token[:1].isalpha() and len(token) <= 16 and token not in KEYWORDS


class Tokens:
    """Tokens that are taken from the left, with the number of parentheses that are open."""

    def __init__(self, tokens):
        self.tokens, self.at, self.open = tokens, 0, 0

    def next(self):
        return self.tokens[self.at] if self.at < len(self.tokens) else b""

    def take(self, *wanted):
        token = self.next()
        if token not in wanted:
            raise NoForm
        self.at += 1
        return token

    def name(self):
        token = self.next()
        if not token or not is_name(token):
            raise NoForm
        self.at += 1
        return token

    def number(self):
        token = self.next()
        if not token.isdigit():
            raise NoForm
        self.at += 1
        return token

    def names(self, close):
        """Names with commas between them, up to the closing bracket; there may be none before `]`."""
        found = []
        if close == b"]" and self.next() == close:
            self.at += 1
            return found
        while True:
            found.append(self.name())
            if self.take(b",", close) == close:
                return found


# An expression is ("leaf", tensor, indexes), ("number", digits), ("sum", indexes, operand) or (sign, left, right).


def reference(tokens):
    tensor = tokens.name()
    tokens.take(b"[")
    return ("leaf", tensor, tokens.names(b"]"))


def in_parentheses(tokens):
    tokens.take(b"(")
    tokens.open += 1
    if tokens.open > MOST_OPEN:
        raise NoForm
    inner = expression(tokens)
    tokens.take(b")")
    tokens.open -= 1
    return inner


def factor(tokens):
    token = tokens.next()
    if token == b"(":
        return in_parentheses(tokens)
    if token == b"sum":
        tokens.at += 1
        tokens.take(b"{")
        indexes = tokens.names(b"}")
        return ("sum", indexes, in_parentheses(tokens))
    if token.isdigit():
        return ("number", tokens.number())
    return reference(tokens)


def grouped(tokens, part, signs):
    left = part(tokens)
    while tokens.next() in signs:
        sign = tokens.take(*signs)
        left = (sign, left, part(tokens))
    return left


def expression(tokens):
    return grouped(tokens, lambda rest: grouped(rest, factor, (b"*",)), (b"+", b"-"))


def parts_of(whole):
    """All parts of an expression as they stand from the left, each before its operands."""
    found, left = [], [whole]
    while left:
        part = left.pop()
        found.append(part)
        left += [inner for inner in part[:0:-1] if isinstance(inner, tuple)]
    return found


def places_of(part):
    """The places of an expression from the left: ("tensor", name), ("index", name) or ("number", digits)."""
    kind = part[0]
    if kind == "leaf":
        return [("tensor", part[1]), *(("index", index) for index in part[2])]
    if kind == "number":
        return [part]
    if kind == "sum":
        return [*(("index", index) for index in part[1]), *places_of(part[2])]
    return places_of(part[1]) + places_of(part[2])


def second_standing(names):
    for at, name in enumerate(names):
        if name in names[:at]:
            return name
    return None


def in_words(name):
    return name.decode()


class Declared:
    """What the lines so far declare, by name: ranges (extent, edge), indexes (a range), tensors (ranges)."""

    def __init__(self):
        self.ranges, self.indexes, self.tensors = {}, {}, {}

    def range(self, tokens):
        name, numbers = tokens.name(), [tokens.number()]
        if tokens.next():
            tokens.take(b"tile")
            numbers.append(tokens.number())
        self.end(tokens)
        if name in self.ranges:
            raise Fault(f"{in_words(name)} declared twice")
        values = [int(digits) if len(digits) < 20 else 1 << 64 for digits in numbers]
        if any(digits[:1] == b"0" for digits in numbers) or max(values) >= 1 << 32 or values[0] < values[-1]:
            raise Fault("bad number")
        self.limit(len(self.ranges) == 16, "ranges")
        self.ranges[name] = (values[0], values[1] if len(values) == 2 else 1)

    def index(self, tokens):
        of, names = tokens.name(), [tokens.name()]
        while tokens.next():
            names.append(tokens.name())
        twice = next((name for at, name in enumerate(names) if name in self.indexes or name in names[:at]), None)
        if twice:
            raise Fault(f"{in_words(twice)} declared twice")
        self.known(of, self.ranges)
        self.limit(len(self.indexes) + len(names) > 24, "indexes")
        self.indexes.update({name: of for name in names})

    def tensor(self, tokens):
        name = tokens.name()
        tokens.take(b"[")
        ranges = tokens.names(b"]")
        self.end(tokens)
        if name in self.tensors:
            raise Fault(f"{in_words(name)} declared twice")
        for each in ranges:
            self.known(each, self.ranges)
        self.limit(len(self.tensors) == 32, "tensors")
        self.limit(len(ranges) > 8, "rank")
        tile = padded = 1
        for extent, edge in (self.ranges[each] for each in ranges):
            tile, padded = tile * edge, padded * edge * -(-extent // edge)
        self.limit(tile > 1 << 20, "tile words")
        self.limit(padded > 1 << 48, "array words")
        self.tensors[name] = ranges

    def formula(self, tokens):
        result = reference(tokens)
        tokens.take(b"=")
        whole = expression(tokens)
        self.end(tokens)
        parts = parts_of(whole)
        if sum(part[0] not in ("leaf", "number") for part in parts) > 32:
            raise Fault("more than 32 operations")
        places = places_of(result) + places_of(whole)
        self.places(places)
        leaves = [result] + [part for part in parts if part[0] == "leaf"]
        self.leaves(leaves)
        for names in [result[2]] + [part[1] for part in parts if part[0] == "sum"]:
            twice = second_standing(names)
            if twice:
                raise Fault(f"index {in_words(twice)} twice")
        if any(leaf[1] == result[1] for leaf in leaves[1:]):
            raise Fault(f"{in_words(result[1])} is result and operand")
        if set(result[2]) != self.tree(whole):
            raise Fault("result indexes differ")

    def places(self, places):
        for kind, name in places:
            if kind != "number":
                self.known(name, self.tensors if kind == "tensor" else self.indexes)
        for kind, digits in places:
            padded = digits[:1] == b"0" and len(digits) > 1
            if kind == "number" and (padded or len(digits) > 20 or int(digits) >= 1 << 64):
                raise Fault("bad number")

    def leaves(self, leaves):
        for _, tensor, indexes in leaves:
            if len(indexes) != len(self.tensors[tensor]):
                raise Fault(f"rank of {in_words(tensor)} differs")
        for _, tensor, indexes in leaves:
            for index, of in zip(indexes, self.tensors[tensor]):
                if self.indexes[index] != of:
                    raise Fault(f"range of {in_words(index)} differs")

    def tree(self, whole):
        """The indexes of the whole expression; the nodes are gone through in postorder."""
        if whole[0] in ("leaf", "number"):
            raise Fault("no operation")
        count = 0

        def dims(part):
            nonlocal count
            kind = part[0]
            if kind in ("leaf", "number"):
                return set(part[2]) if kind == "leaf" else set()
            operands = [dims(inner) for inner in part[1:] if isinstance(inner, tuple)]
            node, count = count, count + 1
            loops = set().union(*operands)
            summed = part[1] if kind == "sum" else []
            absent = next((index for index in summed if index not in loops), None)
            if absent:
                raise Fault(f"sum over absent {in_words(absent)}")
            if len(loops) > 10:
                raise Fault(f"node {node} has more than 10 loops")
            volume = 1
            for index in loops:
                volume *= self.ranges[self.indexes[index]][0]
            if volume > 1 << 90:
                raise Fault(f"node {node} has too many iterations")
            return loops - set(summed)

        return dims(whole)

    def known(self, name, names):
        if name not in names:
            raise Fault(f"unknown name {in_words(name)}")

    def limit(self, passed, which):
        if passed:
            raise Fault(f"limit of {which} passed")

    def end(self, tokens):
        if tokens.next():
            raise NoForm


def content_of(line):
    return (line[:-1] if line.endswith(b"\r") else line).partition(b"#")[0]


def contents_of(text):
    """The lines of a text without their comments. What follows the last line feed is one more unless it is empty."""
    lines = text.split(b"\n")
    last = lines.pop()
    return [content_of(line) for line in lines] + ([last.partition(b"#")[0]] if last else [])


def first_fault(text, declared=None):
    """The first fault of a text as its error line says it, or None where it is a specification. What it declares is put
    into `declared`."""
    if len(text) > 65_536:
        return "too long"
    contents = contents_of(text)
    declared, formula = declared or Declared(), False
    for number, content in enumerate(contents, 1):
        if not content.strip(BLANKS):
            continue
        try:
            if formula:
                raise NoForm
            formula = read_line(declared, Tokens(tokens_of(content)))
        except NoForm:
            return f"line {number}: bad text"
        except Fault as fault:
            return f"line {number}: {fault}"
    return None if formula else f"line {len(contents) + 1}: bad text"


def is_formula_line(content):
    """Whether a line has the form of a formula."""
    try:
        tokens = Tokens(tokens_of(content))
        reference(tokens)
        tokens.take(b"=")
        expression(tokens)
        return not tokens.next()
    except NoForm:
        return False


def first_fault_of_batch(text):
    """The first fault of a text with several formulas: each formula line is read with the content of the others dropped,
    and the first of these texts that has a fault decides."""
    if len(text) > 65_536:
        return "too long"
    contents, lines = contents_of(text), text.split(b"\n")
    formulas = [at for at, content in enumerate(contents) if is_formula_line(content)]
    for at in formulas[1:]:
        lines[at] = b""
    declared = Declared()
    fault = first_fault(b"\n".join(lines), declared)
    if fault:
        return fault
    # All declarations stand in front of the first formula.
    for at in formulas[1:]:
        try:
            declared.formula(Tokens(tokens_of(contents[at])))
        except Fault as found:
            return f"line {at + 1}: {found}"
    return None


def read_line(declared, tokens):
    """Reads one line; gives whether it is the formula."""
    first = tokens.next()
    if first not in (b"range", b"index", b"tensor"):
        declared.formula(tokens)
        return True
    tokens.at += 1
    {b"range": declared.range, b"index": declared.index, b"tensor": declared.tensor}[first](tokens)
    return False
