"""Random changes of specifications, array files, flat files, certificates and words.

Each change takes a random generator and the bytes, and gives bytes. Most keep so much that the deep places of a reader
are met.
"""
import re
import struct

LIMITS = [0, 1, 2, 3, 7, 8, 9, 10, 11, 31, 32, 33, 1000, 1001, 65535, 65536, 2**20, 2**20 + 1, 2**31]
LIMITS += [2**32 - 1, 2**32, 2**40, 2**40 + 1, 2**48, 2**48 + 1, 2**63, 2**64 - 1, 2**64, 2**90, 2**96 - 1, 2**96]
ODD_NUMBERS = [b"00", b"01", b"007", b"-1", b"+1", b"1_0", b"0x1", b"1.0", b"9" * 20, b"9" * 21, b"1" * 5000]
KEYWORDS = [b"range", b"tile", b"index", b"tensor", b"sum"]
CERT_WORDS = [b"node", b"product", b"sum", b"add", b"sub", b"loops", b"fused", b"size", b"result", b"memory", b"table"]
CERT_WORDS += [b"row", b"end", b"-", b"/", b",", b"tce", b"certificate", b"i,j", b"i/j", b"j,i", b"i,-", b"-/i"]
SYMBOLS = [b"[", b"]", b"{", b"}", b"(", b")", b",", b"=", b"*", b"+", b"-", b"#", b"@", b";", b"\t", b"\x0b"]
SYMBOLS += [b"\xc2\xa0", b"/", b":"]
BYTES = [0, 9, 10, 11, 13, 27, 32, 35, 40, 41, 127, 128, 0xC3, 0xFE, 0xFF]
TOKEN = re.compile(rb"[A-Za-z][A-Za-z0-9_]*|[0-9]+|\s+|.", re.S)


def number(rng):
    return b"%d" % rng.choice(LIMITS) if rng.random() < 0.75 else rng.choice(ODD_NUMBERS)


def name(rng):
    letter = rng.choice(b"ABCDEIJKNVabcdefijklz_9")
    return bytes([letter]) * rng.choice([1, 1, 1, 2, 15, 16, 17, 255])


def place(rng, data):
    return rng.randrange(len(data) + 1)


# Changes of any bytes.


def flip(rng, data):
    at = place(rng, data)
    return data[:at] + bytes([rng.randrange(256)]) + data[at + 1 :]


def insert(rng, data):
    at = place(rng, data)
    return data[:at] + bytes([rng.choice(BYTES)]) * rng.choice([1, 1, 1, 2, 100]) + data[at:]


def cut(rng, data):
    return data[: place(rng, data)]


def drop_part(rng, data):
    at = place(rng, data)
    return data[:at] + data[at + rng.choice([1, 2, 8, 40]) :]


def double_part(rng, data):
    at = place(rng, data)
    return data[:at] + data[at : at + rng.choice([1, 2, 8, 40])] + data[at:]


def extend(rng, data):
    return data + bytes([rng.choice(BYTES)]) * rng.choice([1, 1, 7, 8, 64, 4096])


# Changes of texts.


def on_tokens(change):
    """The change of a text that changes its list of tokens."""

    def changed(rng, text):
        tokens = TOKEN.findall(text)
        places = [at for at, token in enumerate(tokens) if not token.isspace()]
        if places:
            change(rng, tokens, places)
        return b"".join(tokens)

    return changed


@on_tokens
def swap_tokens(rng, tokens, places):
    one, two = rng.choice(places), rng.choice(places)
    tokens[one], tokens[two] = tokens[two], tokens[one]


@on_tokens
def copy_token(rng, tokens, places):
    tokens[rng.choice(places)] = tokens[rng.choice(places)]


@on_tokens
def drop_token(rng, tokens, places):
    del tokens[rng.choice(places)]


@on_tokens
def double_token(rng, tokens, places):
    at = rng.choice(places)
    tokens.insert(at, tokens[at] + rng.choice([b"", b" "]))


@on_tokens
def other_token(rng, tokens, places):
    pools = [KEYWORDS, SYMBOLS, CERT_WORDS, [name(rng)], [number(rng)]]
    tokens[rng.choice(places)] = rng.choice(rng.choice(pools))


@on_tokens
def other_number(rng, tokens, places):
    numbers = [at for at in places if tokens[at].isdigit()]
    if numbers:
        tokens[rng.choice(numbers)] = number(rng)


@on_tokens
def rename(rng, tokens, places):
    names = [tokens[at] for at in places if tokens[at][:1].isalpha() and tokens[at] not in KEYWORDS + CERT_WORDS]
    if names:
        old, new = rng.choice(names), rng.choice([name(rng), rng.choice(names)])
        tokens[:] = [new if token == old else token for token in tokens]


@on_tokens
def blanks(rng, tokens, places):
    for _ in range(rng.choice([1, 5, 50])):
        tokens.insert(rng.randrange(len(tokens)), rng.choice([b" ", b"\t", b"  ", b" # ", b"\n"]))


def on_lines(change):
    """The change of a text that changes its list of lines."""

    def changed(rng, text):
        lines = text.splitlines(keepends=True)
        if lines:
            change(rng, lines)
        return b"".join(lines)

    return changed


@on_lines
def swap_lines(rng, lines):
    one, two = rng.randrange(len(lines)), rng.randrange(len(lines))
    lines[one], lines[two] = lines[two], lines[one]


@on_lines
def drop_line(rng, lines):
    del lines[rng.randrange(len(lines))]


@on_lines
def repeat_line(rng, lines):
    at = rng.randrange(len(lines))
    lines[at:at] = [lines[at]] * rng.choice([1, 2, 30, 1000])


@on_lines
def comment(rng, lines):
    skipped = [b"#\n", b"  # range N 2\n", b"\n", b" \t\n", b"\r\n", b"#\xff\0\n"]
    lines.insert(rng.randrange(len(lines) + 1), rng.choice(skipped))


def line_ends(rng, text):
    return text.replace(b"\n", rng.choice([b"\r\n", b"\r", b"\n\r", b"\r\r\n", b"\n\n", b" \n"]))


# Changes of specifications.


def parts_of_formula(text):
    """The text up to the last `=`, and its right side."""
    before, sign, right = text.rstrip(b"\n").rpartition(b"=")
    return (before + sign, right) if sign else (b"", text)


def parentheses(rng, text):
    left, right = parts_of_formula(text)
    count = rng.choice([1, 2, 60, 61, 62, 63, 64, 65, 66, 1000, 30000])
    lacking = rng.choice([0, 0, 0, 1, -1])
    return left + b"(" * count + right + b")" * (count - lacking) + b"\n"


def chain(rng, text):
    left, right = parts_of_formula(text)
    count = rng.choice([2, 28, 30, 31, 32, 33, 40, 2000])
    sign = rng.choice([b" * ", b" + ", b" - ", b"*"])
    again = rng.choice([right, b"(" + right + b")", b" 1", b" A[i]", b" 18446744073709551615"])
    return left + right + (sign + again) * count + b"\n"


def right_chain(rng, text):
    left, right = parts_of_formula(text)
    count = rng.choice([2, 30, 31, 62, 63, 64, 65, 2000])
    return left + (right + rng.choice([b" * (", b" + (", b" - ("])) * count + right + b")" * count + b"\n"


def sums(rng, text):
    left, right = parts_of_formula(text)
    count = rng.choice([1, 2, 31, 32, 33, 64, 65, 1000])
    head = rng.choice([b"sum{k}(", b"sum{}(", b"sum{i,i}(", b"sum{i,j}(", b"sum{" + b"k," * 30 + b"k}("])
    return left + head * count + right + b")" * count + b"\n"


def declarations(rng, text):
    count = rng.choice([1, 13, 14, 15, 16, 17, 22, 23, 24, 25, 28, 29, 30, 31, 32, 33, 500])
    kinds = [b"range Z%d 2\n", b"index N z%d\n", b"index I z%d\n", b"tensor Z%d[]\n", b"tensor Z%d[N]\n"]
    kind = rng.choice(kinds)
    return place_lines(rng, text, [kind % turn for turn in range(count)])


def place_lines(rng, text, more):
    lines = text.splitlines(keepends=True)
    at = rng.choice([0, rng.randrange(len(lines) + 1), max(0, len(lines) - 1)])
    return b"".join(lines[:at] + more + lines[at:])


def long_list(rng, text):
    count = rng.choice([7, 8, 9, 23, 24, 25, 10000])
    tensor = b"tensor Z[" + b",".join([b"N"] * count) + b"]\n"
    index = b"index N " + b" ".join(b"z%d" % turn for turn in range(count)) + b"\n"
    return place_lines(rng, text, [rng.choice([tensor, index])])


def pad(rng, text):
    size = rng.choice([65535, 65536, 65537, 70000])
    filling = rng.choice([b"#", b" ", b"\n", b"(", b"1", b"A[i] * "])
    padding = (filling * size)[: max(0, size - len(text))]
    return text + padding if rng.random() < 0.5 else padding + text


# Changes of array files.


def head_word(rng, data):
    at = 8 * rng.randrange(max(1, min(len(data) // 8, 7)))
    value = rng.choice(LIMITS) % 2**64
    return data[:at] + struct.pack("<Q", value) + data[at + 8 :]


def head_byte(rng, data):
    at = rng.randrange(max(1, min(len(data), 56)))
    return data[:at] + bytes([rng.choice([0, 1, 2, 0x31, 0x32, 0x7F, 0x80, 0xFF])]) + data[at + 1 :]


def second_version(rng, data):
    width = rng.choice([4, 4, 8, 8, 0, 1, 5, 2**63, 2**64 - 4])
    head = b"TCARRAY2" + data[8:16] + struct.pack("<Q", width)
    elements = data[16:]
    if width == 4 and rng.random() < 0.7:
        rank = min(8, int.from_bytes(data[8:16], "little"))
        shape, elements = data[16 : 16 + 16 * rank], data[16 + 16 * rank :]
        elements = shape + b"".join(elements[at : at + 4] for at in range(0, len(elements), 8))
    return head + elements


def large_element(rng, data):
    value = rng.choice([2**31 - 1, 2**31, 2**32 - 1, 2**63, 2**64 - 2**31, 2**64 - 2**31 - 1, 2**64 - 1])
    at = max(0, len(data) - 8 * rng.randrange(1, 8))
    return data[:at] + struct.pack("<Q", value) + data[at + 8 :]


BINARY = [flip, insert, cut, drop_part, double_part, extend]
TEXT = [flip, insert, cut, drop_part, double_part, line_ends, blanks, comment, swap_lines, drop_line, repeat_line]
TOKENS = [swap_tokens, copy_token, drop_token, double_token, other_token, other_number, rename]

CHANGES = {
    "tce": TEXT + 3 * TOKENS + 3 * [parentheses, chain, right_chain, sums, declarations, long_list] + [pad],
    "cert": TEXT + 4 * TOKENS,
    "tca": BINARY + 3 * [head_word, head_byte, second_version, large_element],
    "flat": BINARY + 2 * [large_element],
    "sym": BINARY + 2 * [large_element],
}


def changed_file(rng, suffix, data):
    """A file of this suffix with one to four changes, mostly one or two."""
    for _ in range(rng.choice([1, 1, 1, 1, 2, 2, 3, 4])):
        data = rng.choice(CHANGES[suffix])(rng, data)
    return data


def changed_words(rng, words):
    """The words of a command with one change; none holds the byte 0."""
    words = list(words)
    at = rng.randrange(len(words))
    changes = [flip, insert, cut, drop_part, double_part, other_token, other_number, rename]
    kind = rng.random()
    if kind < 0.1:
        del words[at]
    elif kind < 0.2:
        words.insert(at, rng.choice(words + [b"", b"-h", b"--help"]))
    elif kind < 0.3:
        others = [b"", b"A" * 16, b"A" * 17, b"a" * 100000, b"-", b"8", b"4"]
        words[at] = rng.choice([*others, b"./" + words[at], b"../work/" + words[at]])
    else:
        words[at] = rng.choice(changes)(rng, words[at])
    return [word.replace(b"\0", b"\1")[:100000] for word in words]
