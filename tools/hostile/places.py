"""Bad places: outputs that fail, files that cannot be used, and words that are none."""
import dataclasses
import os
import pathlib
import resource
import shutil
import typing

from hostile.language import first_fault_of_batch
from hostile.samples import FILES


def as_it_is(folder):
    """Arranges nothing."""


@dataclasses.dataclass(frozen=True)
class Case:
    """A bad place: how the folder is arranged, the words where they differ, how the program is run, the statuses that
    are due, and what becomes of the output: unchanged, complete, anything, or None for what the status says."""

    title: str
    due: set
    arrange: typing.Callable = as_it_is
    words: tuple = None
    how: dict = dataclasses.field(default_factory=dict)
    leaves: str = None


def cases(command):
    """All bad places of a command."""
    yield from failing_outputs(command)
    if command.reads:
        yield from refused_with_failing_outputs(command)
        yield from bad_paths(command)
    yield from closed_folders(command)
    yield from few_open_files(command)
    for name in command.reads:
        yield from bad_inputs(name)
        yield from cut_short(command, name)
    if command.output:
        yield from bad_outputs(command)
        yield from bad_output_paths(command)
    yield from bad_earlier(command)
    yield from bad_words(command)


# Standard output.


def failing_outputs(command):
    for stdout in ("full", "closed", "unread"):
        yield Case(f"standard output {stdout}", {9}, how={"stdout": stdout}, leaves="complete")
    how = {"stdout": "closed", "stdin": "closed"}
    yield Case("standard input and output closed", {9}, how=how, leaves="complete")


def refused_with_failing_outputs(command):
    spec = command.reads[0]
    for stdout in ("full", "closed", "unread"):
        how = {"stdout": stdout}
        yield Case(f"no specification and standard output {stdout}", {3}, without(spec), how=how)
        yield Case(f"one word and standard output {stdout}", {1}, words=command.words[:1], how=how)


# Arrangements.


def without(name):
    return lambda folder: (folder.path / name).unlink()


def with_mode(name, mode):
    return lambda folder: os.chmod(folder.path / name, mode)


def put(name, content):
    def arrange(folder):
        (folder.path / name).write_bytes(content)
        folder.give(folder.path / name)

    return arrange


def link(name, to):
    def arrange(folder):
        (folder.path / name).unlink(missing_ok=True)
        (folder.path / name).symlink_to(to)

    return arrange


def folder_at(name):
    def arrange(folder):
        (folder.path / name).unlink(missing_ok=True)
        (folder.path / name).mkdir()
        folder.give(folder.path / name)

    return arrange


def pipe_at(name):
    def arrange(folder):
        (folder.path / name).unlink(missing_ok=True)
        os.mkfifo(folder.path / name)
        folder.give(folder.path / name)

    return arrange


def sparse(name, size):
    return lambda folder: os.truncate(folder.path / name, size)


def in_turn(*arrangements):
    def arrange(folder):
        for each in arrangements:
            each(folder)

    return arrange


# The folder, and files that may not be opened.


def results_of(command):
    """The files that a command writes, the output last."""
    return [*(name for name, _ in command.earlier), command.output]


def closed_folders(command):
    shut = with_mode(".", 0o555)
    if command.output:
        there = in_turn(*(put(name, b"what was there before") for name in results_of(command)))
        yield Case("a read-only folder", {8}, shut, leaves="unchanged")
        yield Case("a read-only folder with the output in it", {8}, in_turn(there, shut), leaves="unchanged")
        yield Case("a read-only output", {8}, in_turn(there, with_mode(command.output, 0o444)), leaves="unchanged")
    else:
        yield Case("a read-only folder", {0}, shut)
    yield Case("a folder that may not be searched", {8}, with_mode(".", 0o600), leaves="unchanged")


def few_open_files(command):
    # with fewer the C library cannot be loaded
    for count in (4, 5, 6):
        limits = [(resource.RLIMIT_NOFILE, count)]
        yield Case(f"{count} open files at most", {0, 8}, how={"limits": limits})


# What stands in the place of a file that is read.

NO_FILE_OF_ITS_KIND = {"tce": {2}, "tca": {4}, "flat": {11}, "cert": {7}, "sym": {16}}


def bad_inputs(name):
    suffix = name.rpartition(".")[2]
    refused = NO_FILE_OF_ITS_KIND[suffix]
    elsewhere = in_turn(lambda folder: (folder.path / name).rename(folder.path / "elsewhere"), link(name, "elsewhere"))
    yield Case(f"no {name}", {3}, without(name))
    yield Case(f"{name} that may not be read", {8}, with_mode(name, 0))
    yield Case(f"a folder as {name}", {8}, folder_at(name), leaves="unchanged")
    yield Case(f"{name} that leads nowhere", {3}, link(name, "nowhere"))
    yield Case(f"{name} that leads to itself", {8}, link(name, name), leaves="unchanged")
    yield Case(f"an endless device as {name}", {8}, link(name, "/dev/zero"), leaves="unchanged")
    yield Case(f"an empty device as {name}", {8}, link(name, "/dev/null"), leaves="unchanged")
    yield Case(f"a pipe as {name}", {8}, pipe_at(name), leaves="unchanged")
    yield Case(f"{name} that leads elsewhere", {0}, elsewhere)
    yield Case(f"an empty {name}", refused, put(name, b""))
    yield Case(f"{name} with a byte more", refused | ({0} if suffix == "tce" else set()), put(name, FILES[name] + b" "))
    yield Case(f"{name} of 2^40 bytes", refused | ({10} if suffix == "cert" else set()), sparse(name, 1 << 40))
    if suffix == "tce":
        longest = FILES[name] + b"#" * (65_536 - len(FILES[name]))
        yield Case(f"{name} of 65,536 bytes", {0}, put(name, longest))
        yield Case(f"{name} of 65,537 bytes", {2}, put(name, longest + b"#"))


def cut_short(command, name):
    whole = FILES[name]
    refused = NO_FILE_OF_ITS_KIND[name.rpartition(".")[2]]
    for length in range(1, len(whole)):
        # the line feed behind a formula may be left out
        due = refused if length < len(whole) - 1 or not name.endswith(".tce") else {0}
        if command.name == "batch" and name.endswith(".tce"):
            # what is left may be a text with fewer formulas
            due = refused if first_fault_of_batch(whole[:length]) else {0}
        yield Case(f"{name} cut to {length} bytes", due, put(name, whole[:length]))


# What stands in the place of the file that is written.


def bad_outputs(command):
    name = command.output
    yield Case("a folder as the output", {8}, folder_at(name), leaves="unchanged")
    yield Case("an output in a folder that is not there", {8}, link(name, "none/there"), leaves="unchanged")
    yield Case("an output that leads to itself", {8}, link(name, name), leaves="unchanged")
    yield Case("a full device as the output", {8}, link(name, "/dev/full"), leaves="unchanged")
    yield Case("a pipe as the output", {8}, pipe_at(name), leaves="unchanged")
    yield Case("an output that was there", {0}, put(name, b"what was there before" * 1000), leaves="complete")


def bad_earlier(command):
    for name, _ in command.earlier:
        there = in_turn(put(name, b"what was there before"), with_mode(name, 0o444))
        yield Case(f"a folder as {name}", {8}, folder_at(name), leaves="unchanged")
        yield Case(f"a read-only {name}", {8}, there, leaves="unchanged")
        yield Case(f"a full device as {name}", {8}, link(name, "/dev/full"), leaves="unchanged")


# Paths.


def with_word(command, place, word):
    return (*command.words[:place], word, *command.words[place + 1 :])


def inner_folder(name, mode):
    def arrange(folder):
        (folder.path / "inner").mkdir()
        shutil.move(folder.path / name, folder.path / "inner" / name)
        folder.give(folder.path / "inner")
        os.chmod(folder.path / "inner", mode)

    return arrange


def bad_paths(command):
    spec = command.words[1]
    name = spec.decode()
    long_path = b"./" * 96 + b"a.tce"
    yield Case("a specification in a folder that is not there", {3}, words=with_word(command, 1, b"none/" + spec))
    yield Case("a specification below a file", {8}, words=with_word(command, 1, b"other.txt/" + spec))
    inner = with_word(command, 1, b"inner/" + spec)
    yield Case("a specification below a folder", {0}, inner_folder(name, 0o755), inner)
    yield Case("a specification in a closed folder", {8}, inner_folder(name, 0), inner, leaves="unchanged")
    yield Case("a specification by a long path", {3}, words=with_word(command, 1, long_path))
    yield Case("a specification of 200 bytes' name", {3}, words=with_word(command, 1, b"a" * 196 + b".tce"))
    yield Case("a specification of 201 bytes' name", {1}, words=with_word(command, 1, b"a" * 197 + b".tce"))


def bad_output_paths(command):
    last = len(command.words) - 1
    if command.words[last].decode() == command.output:
        words = with_word(command, last, b"none/" + command.words[last])
        yield Case("an output in a folder that is not there, by its word", {8}, words=words, leaves="unchanged")
        words = with_word(command, last, b"other.txt/" + command.words[last])
        yield Case("an output below a file", {8}, words=words, leaves="unchanged")


# Words.


def bad_words(command):
    words = command.words
    yield Case("no words", {1}, words=())
    yield Case("ten thousand words", {1}, words=words + (b"a",) * 10_000)
    for place, word in enumerate(words):
        for what, bad in (
            ("with a byte that is no text", word + b"\xff"),
            ("of a byte that is no text", b"\x80"),
        ):
            yield Case(f"word {place} {what}", {1}, words=with_word(command, place, bad))
        for what, bad in (
            ("empty", b""),
            ("long", b"a" * 100_000),
            ("with a letter beyond ASCII", "é".encode() + word),
            ("with a line feed", word + b"\n"),
            ("with a control byte", b"\x01" + word),
            ("with a blank", b" " + word),
        ):
            due = {14} if place in command.free else {1}
            yield Case(f"word {place} {what}", due, words=with_word(command, place, bad))
        yield Case(f"without word {place}", {1}, words=words[:place] + words[place + 1 :])
        yield Case(f"word {place} twice", {1}, words=words[: place + 1] + words[place:])
