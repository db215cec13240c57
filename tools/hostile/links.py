"""Folders in which one file has several names, and what a command leaves in them.

The model is that of a disk: a folder is a map from paths to files, links and folders. An output goes to the place to which its
name leads, where a new file comes in the place of an old one; nothing else changes. It is refused, before it changes anything,
where it would take the place of a file that the command knows by another name: one that it reads, by the file's own name, or one
that it made. Second names of a file, and links to it, are no such names.
"""
import dataclasses
import os
import shutil
import typing

# As many links as the system follows.
MOST_LINKS = 40


def snapshot(top):
    """Each path below a folder with what it is: a link with its text, a file with its bytes, or something else."""
    found = {}
    for path in sorted(top.rglob("*")):
        name = str(path.relative_to(top))
        if path.is_symlink():
            found[name] = ("link", os.readlink(path))
        elif path.is_file():
            found[name] = ("file", path.read_bytes())
        else:
            found[name] = ("other", path.lstat().st_mode)
    return found


def own_place(folder, name):
    """Where a name stands itself, be it a link."""
    path = folder / name
    return os.path.join(os.path.realpath(path.parent), path.name)


def place_of(folder, name):
    """Where a name leads, or None where there is no place for a file."""
    path = str(folder / name)
    for _ in range(MOST_LINKS):
        if not os.path.islink(path):
            break
        path = os.path.join(os.path.dirname(path), os.readlink(path))
    else:
        return None
    parent = os.path.realpath(os.path.dirname(path))
    if not os.path.isdir(parent) or (os.path.lexists(path) and not os.path.isfile(path)):
        return None
    return os.path.join(parent, os.path.basename(path))


def expected(folder, elsewhere, inputs, outputs):
    """The status that is due, and the states of the folder and of the one elsewhere. `outputs`: names with bytes, in order."""
    states = {str(top): snapshot(top) for top in (folder, elsewhere)}
    known = {name: own_place(folder, name) for name in inputs}
    for name, content in outputs:
        place = place_of(folder, name)
        if place is None or any(place == other for known_as, other in known.items() if known_as != name):
            return 8, states
        known[name] = place
        for top, state in states.items():
            if place.startswith(top + "/"):
                state[place.removeprefix(top + "/")] = ("file", content)
    return 0, states


@dataclasses.dataclass(frozen=True)
class Arrangement:
    """How names are linked before a command runs."""

    title: str
    arrange: typing.Callable


def old_file(folder, name):
    """Sees to it that there is a file of this name, which is no array."""
    if not os.path.lexists(folder.path / name):
        (folder.path / name).write_bytes(b"what was there before")
        folder.give(folder.path / name)


def removed(folder, name):
    (folder.path / name).unlink(missing_ok=True)


def linked(folder, name, text):
    removed(folder, name)
    (folder.path / name).symlink_to(text)
    folder.give(folder.path / name)


def hard(name, to):
    def arrange(folder, _):
        old_file(folder, to)
        removed(folder, name)
        os.link(folder.path / to, folder.path / name)

    return arrange


def symbolic(name, to, text=None):
    def arrange(folder, _):
        linked(folder, name, text or to)

    return arrange


def absolute(name, to):
    def arrange(folder, _):
        linked(folder, name, folder.path / to)

    return arrange


def chain(name, to):
    def arrange(folder, _):
        linked(folder, "first", "second")
        linked(folder, "second", folder.path / to)
        linked(folder, name, "first")

    return arrange


def over_folder(name, to):
    def arrange(folder, _):
        linked(folder, "around", ".")
        linked(folder, name, f"around/around/{to}")

    return arrange


def both(name, to):
    """The other name becomes a link to where its file is moved, and this one too."""

    def arrange(folder, elsewhere):
        old_file(folder, to)
        shutil.move(folder.path / to, elsewhere / "moved")
        folder.give(elsewhere / "moved")
        linked(folder, to, elsewhere / "moved")
        linked(folder, name, elsewhere / "moved")

    return arrange


def reverse(name, to):
    """The other name becomes a link to this one, which has its file."""

    def arrange(folder, _):
        old_file(folder, to)
        removed(folder, name)
        (folder.path / to).rename(folder.path / name)
        linked(folder, to, name)

    return arrange


def beside(name, to):
    """The same with a second name of the file."""

    def arrange(folder, elsewhere):
        reverse(name, to)(folder, elsewhere)
        os.link(folder.path / name, folder.path / "second-name")

    return arrange


PAIRS = {
    "a second name of": hard,
    "a link to": symbolic,
    "a link by a whole path to": absolute,
    "a chain of links to": chain,
    "a link over linked folders to": over_folder,
    "a link to the same file as": both,
    "the file behind the link": reverse,
    "the file, with a second name, behind the link": beside,
}


def made_elsewhere(name):
    return lambda folder, elsewhere: linked(folder, name, elsewhere / "new")


def looped(name):
    def arrange(folder, _):
        linked(folder, "first", name)
        linked(folder, name, "first")

    return arrange


ALONE = {
    "no link": lambda name: lambda folder, _: None,
    "an old file": lambda name: lambda folder, _: old_file(folder, name),
    "a link to nothing": lambda name: symbolic(name, "nothing"),
    "a link to nothing on another disk": made_elsewhere,
    "a link into a folder that is not there": lambda name: symbolic(name, "none/there"),
    "a link to a folder": lambda name: symbolic(name, "."),
    "a link to itself": lambda name: symbolic(name, name),
    "a loop of links": looped,
}


def arrangements(inputs, outputs):
    """All links of each output to each input, to each other output and to a stranger's file, and of each output alone."""
    for name in outputs:
        for title, arrange in ALONE.items():
            yield Arrangement(f"{name}: {title}", arrange(name))
        for to in dict.fromkeys([*inputs, *outputs, "other.txt"]):
            if to != name:
                for title, arrange in PAIRS.items():
                    yield Arrangement(f"{name}: {title} {to}", arrange(name, to))
