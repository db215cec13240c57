"""What the program is made of: the crates of crates.txt, a stamp of the sources, and release/MANIFEST, which names the released
files and the sources that they are of."""
import hashlib
import pathlib
import re

TOP = pathlib.Path(__file__).resolve().parent.parent
# The program's own crate, and where it stands once it was built here.
PROGRAM = "tce"
# Which sources the program was built of here, and beside which release. A gate empties each crate's out/, and leaves this.
BUILT = pathlib.Path("out/stamp")
RELEASE = pathlib.Path("release")
MANIFEST = RELEASE / "MANIFEST"


class Level:
    """A kind of processors, what compiles for it, and the flags of /proc/cpuinfo that it wants beyond those of the levels below."""

    def __init__(self, name, backend, flags):
        self.name, self.backend, self.flags = name, backend, set(flags.split())
        self.file = f"tce-{name}"


# Best first. LLVM is not taken for AVX-512: the toolchain has only Rattle's own compiler build for that.
LEVELS = (
    Level("x86-64-v4", "rattle", "avx512f avx512bw avx512cd avx512dq avx512vl"),
    Level("x86-64-v3", "llvm", "avx avx2 bmi1 bmi2 f16c fma abm movbe"),
    Level("x86-64-v2", "llvm", "cx16 lahf_lm pni popcnt sse4_1 sse4_2 ssse3"),
)
# Not released: only tools/build makes it, on a processor that is below the others.
BASELINE = Level("x86-64", "llvm", "")


def level_here():
    """The best level that this machine's processor has."""
    text = pathlib.Path("/proc/cpuinfo").read_text(encoding="ascii", errors="replace")
    found = re.search(r"^flags\s*:(.*)$", text, re.M)
    flags, best = set(found[1].split() if found else ()), BASELINE
    for level in reversed(LEVELS):
        if not level.flags <= flags:
            break
        best = level
    return best


def level_named(name):
    """The level of this name, or None."""
    return next((it for it in (*LEVELS, BASELINE) if it.name == name), None)


class Crate:
    """A line of crates.txt: a crate, and the libraries that it names, those of the repository and those of the kit."""

    def __init__(self, top, name, libraries, names):
        self.name, self.libraries = name, libraries
        self.folder = top / "crates" / name
        self.own = [it for it in libraries if it in names]
        self.of_kit = [it for it in libraries if it not in names]
        self.deps = []

    def below(self):
        """The repository's crates below this one, each behind those that it uses."""
        found = []
        for dep in self.deps:
            found += [it for it in [*dep.below(), dep] if it not in found]
        return found


def crates(top=TOP):
    """The crates that the program stands on, lowest first, and the program."""
    rows = {}
    for line in (top / "crates.txt").read_text(encoding="utf-8").splitlines():
        name, _, libraries = line.partition("#")[0].partition(":")
        if name.strip():
            rows[name.strip()] = libraries.replace(",", " ").split()
    made = {name: Crate(top, name, libraries, rows) for name, libraries in rows.items()}
    for crate in made.values():
        crate.deps = [made[it] for it in crate.own]
    program = made[PROGRAM]
    return [*program.below(), program]


def stamp_of(top=TOP):
    """A sum over all of the repository that goes into the program: of each crate that it stands on, by name, its line of
    crates.txt, comments and spaces left out, and its sources. Proofs, definitions, tests and edits do not go into it."""
    total = hashlib.sha256()
    for crate in sorted(crates(top), key=lambda it: it.name):
        total.update(f"crate {crate.name}: {' '.join(crate.libraries)}\n".encode())
        source = crate.folder / "src"
        for path in sorted(source.rglob("*.rt"), key=lambda it: it.relative_to(source).as_posix()):
            data = path.read_bytes()
            total.update(f"file {path.relative_to(source).as_posix()} {len(data)}\n".encode() + data)
    return total.hexdigest()


class Manifest:
    """release/MANIFEST, in lines of words:

    sources STAMP                            what stamp_of gives; it stands first, since `tce` reads this line alone
    kit WORDS                                the toolchain's line, as `rt version` prints it
    program FILE LEVEL COMPILER BYTES SUM    for each file, best level first: its name in release/, the processors that it is for,
                                             what compiled it (llvm or rattle), its length and its sha256
    """

    def __init__(self, sources, kit, programs):
        self.sources, self.kit, self.programs = sources, kit, programs

    def text(self):
        rows = [f"sources {self.sources}", f"kit {self.kit}"]
        return "\n".join([*rows, *(f"program {' '.join(map(str, it))}" for it in self.programs)]) + "\n"

    @classmethod
    def read(cls, top=TOP):
        """What stands there. A ValueError where it is no manifest, an OSError where it is not there."""
        lines = (top / MANIFEST).read_text(encoding="utf-8").splitlines()
        forms = (r"sources ([0-9a-f]{64})", r"kit (\S.*)", *[r"program (tce-\S+) (\S+) (llvm|rattle) (\d+) ([0-9a-f]{64})"] * len(LEVELS))
        found = [re.fullmatch(form, line) for form, line in zip(forms, lines)]
        if len(lines) != len(forms) or not all(found):
            raise ValueError(f"{MANIFEST} is no manifest: it has a line {cls.form(lines, found)}")
        programs = [(file, level, by, int(length), total) for file, level, by, length, total in (it.groups() for it in found[2:])]
        if [it[:3] for it in programs] != [(it.file, it.name, it.backend) for it in LEVELS]:
            raise ValueError(f"{MANIFEST} does not name the files {', '.join(it.file for it in LEVELS)}")
        return cls(found[0][1], found[1][1], programs)

    @staticmethod
    def form(lines, found):
        bad = next((line for line, it in zip(lines, found) if not it), None)
        return f"that it should not have: {bad[:80]}" if bad is not None else f"too few or too many: {len(lines)}"


def entry(level, data):
    """The row of a manifest for a file with these bytes."""
    return (level.file, level.name, level.backend, len(data), hashlib.sha256(data).hexdigest())
