"""One run of the program in a folder of files, and what it may leave."""
import dataclasses
import os
import pathlib
import re
import resource
import shutil
import signal
import subprocess
import tempfile

NAME = rb"[A-Za-z][A-Za-z0-9_]{0,15}"
FILE = rb"[A-Za-z0-9_./-]{1,204}"
NUMBER = rb"(?:0|[1-9][0-9]*)"
CLASSES = rb"(?:-|[A-Za-z0-9_,/]+)"

SPEC_FAULT = rb"|".join(
    [
        rb"bad text",
        rb"more than 32 operations",
        NAME + rb" declared twice",
        rb"unknown name " + NAME,
        rb"bad number",
        rb"limit of (?:ranges|indexes|tensors|rank|tile words|array words) passed",
        rb"rank of " + NAME + rb" differs",
        rb"range of " + NAME + rb" differs",
        rb"index " + NAME + rb" twice",
        NAME + rb" is result and operand",
        rb"no operation",
        rb"sum over absent " + NAME,
        rb"node [0-9]+ has (?:more than 10 loops|too many iterations)",
        rb"result indexes differ",
    ]
)

CERT_TROUBLE = rb"|".join(
    [
        rb"line [1-9][0-9]*: (?:bad text|does not fit the tree)",
        rb"node [0-9]+: (?:fusion not legal|loop order|size " + NUMBER + rb")",
        rb"memory " + NUMBER,
        rb"node [0-9]+: fused " + CLASSES + rb" classes " + CLASSES + rb" cost " + NUMBER + rb" not covered",
        rb"below total " + NUMBER,
    ]
)

# The line of each exit status but 0, as the README has them.
LINES = {
    1: rb"bad words",
    2: rb"too long|line [1-9][0-9]*: (?:" + SPEC_FAULT + rb")",
    3: rb"no file " + FILE,
    4: NAME + rb"\.tca: (?:length|head byte) " + NUMBER,
    5: rb"budget needs " + NUMBER,
    6: rb"intermediates " + NUMBER,
    7: CERT_TROUBLE,
    8: rb"disk fault",
    10: rb"want of memory",
    11: rb"flat length " + NUMBER,
    12: rb"no tensor " + NAME,
    13: rb"element " + NUMBER + rb" does not fit",
    14: rb"bad text|size of [a-z]|path item " + NUMBER + rb"|too long|line [1-9][0-9]*: (?:" + SPEC_FAULT + rb")",
    15: rb"32 tensors|piece [0-9]+ needs " + NUMBER,
    16: NAME + rb"\.sym: (?:length|head byte) " + NUMBER,
}

# What a process may have: bytes of stack, bytes of address space, seconds of processor time.
STACK = 2 * 1024 * 1024
SPACE = 32 * 1024 * 1024
SECONDS = 10


@dataclasses.dataclass(frozen=True)
class Outcome:
    """How a run ended: its status (below 0: the signal), what it put on standard output and standard error, and its
    seconds of processor time."""

    status: int
    text: bytes
    errors: bytes
    seconds: float

    def with_errors(self, errors):
        return dataclasses.replace(self, errors=errors)


def line_of(status):
    """The form of the whole error line of a status."""
    return re.compile(b"error %d: (?:" % status + LINES[status] + b")\n")


class Folder:
    """A folder with files in which the program runs, as a user for whom file modes count."""

    def __init__(self, program, files):
        self.top = pathlib.Path(tempfile.mkdtemp(prefix="hostile-"))
        self.program = self.top / "tce"
        shutil.copy(program, self.program)
        os.chmod(self.top, 0o755)
        self.user = 65534 if os.getuid() == 0 else None
        self.path = self.top / "work"
        self.fill(files)

    def fill(self, files):
        """Makes the folder anew with these files alone."""
        if self.path.exists():
            os.chmod(self.path, 0o755)
            shutil.rmtree(self.path)
        self.path.mkdir()
        for name, content in files.items():
            (self.path / name).write_bytes(content)
            self.give(self.path / name)
        self.give(self.path)

    def give(self, path):
        """Gives a file to the user of the program."""
        if self.user is not None:
            os.chown(path, self.user, self.user, follow_symlinks=False)

    def remove(self):
        os.chmod(self.path, 0o755)
        shutil.rmtree(self.top)

    def state(self):
        """Each name in the folder, with what it is, when it was last written, and what it holds."""
        found = {}
        for path in self.path.rglob("*"):
            about = path.lstat()
            kind = (about.st_mode, about.st_ino, about.st_mtime_ns, about.st_size)
            try:
                held = path.read_bytes() if path.is_file() and about.st_size < 1 << 20 else None
            except OSError:
                held = None
            found[str(path.relative_to(self.path))] = (kind, held)
        return found

    def run(self, words, stdout="pipe", stdin="null", limits=(), environment=None):
        """Runs the program. `stdout`: pipe, full, closed or unread. `stdin`: null or closed. `limits`: further ones."""
        text = out = None
        if stdout == "full":
            out = os.open("/dev/full", os.O_WRONLY)
        elif stdout == "unread":
            end, out = os.pipe()
            os.close(end)
        elif stdout == "pipe":
            text, out = os.pipe()
        who = {} if self.user is None else {"user": self.user, "group": self.user, "extra_groups": []}
        process = subprocess.Popen(
            [str(self.program), *words],
            cwd=self.path,
            stdin=subprocess.DEVNULL,
            stdout=out,
            stderr=subprocess.PIPE,
            preexec_fn=lambda: prepare(stdout, stdin, limits),
            env=environment or {},
            **who,
        )
        if out is not None:
            os.close(out)
        said = b"" if text is None else whole(os.fdopen(text, "rb"))
        errors = whole(process.stderr)
        _, status, used = os.wait4(process.pid, 0)
        process.returncode = os.waitstatus_to_exitcode(status)
        return Outcome(process.returncode, said, errors, used.ru_utime + used.ru_stime)


def whole(stream):
    with stream:
        return stream.read()


def prepare(stdout, stdin, limits):
    """What the new process does before it becomes the program."""
    bounds = {resource.RLIMIT_STACK: STACK, resource.RLIMIT_AS: SPACE, resource.RLIMIT_CPU: SECONDS}
    bounds[resource.RLIMIT_CORE] = 0
    for what, bound in (bounds | dict(limits)).items():
        resource.setrlimit(what, (bound, bound))
    signal.signal(signal.SIGPIPE, signal.SIG_DFL)
    if stdout == "closed":
        os.close(1)
    if stdin == "closed":
        os.close(0)
