"""A disk that says it is larger than it is, and a command whose output has many blocks."""
import dataclasses
import itertools
import pathlib
import shutil
import subprocess

from hostile.samples import COMMANDS, FILES, array

EXTENT, EDGE = 192, 8
SPEC = f"range N {EXTENT} tile {EDGE}\nindex N i j\ntensor A[N]\ntensor B[N]\ntensor C[N,N]\nC[i,j] = A[i] * B[j]\n"
NUMBERS = array([EXTENT], [EDGE], range(1, EXTENT + 1))


def products():
    """The elements of the outer product of the numbers, tile by tile."""
    for one, other in itertools.product(range(0, EXTENT, EDGE), repeat=2):
        yield from ((i + 1) * (j + 1) for i in range(one, one + EDGE) for j in range(other, other + EDGE))


LARGE = dataclasses.replace(COMMANDS[0], name="run of 288 KiB", words=(b"run", b"large.tce", b"1000"))
LARGE_FILES = {"large.tce": SPEC.encode(), "A.tca": NUMBERS, "B.tca": NUMBERS}
LARGE_OUTPUT = array([EXTENT, EXTENT], [EDGE, EDGE], products())


def files_of(command):
    """The files of a command."""
    return {**FILES, **LARGE_FILES} if command is LARGE else FILES


class ThinDisk:
    """A mounted disk that says it has 64 MiB, over a file in a memory of 8."""

    def __init__(self, folder):
        self.memory, self.top = folder / "memory", folder / "disk"
        self.memory.mkdir()
        self.top.mkdir()
        self.device = None

    def __enter__(self):
        subprocess.run(["mount", "-t", "tmpfs", "-o", "size=8m", "tmpfs", self.memory], check=True)
        image = self.memory / "image"
        with image.open("wb") as file:
            file.truncate(64 << 20)
        subprocess.run(["mkfs.ext4", "-q", "-b", "4096", "-O", "^has_journal", "-E", "nodiscard", image], check=True, capture_output=True)
        self.device = subprocess.run(["losetup", "--find", "--show", image], check=True, capture_output=True, text=True).stdout.strip()
        # a longer write of which a part is done would be taken for a whole one by the system
        pathlib.Path("/sys/block", pathlib.Path(self.device).name, "queue/max_sectors_kb").write_text("4")
        subprocess.run(["mount", self.device, self.top], check=True)
        return self

    def leave(self, kibibytes):
        """Leaves this much of the memory."""
        with (self.memory / "filler").open("wb") as file:
            file.write(bytes(max(shutil.disk_usage(self.memory).free - kibibytes * 1024, 0)))

    def again(self):
        """Has the disk as it is after the machine was started anew."""
        subprocess.run(["umount", self.top], check=True)
        (self.memory / "filler").unlink()
        subprocess.run(["mount", "-o", "ro", self.device, self.top], check=True)

    def __exit__(self, *_):
        subprocess.run(["umount", self.top], capture_output=True)
        if self.device:
            subprocess.run(["losetup", "--detach", self.device], capture_output=True)
        subprocess.run(["umount", self.memory], capture_output=True)
