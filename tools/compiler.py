"""The toolchain's compiler, by its command line: proves a crate into a library, and proves the program and builds it. `rt` is
asked for nothing here but where the toolchain lies."""
import os
import pathlib
import shutil
import subprocess

import sources

TARGET = "x86_64-unknown-linux-gnu"
# What a library and the program are built by.
FLAGS = ("--crate-name", "--extern", "--antt-project", "--logic-built", "--statements", "--links", "--jobs", "--toolchain", "--cpu", "--backend")


class Failed(Exception):
    """A step ended otherwise than it should, with what it said."""


class Kit:
    """The toolchain whose `rt` stands on the path."""

    def __init__(self):
        self.rt = shutil.which("rt")
        if not self.rt:
            raise Failed("the Rattle toolchain's rt is not on the path")
        self.rt = os.path.realpath(self.rt)
        self.folder = os.path.dirname(os.path.dirname(self.rt))
        self.rattle = f"{self.folder}/bin/rattle"
        try:
            self.line = pathlib.Path(self.folder, "KIT-ID").read_text(encoding="utf-8").strip()
        except OSError:
            self.line = subprocess.run([self.rt, "version"], capture_output=True, text=True, check=False).stdout.strip()

    def lacks(self):
        """What is used of the compiler and this toolchain does not have."""
        try:
            said = subprocess.run([self.rattle, "build", "--help"], capture_output=True, text=True, check=False).stdout
        except OSError as error:
            return [str(error)]
        parts = ("bin/rattle-link", "toolchain/bin/clang", "rlibs", "logic_built", "rattle/logic/antt-project.json", "c/libos_c.a", "c/liblibc_c.a")
        return [it for it in FLAGS if it not in said] + [it for it in parts if not os.path.exists(f"{self.folder}/{it}")]

    def words(self, crate, places):
        """The compiler's words for a crate over the libraries that stand in these places."""
        words = ["--crate-name", crate.name, "src/main.rt" if crate.name == sources.PROGRAM else "src/lib.rt"]
        for name in ["std", *crate.of_kit]:
            words += ["--extern", f"{name}={self.folder}/rlibs/{name}.rlib"]
        words += ["-L", f"dependency={self.folder}/rlibs"]
        for dep in crate.deps:
            words += ["--extern", f"{dep.name}={places[dep.name]}"]
        for dep in crate.below():
            words += ["-L", f"dependency={os.path.dirname(places[dep.name])}"]
        words += ["--antt-project", f"{self.folder}/rattle/logic/antt-project.json", "--logic-built", f"{self.folder}/logic_built"]
        # One process for each crate: more of them took longer, also where nothing else was left to prove.
        return [*words, "--jobs", "1", "--links", f"{crate.name}="]

    def prove(self, crate, places, to):
        """Proves a library from nothing into the folder `to`: what the crates above cite of it, which these load much sooner than
        its proofs."""
        shutil.rmtree(to, ignore_errors=True)
        os.makedirs(os.path.dirname(to), exist_ok=True)
        run([self.rattle, "build", *self.words(crate, places), "--statements", "-o", str(to)], crate.folder)

    def build(self, crate, places, level, to):
        """Proves the program and builds it for a level of processors into the file `to`, without symbols, which nobody needs to run
        it. It is proved as it is built: a check of its own would read the code of all crates once more."""
        made = f"{to}.o"
        flags = [f"--cpu={level.name}", "--backend", level.backend, "--toolchain", f"{self.folder}/toolchain", "-o", made]
        try:
            run([self.rattle, "build", *self.words(crate, places), *flags], crate.folder)
            link = ["--target", TARGET, "--toolchain", f"{self.folder}/toolchain", "-o", f"{to}.new", made]
            run([f"{self.folder}/bin/rattle-link", *link, f"{self.folder}/c/libos_c.a", f"{self.folder}/c/liblibc_c.a"], crate.folder)
            self.strip(f"{to}.new")
            os.replace(f"{to}.new", to)
        finally:
            for it in (made, f"{to}.new"):
                pathlib.Path(it).unlink(missing_ok=True)

    def strip(self, file):
        """Drops the symbols of a program, by the toolchain's own tool: clang has the others in it and goes by the name that it is
        called by."""
        run(["llvm-strip", "--strip-all", file], os.path.dirname(file), executable=f"{self.folder}/toolchain/bin/clang")


# The steps that run, to be ended where this ends.
RUNNING = set()


def run(words, folder, executable=None):
    """Runs a step in a folder. Raises Failed with what it said where it fails."""
    with subprocess.Popen(words, executable=executable, cwd=folder, stdin=subprocess.DEVNULL, stdout=subprocess.PIPE,
                          stderr=subprocess.STDOUT, text=True, errors="replace") as step:
        RUNNING.add(step)
        try:
            said = step.communicate()[0]
        finally:
            RUNNING.discard(step)
    if step.returncode:
        raise Failed(f"{said}{os.path.basename(words[0])} ended with status {step.returncode}")


def end_all():
    """Ends the steps that still run."""
    for step in list(RUNNING):
        step.kill()
