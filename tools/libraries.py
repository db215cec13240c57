"""The libraries that the program stands on, proved side by side, the longest way to the program first. One that was proved before
of the same files, over the same libraries, is taken as it stands."""
import contextlib
import fcntl
import hashlib
import os
import pathlib
import re
import shutil
import threading

import kept
import sources
from compiler import Failed, end_all

# What a check of a large crate takes.
CHECK_BYTES = 3_000_000_000
# What a proof takes that no table tells.
NEW_SECONDS = 60
# What is proved from nothing, in seconds, also where checks kept work: to have all libraries with their proofs would take longer.
FEW_SECONDS = 300
PARTS = ("src", "specs", "proofs")


def processors():
    """As many as the machine has, within its memory."""
    count = os.cpu_count() or 1
    try:
        with open("/proc/meminfo", encoding="ascii") as lines:
            free = next(int(line.split()[1]) for line in lines if line.startswith("MemAvailable"))
        count = min(count, free * 1024 // CHECK_BYTES)
    except (OSError, StopIteration, ValueError):
        pass
    return max(count, 1)


def measured_seconds(top):
    """What the proof of each crate takes, by the table that bench/gate.sh printed."""
    rows = re.findall(r"^\| (\w+) \| (\d+) \|", (top / "bench/seconds.txt").read_text(encoding="utf-8"), re.M)
    return {name: int(seconds) for name, seconds in rows}


@contextlib.contextmanager
def locked(crates):
    """Keeps rt, and another call of the tools, out of these crates' folders, as rt does."""
    with contextlib.ExitStack() as held:
        for folder in sorted(os.path.realpath(it.folder) for it in crates):
            lock = os.open(folder, os.O_RDONLY)
            held.callback(os.close, lock)
            try:
                fcntl.flock(lock, fcntl.LOCK_EX | fcntl.LOCK_NB)
            except BlockingIOError:
                print(f"tce: waits for another call that works in {folder}", flush=True)
                fcntl.flock(lock, fcntl.LOCK_EX)
            except OSError:
                # Some file systems have no locks.
                pass
        yield


class Libraries:
    """Where each library stands, once it was taken or proved."""

    def __init__(self, kit, top=sources.TOP, anew=False):
        self.kit, self.top, self.anew = kit, top, anew
        *self.crates, self.program = sources.crates(top)
        self.places, self.left = {}, set()
        self.kept = None if anew else kept.Kept(kit, top)
        self.goes_on = False
        self.turn = threading.Condition()
        self.running, self.failed = set(), None
        self.seconds = measured_seconds(top)
        self.ahead = self.ways()

    def ways(self):
        """The seconds of the longest way from each crate to the program."""
        ahead = {}
        for crate in reversed(self.crates):
            above = [ahead[it] for it in ahead if crate in it.below()]
            ahead[crate] = self.seconds.get(crate.name, NEW_SECONDS) + max(above, default=0)
        return ahead

    def own_place(self, crate):
        """Where this tool keeps a library. (The inner out/rlib is where rt's functions look.)"""
        return crate.folder / "out/for-program"

    def mark(self, crate):
        """A sum of all that a library is made from: the toolchain, the crate's files, and the libraries below as they stand."""
        total = hashlib.sha256(repr((self.kit.line, crate.name, crate.libraries)).encode())
        for path in self.files(crate):
            total.update(repr((str(path.relative_to(crate.folder)), path.read_bytes())).encode())
        for dep in crate.below():
            # (a library's file format holds a sum of its other files)
            total.update(pathlib.Path(self.places[dep.name], "format").read_bytes())
        return total.hexdigest()

    @staticmethod
    def files(crate):
        return [it for part in PARTS for it in sorted((crate.folder / part).rglob("*")) if it.is_file()]

    def find(self, crate):
        """Takes the library of a crate from what was proved before, where all below were found. Returns whether it could."""
        if self.anew or not all(it.name in self.places for it in crate.below()):
            return False
        own = self.own_place(crate)
        rlib, mark = own / f"out/rlib/{crate.name}.rlib", own / "mark"
        if mark.is_file() and mark.read_text(encoding="utf-8") == self.mark(crate):
            self.kept.of_gate(crate.name, own, gives=False)
            self.places[crate.name] = rlib
            return True
        shutil.rmtree(own, ignore_errors=True)
        if self.kept.of_gate(crate.name, own, gives=True):
            self.places[crate.name] = rlib
            mark.write_text(self.mark(crate), encoding="utf-8")
        elif self.is_left(crate):
            self.left.add(crate.name)
            self.places[crate.name] = crate.folder / f"out/rlib/{crate.name}.rlib"
        return crate.name in self.places

    def is_left(self, crate):
        """Whether a gate left the crate's library in its out/, and neither a file of the crate nor one below changed since. (What
        rt's other commands leave there has a stamp beside it, and holds all proofs.)"""
        rlib = crate.folder / f"out/rlib/{crate.name}.rlib"
        if (rlib.parent / "stamp").exists() or not (rlib / "format").is_file():
            return False
        made = rlib.stat().st_mtime
        walked = [self.top / "crates.txt", *(it for part in PARTS for it in [crate.folder / part, *(crate.folder / part).rglob("*")] if it.exists())]
        return all(it.stat().st_mtime < made for it in walked) and all(
            it.name in self.left and self.places[it.name].stat().st_mtime <= made for it in crate.below())

    def ready(self):
        """The crates that can be proved now, the longest way ahead first."""
        free = [it for it in self.crates if it.name not in self.places and it not in self.running]
        return sorted((it for it in free if all(low.name in self.places for low in it.below())), key=lambda it: -self.ahead[it])

    def prove(self, crate):
        """Proves a crate, and says how far all are."""
        place, said = None, ""
        try:
            if self.goes_on:
                place, said = self.kept.goes_on(crate.name)
            else:
                place = self.own_place(crate) / f"out/rlib/{crate.name}.rlib"
                mark = self.mark(crate)
                self.kit.prove(crate, self.places, place)
                # (where a file changed meanwhile, nobody knows what was proved)
                if self.mark(crate) == mark:
                    (self.own_place(crate) / "mark").write_text(mark, encoding="utf-8")
        except (Failed, OSError) as error:
            place, said = None, str(error)
        with self.turn:
            self.running.remove(crate)
            if place:
                self.places[crate.name] = place
            else:
                self.failed = self.failed or crate
                print(said, flush=True)
            print(f"tce: crate {len(self.places)} of {len(self.crates) + 1}: {crate.name}{'' if place else ' is not proved'}", flush=True)
            self.turn.notify_all()

    def take_or_prove(self):
        """Has all libraries stand. Returns their places, and raises Failed where one is not proved."""
        found = sum([self.find(it) for it in self.crates])
        lacking = sum(self.seconds.get(it.name, NEW_SECONDS) for it in self.crates if it.name not in self.places)
        if lacking > FEW_SECONDS and self.kept and self.kept.shares():
            # (over the work that checks kept all libraries hold their proofs, so none is taken that does not)
            self.goes_on, self.places, self.left, found = True, {}, set(), 0
        jobs = processors()
        if found < len(self.crates):
            print(f"tce: {found} of {len(self.crates) + 1} crates are proved already; proves the others, {jobs} at a time. "
                  "From nothing this takes 15 to 30 minutes on four processors", flush=True)
        try:
            self.prove_all(jobs)
        except BaseException:
            end_all()
            raise
        if self.failed:
            raise Failed(f"{self.failed.name} is not proved")
        return self.places

    def prove_all(self, jobs):
        with self.turn:
            while not self.failed and len(self.places) < len(self.crates):
                ready = self.ready()
                if ready and len(self.running) < jobs:
                    self.running.add(ready[0])
                    threading.Thread(target=self.prove, args=(ready[0],), daemon=True).start()
                else:
                    self.turn.wait()
            while self.running:
                self.turn.wait()


def over_libraries(kit, act, top=sources.TOP, anew=False):
    """What `act` gives over the libraries. Where what a gate left here does not serve, which only times speak for, all is proved."""
    with locked(sources.crates(top)):
        libraries = Libraries(kit, top, anew)
        try:
            return act(libraries.take_or_prove(), libraries.program)
        except Failed:
            if not libraries.left:
                raise
            print("tce: what a gate left in out/ does not serve, so it is not taken", flush=True)
        libraries = Libraries(kit, top, anew=True)
        return act(libraries.take_or_prove(), libraries.program)
