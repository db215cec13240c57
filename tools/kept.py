"""What `rt` kept on this machine of the crates' proofs. Only rt's own functions know that, so they are asked for it, and what a
kit's rt lacks of them is done without: then the crates are proved."""
import copy
import importlib.machinery
import importlib.util
import os
import sys
import tempfile
import threading

# One call of rt's functions at a time: they share what they have looked up.
TURN = threading.Lock()


def load(path):
    """rt, as a module."""
    sys.path.insert(0, os.path.dirname(path))
    loader = importlib.machinery.SourceFileLoader("rt", path)
    rt = importlib.util.module_from_spec(importlib.util.spec_from_loader("rt", loader))
    sys.modules["rt"] = rt
    loader.exec_module(rt)
    return rt


class Kept:
    """What the gate and the checks kept."""

    def __init__(self, kit, top):
        self.rt, self.crates, self.gate = None, {}, None
        was = os.getcwd()
        try:
            os.chdir(top)
            self.rt = rt = load(kit.rt)
            rt.Crate.allowed = rt.handles_of(str(top))
            rt.rtlib.Crate = rt.Crate
            self.crates = {it.name: it for it in rt.rtlib.crates_below(str(top))}
            # (its first call sets a signal's handler, which only the main thread may)
            rt.rtlib.guarded()
            if hasattr(rt, "Kept"):
                self.gate = rt.Kept(list(self.crates.values()))
        except (Exception, SystemExit):  # pylint: disable=broad-except
            self.gate = None
        finally:
            os.chdir(was)

    def of_gate(self, name, folder, gives):
        """The library that stands in the folder, of which the keys of those above it have a sum, or where `gives` the one that a gate
        proved of these sources over the libraries asked for so far. Returns where it stands, or None."""
        if not self.gate or name not in self.crates:
            return None
        try:
            with TURN:
                crate = self.crates[name]
                place = copy.copy(crate)
                place.folder = str(folder)
                if not gives or self.gate.give(place, False, self.gate.key(crate)):
                    self.gate.is_built(place)
                    return f"{folder}/out/rlib/{name}.rlib"
        except (Exception, SystemExit):  # pylint: disable=broad-except
            pass
        return None

    def shares(self):
        """Has what checks keep shared among the checkouts of this machine, where rt can do so. Returns whether checks here kept
        work that goes on from."""
        try:
            if hasattr(self.rt, "share_work"):
                self.rt.share_work(True)
            return any([it.has_kept() for it in self.crates.values()])
        except (Exception, SystemExit):  # pylint: disable=broad-except
            return False

    def goes_on(self, name):
        """Proves a library over the work that checks kept, as `rt lib` does. Returns where it stands and what was said: the place is
        None where it is not proved."""
        crate, status = self.crates[name], 1
        with tempfile.TemporaryFile("w+", errors="replace") as crate.out:
            try:
                os.makedirs(f"{crate.folder}/out", exist_ok=True)
                status = crate.build_rlib(["--jobs", "1"], anew=False)
            except (Exception, SystemExit) as error:  # pylint: disable=broad-except
                print(error, file=crate.out)
            crate.out.seek(0)
            said = crate.out.read()
        return None if status else crate.rlib, said
