#!/bin/sh
# Runs the gate, `rt ci`, and prints the processor seconds of each crate's proof, tests and edits, dearest first, and of the
# dearest single edits.
# usage: bench/gate.sh [--anew] [NAME ..] [> table]      What rt says goes to standard error.
# Where an earlier run keeps what a crate needs, its columns show what this run did alone: --anew proves all. Where the kit's rt
# keeps nothing and has no --anew, as that of 13b, each run proves all, and --anew is left out. The times come by what rt calls inside;
# where a kit's rt has another inside, the gate runs as well, and the tables are empty or have no edits.
cd "$(dirname "$0")/.." || exit 1
log=$(mktemp)
trap 'rm -f "$log"' EXIT
python3 - "$(readlink -f "$(command -v rt)")" "$log" "$@" <<'END' >&2
import importlib.machinery
import importlib.util
import os
import sys
import threading

path, log, *words = sys.argv[1:]
sys.path.insert(0, path.rpartition("/")[0])
loader = importlib.machinery.SourceFileLoader("rt", path)
rt = importlib.util.module_from_spec(importlib.util.spec_from_loader("rt", loader))
sys.modules["rt"] = rt
sys.argv = [path, "ci", *words]
loader.exec_module(rt)
if "--anew" in words and "--anew" not in (rt.__doc__ or ""):
    print("gate: rt ci has no --anew here: it keeps nothing, and proves all")
    words = [it for it in words if it != "--anew"]
if not hasattr(rt, "main") or not hasattr(getattr(rt, "rtlib", None), "guarded"):
    print("gate: this rt has another inside: no times are taken")
    os.execv(path, [path, "ci", *words])

# A check of rattle: its crate, what it is for, its processor and wall seconds, and the edit that it tries.
TIMED = """
import os, sys, time
log, edit, words, began = sys.argv[1], sys.argv[2], sys.argv[3:], time.time()
child = os.fork()
if not child:
    os.execvp(words[0], words)
_, status, used = os.wait4(child, 0)
name = words[words.index('--crate-name') + 1] if '--crate-name' in words else '-'
kind = 'edits' if '/rt-edit-' in os.getcwd() else 'tests' if '--test' in words else 'proof'
with open(log, 'a') as it:
    it.write(f'{name} {kind} {used.ru_utime + used.ru_stime:.1f} {time.time() - began:.1f} {edit}\\n')
if os.WIFSIGNALED(status):
    os.kill(os.getpid(), os.WTERMSIG(status))
os._exit(os.WEXITSTATUS(status))
"""
here = threading.local()
must_fail = getattr(rt, "must_fail", None)


def try_edit(crate, edit, *more):
    here.edit = os.path.basename(edit).removesuffix(".edit")
    try:
        return must_fail(crate, edit, *more)
    finally:
        here.edit = "-"


if must_fail:
    rt.must_fail = try_edit
guarded = rt.rtlib.guarded
rt.rtlib.guarded = lambda: [*guarded(), sys.executable, "-ISc", TIMED, log, getattr(here, "edit", "-")]
sys.exit(rt.main(["ci", *words]))
END
status=$?
awk '
    { seconds[$1 " " $2] += $3; all[$1] += $3; kinds[$2] += $3; total += $3; names[$1] = 1 }
    END {
        printf "| Crate | proof | tests | edits | all |\n|---|---|---|---|---|\n"
        printf "| all | %d | %d | %d | %d |\n", kinds["proof"], kinds["tests"], kinds["edits"], total
        for (name in names)
            printf "| %s | %d | %d | %d | %d |\n", name, seconds[name " proof"], seconds[name " tests"], seconds[name " edits"], all[name] | "sort -t\"|\" -k6,6nr"
    }' "$log"
printf '\n| Edit | seconds |\n|---|---|\n'
awk '$5 != "-" { all[$1 "/" $5] += $3 } END { for (edit in all) printf "| %s | %d |\n", edit, all[edit] }' "$log" | sort -t'|' -k3,3nr | head -40
exit $status
