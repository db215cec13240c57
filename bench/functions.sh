#!/bin/sh
# Checks a crate, one function after the other, and prints the processor seconds that each function and each file of lemmas
# took, dearest first, and behind them those of its goals, which shrink where a dear goal gets a written answer.
# usage: bench/functions.sh NAME [WORD ..]     What stands behind the name goes to rt check, as --test or --only FUNCTION.
# A check keeps what it has proved, each part as it is done: a part took what the check took since the part before. What an
# earlier check kept is not proved again and has no row. Reading what lies below is among the rest.
name=${1:?usage: bench/functions.sh NAME [WORD ..]}
shift
cd "$(dirname "$0")/../crates/$name" || exit 1
python3 - "$@" <<'END_OF_PYTHON'
import collections
import os
import re
import subprocess
import sys
import tempfile
import time

TICKS = os.sysconf("SC_CLK_TCK")


def used(process):
    """The processor seconds of a process and of those that it started."""
    try:
        with open(f"/proc/{process}/stat", encoding="utf-8") as it:
            times = it.read().rpartition(")")[2].split()[11:15]
        with open(f"/proc/{process}/task/{process}/children", encoding="utf-8") as it:
            children = it.read().split()
    except OSError:
        return 0
    return sum(map(int, times)) / TICKS + sum(map(used, children))


def kept(known, began):
    """The parts that were kept since then and are not known yet, in order."""
    found = []
    for folder, _, names in os.walk("out/incremental"):
        for name in names:
            path = f"{folder}/{name}"
            part = re.match(r"Rattle-\w+-(?:proofs|specs)\.(?:contracts\.|declared\.)?(.*)\.oantt$", name)
            if part and path not in known and os.path.exists(path):
                known.add(path)
                if os.stat(path).st_mtime >= began:
                    found.append(part[1])
    return found


began, known = time.time(), set()
kept(known, began)
parts, before = [], 0
with tempfile.TemporaryFile("w+", encoding="utf-8") as log:
    check = subprocess.Popen(
        ["rt", "check", *sys.argv[1:], "--jobs", "1"], stdin=subprocess.DEVNULL, stdout=log, stderr=subprocess.STDOUT
    )
    while check.poll() is None:
        time.sleep(0.1)
        found, now = kept(known, began), used(check.pid)
        if found and before < now:
            found = found if parts else ["the start"]
            parts += [(part, (now - before) / len(found)) for part in found]
            before = now
    log.seek(0)
    lines = log.read().splitlines()
print(*(it for it in lines if not re.search(r": proved|^checked|^statements", it)), sep="\n", file=sys.stderr)
heads = re.findall(r"^(?:fn|impl|enum|struct) \w+?::(\S+): ", "\n".join(lines), re.M)
heads = {head.replace("::", ".") for head in heads}
for top in ("proofs", "specs"):
    for folder, _, names in os.walk(top):
        heads |= {f"{folder}/{it}"[len(top) + 1 : -6].replace("/", ".") for it in names if it[0].isupper()}
seconds, of_goals = collections.Counter(), collections.Counter()
for part, took in parts:
    words = part.split(".")
    ends = (".".join(words[:end]) for end in range(len(words), 0, -1))
    functions = [it for it in ends if it in heads and not re.search(r"\.(Answers|Invariants|Proof)$", it)]
    head = functions[0] if functions else "the rest"
    seconds[head] += took
    of_goals[head] += took if re.search(r"\.(Proof|Answers)(\.decls)?$", part) else 0
for head, took in seconds.most_common():
    print(f"{took:8.2f} {of_goals[head]:8.2f} {head}")
sys.exit(check.returncode)
END_OF_PYTHON
