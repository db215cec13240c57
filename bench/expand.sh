#!/bin/sh
# Times `expand` over 2^24 elements against cp of the array's file, in processor time, that of the system included, and prints
# the ratio of the least times of some rounds. The files are in the system's cache.
# To be run by hand, with the program built: sh bench/expand.sh [PROGRAM]
set -eu
program=$(readlink -f "${1:-$(dirname "$0")/../crates/tce/out/tce}")
rounds=3
folder=$(mktemp -d)
trap 'rm -rf "$folder"' EXIT
cd "$folder"

# The processor time of a command, in milliseconds.
cost() {
    python3 - "$@" <<'END'
import resource
import subprocess
import sys

subprocess.run(sys.argv[1:], check=True, stdout=subprocess.DEVNULL)
used = resource.getrusage(resource.RUSAGE_CHILDREN)
print(round(1000 * (used.ru_utime + used.ru_stime)))
END
}

# A shape: its extents, its edges, the two positions and the sign.
measure() {
    python3 - "$1" "$2" "$3" "$4" <<'END'
import sys

extents, edges, positions, sign = ([int(n) for n in word.split(",")] for word in sys.argv[1:5])
names = "abc"[: len(extents)]
with open("s.tce", "w") as file:
    for name, extent, edge in zip(names, extents, edges):
        file.write(f"range {name} {extent} tile {edge}\nindex {name} {name}\n")
    file.write(f"tensor T[{','.join(names)}]\ntensor R[{','.join(names)}]\nR[{','.join(names)}] = 1 * T[{','.join(names)}]\n")
pairs = extents[positions[0]] * (extents[positions[0]] + (-1 if sign[0] else 1)) // 2
count = pairs
for position, extent in enumerate(extents):
    if position not in positions:
        count *= extent
with open("T.sym", "wb") as file:
    file.write(b"TCSYMM01" + b"".join(n.to_bytes(8, "little") for n in (*positions, *sign)))
    block = b"".join(n.to_bytes(8, "little") for n in range(1 << 16))
    for _ in range(count >> 16):
        file.write(block)
    file.write(block[: 8 * (count & 0xFFFF)])
END
    best_expand=999999 best_copy=999999
    for _ in $(seq "$rounds"); do
        rm -f T.tca copy
        took=$(cost "$program" expand s.tce T); [ "$took" -lt "$best_expand" ] && best_expand=$took
        took=$(cost cp T.tca copy); [ "$took" -lt "$best_copy" ] && best_copy=$took
    done
    awk -v name="$1 in tiles of $2, positions $3, sign $4" -v a="$best_expand" -v b="$best_copy" \
        'BEGIN { printf "%s: expand %d ms, cp %d ms, %.2f of the speed of cp\n", name, a, b, b / (a ? a : 1) }'
}

for sign in 0 1; do
    for edge in 1 64 1024; do
        measure 4096,4096 $edge,$edge 0,1 $sign
    done
    # A tile has at most 2^20 elements, so that of whole rows and columns has 16 of the first dimension.
    for edges in 1,1,1 64,64,64 16,256,256; do
        for positions in 0,1 1,2 0,2; do
            measure 256,256,256 $edges $positions $sign
        done
    done
done
