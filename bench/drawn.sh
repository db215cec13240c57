#!/bin/sh
# Times `tce plan`, `cert` and `check` on drawn trees of 32 operations over 6 to 24 indexes, every fourth of them dense: a
# hundred, or COUNT. To be run by hand: sh bench/drawn.sh [PROGRAM]
#
# PROGRAM is the built program; where none is named, crates/tce/out/tce is built by `rt run`. It prints a line for each
# tree: the milliseconds of the processor of each command, the most memory that `plan` held, the bytes of the
# certificate, and the memory of the plan. The last lines are the median and the worst of each. A command has LIMIT
# seconds of the processor, 60 where none is named; one that needs more is told by the seconds that it had.
set -eu
tools=$(cd "$(dirname "$0")" && pwd)
. "$tools/build.sh"
set_program "$@"
make_spent
python3 "$tools/drawn_trees.py" wide trees "${COUNT:-100}"
ulimit -t "${LIMIT:-60}"

figures() {
    planned=$(PEAK=peak REPORT=report ./spent "$program" plan "$1") || true
    written=$(./spent "$program" cert "$1" tree.cert) || true
    checked=$(./spent "$program" check "$1" tree.cert) || true
    bytes=$(wc -c < tree.cert)
    echo "$planned $written $checked $(cat peak) $bytes $(tail -n 1 report)"
}

for tree in trees/*.tce; do
    : > tree.cert
    : > report
    figures "$tree" | tee -a figures |
        awk -v name="$(basename "$tree" .tce)" '{ printf "%s: plan %8.1f ms  cert %8.1f ms  check %8.1f ms  %7d KiB  %8d bytes  %s %s\n", name, $1 / 1e3, $2 / 1e3, $3 / 1e3, $4, $5, $6, $7 }'
done

summary() {
    cut -d ' ' -f "$2" figures | sort -n |
        awk -v name="$1" -v unit="$3" -v by="$4" '{ all[NR] = $1 } END { printf "%-22s median %10.1f  worst %10.1f %s\n", name, all[int((NR + 1) / 2)] / by, all[NR] / by, unit }'
}

summary plan 1 ms 1000
summary cert 2 ms 1000
summary check 3 ms 1000
summary "memory of plan" 4 MiB 1024
summary certificate 5 KiB 1024
