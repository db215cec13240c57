#!/bin/sh
# Times how long `tce spill` looks for the cuts of the term of four tensors and of wide trees within the limits, against
# `tce plan` of the whole. To be run by hand: sh bench/spill.sh [PROGRAM]
#
# PROGRAM is the built program; where none is named, crates/tce/out/tce is built by `rt run`. A budget of 0 words is refused
# once the cuts are found and before any file is opened, so what is timed is the cuts. It prints a line for each tree and
# limit: the milliseconds of the processor of `plan` and of the cuts, the least of some rounds, and their ratio. The limits
# are 0, half of the least memory, one less than that, and that, where nothing stays cut. It ends with the largest ratio
# of the trees whose plan takes at least a millisecond, and fails where that is above 3.
set -eu
. "$(dirname "$0")/wide_trees.sh"
: > figures

cuts() {
    : > spent.times
    round=0
    while [ "$round" -lt "$rounds" ]; do
        ./spent "$program" spill "$1" 0 "$2" >> spent.times || true
        round=$((round + 1))
    done
    least spent.times
}

measure() {
    printf '%s\n%s\n' "$declared" "$2" > tree.tce
    compare "$1" tree.tce
}

compare() {
    planned=$(least_spent "$program" plan "$2")
    memory=$("$program" plan "$2" | sed -n 's/^memory //p')
    for limit in 0 $((memory / 2)) $((memory > 0 ? memory - 1 : 0)) "$memory"; do
        echo "$1;$limit;$planned;$(cuts "$2" "$limit")"
    done | sort -u -t';' -k2,2n | tee -a figures |
        awk -F';' '{ printf "%-42s limit %9d  plan %8.1f ms  cuts %8.1f ms  %5.2f\n", $1 ":", $2, $3 / 1e3, $4 / 1e3, $4 / $3 }'
}

compare "four tensors" four.tce
each_tree measure
awk -F';' '$3 >= 1000 && $4 / $3 > most { most = $4 / $3 } END { printf "at most %.2f times the plan\n", most; exit most > 3 }' figures
