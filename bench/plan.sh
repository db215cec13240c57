#!/bin/sh
# Times `tce plan` on the term of four tensors and on wide trees within the limits. To be run by hand:
# sh bench/plan.sh [PROGRAM]
#
# PROGRAM is the built program; where none is named, crates/tce/out/tce is built by `rt run`. It prints a line for each
# tree: the milliseconds of the processor, the least of some rounds, and the memory of the plan.
set -eu
. "$(dirname "$0")/wide_trees.sh"

measure() {
    printf '%s\n%s\n' "$declared" "$2" > tree.tce
    plan "$1" tree.tce
}

plan() {
    taken=$(least_spent "$program" plan "$2")
    memory=$("$program" plan "$2" | tail -n 1)
    echo "$1;$taken;$memory" | awk -F';' '{ printf "%-46s %7.1f ms  %s\n", $1 ":", $2 / 1e3, $3 }'
}

plan "four tensors" four.tce
each_tree measure
