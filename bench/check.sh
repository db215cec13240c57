#!/bin/sh
# Times `tce check` beside `tce cert`, on the term of four tensors and on wide trees within the limits. To be run by hand:
# sh bench/check.sh [PROGRAM]
#
# PROGRAM is the built program; where none is named, crates/tce/out/tce is built by `rt run`. It prints a line for each
# tree: the milliseconds of the processor that `cert` takes, the bytes of the certificate, those of `check`, and the
# memory that was accepted. Each is the least of some rounds. The last line names the largest certificate.
set -eu
. "$(dirname "$0")/wide_trees.sh"
most=0
largest=none

measure() {
    printf '%s\n%s\n' "$declared" "$2" > tree.tce
    certify_and_check "$1" tree.tce
}

certify_and_check() {
    written=$(least_spent "$program" cert "$2" tree.cert)
    checked=$(least_spent "$program" check "$2" tree.cert)
    memory=$("$program" check "$2" tree.cert | tail -n 1)
    bytes=$(wc -c < tree.cert)
    if [ "$bytes" -gt "$most" ]; then
        most=$bytes
        largest=$1
    fi
    echo "$1;$written;$bytes;$checked;$memory" |
        awk -F';' '{ printf "%-46s cert %7.1f ms  %6d bytes  check %7.1f ms  %s\n", $1 ":", $2 / 1e3, $3, $4 / 1e3, $5 }'
}

certify_and_check "four tensors" four.tce
each_tree measure
echo "the largest certificate: $largest, $most bytes"
