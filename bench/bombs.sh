#!/bin/sh
# Times what small files make the program do: `tce cert` and `check` on climb.tce, a tree whose search is long, and `check`
# on forged certificates of BYTES bytes, a million where none are named. To be run by hand: sh bench/bombs.sh [PROGRAM]
#
# PROGRAM is the built program; where none is named, crates/tce/out/tce is built by `rt run`. It prints for climb.tce the
# seconds of the processor of each command, the most memory that it held, and the bytes of the certificate; then a line for
# each form of `tools/forged-certificates`. A command has LIMIT seconds of the processor, 120 where none is named; one that
# needs more is told by the seconds that it had.
set -eu
tools=$(cd "$(dirname "$0")" && pwd)
. "$tools/build.sh"
set_program "$@"
make_spent

limited() {
    PEAK=peak sh -c 'ulimit -t "$0"; exec ./spent "$@"' "${LIMIT:-120}" "$program" "$@" || true
}

show() {
    echo "$1 $2 $(cat peak)" | awk '{ printf "%-6s %8.2f s  %7.1f MB\n", $1, $2 / 1e6, $3 * 1.024 / 1e3 }'
}

: > climb.cert
show cert "$(limited cert "$tools/climb.tce" climb.cert)"
wc -c < climb.cert | awk '{ print $1, "bytes" }'
show check "$(limited check "$tools/climb.tce" climb.cert)"
python3 "$top/tools/forged-certificates" --program "$program" --bytes "${BYTES:-1000000}"
