#!/bin/sh
# Times the reading of texts of 65,536 bytes that `batch` refuses for their last line, so that nothing is run, and prints the
# milliseconds of the processor, the least of some rounds. To be run by hand: sh bench/batch.sh [PROGRAM]
#
# PROGRAM is the built program; where none is named, crates/tce/out/tce is built by `rt run`. Exit status 1 where a text took
# more than 200 ms.
set -eu
rounds=${ROUNDS:-5}
. "$(dirname "$0")/build.sh"
set_program "$@"
make_spent

# repeat LINE: the line as often as 65,536 bytes hold it behind the declarations, and in front of the last line
repeat() {
    awk -v line="$1" -v declared="$(wc -c < declared)" -v last="$(wc -c < last)" 'BEGIN {
        count = int((65536 - declared - last) / (length(line) + 1))
        for (k = 0; k < count; k++) print line
    }'
}

# measure WHAT LINE: the time for the text with this line again and again
measure() {
    { cat declared; repeat "$2"; cat last; } > many.tce
    : > spent.times
    round=0
    while [ $round -lt "$rounds" ]; do
        ./spent "$program" batch many.tce 3 >> spent.times && exit 1
        round=$((round + 1))
    done
    due="error 2: line $(wc -l < many.tce): unknown name Z"
    [ "$("$program" batch many.tce 3)" = "$due" ] || { echo "$1: not refused for its last line"; exit 1; }
    taken=$(least spent.times)
    echo "$1;$(wc -l < many.tce);$(wc -c < many.tce);$taken" | awk -F';' '{ printf "%-36s %5d lines, %5d bytes: %6.1f ms\n", $1, $2, $3, $4 / 1e3 }'
    [ "$taken" -le 200000 ] || slow=1
}

slow=
printf 'range N 2\nindex N a b c d e f g h\ntensor A[]\ntensor T[N,N,N,N,N,N,N,N]\ntensor S[N,N,N,N,N,N,N,N]\ntensor C[]\n' > declared
echo 'C[]=1*Z[]' > last
measure 'formulas of one product' 'C[]=1*A[]'
measure 'formulas of one product, with blanks' 'C[] = 1 * A[]'
measure 'formulas of 32 sums' "C[]=$(printf 'A[]+%.0s' $(seq 32))A[]"
measure 'formulas of 32 products over 8' "S[a,b,c,d,e,f,g,h]=$(printf 'T[a,b,c,d,e,f,g,h]*%.0s' $(seq 32))T[h,g,f,e,d,c,b,a]"
measure 'formulas in 64 parentheses' "C[]=$(printf '(%.0s' $(seq 64))A[]+A[]$(printf ')%.0s' $(seq 64))"
measure 'comments' "#$(printf '(%.0s' $(seq 78))"
measure 'empty lines' ''
[ -z "$slow" ] || { echo 'more than 200 ms'; exit 1; }
