#!/bin/sh
# Times `einsum` and prints the milliseconds of the processor, the least of some rounds. To be run by hand: sh bench/einsum.sh [PROGRAM]
#
# PROGRAM is the built program; where none is named, crates/tce/out/tce is built by `rt run`. Exit status 1 where a chain of 31
# operands took more than 10 ms, texts of ten thousand operands more than 100 ms, or the longest paths over 5460 operands, the
# most whose entries are contracted, more than a second.
set -eu
rounds=${ROUNDS:-5}
. "$(dirname "$0")/build.sh"
set_program "$@"
make_spent

# measure WHAT TEXT PATH STATUS MOST: the time for an einsum that ends with this status, in at most so many milliseconds
measure() {
    status=0
    "$program" einsum "$2" "$3" made.tce > report || status=$?
    [ $status = "$4" ] || { echo "$1: status $status"; cat report; exit 1; }
    : > spent.times
    round=0
    while [ $round -lt "$rounds" ]; do
        ./spent "$program" einsum "$2" "$3" made.tce >> spent.times || true
        round=$((round + 1))
    done
    taken=$(least spent.times)
    echo "$1;$taken;$(head -1 report)" | awk -F';' '{ printf "%-44s %6.1f ms, %s\n", $1, $2 / 1e3, $3 }'
    [ "$taken" -le $(($5 * 1000)) ] || slow=1
}

# repeat COUNT WORD: the word so many times
repeat() {
    printf "$2%.0s" $(seq "$1")
}

slow=
# 31 factors over 23 labels: products of neighbours, of which those at the end are numbers
chain=$(printf 'ab,bc,cd,de,ef,fg,gh,hi,ij,jk,kl,lm,mn,no,op,pq,qr,rs,st,tu,uv,vw,%s' "$(repeat 8 ',')")
sizes=$(for label in a b c d e f g h i j k l m n o p q r s t u v w; do printf '%s=10,' $label; done)
sizes=${sizes%,}
together=$(repeat 29 '0,1;')0,1
apart=$(for last in $(seq 30 -1 1); do printf '%d,%d;' $((last - 1)) "$last"; done)
measure 'a chain of 31 operands, to be refused' "$chain->aw@$sizes" "$together" 14 10
inner=$(printf 'a,%.0s' $(seq 30))a
measure '31 vectors of one label' "$inner->@a=10" "$together" 0 10
measure '31 vectors of one label, from the last' "$inner->@a=10" "${apart%;}" 0 10
many=$(repeat 9999 'a,')a
measure 'ten thousand vectors' "$many->@a=10" "$(repeat 9998 '0,1;')0,1" 14 100
measure 'ten thousand vectors and a path of one item' "$many->@a=10" 0,1 14 100
measure 'ten thousand numbers' "$(repeat 9999 ',')->@" "$(repeat 9998 '0,1;')0,1" 14 100
vectors=$(repeat 5459 'a,')a
pairs=$(repeat 5458 '0,1;')0,1
measure '5460 vectors, pairs from the front' "$vectors->@a=10" "$pairs" 14 1000
measure '5460 vectors, the first moved, then pairs' "$vectors->@a=10" "$(repeat 21850 '0;')$pairs" 14 1000
measure '5460 vectors, the last moved, then pairs' "$vectors->@a=10" "$(repeat 8740 '5459;')$pairs" 14 1000
measure 'two vectors and 5458 numbers, the last moved' "a,$(repeat 5458 ',')a->@a=10" "$(repeat 8740 '5459;')$pairs" 14 1000
[ -z "$slow" ] || { echo 'that took too long'; exit 1; }
