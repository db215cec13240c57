#!/bin/sh
# Times blocks whose tiles are held, and tiles that are read and written, through whole runs of the built program. To be
# run by hand, at the top of the repository: sh bench/cache.sh [PROGRAM]
#
# PROGRAM is the built program; where none is named, crates/tce/out/tce is built by `rt run`. Held tiles: with edge 1 a
# block is one turn that touches three tiles, so its time is all overhead; beside it stands plain C that moves the
# entries of three tiles to the front of a linked list in the order of their last use, and adds one product. Missed
# tiles: with a budget of three tiles each tile is read once and given up, and the tiles of the result are written;
# beside it stands cp. Times are those of the processor, the least of some rounds.
set -eu
rounds=${ROUNDS:-3}
. "$(dirname "$0")/build.sh"
set_program "$@"
make_spent

# ones FILE EXTENT EDGE: an array file of one dimension whose elements are all 1; the edge divides the extent
cat > ones.c <<'C'
#include <stdint.h>
#include <stdio.h>
#include <stdlib.h>

int main(int count, char **words) {
    uint64_t head[3] = {1, strtoull(words[2], 0, 10), strtoull(words[3], 0, 10)}, one = 1;
    FILE *out = fopen(words[1], "wb");
    if (count != 4 || !out) return 1;
    fwrite("TCARRAY1", 1, 8, out);
    fwrite(head, 8, 3, out);
    for (uint64_t k = 0; k < head[1]; k++) fwrite(&one, 8, 1, out);
    return fclose(out);
}
C

# the words of two vectors in entries of a list in the order of their last use, the sum in a third array's one
cat > list.c <<'C'
#include <stdint.h>
#include <stdio.h>

struct entry {
    struct entry *before, *after;
    uint64_t word;
};

static struct entry end = {&end, &end, 0}, a[N], b[N], sum;

static uint64_t *touch(struct entry *e) {
    if (e->after) {
        e->before->after = e->after;
        e->after->before = e->before;
    }
    e->after = end.after;
    e->before = &end;
    end.after->before = e;
    end.after = e;
    return &e->word;
}

int main(void) {
    for (int k = 0; k < N; k++) *touch(a + k) = *touch(b + k) = 1;
    for (int i = 0; i < N; i++)
        for (int j = 0; j < N; j++) {
            uint64_t *p = touch(a + i), *q = touch(b + j), *s = touch(&sum);
            *s += *p * *q;
        }
    printf("%llu\n", (unsigned long long)sum.word);
    return 0;
}
C

gcc -O2 -o ones ones.c

gcc -O3 -march=x86-64-v2 -DN=2048 -o list list.c
printf 'range N 2048\nindex N i j\ntensor A[N]\ntensor B[N]\ntensor S[]\nS[] = sum{i,j}(A[i] * B[j])\n' > job.tce
./ones A.tca 2048 1
./ones B.tca 2048 1
c=$(least_spent ./list)
r=$(least_spent "$program" run job.tce 8192)
echo "$c $r" | awk '{ n = 2048 * 2048; printf "a block of one turn, three held tiles: C %.0f ns   run %.0f ns   ratio %.1f\n", 1e3 * $1 / n, 1e3 * $2 / n, $2 / $1 }'

for edge in 64 512 4096 65536; do
    printf 'range N 4194304 tile %s\nindex N i\ntensor A[N]\ntensor B[]\ntensor C[N]\nC[i] = A[i] * B[]\n' $edge > job.tce
    ./ones A.tca 4194304 $edge
    { printf TCARRAY1; head -c 8 /dev/zero; printf '\003'; head -c 7 /dev/zero; } > B.tca
    c=$(least_spent cp A.tca copy.tca)
    r=$(least_spent "$program" run job.tce $((3 * edge)))
    echo "$c $r" | awk -v edge=$edge '{ n = 4194304 / edge; printf "a tile of %5d words, read, read and written: cp %8.1f us   run %8.1f us   ratio %.1f\n", edge, $1 / n, $2 / n, $2 / $1 }'
done
