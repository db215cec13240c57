#!/bin/sh
# Times whole runs beside plain C that goes through the same loops over the same tiles, compares the results byte for byte,
# and prints the ratios. To be run by hand, at the top of the repository: sh bench/run.sh [PROGRAM]
#
# PROGRAM is the built program; where none is named, crates/tce/out/tce is built by `rt run`. Each side reads its
# operands from files and writes the file of its result. The time is that of the processor for the whole process, the
# least of some rounds in which the sides take turns, so that another load on the machine does little to it. The C is
# compiled by gcc -O3 for the same level of processor, and where a row says so for the one that it runs on, with all extents
# and edges as constants.
set -eu
rounds=${ROUNDS:-5}
level=x86-64-v2
. "$(dirname "$0")/build.sh"
set_program "$@"
make_spent

# array FILE SEED EXTENT EDGE ..: an array file of elements from 0 to 15, or of ones where the seed is 0
cat > array.c <<'C'
#include <stdint.h>
#include <stdio.h>
#include <stdlib.h>

typedef uint64_t u64;

int main(int count, char **words) {
    u64 rank = (count - 3) / 2, extents[8], edges[8], tiles = 1, tile_words = 1;
    u64 x = strtoull(words[2], 0, 10);
    FILE *out = fopen(words[1], "wb");
    if (!out) return 1;
    for (u64 d = 0; d < rank; d++) {
        extents[d] = strtoull(words[3 + 2 * d], 0, 10);
        edges[d] = strtoull(words[4 + 2 * d], 0, 10);
        tiles *= (extents[d] + edges[d] - 1) / edges[d];
        tile_words *= edges[d];
    }
    fwrite("TCARRAY1", 1, 8, out);
    fwrite(&rank, 8, 1, out);
    fwrite(extents, 8, rank, out);
    fwrite(edges, 8, rank, out);
    for (u64 t = 0; t < tiles; t++)
        for (u64 k = 0; k < tile_words; k++) {
            u64 tile = t, word = k, inside = 1;
            for (int d = rank - 1; d >= 0; d--) {
                u64 n = (extents[d] + edges[d] - 1) / edges[d];
                inside &= tile % n * edges[d] + word % edges[d] < extents[d];
                tile /= n;
                word /= edges[d];
            }
            u64 element = x ? (x = x * 6364136223846793005u + 1442695040888963407u) >> 60 : 1;
            if (!inside) element = 0;
            fwrite(&element, 8, 1, out);
        }
    return fclose(out);
}
C

# array files in memory, for the programs below
cat > arrays.h <<'C'
#include <stdint.h>
#include <stdio.h>
#include <stdlib.h>
#include <string.h>

typedef uint64_t u64;

// the words of an array file whose head has so many bytes
static u64 *get(const char *name, size_t head, size_t words) {
    u64 *made = malloc(8 * words);
    FILE *in = fopen(name, "rb");
    if (!made || !in || fseek(in, head, SEEK_SET) || fread(made, 8, words, in) != words) exit(1);
    fclose(in);
    return made;
}

// an array file whose extents and edges follow one another in `shape`
static void put(const char *name, u64 rank, const u64 *shape, const u64 *words, size_t n) {
    FILE *out = fopen(name, "wb");
    if (!out) exit(1);
    fwrite("TCARRAY1", 1, 8, out);
    fwrite(&rank, 8, 1, out);
    fwrite(shape, 8, 2 * rank, out);
    fwrite(words, 8, n, out);
    if (fclose(out)) exit(1);
}
C

# The formula of four tensors by its fused loops. TILED: the innermost loops are cut at the edges of the tiles by hand;
# else each element's place is computed from its numbers.
cat > four.c <<'C'
#include "arrays.h"

enum { TV = (V + EV - 1) / EV, TO = (O + EO - 1) / EO, EEOO = EV * EV * EO * EO, EEEO = EV * EV * EV * EO };
enum { VVOO = TV * TV * TO * TO * EEOO, VVVO = TV * TV * TV * TO * EEEO };

static u64 *A, *B, *C, *D, *S, T[O][O];

static inline size_t vvoo(size_t p, size_t q, size_t r, size_t s) {
    return (((p / EV * TV + q / EV) * TO + r / EO) * TO + s / EO) * EEOO + ((p % EV * EV + q % EV) * EO + r % EO) * EO + s % EO;
}

static inline size_t vvvo(size_t p, size_t q, size_t r, size_t s) {
    return (((p / EV * TV + q / EV) * TV + r / EV) * TO + s / EO) * EEEO + ((p % EV * EV + q % EV) * EV + r % EV) * EO + s % EO;
}

#ifdef TILED
static inline size_t least(size_t a, size_t b) { return a < b ? a : b; }

static u64 inner(size_t b, size_t c, size_t d, size_t f) {
    u64 sum = 0;
    for (size_t e0 = 0; e0 < V; e0 += EV)
        for (size_t l0 = 0; l0 < O; l0 += EO) {
            const u64 *p = B + vvvo(b, e0, f, l0), *q = D + vvvo(c, d, e0, l0);
            for (size_t e = 0; e < least(EV, V - e0); e++)
                for (size_t l = 0; l < least(EO, O - l0); l++) sum += p[e * EV * EO + l] * q[e * EO + l];
        }
    return sum;
}

static void middle(size_t d, size_t f, u64 word) {
    for (size_t j0 = 0; j0 < O; j0 += EO)
        for (size_t k0 = 0; k0 < O; k0 += EO) {
            const u64 *p = C + vvoo(d, f, j0, k0);
            for (size_t j = 0; j < least(EO, O - j0); j++)
                for (size_t k = 0; k < least(EO, O - k0); k++) T[j0 + j][k0 + k] += word * p[j * EO + k];
        }
}

static void outer(size_t b, size_t c) {
    for (size_t a0 = 0; a0 < V; a0 += EV)
        for (size_t i0 = 0; i0 < O; i0 += EO)
            for (size_t j0 = 0; j0 < O; j0 += EO)
                for (size_t k0 = 0; k0 < O; k0 += EO) {
                    const u64 *p = A + vvoo(a0, c, i0, k0);
                    u64 *out = S + vvoo(a0, b, i0, j0);
                    for (size_t a = 0; a < least(EV, V - a0); a++)
                        for (size_t i = 0; i < least(EO, O - i0); i++)
                            for (size_t j = 0; j < least(EO, O - j0); j++)
                                for (size_t k = 0; k < least(EO, O - k0); k++)
                                    out[(a * EV * EO + i) * EO + j] += T[j0 + j][k0 + k] * p[(a * EV * EO + i) * EO + k];
                }
}
#else
static u64 inner(size_t b, size_t c, size_t d, size_t f) {
    u64 sum = 0;
    for (size_t e = 0; e < V; e++)
        for (size_t l = 0; l < O; l++) sum += B[vvvo(b, e, f, l)] * D[vvvo(c, d, e, l)];
    return sum;
}

static void middle(size_t d, size_t f, u64 word) {
    for (size_t j = 0; j < O; j++)
        for (size_t k = 0; k < O; k++) T[j][k] += word * C[vvoo(d, f, j, k)];
}

static void outer(size_t b, size_t c) {
    for (size_t a = 0; a < V; a++)
        for (size_t i = 0; i < O; i++)
            for (size_t j = 0; j < O; j++)
                for (size_t k = 0; k < O; k++) S[vvoo(a, b, i, j)] += T[j][k] * A[vvoo(a, c, i, k)];
}
#endif

int main(void) {
    const u64 shape[8] = {V, V, O, O, EV, EV, EO, EO};
    A = get("A.tca", 80, VVOO);
    B = get("B.tca", 80, VVVO);
    C = get("C.tca", 80, VVOO);
    D = get("D.tca", 80, VVVO);
    S = calloc(VVOO, 8);
    for (size_t b = 0; b < V; b++)
        for (size_t c = 0; c < V; c++) {
            memset(T, 0, sizeof T);
            for (size_t d = 0; d < V; d++)
                for (size_t f = 0; f < V; f++) middle(d, f, inner(b, c, d, f));
            outer(b, c);
        }
    put("plain.tca", 4, shape, S, VVOO);
    return 0;
}
C

# The product of two matrices, tile by tile.
cat > matrix.c <<'C'
#include "arrays.h"

enum { T = N / E };

int main(void) {
    const u64 shape[4] = {N, N, E, E};
    const u64 *a = get("A.tca", 48, N * N), *b = get("B.tca", 48, N * N);
    u64 *c = calloc(N * N, 8);
    for (size_t i = 0; i < T; i++)
        for (size_t j = 0; j < T; j++)
            for (size_t k = 0; k < T; k++) {
                const u64 *p = a + (i * T + k) * E * E, *q = b + (k * T + j) * E * E;
                u64 *restrict out = c + (i * T + j) * E * E;
                for (size_t x = 0; x < E; x++)
                    for (size_t z = 0; z < E; z++)
                        for (size_t y = 0; y < E; y++) out[x * E + y] += p[x * E + z] * q[z * E + y];
            }
    put("plain.tca", 2, shape, c, N * N);
    return 0;
}
C

# The sum of all products of two vectors.
cat > vectors.c <<'C'
#include "arrays.h"

int main(void) {
    const u64 *a = get("A.tca", 32, N), *b = get("B.tca", 32, N);
    u64 sum = 0;
    for (size_t i = 0; i < N; i++)
        for (size_t j = 0; j < N; j++) sum += a[i] * b[j];
    put("plain.tca", 0, 0, &sum, 1);
    return 0;
}
C

# The outer product of two vectors, whose tiles are written one by one.
cat > outer.c <<'C'
#include "arrays.h"

enum { T = N / E };

int main(void) {
    const u64 rank = 2, shape[4] = {N, N, E, E};
    const u64 *a = get("A.tca", 32, N), *b = get("B.tca", 32, N);
    static u64 tile[E * E];
    FILE *out = fopen("plain.tca", "wb");
    if (!out || setvbuf(out, 0, _IONBF, 0)) return 1;
    fwrite("TCARRAY1", 1, 8, out);
    fwrite(&rank, 8, 1, out);
    fwrite(shape, 8, 4, out);
    for (size_t i = 0; i < T; i++)
        for (size_t j = 0; j < T; j++) {
            for (size_t x = 0; x < E; x++)
                for (size_t y = 0; y < E; y++) tile[x * E + y] = a[i * E + x] * b[j * E + y];
            if (fwrite(tile, sizeof tile, 1, out) != 1) return 1;
        }
    return fclose(out);
}
C

four_spec() {
    cat <<TCE
range V $1 tile $3
range O $2 tile $4
index V a b c d e f
index O i j k l
tensor A[V,V,O,O]
tensor B[V,V,V,O]
tensor C[V,V,O,O]
tensor D[V,V,V,O]
tensor S[V,V,O,O]
S[a,b,i,j] = sum{c,k}(sum{d,f}(sum{e,l}(B[b,e,f,l] * D[c,d,e,l]) * C[d,f,j,k]) * A[a,c,i,k])
TCE
}

# four_data V O EV EO
four_data() {
    ./array A.tca 1 "$1" "$3" "$1" "$3" "$2" "$4" "$2" "$4"
    ./array B.tca 2 "$1" "$3" "$1" "$3" "$1" "$3" "$2" "$4"
    ./array C.tca 3 "$1" "$3" "$1" "$3" "$2" "$4" "$2" "$4"
    ./array D.tca 4 "$1" "$3" "$1" "$3" "$1" "$3" "$2" "$4"
}

# expect WHAT EXPECTED FOUND
expect() {
    [ "$2" = "$3" ] || { echo "$1: '$3' and not '$2'"; exit 1; }
}

# bytes FILE
bytes() {
    wc -c < "$1" | tr -d ' '
}

# compare WHAT RESULT BUDGET ROUNDS SOURCE FLAGS..: the run of job.tce beside the plain program; its report is in `report`
compare() {
    what=$1 result=$2 budget=$3 times=$4 source=$5
    shift 5
    gcc -O3 -march=$level "$@" -o plain "$source"
    : > plain.times
    : > run.times
    round=0
    while [ $round -lt "$times" ]; do
        ./spent ./plain >> plain.times
        REPORT=report ./spent "$program" run job.tce "$budget" >> run.times
        round=$((round + 1))
    done
    cmp -s plain.tca "$result" || { echo "$what: the results differ"; exit 1; }
    echo "$(least plain.times) $(least run.times)" | awk -v what="$what" '{ printf "%-56s C %8.1f   run %8.1f   ratio %6.2f\n", what, $1 / 1e3, $2 / 1e3, $2 / $1 }'
}

gcc -O2 -o array array.c
echo "milliseconds of the processor, $level"

four_spec 16 16 4 4 > job.tce
four_data 16 16 4 4
compare 'four tensors of 16, edge 4, all tiles held; by element' S.tca 327680 "$rounds" four.c -DV=16 -DO=16 -DEV=4 -DEO=4
compare 'the same; C cut at the tiles by hand' S.tca 327680 "$rounds" four.c -DV=16 -DO=16 -DEV=4 -DEO=4 -DTILED
compare 'the same with a budget of 16384' S.tca 16384 "$rounds" four.c -DV=16 -DO=16 -DEV=4 -DEO=4 -DTILED

cat > job.tce <<'TCE'
range N 512 tile 64
index N i j k
tensor A[N,N]
tensor B[N,N]
tensor C[N,N]
C[i,j] = sum{k}(A[i,k] * B[k,j])
TCE
./array A.tca 1 512 64 512 64
./array B.tca 2 512 64 512 64
compare 'matrices of 512, edge 64, all tiles held' C.tca 786432 "$rounds" matrix.c -DN=512 -DE=64

# by numpy, tile by tile over mapped files, where a python3 with numpy is there
python=
for it in python3 /usr/bin/python3; do
    if [ -z "$python" ] && "$it" -c 'import numpy' 2> /dev/null; then python=$it; fi
done

cat > tiles.py <<'PY'
import sys

import numpy

# A product of matrices, or of two vectors, with tiles of so many words an edge.
kind, extent, edge = sys.argv[1], int(sys.argv[2]), int(sys.argv[3])
count = extent // edge
rank = 2 if kind == "matrix" else 1


def tiles(name, rank, mode):
    return numpy.memmap(name, "<u8", mode, 16 + 16 * rank, (count,) * rank + (edge,) * rank)


left, right = tiles("A.tca", rank, "r"), tiles("B.tca", rank, "r")
with open("numpy.tca", "wb") as out:
    out.write(b"TCARRAY1" + numpy.array([2, extent, extent, edge, edge], "<u8").tobytes())
    out.truncate(48 + 8 * extent * extent)
result = tiles("numpy.tca", 2, "r+")
for i in range(count):
    for j in range(count):
        if kind == "matrix":
            tile = left[i, 0] @ right[0, j]
            for k in range(1, count):
                tile += left[i, k] @ right[k, j]
            result[i, j] = tile
        else:
            numpy.multiply.outer(left[i], right[j], out=result[i, j])
result.flush()
PY

# numpy WHAT KIND EXTENT EDGE: the same by numpy, beside the C that was timed last
numpy() {
    [ -n "$python" ] || return 0
    what=$1
    shift
    : > numpy.times
    for round in 1 2 3; do
        ./spent "$python" tiles.py "$@" >> numpy.times
    done
    cmp -s numpy.tca C.tca || { echo "$what: the results differ"; exit 1; }
    echo "$(least plain.times) $(least numpy.times)" | awk -v what="$what" '{ printf "%-56s C %8.1f numpy %8.1f   ratio %6.2f\n", what, $1 / 1e3, $2 / 1e3, $2 / $1 }'
}

cat > job.tce <<'TCE'
range N 1024 tile 64
index N i j k
tensor A[N,N]
tensor B[N,N]
tensor C[N,N]
C[i,j] = sum{k}(A[i,k] * B[k,j])
TCE
./array A.tca 1 1024 64 1024 64
./array B.tca 2 1024 64 1024 64
compare 'matrices of 1024, edge 64, 3 frames; C for this processor' C.tca 12288 "$rounds" matrix.c -DN=1024 -DE=64 -march=native
compare 'the same with 64 frames' C.tca 262144 "$rounds" matrix.c -DN=1024 -DE=64 -march=native
numpy 'the same by numpy' matrix 1024 64

cat > job.tce <<'TCE'
range N 4096 tile 64
index N i j
tensor A[N]
tensor B[N]
tensor C[N,N]
C[i,j] = A[i] * B[j]
TCE
./array A.tca 1 4096 64
./array B.tca 2 4096 64
compare 'outer product of 4096, edge 64, 3 frames' C.tca 12288 "$rounds" outer.c -DN=4096 -DE=64
compare 'the same with 64 frames' C.tca 262144 "$rounds" outer.c -DN=4096 -DE=64
numpy 'the same by numpy' outer 4096 64

cat > job.tce <<'TCE'
range N 49152 tile 4096
index N i j
tensor A[N]
tensor B[N]
tensor S[]
S[] = sum{i,j}(A[i] * B[j])
TCE
./array A.tca 0 49152 4096
./array B.tca 0 49152 4096
compare 'all products of vectors of 49152, edge 4096' S.tca 12288 "$rounds" vectors.c -DN=49152

four_spec 16 8 4 4 > job.tce
four_data 16 8 4 4
compare 'four tensors of 16 and 8, edge 4, 64 frames; C for this processor' S.tca 16384 "$rounds" four.c -DV=16 -DO=8 -DEV=4 -DEO=4 -DTILED -march=native

# What a block costs beside its products: that run goes through 14,680,064 products in 794,624 blocks, of which 786,432 have
# 4 by 4 turns, and the product of these matrices through 16,777,216 in 64 blocks.
small_plain=$(least plain.times)
small_run=$(least run.times)
cat > job.tce <<'TCE'
range N 256 tile 64
index N i j k
tensor A[N,N]
tensor B[N,N]
tensor C[N,N]
C[i,j] = sum{k}(A[i,k] * B[k,j])
TCE
./array A.tca 1 256 64 256 64
./array B.tca 2 256 64 256 64
compare 'matrices of 256, edge 64, all tiles held; C for this processor' C.tca 196608 "$rounds" matrix.c -DN=256 -DE=64 -march=native
echo "$small_plain $(least plain.times) $small_run $(least run.times)" | awk '{
    products = 14680064 / 16777216
    blocks = 794624
    plain = 1e3 * ($1 - products * $2) / blocks
    run = 1e3 * ($3 - products * $4) / blocks
    printf "%-56s C %8.1f   run %8.1f   bar  %6.2f\n", "nanoseconds of a block of 4 by 4 beside its products", plain, run, 40 }'

four_spec 16 16 4 4 > job.tce
four_data 16 16 4 4
compare 'four tensors of 16, edge 4, 64 frames; C for this processor' S.tca 16384 "$rounds" four.c -DV=16 -DO=16 -DEV=4 -DEO=4 -DTILED -march=native

four_spec 40 10 8 5 > job.tce
four_data 40 10 8 5
compare 'four tensors of 40 and 10, edges 8 and 5, budget 65536' S.tca 65536 1 four.c -DV=40 -DO=10 -DEV=8 -DEO=5 -DTILED
expect 'its memory' 'memory 104' "$(grep '^memory ' report)"
expect 'its tiles' 'tiles 64000' "$(grep '^tiles ' report)"
expect 'bytes of B.tca' 5120080 "$(bytes B.tca)"
expect 'bytes of S.tca' 1280080 "$(bytes S.tca)"
