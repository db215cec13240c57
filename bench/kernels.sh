#!/bin/sh
# Times the kernels, short runs and the taking of zeros, each beside plain C that gcc -O3 compiles for the same level
# of processor, and prints the ratios. To be run by hand, at the top of the repository: sh bench/kernels.sh
#
# Each time is the least of many short rounds, so another load on the machine does little to it. The C and the Rattle
# program take turns. Work that earlier checks kept in out/ is used, so `rt check` in crates/tce_words makes this quick.
set -eu
. "$(dirname "$0")/build.sh"
copy_crates tce_base tce_kernel tce_words
mkdir -p crates/words_bench/src
echo 'words_bench: tce_kernel tce_words' >> crates.txt

cat > "$work/crates/words_bench/src/main.rt" <<'RATTLE'
//! Times of the kernels and of runs, in nanoseconds.
#![tactic(auto)]

ghost use Rattle.std.specs.Prelude.{◌≡◌, length};

use std::io;
use std::time::Instant;
use tce_kernel::{dot, mul_add_four, mul_add_sv, mul_add_vv};
use tce_words::{HeapRoom, Room, Strided, Words};

const WORDS: usize = 4096;

fn noise(seed: u64) -> [u64; WORDS] {
    let mut made = [0; WORDS];
    let mut word = seed;
    for at in 0..WORDS {
        word = word
            .wrapping_mul(6364136223846793005)
            .wrapping_add(1442695040888963407);
        made[at] = word;
    }
    made
}

// Two runs, each of which reads what the other wrote.
fn run_twice(words: &mut Words, n: u64) {
    if n <= 4096 && 12288 <= words.len() {
        words.mul_add_run(0, 1, 4096, 1, 8192, 1, n);
    }
    if n <= 4096 && 12288 <= words.len() {
        words.mul_add_run(4096, 1, 0, 1, 8192, 1, n);
    }
}

fn dot_turns(a: &mut [u64; WORDS], b: &[u64; WORDS]) -> u64 {
    let mut total: u64 = 0;
    for _turn in 0..50 {
        total = total.wrapping_add(dot(a, b));
        a[0] = total;
    }
    total
}

fn vv_turns(out: &mut [u64; WORDS], a: &[u64; WORDS], b: &[u64; WORDS]) {
    for _turn in 0..50 {
        mul_add_vv(out, a, b);
    }
}

fn sv_turns(out: &mut [u64; WORDS], s: u64, b: &[u64; WORDS]) {
    for _turn in 0..50 {
        mul_add_sv(out, s, b);
    }
}

fn four_turns(out: &mut [u64; WORDS], s: u64, rows: &[[u64; WORDS]; 4]) {
    for _turn in 0..50 {
        mul_add_four(out, [s, 3, 5, s], &rows[0], &rows[1], &rows[2], &rows[3]);
    }
}

// Four rows of so many words, with one factor each, to as many words.
fn rows_at_once(words: &mut Words, n: u64) {
    let factors = Strided {
        first: 8192,
        step: 1,
    };
    let rows = Strided {
        first: 4096,
        step: 512,
    };
    if n <= 512 && 12288 <= words.len() {
        words.mul_add_four(0, factors, rows, n);
    }
}

fn row_turns(words: &mut Words, n: u64, turns: u64) {
    for _turn in 0..turns {
        rows_at_once(words, n);
    }
}

fn run_turns(words: &mut Words, n: u64, turns: u64) {
    for _turn in 0..turns {
        run_twice(words, n);
    }
}

fn less(best: &mut [u128; 8], k: usize, spent: u128) {
    if k < 8 && spent < best[k] {
        best[k] = spent;
    }
}

fn main(rt: HostRuntime) -> io::Result<()> {
    let mut a = noise(1);
    let b = noise(2);
    let mut out = noise(3);
    let rows = [noise(4), noise(5), noise(6), noise(7)];
    let mut total: u64 = 0;
    let mut best = [u128::MAX; 8];
    let mut room = HeapRoom::new(rt.alloc());
    let mut words = room.take(12288, 0)?;
    for _round in 0..1000 {
        let start = Instant::now(&rt)?;
        total = total.wrapping_add(dot_turns(&mut a, &b));
        less(&mut best, 0, start.elapsed(&rt)?.as_nanos());
        let start = Instant::now(&rt)?;
        vv_turns(&mut out, &a, &b);
        less(&mut best, 1, start.elapsed(&rt)?.as_nanos());
        let start = Instant::now(&rt)?;
        sv_turns(&mut out, total, &b);
        less(&mut best, 2, start.elapsed(&rt)?.as_nanos());
        let start = Instant::now(&rt)?;
        run_turns(&mut words, 64, 800);
        less(&mut best, 3, start.elapsed(&rt)?.as_nanos());
        let start = Instant::now(&rt)?;
        run_turns(&mut words, 512, 100);
        less(&mut best, 4, start.elapsed(&rt)?.as_nanos());
        let start = Instant::now(&rt)?;
        four_turns(&mut out, total, &rows);
        less(&mut best, 5, start.elapsed(&rt)?.as_nanos());
        let start = Instant::now(&rt)?;
        row_turns(&mut words, 64, 400);
        less(&mut best, 6, start.elapsed(&rt)?.as_nanos());
        let start = Instant::now(&rt)?;
        row_turns(&mut words, 512, 50);
        less(&mut best, 7, start.elapsed(&rt)?.as_nanos());
    }
    println!(rt; "dot {}", best[0])?;
    println!(rt; "mul_add_vv {}", best[1])?;
    println!(rt; "mul_add_sv {}", best[2])?;
    println!(rt; "run64 {}", best[3])?;
    println!(rt; "run512 {}", best[4])?;
    println!(rt; "mul_add_four {}", best[5])?;
    println!(rt; "rows64 {}", best[6])?;
    println!(rt; "rows512 {}", best[7])?;
    let mut zeros = [u128::MAX; 8];
    for _round in 0..3 {
        let start = Instant::now(&rt)?;
        let block = room.take(134217728, 0)?;
        let length = block.len();
        less(&mut zeros, 0, start.elapsed(&rt)?.as_nanos());
        total = total.wrapping_add(length);
    }
    println!(rt; "zeros {}", zeros[0])?;
    println!(rt; "sum {}", total.wrapping_add(dot(&out, &b)))?;
    Ok(())
}
RATTLE

cat > plain.c <<'C'
#include <stdint.h>
#include <stdio.h>
#include <stdlib.h>
#include <string.h>
#include <time.h>

typedef uint64_t u64;
#define WORDS 4096

__attribute__((noinline)) static u64 dot(const u64 *a, const u64 *b, size_t n) {
    u64 s = 0;
    for (size_t i = 0; i < n; i++) s += a[i] * b[i];
    return s;
}

__attribute__((noinline)) static void vv(u64 *restrict o, const u64 *restrict a, const u64 *restrict b, size_t n) {
    for (size_t i = 0; i < n; i++) o[i] += a[i] * b[i];
}

__attribute__((noinline)) static void sv(u64 *restrict o, u64 s, const u64 *restrict b, size_t n) {
    for (size_t i = 0; i < n; i++) o[i] += s * b[i];
}

__attribute__((noinline)) static void four(u64 *restrict o, u64 s, const u64 *a, const u64 *b, const u64 *c, const u64 *d, size_t n) {
    for (size_t i = 0; i < n; i++) o[i] += s * a[i] + 3 * b[i] + 5 * c[i] + s * d[i];
}

static u64 now(void) {
    struct timespec t;
    clock_gettime(CLOCK_MONOTONIC, &t);
    return t.tv_sec * 1000000000ull + t.tv_nsec;
}

static u64 a[WORDS], b[WORDS], o[WORDS], rows[4][WORDS];

static void noise(u64 *made, u64 word) {
    for (int i = 0; i < WORDS; i++) made[i] = word = word * 6364136223846793005ull + 1442695040888963407ull;
}

static void less(u64 *best, u64 spent) {
    if (spent < *best) *best = spent;
}

// gcc is not to make one call of malloc and memset
static void *(*volatile set)(void *, int, size_t) = memset;

int main(void) {
    u64 total = 0, best[5] = {-1, -1, -1, -1, -1};
    noise(a, 1);
    noise(b, 2);
    noise(o, 3);
    for (int k = 0; k < 4; k++) noise(rows[k], 4 + k);
    for (int round = 0; round < 1000; round++) {
        u64 start = now(), turns = 0;
        for (int k = 0; k < 50; k++) { turns += dot(a, b, WORDS); a[0] = turns; }
        total += turns;
        less(best, now() - start);
        start = now();
        for (int k = 0; k < 50; k++) vv(o, a, b, WORDS);
        less(best + 1, now() - start);
        start = now();
        for (int k = 0; k < 50; k++) sv(o, total, b, WORDS);
        less(best + 2, now() - start);
        start = now();
        for (int k = 0; k < 50; k++) four(o, total, rows[0], rows[1], rows[2], rows[3], WORDS);
        less(best + 4, now() - start);
    }
    for (int round = 0; round < 3; round++) {
        size_t n = 1ull << 27;
        u64 start = now();
        void *block = malloc(8 * n);
        if (!block) return 1;
        set(block, 0, 8 * n);
        less(best + 3, now() - start);
        free(block);
    }
    const char *names[] = {"dot", "mul_add_vv", "mul_add_sv", "zeros", "mul_add_four"};
    for (int k = 0; k < 5; k++) printf("%s %llu\n", names[k], (unsigned long long)best[k]);
    printf("sum %llu\n", (unsigned long long)(total + dot(o, b, WORDS)));
    return 0;
}
C

for level in x86-64-v2 x86-64-v3; do
    gcc -O3 -march=$level -o plain plain.c
    (cd crates/words_bench && rt run --cpu=$level) > first 2>&1 || { tail -20 first; exit 1; }
    : > c
    : > r
    for _ in 1 2 3; do
        ./plain >> c
        crates/words_bench/out/words_bench >> r
    done
    echo "$level: nanoseconds a call, and Rattle's time over C's"
    awk '
        { if (!($1 in least) || $2 < least[$1]) least[$1] = $2 }
        FNR == NR { c[$1] = least[$1]; next }
        { if (!($1 in r) || $2 < r[$1]) r[$1] = $2 }
        END {
            split("dot mul_add_vv mul_add_sv mul_add_four", names)
            for (k = 1; k <= 4; k++) {
                n = names[k]
                printf "  %-12s of 4,096 words   C %6.0f   Rattle %6.0f   ratio %.2f\n", n, c[n] / 50, r[n] / 50, r[n] / c[n]
            }
            each = r["run64"] / 1600
            word = (r["run512"] / 200 - each) / 448
            printf "  mul_add_run of 64 words: %.0f a call, of which %.0f beside its words\n", each, each - 64 * word
            rows = r["rows64"] / 400
            word = (r["rows512"] / 50 - rows) / 448
            printf "  mul_add_four of rows of 64 words: %.0f a call, of which %.0f beside its words\n", rows, rows - 64 * word
            printf "  2^27 words of zeros: C malloc and memset %.2f s, Room::take %.2f s, ratio %.2f\n", c["zeros"] / 1e9, r["zeros"] / 1e9, r["zeros"] / c["zeros"]
        }' c r
done
