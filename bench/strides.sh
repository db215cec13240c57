#!/bin/sh
# Times the product of two tiles of 64 by 64 words through strided loops, and prints picoseconds for each of its 262,144
# products. To be run by hand, at the top of the repository: sh bench/strides.sh
#
# Each time is the least of many rounds. Where the processor has wide lanes, Rattle's own compiler builds for them as well.
# Work that earlier checks kept in out/ is used, so `rt check` in crates/tce_block makes this quick.
set -eu
. "$(dirname "$0")/build.sh"
copy_crates tce_base tce_kernel tce_words tce_space tce_tree tce_block
mkdir -p crates/strides_bench/src
echo 'strides_bench: tce_block tce_words' >> crates.txt

cat > crates/strides_bench/src/main.rt <<'RATTLE'
//! Times of a product of two tiles of 64 by 64.
#![tactic(auto)]
ghost use Rattle.std.specs.Prelude.{◌≡◌, length};

use std::io;
use std::time::Instant;
use tce_block::{Loop, grow_by_products};
use tce_words::{HeapRoom, Room, Words};

fn multiply(words: &mut Words)
    requires { length words.old ≡ 12288 }
    ensures { length words.new ≡ 12288 }
{
    let row = Loop {
        len: 64,
        out: 64,
        left: 64,
        right: 0,
    };
    let between = Loop {
        len: 64,
        out: 0,
        left: 1,
        right: 64,
    };
    let column = Loop {
        len: 64,
        out: 1,
        left: 0,
        right: 1,
    };
    grow_by_products(words, &[row, between, column], 0, 4096, 8192);
}

fn less(best: &mut [u128; 5], k: usize, spent: u128) {
    if k < 5 && spent < best[k] {
        best[k] = spent;
    }
}

fn main(rt: HostRuntime) -> io::Result<()> {
    let mut best = [u128::MAX; 5];
    let mut room = HeapRoom::new(rt.alloc());
    let mut words = room.take(12288, 0)?;
    let mut word = words.len();
    for at in 0..12288 {
        word = word
            .wrapping_mul(6364136223846793005)
            .wrapping_add(1442695040888963407);
        if at < words.len() {
            words.put(at, word);
        }
    }
    for _round in 0..300 {
        let start = Instant::now(&rt)?;
        if words.len() == 12288 {
            multiply(&mut words);
        }
        less(&mut best, 0, start.elapsed(&rt)?.as_nanos());
    }
    let mut total: u64 = 0;
    for at in 0..4096 {
        if at < words.len() {
            total = total.wrapping_add(words.get(at));
        }
    }
    println!(rt; "{} ps a product, sum {total}", best[0] / 262)?;
    Ok(())
}
RATTLE

# time_for WHAT FLAG..: builds with these flags, and runs ten times
time_for() {
    what=$1
    shift
    (cd crates/strides_bench && rt run "$@") > first 2>&1 || { tail -20 first; exit 1; }
    : > times
    for _ in 1 2 3 4 5 6 7 8 9 10; do
        crates/strides_bench/out/strides_bench >> times
    done
    echo "$what: $(least times)"
}

time_for x86-64-v2 --cpu=x86-64-v2
time_for x86-64-v3 --cpu=x86-64-v3
if grep -qw avx512dq /proc/cpuinfo 2>/dev/null; then
    time_for 'x86-64-v4, by the compiler of Rattle' --cpu=x86-64-v4 --backend=rattle
fi
