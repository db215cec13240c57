#!/bin/sh
# Times touches of tiles alone, in nanoseconds of the processor, the least of some rounds. To be run by hand:
# sh bench/touch.sh
#
# Held tiles: 10^8 touches of three tiles in turn. Tiles at random: 10^6 touches of 8,192 tiles of 4,096 words, of which
# the frames hold 4,096, first for reading alone, and then for writing, with a flush at the end. Beside them stand the
# bytes that the disk must move, which are those of the tiles that were not held, read and, where each is marked,
# written; and cp, which moves as many from one file to another. The files are in a temporary folder, and mostly in the
# system's cache.
#
# The cache runs over the disk of the repository's program, in a throw-away program that is proved and built as any is.
# Work that earlier checks kept in out/ is used, so `rt check` in crates/tce_cache makes this quick.
set -eu
rounds=${ROUNDS:-3}
. "$(dirname "$0")/build.sh"
copy_crates tce_base tce_kernel tce_space tce_words tce_outside tce_system tce_array tce_cache
begin_program arrayvec tce_space tce_outside tce_system tce_array tce_words tce_cache

cat > crates/tce/src/main.rt <<'RATTLE'
//! Touches tiles: `held`, `read` or `written` in the words.
//!
//! It prints the nanoseconds of the processor that the touches took, and how many tiles were not held.
#![tactic(auto)]

mod trial;

use std::fs::File;
use std::io::ErrorKind;
use std::rt::Files;
use std::time::CpuClock;
use std::{env, io};
use trial::{TILES, Trial};

// With the last touch, 10^8 touches.
const TURNS: u64 = 33_333_333;

const TOUCHES: u64 = 1_000_000;

// Touches three tiles in turn.
fn in_turn<R: Files<File = File>>(trial: &mut Trial<'_, R>) -> bool {
    for _turn in 0..TURNS {
        if !trial.touch(0, false) || !trial.touch(1, false) || !trial.touch(2, false) {
            return false;
        }
    }
    trial.touch(0, false)
}

// Touches tiles at random, and answers how many were not held.
fn at_random<R: Files<File = File>>(trial: &mut Trial<'_, R>, write: bool) -> Option<u64> {
    let mut number: u64 = 1;
    let mut missed: u64 = 0;
    for _touch in 0..TOUCHES {
        number = number
            .wrapping_mul(6364136223846793005)
            .wrapping_add(1442695040888963407);
        let tile = (number >> 32) % TILES;
        missed = missed.wrapping_add(u64::from(!trial.holds(tile)));
        if !trial.touch(tile, write) {
            return None;
        }
    }
    Some(missed)
}

// Touches tiles as the word says, and answers how many were not held.
fn touches<R: Files<File = File>>(trial: &mut Trial<'_, R>, word: &str) -> Option<u64> {
    match word {
        "held" if in_turn(trial) => Some(3),
        "read" => at_random(trial, false),
        "written" => {
            let missed = at_random(trial, true)?;
            if trial.flush() { Some(missed) } else { None }
        }
        _ => None,
    }
}

fn main(rt: HostRuntime) -> io::Result<()> {
    let Some(word) = env::args(&rt)?.nth(1) else {
        return Ok(());
    };
    let Some(mut trial) = Trial::new(rt.alloc(), &rt) else {
        return Err(io::Error::from(ErrorKind::OutOfMemory));
    };
    let start = rt.process_cpu_time()?.as_nanos();
    let missed = touches(&mut trial, &word);
    let end = rt.process_cpu_time()?.as_nanos();
    match missed {
        Some(missed) => println!(rt; "{} {missed}", end.wrapping_sub(start)),
        None => Err(io::Error::from(ErrorKind::Other)),
    }
}
RATTLE

cat > crates/tce/src/trial.rt <<'RATTLE'
// A cache over one array in a file, with all that its calls take.
ghost use Rattle.std.specs.Prelude.{◌≡◌, ◌+◌, ◌*◌, ◌^◌, [], ◌∷◌, ◌<◌, ◌≤◌, true, length, IfSome};
ghost use Rattle.tce_space.specs.Tiling.{tile_words, tiles};
ghost use Rattle.tce_cache.specs.Cache.{HasRoom};

use arrayvec::ArrayVec;
use std::alloc::Global;
use std::fs::File;
use std::rt::Files;
use tce_array::Form;
use tce_cache::{ArrayRef, Cache};
use tce_space::{FileName, Name, Shape, Space, is_name};
use tce_system::FileDisk;
use tce_words::{HeapRoom, Room, Words};

/// How many tiles the array has.
pub const TILES: u64 = 8192;

/// How many words a tile has, and a frame.
const TILE_WORDS: u64 = 4096;

const FRAMES: u64 = 4096;

/// A cache over the tiles of one array, which may be written.
#[derive(Drop)]
pub struct Trial<'a, R: Files<File = File>> {
    array: ArrayRef,
    cache: Cache,
    disk: FileDisk<'a, R>,
    words: Words,
    ghost arrays: { cache.arrays ≡ array ∷ [] },
    ghost tiles: { 8192 ≤ tiles array.shape },
    ghost writable: { array.writable ≡ true },
    ghost room: { HasRoom cache words },
}

// The shape of one dimension with all the tiles.
fn shape_of(alloc: Global) -> Option<Shape>
    ensures words { IfSome result (λ shape. tile_words shape ≤ 4096) }
    ensures tiles { IfSome result (λ shape. 8192 ≤ tiles shape) }
{
    let Ok(mut space) = Space::new(alloc) else {
        return None;
    };
    let Ok(name) = Name::from("n") else {
        return None;
    };
    if !is_name(name.as_str().as_bytes()) {
        return None;
    }
    let Ok(range) = space.add_range(&name, TILES * TILE_WORDS, TILE_WORDS) else {
        return None;
    };
    let mut ranges = ArrayVec::new();
    ranges.push(range);
    let Ok(shape) = space.shape(&ranges) else {
        return None;
    };
    if TILE_WORDS < shape.tile_words() || shape.tiles() < TILES {
        return None;
    }
    Some(shape)
}

fn array_of(alloc: Global) -> Option<ArrayRef>
    ensures words { IfSome result (λ a. tile_words a.shape ≤ 4096) }
    ensures tiles { IfSome result (λ a. 8192 ≤ tiles a.shape) }
    ensures writable { IfSome result (λ a. a.writable ≡ true) }
    ensures form { IfSome result (λ a. a.form ≡ Form.One) }
{
    let Ok(file) = FileName::from("A.tca") else {
        return None;
    };
    Some(ArrayRef {
        file,
        shape: shape_of(alloc)?,
        form: Form::One,
        writable: true,
    })
}

// A cache over this array, with all the frames.
fn cache_of(alloc: Global, array: &ArrayRef) -> Option<Cache>
    requires words { tile_words array.now.shape ≤ 4096 }
    requires form { array.now.form ≡ Form.One }
    ensures arrays { IfSome result (λ c. c.arrays ≡ array.now ∷ []) }
    ensures places { IfSome result (λ c. c.at + c.frames * c.frame_words ≡ 16777216) }
{
    let Ok(array) = array.clone() else {
        return None;
    };
    Cache::new(alloc, &[array], 0, FRAMES, TILE_WORDS).ok()
}

// So many words that are all 0.
fn words_of(alloc: Global, count: u64) -> Option<Words>
    requires { count ≤ 2 ^ 40 }
    ensures { IfSome result (λ words. length words ≡ count) }
{
    let mut room = HeapRoom::new(alloc);
    room.take(count, 0).ok()
}

impl<'a, R: Files<File = File>> Trial<'a, R> {
    /// A cache that holds no tile.
    pub fn new(alloc: Global, files: &'a R) -> Option<Self> {
        let array = array_of(alloc)?;
        let cache = cache_of(alloc, &array)?;
        let words = words_of(alloc, FRAMES * TILE_WORDS)?;
        Some(Trial {
            array,
            cache,
            disk: FileDisk::new(alloc, files),
            words,
        })
    }

    /// Whether a frame holds a tile.
    pub fn holds(&self, tile: u64) -> bool
        requires { tile < 8192 }
    {
        self.cache.holds(0, tile)
    }

    /// Touches a tile, and answers whether that went well.
    pub fn touch(&mut self, tile: u64, write: bool) -> bool
        requires { tile < 8192 }
    {
        if 1 << 60 < self.cache.touches() {
            return false;
        }
        self.cache
            .touch(&mut self.disk, &mut self.words, 0, tile, write)
            .is_ok()
    }

    /// Writes all marked tiles to the file, and answers whether that went well.
    pub fn flush(&mut self) -> bool {
        self.cache.flush(&mut self.disk, &self.words).is_ok()
    }
}
RATTLE

build crates/tce
make_spent
head -c 268435488 /dev/urandom > A.tca

# touch_tiles WORD: sets `nanos` to the least time of its touches, and `missed` to the number of tiles that were not held
touch_tiles() {
    : > touch.times
    round=0
    while [ $round -lt "$rounds" ]; do
        crates/tce/out/tce "$1" >> touch.times
        round=$((round + 1))
    done
    least touch.times > touch.least
    read -r nanos missed < touch.least
}

# at_random WORD TIMES: the touches beside what the disk moves, each tile so many times, and beside as many copied bytes
at_random() {
    touch_tiles "$1"
    moved=$((missed * 32768 * $2))
    copies=$((moved / 536870912)) # a copy of the file reads 256 MiB and writes them
    copied=$(least_spent sh -c 'for _ in $(seq "$1"); do cp A.tca copy.tca; done' copy $copies)
    echo "$nanos $missed $moved $copies $copied" | awk -v what="$1" '{
        disk = 1e3 * $3 / $1
        cp = 536870912 * $4 / $5
        printf "10^6 touches at random, %-7s %6.0f ns a touch, %d not held, %.0f MB at %.0f MB/s; cp %.0f MB/s, ratio %.2f\n", what, $1 / 1e6, $2, $3 / 1e6, disk, cp, cp / disk }'
}

touch_tiles held
echo "$nanos" | awk '{ printf "10^8 touches of three held tiles: %.2f ns a touch\n", $1 / 1e8 }'
at_random read 1
at_random written 2
