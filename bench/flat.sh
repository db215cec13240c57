#!/bin/sh
# Times pack and unpack over real files of 2^24 elements against cp, and prints the ratio of the times of each shape. Pack and
# unpack flush the file before its first bytes are written, so they are held against a cp that is followed by `sync FILE`.
# To be run by hand, at the top of the repository: sh bench/flat.sh
#
# A throw-away program packs or unpacks once over the disk of the repository's program. Each side is timed from its
# start to its end; the rounds alternate, and the least time of each side counts. Work that earlier checks kept in out/
# is used, so `rt check` in crates/tce_tools makes this quick.
set -eu
rounds=5
. "$(dirname "$0")/build.sh"
copy_crates tce_base tce_outside tce_system tce_space tce_array tce_tools
begin_program arrayvec tce_outside tce_system tce_space tce_tools

cat > crates/tce/src/main.rt <<'RATTLE'
//! Packs or unpacks one file: the words are 0 or 1, and then an extent and an edge for each dimension.
#![tactic(auto)]

ghost use Rattle.std.specs.Prelude.{◌<◌, ◌≤◌, IsTrue};
ghost use Rattle.tce_space.specs.Name.{is_name};

use arrayvec::ArrayVec;
use std::process::ExitCode;
use std::{env, io};
use tce_outside::Disk;
use tce_space::{Name, Shape, Space, is_name};
use tce_system::FileDisk;
use tce_tools::{pack, unpack};

const LETTERS: [&str; 8] = ["a", "b", "c", "d", "e", "f", "g", "h"];

fn word(rt: &HostRuntime, place: usize) -> io::Result<u64> {
    let word = env::args(rt)?.nth(place);
    Ok(word.and_then(|word| word.parse::<u64>().ok()).unwrap_or(0))
}

fn declared(space: &mut Space, number: usize, extent: u64, edge: u64) -> Option<u8> {
    if 8 <= number {
        return None;
    }
    let Ok(name) = Name::from(LETTERS[number]) else {
        return None;
    };
    if !is_name(name.as_str().as_bytes()) || edge < 1 || extent < edge || 1 << 32 <= extent {
        return None;
    }
    space.add_range(&name, extent, edge).ok()
}

fn shape_of(space: &Space, ranges: &ArrayVec<u8, 8>) -> Option<Shape> {
    let count = space.range_count();
    if ranges.iter().all(|range| *range < count) {
        space.shape(ranges).ok()
    } else {
        None
    }
}

fn given_shape(rt: &HostRuntime) -> io::Result<Option<Shape>> {
    let Ok(mut space) = Space::new(rt.alloc()) else {
        return Ok(None);
    };
    let mut ranges = ArrayVec::new();
    for number in 0..8 {
        let extent = word(rt, 2 + 2 * number)?;
        let edge = word(rt, 3 + 2 * number)?;
        if 0 < extent {
            let Some(range) = declared(&mut space, number, extent, edge) else {
                return Ok(None);
            };
            if ranges.try_push(range).is_err() {
                return Ok(None);
            }
        }
    }
    Ok(shape_of(&space, &ranges))
}

fn moved<D: Disk>(disk: &mut D, shape: &Shape, command: u64, flat: &str, array: &str) -> bool {
    if flat == array {
        return false;
    }
    if array == flat {
        return false;
    }
    if command == 0 {
        pack(disk, shape, flat, array).is_ok()
    } else {
        unpack(disk, shape, array, flat).is_ok()
    }
}

fn run(rt: &HostRuntime) -> io::Result<bool> {
    let Some(shape) = given_shape(rt)? else {
        return Ok(false);
    };
    let mut disk = FileDisk::new(rt.alloc(), rt);
    let command = word(rt, 1)?;
    let flat = if command == 0 { "in.flat" } else { "out.flat" };
    Ok(moved(&mut disk, &shape, command, flat, "out.tca"))
}

fn main(rt: HostRuntime) -> ExitCode {
    match run(&rt) {
        Ok(true) => ExitCode::SUCCESS,
        _ => ExitCode::FAILURE,
    }
}
RATTLE

build crates/tce
head -c 134217728 /dev/urandom > in.flat

# the time of a command in microseconds
timed() {
    start=$(date +%s%N)
    "$@"
    end=$(date +%s%N)
    echo $(((end - start) / 1000))
}

echo '2^24 elements: milliseconds of cp, of cp and sync, of pack and unpack, and the speed of the two in parts of that of cp and sync'
for shape in '16777216 1' '16777216 64' '4096 1 4096 1' '4096 64 4096 64' '4096 256 4096 4096' \
    '4096 1 4096 4096' '256 64 256 64 256 64' '256 16 256 256 256 256'; do
    : > times.cp
    : > times.flushed
    : > times.pack
    : > times.unpack
    round=0
    while [ $round -lt $rounds ]; do
        rm -f copy.flat out.tca out.flat
        timed cp in.flat copy.flat >> times.cp
        rm -f copy.flat
        timed sh -c 'cp in.flat copy.flat && sync copy.flat' >> times.flushed
        timed crates/tce/out/tce 0 $shape >> times.pack
        timed crates/tce/out/tce 1 $shape >> times.unpack
        cmp -s in.flat out.flat || { echo "the elements differ"; exit 1; }
        round=$((round + 1))
    done
    echo "$(least times.cp) $(least times.flushed) $(least times.pack) $(least times.unpack)" | awk -v what="$shape" '{
        printf "%-28s cp %5.0f   flushed %5.0f   pack %6.0f  %.2f   unpack %6.0f  %.2f\n",
            what, $1 / 1e3, $2 / 1e3, $3 / 1e3, $2 / $3, $4 / 1e3, $2 / $4 }'
done
