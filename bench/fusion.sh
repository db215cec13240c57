#!/bin/sh
# Times the calls of tce_fusion on a chain of 32 products, each over ten loops, with all ten indexes fused on every
# edge, in nanoseconds: the least of a thousand rounds. To be run by hand, at the top of the repository:
# sh bench/fusion.sh
set -eu
. "$(dirname "$0")/build.sh"
copy_crates tce_base tce_space tce_tree tce_fusion
mkdir -p crates/fusion_bench/src
echo 'fusion_bench: arrayvec anyhow tce_space tce_tree tce_fusion' >> crates.txt

cat > "$work/crates/fusion_bench/src/main.rt" <<'RATTLE'
//! Times of the calls on a fusion of 32 nodes of ten loops, in nanoseconds.
#![tactic(auto)]

ghost use Rattle.std.specs.Prelude.{IfOk, IsTrue, ◌<◌, ◌≤◌, ◌^◌};
ghost use Rattle.tce_space.specs.Name.{is_name};
ghost use Rattle.tce_tree.specs.Measure.{IsMeasured};

use arrayvec::ArrayVec;
use std::alloc::Global;
use std::time::Instant;
use tce_fusion::{first_illegal, first_not_carried, memory, standard_orders};
use tce_space::{IndexSet, Name, Space};
use tce_tree::{Expr, Fusion, Leaf, Tree};

fn leaf(alloc: Global, tensor: u8, from: u8) -> anyhow::Result<Box<Expr>> {
    let mut indexes = ArrayVec::new();
    if from <= 2 {
        for i in from..from + 8 {
            indexes.try_push(i)?;
        }
    }
    Ok(Box::new(alloc, Expr::Leaf(Leaf { tensor, indexes }))?)
}

// A chain of 32 products, each over ten indexes.
fn chain(alloc: Global) -> anyhow::Result<Box<Expr>> {
    let mut made = leaf(alloc, 0, 0)?;
    for tensor in 1..33 {
        let next = leaf(alloc, tensor, 2)?;
        made = Box::new(alloc, Expr::Product(made, next))?;
    }
    Ok(made)
}


fn declare(space: &mut Space, name: &str, range: u8) -> anyhow::Result<()>
    requires { IsTrue (is_name name.now) }
{
    if range < space.range_count() {
        let text = Name::from(name)?;
        if space.add_index(&text, range).is_err() {
            anyhow::bail!("an index is refused");
        }
    }
    Ok(())
}

#[tactic(auto, unfolding(tce_space::specs::Name::is_name))]
fn declare_all(space: &mut Space, range: u8) -> anyhow::Result<()> {
    declare(space, "a", range)?;
    declare(space, "b", range)?;
    declare(space, "c", range)?;
    declare(space, "d", range)?;
    declare(space, "e", range)?;
    declare(space, "f", range)?;
    declare(space, "g", range)?;
    declare(space, "h", range)?;
    declare(space, "i", range)?;
    declare(space, "j", range)
}

#[tactic(auto, unfolding(tce_space::specs::Name::is_name))]
fn long_space(alloc: Global) -> anyhow::Result<Space> {
    let mut space = Space::new(alloc)?;
    let name = Name::from("V")?;
    match space.add_range(&name, 100, 1) {
        Ok(range) => declare_all(&mut space, range)?,
        Err(_) => anyhow::bail!("the range is refused"),
    }
    Ok(space)
}

fn tree_over(alloc: Global, space: &Space, expr: &Expr) -> anyhow::Result<Tree>
    ensures { IfOk result (IsMeasured space.now) }
{
    if expr.operations() > 32 || !expr.is_declared(space) {
        anyhow::bail!("too many operations, or an index is not declared");
    }
    if !expr.sums_are_distinct() {
        anyhow::bail!("a sum lists an index twice");
    }
    match Tree::build(alloc, space, expr) {
        Ok(tree) => Ok(tree),
        Err(_) => anyhow::bail!("the tree is refused"),
    }
}

// Each edge fuses all dims of its node.
fn fused_everywhere(tree: &Tree) -> anyhow::Result<Fusion> {
    let mut sets = ArrayVec::new();
    for v in 0..tree.count() {
        let set = if v + 1 < tree.count() { tree.dims(v) } else { IndexSet::empty() };
        sets.try_push(set)?;
    }
    Ok(Fusion(sets))
}

fn turns(rt: &HostRuntime, space: &Space, tree: &Tree, fusion: &Fusion) -> anyhow::Result<()>
    requires { IsMeasured space.now tree.now }
{
    let mut best = [u128::MAX; 4];
    let mut found: u64 = 0;
    for _round in 0..1000 {
        if !fusion.fits(tree) {
            return Ok(());
        }
        let start = Instant::now(rt)?;
        let illegal = first_illegal(tree, fusion);
        less(&mut best, 0, start.elapsed(rt)?.as_nanos());
        let start = Instant::now(rt)?;
        let total = memory(space, tree, fusion);
        less(&mut best, 1, start.elapsed(rt)?.as_nanos());
        if illegal.is_none() {
            let start = Instant::now(rt)?;
            let orders = standard_orders(tree, fusion);
            less(&mut best, 2, start.elapsed(rt)?.as_nanos());
            let start = Instant::now(rt)?;
            let bad = first_not_carried(tree, fusion, &orders);
            less(&mut best, 3, start.elapsed(rt)?.as_nanos());
            if bad.is_none() && total > 0 {
                found = found.wrapping_add(1);
            }
        }
    }
    println!(rt; "nodes {}", tree.count())?;
    println!(rt; "first_illegal {}", best[0])?;
    println!(rt; "memory {}", best[1])?;
    println!(rt; "standard_orders {}", best[2])?;
    println!(rt; "first_not_carried {}", best[3])?;
    println!(rt; "legal rounds {found}")?;
    Ok(())
}

fn less(best: &mut [u128; 4], k: usize, spent: u128) {
    if k < 4 && spent < best[k] {
        best[k] = spent;
    }
}

fn main(rt: HostRuntime) -> anyhow::Result<()> {
    let alloc = rt.alloc();
    let space = long_space(alloc)?;
    let expr = chain(alloc)?;
    let tree = tree_over(alloc, &space, &expr)?;
    let fusion = fused_everywhere(&tree)?;
    turns(&rt, &space, &tree, &fusion)
}
RATTLE

git init -q .
cd crates/fusion_bench
rt run
