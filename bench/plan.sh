#!/usr/bin/env bash
# plan.sh [RUNS]: times the plan of point lists of 256 and of 512 points, in 1000 runs by default.
# Twice the points should take at most 2.5 times as long. The script proves and builds a small
# program over the proved libraries in a copy of the repository, and the program times itself.
set -euo pipefail
runs="${1:-1000}"
# shellcheck source=tests/scratch.sh
. "$(dirname "$(readlink -f "$0")")/../tests/scratch.sh"

cat > "$scratch/plan_bench.rt" <<END
//! Plans lists again and again.
#![tactic(auto)]

use point_list::read_list;
use read_plan::plan;
use std::time::SystemTime;

const RUNS: u32 = $runs;

// Groups of a counter and its scale point, no two of them near enough for one read.
fn text_of(rt: &HostRuntime, groups: u32) -> anyhow::Result<Vec<u8>> {
    let mut text = b"name,function,area,address,type,scale\n".to_vec(rt.alloc())?;
    for group in 0..groups {
        let address = 200 * u64::from(group);
        let rows = format!(in rt.alloc(); "c{group},3,0,{address},acc32,s{group}\ns{group},3,0,{},sunssf,\n", address + 2)?;
        text.extend_from_slice(rows.as_bytes())?;
    }
    Ok(text)
}

fn time(rt: &HostRuntime, groups: u32) -> anyhow::Result<()> {
    let text = text_of(rt, groups)?;
    let Ok(list) = read_list(rt.alloc(), &text) else {
        anyhow::bail!("no list");
    };
    let before = SystemTime::now(rt)?;
    for _run in 0..RUNS {
        let _plan = plan(rt.alloc(), &list)?;
    }
    let Ok(taken) = SystemTime::now(rt)?.duration_since(before) else {
        anyhow::bail!("the clock went back");
    };
    println!(rt; "{} points: {} us a plan", 2 * u64::from(groups), taken.as_micros() / u128::from(RUNS))?;
    Ok(())
}

fn main(rt: HostRuntime) -> anyhow::Result<()> {
    time(&rt, 128)?;
    time(&rt, 256)
}
END
scratch plan_bench "anyhow point_list read_plan" "$scratch/plan_bench.rt"
