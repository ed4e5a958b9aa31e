#!/usr/bin/env bash
# Measures how long a pool of 60,000 slots takes to open. It builds a small program
# over copies of the pool's crates in a folder of its own, unproved, and runs it.
set -eu
top=$(cd "$(dirname "$0")/.." && pwd)
room=$(mktemp -d)
trap 'rm -rf "$room"' EXIT
mkdir -p "$room/crates/bench/src"
for crate in raw_block slot_pool; do
  cp -r "$top/crates/$crate" "$room/crates/$crate"
  rm -rf "$room/crates/$crate/out"
done
grep -E '^(raw_block|slot_pool):' "$top/crates.txt" >"$room/crates.txt"
echo 'bench: slot_pool' >>"$room/crates.txt"
cat >"$room/crates/bench/src/main.rt" <<'RATTLE'
#![tactic(auto)]

use slot_pool::Pool;
use std::io;
use std::time::Instant;

fn main(rt: HostRuntime) -> io::Result<()> {
    let start = Instant::now(&rt)?;
    let pool = Pool::with_slots(rt.alloc(), 60_000)?;
    let opened = start.elapsed(&rt)?.as_micros();
    println!(rt; "60000 slots opened in {opened} microseconds")?;
    drop(pool);
    Ok(())
}
RATTLE
cd "$room/crates/bench" && rt try 2>/dev/null | grep 'slots opened'
