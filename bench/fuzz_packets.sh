#!/usr/bin/env bash
# Feeds random and mutated datagrams of both forms to a member with the fifteen library layers, and counts how many are taken, refused, and
# taken but not written and read again as the same packet in both forms, by a member that runs by code and by a layered one. It builds a small program over copies of the crates in a
# folder of its own, unproved, and runs it on the interpreter: fuzz_packets.sh [TURNS].
set -eu
top=$(cd "$(dirname "$0")/.." && pwd)
room=$(mktemp -d)
trap 'rm -rf "$room"' EXIT
tar -C "$top" --exclude=out -cf - crates crates.txt | tar -C "$room" -xf -
mkdir -p "$room/crates/bench/src"
below=$(grep -E '^(file_judge|packet_short):' "$top/crates.txt" | tr -d ':' | tr ' ' '\n' | sort -u | tr '\n' ' ')
echo "bench: $below" >>"$room/crates.txt"
{
  cat <<'RATTLE'
#![tactic(auto)]

use file_judge::judge;
use msg_core::{Dest, Fields, Header, Headers, Memory, View};
use packet_full::{PacketView, Scan, form_at};
use packet_mean::Here;
use packet_short::{Known, Layouts, fits_scan, most_fields, put_wire, scan_packet, wire_room_of};
use stack_judge::Stack;
use stack_shapes::{Plan, Plans, StackShapes};
use std::alloc::Global;
use std::io;

const TEXT: &[u8] = b"stack { bottom; mnak; pt2pt; pt2ptw; mflow; frag; collect; stable; local; total; suspect; elect; sync; intra; top; }\n";

const HERE: Here = Here { group: 1, stamp: 2, view: View { ltime: 3, mask: 7 }, rank: 1 };

/// The headers of a packet that fits a plan, with 7 for each variable field.
fn headers_of(stack: &Stack, plan: &Plan) -> Headers {
    let mut headers = Headers::new();
    let mut end = plan.fields.len();
    for place in (0..plan.tags.len()).rev() {
        let tag = plan.tags[place];
        let count = match form_at(stack, place as u8, tag) { Some(form) => usize::from(form.fields), None => 0 };
        let mut fields = Fields::new();
        for k in 0..count {
            fields.push(plan.fields[end - count + k].unwrap_or(7));
        }
        end -= count;
        headers.push_front(Header { layer: place as u8, tag, fields });
    }
    headers
}

/// The same member at another rank.
fn ranked(rank: u8) -> Here {
    Here { group: HERE.group, stamp: HERE.stamp, view: HERE.view, rank }
}

/// What a scan tells of, as it is sent under a plan, or in full.
fn sent(alloc: Global, plans: &Plans, plan: Option<u8>, scan: &Scan, bytes: &[u8]) -> Result<Vec<u8>, Memory> {
    let packet = PacketView { dest: scan.dest, headers: &scan.headers, body: &bytes[scan.body as usize..], plan };
    let mut sent = Vec::with_capacity(alloc, wire_room_of(&packet))?;
    put_wire(plans, &ranked(scan.sender), &packet, &mut sent);
    Ok(sent)
}
RATTLE
  cat <<'RATTLE'

const TURNS: u64 = TURNS_HERE;

/// Numbers from a seed, as a linear congruential generator has them.
fn next(seed: &mut u64) -> usize {
    *seed = seed.wrapping_mul(6364136223846793005).wrapping_add(1442695040888963407);
    (*seed >> 33) as usize
}

/// Whether a datagram that is taken is written and read again as the same packet, in both forms, and fits the plan that reading tells.
fn is_kept(alloc: Global, known: &Known<'_>, fields: &mut Vec<u32>, bytes: &[u8]) -> Result<Option<bool>, Memory> {
    let plans = known.plans;
    let mut scan = Scan::new();
    let Ok(told) = scan_packet(known, &HERE, bytes, &mut scan, fields) else { return Ok(None) };
    let mut kept = Vec::new(alloc);
    kept.extend_from_slice(fields.as_slice())?;
    let number = fits_scan(plans, &scan, fields);
    if told.is_some() && (told != number || kept.as_slice() != fields.as_slice()) { return Ok(Some(false)); }
    let full = sent(alloc, plans, None, &scan, bytes)?;
    let mut again = Scan::new();
    let Ok(_) = scan_packet(known, &HERE, full.as_slice(), &mut again, fields) else { return Ok(Some(false)) };
    if number != fits_scan(plans, &again, fields) { return Ok(Some(false)); }
    if number.is_none() { return Ok(Some(bytes == full.as_slice())); }
    let short = sent(alloc, plans, number, &scan, bytes)?;
    let Ok(_) = scan_packet(known, &HERE, short.as_slice(), &mut again, fields) else { return Ok(Some(false)) };
    let twice = sent(alloc, plans, None, &again, short.as_slice())?;
    Ok(Some(twice.as_slice() == full.as_slice()))
}

/// The same by a member that runs by code and by a layered one: what both say, or that something is wrong.
fn is_kept_by_both(alloc: Global, laid: &Known<'_>, plain: &Known<'_>, fields: &mut Vec<u32>, bytes: &[u8]) -> Result<Option<bool>, Memory> {
    let first = is_kept(alloc, laid, fields, bytes)?;
    let second = is_kept(alloc, plain, fields, bytes)?;
    if first == second { Ok(first) } else { Ok(Some(false)) }
}

fn fuzz(rt: &HostRuntime, alloc: Global, stack: &Stack, plans: &Plans) -> io::Result<()> {
    let scan = Scan { sender: 0, dest: Dest::All, headers: headers_of(stack, &plans.slice()[0]), body: 0 };
    let Ok(full) = sent(alloc, plans, None, &scan, b"hi") else { return Ok(()) };
    let Ok(short) = sent(alloc, plans, Some(0), &scan, b"hi") else { return Ok(()) };
    let Ok(layouts) = Layouts::of(alloc, stack, plans) else { return Ok(()) };
    let none = Layouts::new(alloc);
    let laid = Known { stack, plans, layouts: &layouts };
    let plain = Known { stack, plans, layouts: &none };
    let Ok(mut fields) = Vec::with_capacity(alloc, most_fields(plans)) else { return Ok(()) };
    let mut seed = 1_u64;
    let (mut taken, mut refused, mut wrong) = (0_u64, 0_u64, 0_u64);
    let Ok(mut bytes) = Vec::with_capacity(alloc, 9000) else { return Ok(()) };
    for turn in 0..TURNS {
        bytes.clear();
        let from = if turn % 2 == 0 { full.as_slice() } else { short.as_slice() };
        let keep = next(&mut seed) % 8;
        let length = if keep == 0 { next(&mut seed) % (from.len() + 1) } else { from.len() };
        let Ok(()) = bytes.extend_from_slice(&from[..length]) else { return Ok(()) };
        let changes = next(&mut seed) % 4;
        for _ in 0..changes {
            if !bytes.is_empty() {
                let first = if next(&mut seed) % 4 == 0 { 0 } else { 19 };
                let span = bytes.len() - if first < bytes.len() { first } else { 0 };
                let place = (if first < bytes.len() { first } else { 0 }) + next(&mut seed) % span;
                bytes[place] = (next(&mut seed) % 9) as u8;
            }
        }
        if turn % 16 == 15 {
            for place in 19..bytes.len() { bytes[place] = (next(&mut seed) % 256) as u8; }
        }
        match is_kept_by_both(alloc, &laid, &plain, &mut fields, bytes.as_slice()) {
            Ok(None) => refused += 1,
            Ok(Some(true)) => taken += 1,
            Ok(Some(false)) => wrong += 1,
            Err(_) => return Ok(()),
        }
    }
    println!(rt; "{taken} taken and kept, {refused} refused, {wrong} wrong")
}
RATTLE
  cat <<'RATTLE'

fn main(rt: HostRuntime) -> io::Result<()> {
    let alloc = rt.alloc();
    let Ok(stack) = judge(alloc, TEXT) else { return println!(rt; "no stack") };
    let Ok(shapes) = StackShapes::of(alloc, &stack) else { return println!(rt; "no memory") };
    fuzz(&rt, alloc, &stack, &shapes.plans)
}
RATTLE
} | sed "s/TURNS_HERE/${1:-1000}/" >"$room/crates/bench/src/main.rt"
cd "$room/crates/bench" && rt try 2>"$room/errors" || { tail -20 "$room/errors"; exit 1; }
