#!/usr/bin/env python3
"""Compares what the program reads of datagrams with the independent reading.

Run it from any folder: diff/packets.py [STACKS] [DATAGRAMS] [SEED]. It builds a small program over copies of the crates in a folder of its own,
unproved, and hands it random stacks of the library's layers, each with random and mutated datagrams in full and short. For each datagram the
sender, the destination, the headers, the body, the least plan that they fit and the fields that this plan leaves variable, or the cause for
which it is refused, must be those of the reading: read as by a member that runs by code, and again as by a layered one. It prints each difference
and ends with 1 where there is one.
"""
import os
import random
import shutil
import subprocess
import sys
import tempfile

sys.path.insert(0, os.path.dirname(os.path.abspath(__file__)))
import reading
import running

TOP = os.environ.get("JUQHANEP", os.path.dirname(os.path.dirname(os.path.abspath(__file__))))
USED = ("file_judge", "packet_short", "packet_full", "stack_shapes", "packet_mean", "stack_judge", "msg_core")

PROGRAM = r"""
#![tactic(auto)]

use stack_judge::Stack;
use file_judge::judge;
use msg_core::{Dest, Stray, View};
use packet_full::Scan;
use packet_mean::Here;
use packet_short::{Known, Layouts, fits_scan, most_fields, scan_packet};
use stack_shapes::StackShapes;
use std::fs;
use std::io;

/// What is left of the input.
#[derive(Drop)]
struct Input<'a> {
    left: &'a [u8],
}

impl<'a> Input<'a> {
    fn bytes(&mut self, count: usize) -> &'a [u8] {
        let (first, rest) = self.left.split_at_checked(count).unwrap_or((&[], &[]));
        self.left = rest;
        first
    }

    fn number(&mut self) -> u32 {
        let mut number: u32 = 0;
        for byte in self.bytes(4) {
            number = number.wrapping_mul(256).wrapping_add(u32::from(*byte));
        }
        number
    }
}

fn cause(stray: Stray) -> &'static str {
    match stray {
        Stray::Short => "short",
        Stray::Form => "form",
        Stray::Group => "group",
        Stray::Stamp => "stamp",
        Stray::View => "view",
        Stray::Sender => "sender",
        Stray::Dest => "dest",
        Stray::Plan => "plan",
        Stray::Chain => "chain",
        Stray::Body => "body",
    }
}

fn say(rt: &HostRuntime, plan: Option<u8>, fields: &[u32], scan: &Scan) -> io::Result<()> {
    let sender = scan.sender;
    let body = scan.body;
    print!(rt; "{sender} ")?;
    match scan.dest {
        Dest::All => print!(rt; "all ")?,
        Dest::Rank(rank) => print!(rt; "{rank} ")?,
    }
    match plan {
        Some(plan) => print!(rt; "{plan} ")?,
        None => print!(rt; "- ")?,
    }
    for field in fields {
        print!(rt; "{field},")?;
    }
    print!(rt; " ")?;
    for place in 0..scan.headers.len() {
        if let Some(header) = scan.headers.at(place) {
            let layer = header.layer;
            let tag = header.tag;
            print!(rt; "{layer}.{tag}(")?;
            for number in 0..header.fields.len() {
                let field = header.fields.at(number);
                print!(rt; "{field},")?;
            }
            print!(rt; ")")?;
        }
    }
    println!(rt; " {body}")
}

fn section(rt: &HostRuntime, input: &mut Input<'_>) -> io::Result<()> {
    let size = input.number() as usize;
    let text = input.bytes(size);
    let here = Here {
        group: input.number(),
        stamp: input.number(),
        view: View {
            ltime: input.number(),
            mask: input.number(),
        },
        rank: input.number() as u8,
    };
    let count = input.number();
    let Ok(stack) = judge(rt.alloc(), text) else {
        return println!(rt; "the stack is refused");
    };
    let Ok(StackShapes { plans, starts: _, entries: _ }) = StackShapes::of(rt.alloc(), &stack) else {
        return println!(rt; "no memory");
    };
    let Ok(laid) = Layouts::of(rt.alloc(), &stack, &plans) else {
        return println!(rt; "no memory");
    };
    let none = Layouts::new(rt.alloc());
    let Ok(mut fields) = Vec::with_capacity(rt.alloc(), most_fields(&plans)) else {
        return println!(rt; "no memory");
    };
    let mut scan = Scan::new();
    for _ in 0..count {
        let size = input.number() as usize;
        let datagram = input.bytes(size);
        for layouts in [&laid, &none] {
            let known = Known { stack: &stack, plans: &plans, layouts };
            match scan_packet(&known, &here, datagram, &mut scan, &mut fields) {
                Ok(told) => {
                    let plan = match told {
                        Some(plan) => Some(plan),
                        None => fits_scan(&plans, &scan, &mut fields),
                    };
                    say(rt, plan, fields.as_slice(), &scan)?;
                }
                Err(stray) => {
                    let why = cause(stray);
                    println!(rt; "{why}")?;
                }
            }
        }
    }
    Ok(())
}

fn main(rt: HostRuntime) -> io::Result<()> {
    let all = fs::read(&rt, "input")?;
    let mut input = Input {
        left: all.as_slice(),
    };
    while !input.left.is_empty() {
        section(&rt, &mut input)?;
    }
    Ok(())
}
"""


def number(value):
    return value.to_bytes(4, "big")


class Group:
    """A stack with a member that reads."""

    def __init__(self, r, names):
        self.text = ("stack { " + "".join(f"{word}; " for word in names) + "}\n").encode()
        stack = reading.stack_of(self.text)
        layers = [running.Layer(layer, place, i, len(stack)) for i, (layer, place) in enumerate(stack)]
        self.world = running.World(layers, r.randrange(2**32), r.randrange(4), 32)
        self.member = running.Member(self.world, 0)
        self.member.view = (r.randrange(3), r.randrange(1, 2**r.randint(1, 32)))
        self.member.n = len(self.member.ids())
        self.member.rank = r.randrange(self.member.n)

    def front(self, r):
        member = self.member
        others = [rank for rank in range(member.n) if rank != member.rank] or [0]
        dest = r.choice((255, 255, member.rank))
        numbers = (self.world.group, self.world.stamp, *member.view)
        return b"".join(map(number, numbers)) + bytes([r.choice(others), dest])

    def full(self, r, chain=None):
        out = b"\xe5" + self.front(r)
        for layer in self.world.layers:
            tag = chain(layer) if chain else r.choice((0, r.randint(0, len(layer.headers))))
            out += bytes([tag]) + b"".join(number(r.choice((r.randrange(4), r.randrange(2**32)))) for _ in range(layer.field_count(tag)))
            if layer.ends(tag):
                break
        return out

    def planned(self, r, short):
        """A packet that fits a plan, in either form."""
        plan = r.randrange(len(self.world.plans))
        kind, tags, fields = self.world.plans[plan]
        front = self.front(r)[:-1] + bytes([255 if kind == "Cast" else self.member.rank])
        values = [r.choice((0, 7, r.randrange(2**32))) if field is None else field for field in fields]
        if short:
            return b"\xe6" + front + bytes([plan]) + b"".join(number(v) for v, f in zip(values, fields) if f is None)
        out = b"\xe5" + front
        for layer, tag in zip(self.world.layers, tags):
            own = [values.pop(0) for _ in range(layer.field_count(tag))]
            out += bytes([tag]) + b"".join(map(number, own))
        return out

    def datagram(self, r):
        data = r.choice((lambda: self.full(r), lambda: self.planned(r, True), lambda: self.planned(r, False)))() if self.world.plans else self.full(r)
        data += r.randbytes(r.choice((0, 3, 40, r.choice((8192, 8193)))))
        for _ in range(r.choice((0, 0, 0, 1, 2))):
            place = r.randrange(len(data))
            data = data[:place] + bytes([r.choice((data[place] ^ 1 << r.randrange(8), r.randrange(256)))]) + data[place + 1:]
        if r.random() < 0.15:
            data = data[:r.randint(0, min(len(data), 80))]
        return data

    def answer(self, data):
        try:
            packet = self.member.read(data)
        except running.Stray as stray:
            return str(stray)
        headers, body = packet["message"]
        plans = [k for k, plan in enumerate(self.world.plans) if running.fits(plan, packet["kind"], headers)]
        chain = "".join(f"{place}.{tag}({''.join(f'{field},' for field in fields)})" for place, tag, fields in headers)
        dest = "all" if packet["dest"] is None else packet["dest"]
        given = [field for _, _, fields in headers for field in fields]
        planned = self.world.plans[plans[0]][2] if plans else []
        kept = "".join(f"{field}," for field, plan in zip(given, planned) if plan is None)
        return f"{packet['sender']} {dest} {plans[0] if plans else '-'} {kept} {chain} {len(data) - len(body)}"

    def section(self, datagrams):
        member = self.member
        numbers = (self.world.group, self.world.stamp, *member.view, member.rank, len(datagrams))
        return number(len(self.text)) + self.text + b"".join(map(number, numbers)) + b"".join(number(len(d)) + d for d in datagrams)


def build(room):
    rows = {}
    with open(f"{TOP}/crates.txt", encoding="utf-8") as file:
        for row in file:
            if ":" in row and not row.startswith("#"):
                name, below = row.split(":")
                rows[name] = below.split()
    needed, left = set(), list(USED)
    while left:
        name = left.pop()
        if name in rows and name not in needed:
            needed.add(name)
            left += rows[name]
            shutil.copytree(f"{TOP}/crates/{name}", f"{room}/crates/{name}", ignore=shutil.ignore_patterns("out"))
    os.makedirs(f"{room}/crates/packets/src")
    with open(f"{room}/crates/packets/src/main.rt", "w", encoding="utf-8") as file:
        file.write(PROGRAM.lstrip())
    with open(f"{room}/crates.txt", "w", encoding="utf-8") as file:
        file.writelines(f"{name}: {' '.join(rows[name])}\n" for name in needed)
        file.write(f"packets: {' '.join(sorted(needed | {word for name in needed for word in rows[name]}))}\n")


def main():
    stacks, count, seed = (int(word) for word in (sys.argv[1:] + ["40", "250", "1"][len(sys.argv) - 1:]))
    r = random.Random(seed)
    library = list(reading.library())
    groups = [Group(r, [word for word in library if r.random() < r.choice((0.2, 0.6, 1))] or ["bottom"]) for _ in range(stacks)]
    given = [(group, [group.datagram(r) for _ in range(count)]) for group in groups]
    with tempfile.TemporaryDirectory() as room:
        build(room)
        with open(f"{room}/input", "wb") as file:
            file.write(b"".join(group.section(datagrams) for group, datagrams in given))
        ran = subprocess.run(["rt", "try", "--seconds", "600", "--data", f"input={room}/input"], cwd=f"{room}/crates/packets", stdout=subprocess.PIPE, stderr=subprocess.PIPE, check=False)
    lines = ran.stdout.decode().splitlines()
    pairs = [(group, data) for group, datagrams in given for data in datagrams for _ in ("by code", "layered")]
    if len(lines) < len(pairs):
        sys.exit(f"the program ended early: {ran.stdout.decode()[-400:]} {ran.stderr.decode()[-2000:]}")
    at = next(k for k in range(len(lines)) if len(lines) - k == len(pairs))
    differences = 0
    for (group, data), got in zip(pairs, lines[at:]):
        wanted = group.answer(data)
        if got.strip() != wanted:
            differences += 1
            print(f"{group.text.decode().strip()} {data.hex()[:200]}: the program reads {got!r}, the reading {wanted!r}")
    print(f"{len(pairs) // 2} datagrams, read twice, {differences} differences")
    sys.exit(1 if differences else 0)


main()
