#!/usr/bin/env python3
"""One process of a replicated key-value store: a member of a group, and a server for clients.

    store.py ME PROCESSES [--first STAMP] [--layers FILE] [--after MS] [--log FOLDER]

PROCESSES is a file with a line for each process: its number, its address for the group (UDP) and its address for clients (TCP). `--first` begins the
store: all processes are started with it once, with one number that was never used before. A process that is started without it, or was left out,
asks the others to begin anew with it. A client writes operations as lines of JSON and reads an answer to each; README.md has them.
"""
import argparse
import asyncio
import collections
import itertools
import json
import os
import re
import secrets
import sys
import time

TOP = os.path.dirname(os.path.dirname(os.path.dirname(os.path.abspath(__file__))))
sys.path.append(os.path.join(TOP, "bindings", "python"))

from juqhanep import Block, Cast, Datagram, Member, Out, Send, Stray, View, log
from machine import KINDS, Store, fault

TICK = 0.02  # seconds
PATIENCE = 5.0  # for how long an operation waits to be cast
WISH = 60.0  # for how long a process waits for others to begin anew: they may have to leave it out first
LINGER = 2.0  # for how long a member that was renewed still answers the others
LONGEST = 8_000  # bytes of an operation


def processes(path):
    """The addresses of a file of processes: for each of them that of the group and that of clients."""
    found = {}
    with open(path, encoding="ascii") as file:
        for line in file:
            words = line.split("#")[0].split()
            if words:
                found[int(words[0])] = [(host, int(port)) for host, port in (word.rsplit(":", 1) for word in words[1:3])]
    return [found[number] for number in range(len(found))]


class Life:
    """A member of the group under one stamp: it ends when it is out, or some time after the group was renewed."""

    def __init__(self, member):
        self.member = member
        self.stamp = member.stamp
        self.shut = False  # casts are handed back
        self.ends = None  # when a renewed one ends


class Process:
    def __init__(self, me, addresses, layers, folder):
        self.me, self.addresses, self.layers, self.folder = me, addresses, layers, folder
        self.life, self.old, self.link = None, None, None
        self.run, self.numbers = secrets.token_hex(4), itertools.count()
        self.store = Store()
        self.queue = collections.deque()  # operations that aren't cast
        self.cast = {}  # those that are, by their number
        self.near = {}  # when each other process was last heard of, by this one while it is in no group

    # ---- clients

    async def serve(self, reader, writer):
        """One client: an answer for each line, in order."""
        try:
            while line := await reader.readline():
                answer = await self.answer(line)
                writer.write(json.dumps(answer).encode() + b"\n")
                await writer.drain()
        except (ConnectionError, ValueError):
            pass  # (a line that is too long is a ValueError)
        finally:
            writer.close()

    async def answer(self, line):
        try:
            op = json.loads(line)
        except ValueError:
            return {"error": "no JSON"}
        if isinstance(op, dict) and op.get("op") == "state":
            return self.state()
        if isinstance(op, dict) and op.get("op") == "join":
            return await self.submit({"op": "renew"})
        wrong = fault(op) or ("too long" if len(json.dumps(op)) > LONGEST else None)
        return {"error": wrong} if wrong else await self.submit({name: op[name] for name in ("op", "key", *KINDS[op["op"]])})

    def state(self):
        if not self.life:
            return {"state": "out"}
        return {"state": "shut" if self.life.shut else "in", "stamp": self.life.stamp, "view": self.life.member.view.ids}

    async def submit(self, op):
        """Casts an operation as soon as that is possible, and waits for what comes of it."""
        if not self.life:
            return {"error": "unavailable"}
        done = asyncio.get_running_loop().create_future()
        self.queue.append((dict(op, by=self.run, n=next(self.numbers)), done, time.monotonic() + PATIENCE))
        self.pump()
        return await done

    def pump(self):
        """Casts what waits, while casts are taken."""
        while self.queue and self.life and not self.life.shut:
            op, done, until = self.queue.popleft()
            if op["op"] == "renew":
                op["stamp"] = self.life.stamp
            self.cast[op["n"]] = (op, done, until)
            self.step(self.life, self.life.member.cast, json.dumps(op, separators=(",", ":")).encode())

    def give_up(self):
        """Operations that waited for too long weren't done, and won't be."""
        while self.queue and self.queue[0][2] < time.monotonic():
            _op, done, _until = self.queue.popleft()
            settle(done, {"error": "unavailable"})

    # ---- the group

    def step(self, life, call, *given):
        """A step of a member, and what comes of it. Of a renewed one only datagrams count."""
        rank = life.member.view.rank(self.me)
        for output in call(*given):
            if isinstance(output, Datagram):
                for other in output.ids:
                    self.link.sendto(output.bytes, self.addresses[other][0])
            elif isinstance(output, Out) and life is self.old:
                self.close_old()
            elif life is self.life:
                self.take(output, rank)

    def take(self, output, rank):
        """What comes out of the stack for the application: docs/LIBRARY.md."""
        match output:
            case Cast(_, body):
                self.deliver(json.loads(body))
            case Send(peer, body) if peer == rank:
                self.put_back(json.loads(body)["n"])
                self.life.shut = True
            case Block(number):
                self.life.shut = number != 0
            case View():
                self.life.shut = False
            case Out():
                self.leave_group()

    def deliver(self, op):
        if op["op"] == "renew":
            if op["stamp"] == self.life.stamp:
                self.renew(op)
            return
        answer = self.store.do(op)
        if op["by"] == self.run:
            settle(self.cast.pop(op["n"])[1], answer)

    def put_back(self, number):
        """A cast was handed back: it was not done, so it waits again."""
        self.queue.appendleft(self.cast.pop(number))

    def put_all_back(self):
        for number in sorted(self.cast, reverse=True):
            self.put_back(number)

    def leave_group(self):
        """Of what was cast nobody knows here whether it was done; what wasn't cast was not."""
        for _op, done, _until in self.cast.values():
            settle(done, {"error": "unknown"})
        for _op, done, _until in self.queue:
            settle(done, {"error": "unavailable"})
        self.cast.clear()
        self.queue.clear()
        self.life.member.close()
        self.life, self.near = None, {}

    def renew(self, wish):
        """All begin anew behind this wish, with the store as it is here. What isn't delivered up to here is delivered by nobody. Who wished it is told, and
        nobody else: so a process that is told of a stamp had begun again before anyone was under it, and no two of it ever are."""
        stamp = self.life.stamp + 1
        if wish["by"] == self.run:
            settle(self.cast.pop(wish["n"])[1], {"stamp": stamp, "values": dict(self.store.values)})
        self.close_old()
        self.old = self.life
        self.old.ends = time.monotonic() + LINGER
        self.put_all_back()
        self.begin(stamp)

    def begin(self, stamp):
        """A member of all processes, in the first view under a stamp."""
        where = {"members": len(self.addresses), "me": self.me, "stamp": stamp}
        if self.folder:
            member = log.open(os.path.join(self.folder, f"{stamp}-{self.me}-{self.run}"), self.layers, **where)
        else:
            member = Member.open(self.layers, **where)
        self.life = Life(member)

    def close_old(self):
        if self.old:
            self.old.member.close()
            self.old = None

    def received(self, data):
        """A datagram goes to the member of its stamp. Words that are none of the stack's are asked and answered by processes: `hello`, `here`."""
        if data[:1] in (b"\xe5", b"\xe6"):
            stamp = int.from_bytes(data[5:9], "big")
            for life in (self.life, self.old):
                if life and life.stamp == stamp:
                    try:
                        self.step(life, life.member.receive, data)
                    except Stray:
                        pass  # of another view, as a rule
                    self.pump()
                    return
            return
        word, _, number = data.decode("ascii", "replace").partition(" ")
        if number.isdigit() and int(number) < len(self.addresses):
            if word == "hello" and self.life:
                self.link.sendto(f"here {self.me}".encode(), self.addresses[int(number)][0])
            elif word == "here":
                self.near[int(number)] = time.monotonic()

    def tick_all(self):
        moment = int(time.monotonic() * 1000) % 2**32
        if self.old and time.monotonic() > self.old.ends:
            self.close_old()
        for life in (self.old, self.life):
            if life:
                self.step(life, life.member.tick, moment)
                if self.folder and life in (self.life, self.old):
                    life.member.flush()
        self.give_up()
        self.pump()

    async def ticks(self):
        while True:
            self.tick_all()
            await asyncio.sleep(TICK)

    # ---- coming back

    async def joins(self):
        """While this process is in no group, it asks one that is to begin anew, once it hears most of the others; after each time it waits longer."""
        wait, last = 0.2, 0.0
        while True:
            await asyncio.sleep(0.2)
            if self.life or time.monotonic() < last + wait:
                continue
            for other, (address, _clients) in enumerate(self.addresses):
                if other != self.me:
                    self.link.sendto(f"hello {self.me}".encode(), address)
            heard = [other for other, when in self.near.items() if time.monotonic() - when < 1]
            if 2 * (len(heard) + 1) > len(self.addresses) and await self.join(secrets.choice(heard)):
                wait = 0.2 if time.monotonic() > last + 15 else min(4.0, wait * 2)
                last = time.monotonic()

    async def join(self, other):
        """Takes the store of the others where they begin anew."""
        try:
            answer = await asyncio.wait_for(ask(self.addresses[other][1], {"op": "join"}), WISH)
        except (OSError, ValueError, asyncio.TimeoutError):
            return False
        if "stamp" not in answer or self.life:
            return False
        self.store = Store(answer["values"])
        self.begin(answer["stamp"])
        return True


class Link(asyncio.DatagramProtocol):
    """The socket of the group."""

    def __init__(self, process):
        self.process = process

    def connection_made(self, transport):
        self.process.link = transport

    def datagram_received(self, data, addr):
        self.process.received(data)


def settle(done, answer):
    if not done.done():
        done.set_result(answer)


async def ask(address, op):
    """One operation of a client of its own."""
    reader, writer = await asyncio.open_connection(*address, limit=2**26)
    try:
        writer.write(json.dumps(op).encode() + b"\n")
        return json.loads(await reader.readline())
    finally:
        writer.close()


def stack_of(path, after):
    """The text of a layer file, where a process is suspected that was silent for so many milliseconds, and waits for four times that before it goes out."""
    with open(path, encoding="ascii") as file:
        text = file.read()
    text = re.sub(r"\bdetect;", f"detect(every = {after // 5}, after = {after});", text)
    return re.sub(r"\bmember;", f"member(patience = {4 * after});", text)


async def run(args):
    addresses = processes(args.processes)
    layers = stack_of(args.layers, args.after)
    process = Process(args.me, addresses, layers, args.log)
    loop = asyncio.get_running_loop()
    await loop.create_datagram_endpoint(lambda: Link(process), local_addr=addresses[args.me][0])
    await asyncio.start_server(process.serve, *addresses[args.me][1])
    if args.first is not None:
        process.begin(args.first)
    await asyncio.gather(process.ticks(), process.joins())


def main():
    words = argparse.ArgumentParser(description="One process of a replicated key-value store.")
    words.add_argument("me", type=int)
    words.add_argument("processes")
    words.add_argument("--first", type=int, metavar="STAMP", help="begins the store under a number that was never used")
    words.add_argument("--layers", default=os.path.join(TOP, "layers", "safe.layers"))
    words.add_argument("--after", type=int, default=1000, metavar="MS", help="suspects a process that was silent for so long (1000)")
    words.add_argument("--log", metavar="FOLDER", help="writes each life of the member as a journal")
    try:
        asyncio.run(run(words.parse_args()))
    except KeyboardInterrupt:
        pass


if __name__ == "__main__":
    main()
